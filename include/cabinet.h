/*
 * The calls of the cohort-set disk cabinet (the company's documents 01 and 02), for C99, C17 and C++17 on x86-64 Linux.
 * Each function of the archive is proved to give what the definition of its call says:
 * crates/protocol/specs/Calls.antt, Diagnosis.antt and Saving.antt, and crates/label/specs/Reading.antt and
 * Writing.antt.
 *
 * Build and link:  ./install PREFIX
 *                  cc program.c $(PKG_CONFIG_PATH=PREFIX/lib/pkgconfig pkg-config --cflags --libs cabinet)
 * or in place:     ./library
 *                  cc -Iinclude program.c target/libcabinet.a
 *
 * A set of disks is a byte, bit d for disk d. The disk area is one buffer of CABINET_AREA_SIZE(disks, blocks) bytes:
 * block k of disk d starts at (d * blocks + k) * 64. The caller keeps the area and the state, and gives each call the
 * state that the last one yielded. The library keeps nothing and allocates nothing, so calls on different cabinets may
 * run at once.
 *
 * The budget is the number of stores that the power lasts for; no call has more than 520 to make. If a call has more
 * than the budget, exactly the first so many are made, the cabinet is stopped, and the answer is refusal 15 with their
 * number. Any other refusal gives its number, 0 stores and the state that was given, and leaves the buffers;
 * cabinet_format and cabinet_assemble, which are given no state, then yield one that is all zero. A done call has
 * refusal 0.
 *
 * So the power goes where the budget says, and nowhere else. A process that dies inside a call is not covered: the area
 * may have changed, and the labels that go with it were not yet given back. Who keeps a cabinet beyond its process
 * keeps area and labels of the same moment, after a call.
 *
 * Any state may be passed: one that is not sound is refused with 1. A cabinet with current == 0 is stopped; with any
 * other it runs with that set. A state is sound when disks is 1 to 8 and blocks 1 to 64; all sets name only disks below
 * disks; a committed or tentative set that is not 0 names its own disk; dirty bits name existing regions; labels from
 * disks up are all zero; and, when it runs, each current disk has the current set as its committed one and no tentative
 * one.
 *
 * What the caller owes, since C checks none of it: a buffer's pointer is not null, even for length 0, and has as many
 * bytes as its length says; the buffers of one call do not overlap. A number too wide for its parameter is reduced by C
 * before the call: a budget of 65,536 arrives as 0.
 *
 * Document 01 says fresh for format, quiet for clean, lose for detach, return for attach, cut for power_off, in reach
 * for online, supply for budget.
 */
#ifndef CABINET_H
#define CABINET_H

#include <stddef.h>
#include <stdint.h>

#ifdef __cplusplus
extern "C" {
#endif

#define CABINET_VERSION_MAJOR 0
#define CABINET_VERSION_MINOR 2
#define CABINET_VERSION_PATCH 0

/* As a string. Two steps, since # takes its operand unexpanded. */
#define CABINET_VERSION CABINET_DOTTED(CABINET_VERSION_MAJOR, CABINET_VERSION_MINOR, CABINET_VERSION_PATCH)
#define CABINET_DOTTED(major, minor, patch) CABINET_DOTTED_UNEXPANDED(major, minor, patch)
#define CABINET_DOTTED_UNEXPANDED(major, minor, patch) #major "." #minor "." #patch

#define CABINET_BLOCK_SIZE 64
#define CABINET_SLOT_SIZE 5
#define CABINET_MOST_DISKS 8
#define CABINET_MOST_BLOCKS 64

/* The bytes of the disk area and of the slots, as constant expressions where the arguments are. */
#define CABINET_AREA_SIZE(disks, blocks) ((size_t)(disks) * (size_t)(blocks) * CABINET_BLOCK_SIZE)
#define CABINET_SLOTS_SIZE(disks) ((size_t)(disks) * CABINET_SLOT_SIZE)

/* What a disk says of itself. */
struct cabinet_label {
    uint8_t committed; /* a set; 0 if the disk has never been a member */
    uint8_t tentative; /* a set; 0 for none */
    uint8_t dirty;     /* bit r for region r, the 8 blocks from block 8 * r on */
};

struct cabinet_state {
    struct cabinet_label labels[CABINET_MOST_DISKS];
    uint8_t disks;
    uint8_t blocks;  /* of each disk */
    uint8_t online;  /* the set of disks in reach */
    uint8_t current; /* the set of disks that hold the right blocks; 0 when stopped */
};

struct cabinet_answer {
    struct cabinet_state state;
    uint16_t stores; /* the number of stores made */
    uint8_t refusal; /* an enum cabinet_refusal */
};

/* Why a disk is not current. Refused, all but the refusal is 0. */
struct cabinet_diagnosis {
    size_t disk;     /* the lowest disk of the set that is not online, or that disagrees; else 0 */
    uint8_t refusal; /* an enum cabinet_refusal */
    uint8_t reason;  /* an enum cabinet_reason */
    uint8_t set;     /* the set that a restart would find now, if it would find one without the disk; else 0 */
};

/* What the bytes of a label say. Refused, all but the refusal is 0. */
struct cabinet_reading {
    uint8_t refusal; /* an enum cabinet_refusal */
    size_t number;   /* the disk's */
    size_t disks;
    struct cabinet_label label;
    size_t length; /* of the label in bytes, 2 to 5 */
};

struct cabinet_written {
    uint8_t refusal; /* an enum cabinet_refusal */
    size_t length;   /* of the label in bytes, 2 to 5; refused, 0 */
};

/* The archive's functions take and give these structs by value. A compiler that lays them out otherwise, for a packing
   pragma or a machine of another word size, must not get as far as linking: it stops here, at an array of length -1. */
#define CABINET_SIZE(type, size) typedef char cabinet_size_##type[sizeof(struct cabinet_##type) == (size) ? 1 : -1]
#define CABINET_OFFSET(type, field, offset) \
    typedef char cabinet_offset_##type##_##field[offsetof(struct cabinet_##type, field) == (offset) ? 1 : -1]
CABINET_OFFSET(label, tentative, 1);
CABINET_OFFSET(label, dirty, 2);
CABINET_SIZE(label, 3);
CABINET_OFFSET(state, disks, 24);
CABINET_OFFSET(state, blocks, 25);
CABINET_OFFSET(state, online, 26);
CABINET_OFFSET(state, current, 27);
CABINET_SIZE(state, 28);
CABINET_OFFSET(answer, stores, 28);
CABINET_OFFSET(answer, refusal, 30);
CABINET_SIZE(answer, 32);
CABINET_OFFSET(diagnosis, refusal, 8);
CABINET_OFFSET(diagnosis, reason, 9);
CABINET_OFFSET(diagnosis, set, 10);
CABINET_SIZE(diagnosis, 16);
CABINET_OFFSET(reading, number, 8);
CABINET_OFFSET(reading, disks, 16);
CABINET_OFFSET(reading, label, 24);
CABINET_OFFSET(reading, length, 32);
CABINET_SIZE(reading, 40);
CABINET_OFFSET(written, length, 8);
CABINET_SIZE(written, 16);
#undef CABINET_SIZE
#undef CABINET_OFFSET

/* The papers' numbers, each with its name and its condition. A call gives the first in its own order whose condition
   holds. The enum and the texts below are made from this table; a program may make a table of its
   own from it. What the conditions leave out:
   2       the lengths are CABINET_AREA_SIZE(disks, blocks) and CABINET_SLOTS_SIZE(disks)
   8, 9    disks and blocks count from 0; 8 also where the set online has such a disk
   13, 14  a set to run with
   17      the bits from 3 up name no field
   18      a label is its bay's if its number is that of its slot, or of the disk that shows it, and its disks are the
           cabinet's
   25      the stored label is the one that the state holds for the disk */
#define CABINET_REFUSALS(LINE) \
    LINE(1, UNSOUND, "the state is not sound") \
    LINE(2, BUFFER_LENGTH, "the disk area or the slot buffer has a wrong length") \
    LINE(3, BLOCK_LENGTH, "the data or the output is not 64 bytes") \
    LINE(4, DISK_COUNT, "the number of disks is outside 1 to 8") \
    LINE(5, BLOCK_COUNT, "the number of blocks is outside 1 to 64") \
    LINE(6, STOPPED, "the cabinet is stopped") \
    LINE(7, RUNNING, "the cabinet is running") \
    LINE(8, NO_SUCH_DISK, "there is no disk of this number") \
    LINE(9, NO_SUCH_BLOCK, "there is no block of this number") \
    LINE(10, DISK_OFFLINE, "the disk is out of reach") \
    LINE(11, DISK_CURRENT, "the disk is in the current set") \
    LINE(12, NONE_LIVE, "no member of the current set is in reach") \
    LINE(13, NO_SET, "the labels in reach name no set") \
    LINE(14, SEVERAL_SETS, "the labels in reach name more than one set") \
    LINE(15, POWER_LOST, "the power went before the last store") \
    LINE(16, LABEL_CUT_SHORT, "there are fewer bytes than the label has") \
    LINE(17, LABEL_MAP, "a bit that names no field stands in the label's map") \
    LINE(18, LABEL_PLACE, "the label's disk number or number of disks cannot be, or is not its bay's") \
    LINE(19, LABEL_EMPTY_FIELD, "a field that the label's map names is 0") \
    LINE(20, LABEL_SET, "a set of the label names a disk that is not there, or omits its own") \
    LINE(21, NO_ROOM, "the output is shorter than the label") \
    LINE(22, NO_SUCH_REGION, "a dirty bit of the label names no region") \
    LINE(23, NO_SUCH_STAGE, "the stage is not 1, 2 or 3") \
    LINE(24, DISK_ONLINE, "the disk is in reach") \
    LINE(25, OTHER_LABEL, "the label that the disk shows is not the stored one")

enum cabinet_refusal {
    CABINET_DONE = 0,
#define CABINET_ENUMERATOR(number, name, text) CABINET_##name = number,
    CABINET_REFUSALS(CABINET_ENUMERATOR)
#undef CABINET_ENUMERATOR
};

/* The text of a number, for a person to read. It is in the header, since the archive holds nothing but proved
   functions. */
static inline const char *cabinet_refusal_text(uint8_t refusal)
{
    switch (refusal) {
    case CABINET_DONE:
        return "done";
#define CABINET_CASE(number, name, text) \
    case CABINET_##name:                 \
        return text;
        CABINET_REFUSALS(CABINET_CASE)
#undef CABINET_CASE
    default:
        return "not a refusal of this library";
    }
}

/* Why a disk's own set (its tentative one if there is one, else its committed one) is no candidate of a stage. The
   first in this order that is true is given. */
enum cabinet_reason {
    CABINET_NO_REASON = 0,     /* the call was refused */
    CABINET_EMPTY = 1,         /* the set is empty: the disk has never been a member */
    CABINET_OUT_OF_REACH = 2,  /* a disk of the set is not online */
    CABINET_DISAGREES = 3,     /* a disk of the set has a label that disagrees with what the stage asks */
    CABINET_NONE_PROPOSES = 4, /* in stage 2: no disk of the set has it as its tentative one */
    CABINET_CANDIDATE = 5      /* it is a candidate */
};

/* An answer that is dropped is a state that is lost. */
#ifdef __GNUC__
#define CABINET_MUST_USE __attribute__((warn_unused_result))
#else
#define CABINET_MUST_USE
#endif

/* A new cabinet: it runs, all disks are online and current, nothing is dirty, the area is all zero; 0 stores.
   Refuses: 4, 5, 2. */
CABINET_MUST_USE
struct cabinet_answer cabinet_format(size_t disks, size_t blocks, uint8_t *area, size_t area_length);

/* Copies the block from the lowest current disk that is online to the output. If some current disk is not online, it
   first moves to those that are, 2 stores a disk: they alone are current then. Else it makes no store, and a budget of
   0 will do. If the power is lost the output stays as it was.
   Refuses: 1, 2, 3, 6, 9, 12, 15. */
CABINET_MUST_USE
struct cabinet_answer cabinet_read(struct cabinet_state state, const uint8_t *area, size_t area_length, size_t block,
                                   uint8_t *output, size_t output_length, uint16_t budget);

/* Moves as a read does, then marks the block's region dirty on each current disk online where it is not, then stores
   the data as the block on each of these disks, the lowest first: at most 4 stores a disk. If the power is lost, the
   write counts from the block store on the lowest on: the disks that a restart names then have the new block, and
   before that the old one.
   Refuses: 1, 2, 3, 6, 9, 12, 15. */
CABINET_MUST_USE
struct cabinet_answer cabinet_write(struct cabinet_state state, uint8_t *area, size_t area_length, size_t block,
                                    const uint8_t *data, size_t data_length, uint16_t budget);

/* Makes the disk current: moves as a read does, copies all blocks to the disk, then moves to the set with the disk.
   Refuses: 1, 2, 6, 8, 11, 10, 12, 15: a current disk gives 11, online or not. */
CABINET_MUST_USE
struct cabinet_answer cabinet_join(struct cabinet_state state, uint8_t *area, size_t area_length, size_t disk,
                                   uint16_t budget);

/* Puts a blank disk in the place of one that is not online, while the cabinet runs: its label is all zero, and so are
   its blocks, which counts no store. If the disk is current, the cabinet first moves to the current disks that are
   online; else it makes no store, and a budget of 0 will do. The new disk is not online: attach it by its empty label,
   then join it. If the power is lost the old disk is still in, its label and its blocks as they were.
   Refuses: 1, 2, 6, 8, 24, 12 (only if the disk is current), 15. */
CABINET_MUST_USE
struct cabinet_answer cabinet_swap(struct cabinet_state state, uint8_t *area, size_t area_length, size_t disk,
                                   uint16_t budget);

/* Clears the dirty bits of the current disks that are online: a restart copies only dirty regions.
   Refuses: 1, 6, 12, 15. */
CABINET_MUST_USE
struct cabinet_answer cabinet_clean(struct cabinet_state state, uint16_t budget);

/* Starts a stopped cabinet: finds the set that the labels of the disks online name, copies each region that is dirty on
   one of its disks from the lowest to the others and clears the bits, commits the set on each, and runs with it.
   Refuses: 1, 2, 7, 13, 14, 15. */
CABINET_MUST_USE
struct cabinet_answer cabinet_restart(struct cabinet_state state, uint8_t *area, size_t area_length, uint16_t budget);

/* Takes the disk out of the set online, whether it was in it or not; 0 stores.
   Refuses: 1, 8. */
CABINET_MUST_USE
struct cabinet_answer cabinet_detach(struct cabinet_state state, size_t disk);

/* Puts the disk into the set online; 0 stores. If it is still in the current set, it is current again. The disk shows
   its label, the bytes as they stand on it, and is taken only if they start with the label that the state holds for it,
   state.labels[disk]: a disk that was in another cabinet meanwhile may have another. What follows the label is not
   read, so a slot that cabinet_save wrote will do. If the disk is online already it is done, with no effect, and the
   bytes are not looked at.
   Refuses: 1, 8; then, of a disk that is not online, what cabinet_read_label refuses, 18 (not its bay's), 22, 25. */
CABINET_MUST_USE
struct cabinet_answer cabinet_attach(struct cabinet_state state, size_t disk, const uint8_t *shown,
                                     size_t shown_length);

/* Stops the cabinet, if it is not stopped; 0 stores.
   Refuses: 1. */
CABINET_MUST_USE
struct cabinet_answer cabinet_power_off(struct cabinet_state state);

/* Why the disk of a stopped cabinet is not current: what keeps its own set from being a candidate of the stage. In
   stage 1 every disk of the set must have it as its tentative set; in stage 2 every one as its tentative or its
   committed set, and some as its tentative one; in stage 3 every one as its committed set. It changes nothing.
   Refuses: 1, 7, 8, 23. */
CABINET_MUST_USE
struct cabinet_diagnosis cabinet_diagnose(struct cabinet_state state, size_t stage, size_t disk);

/* Writes each disk's label into its slot of 5 bytes, the rest of the slot zero; 0 stores, and the state as given.
   Refuses: 1, 2. */
CABINET_MUST_USE
struct cabinet_answer cabinet_save(struct cabinet_state state, uint8_t *slots, size_t slots_length);

/* The stopped cabinet with the labels that these slots hold; 0 stores. From what a state saved, with its own disks,
   blocks and online, it is the state after cabinet_power_off.
   Refuses: 4, 5, 2, 8, then slot by slot 17, 18 (cannot be), 19, 20, 18 (not its bay's), 22. */
CABINET_MUST_USE
struct cabinet_answer cabinet_assemble(size_t disks, size_t blocks, uint8_t online, const uint8_t *slots,
                                       size_t slots_length);

/* A label is a byte with bit 0 for the committed set, bit 1 for the tentative one and bit 2 for the dirty map; a byte
   with the disk's number in its low four bits and disks in its high four; then a byte for each field whose bit stands,
   in this order. A field of 0 has no bit. */

/* The label that the bytes start with. What follows it is not read.
   Refuses: 16 (fewer than 2 bytes), 17, 18 (cannot be), 16 (fewer than its bits ask), 19, 20. */
CABINET_MUST_USE
struct cabinet_reading cabinet_read_label(const uint8_t *bytes, size_t bytes_length);

/* Writes the label of the disk with this number, of so many disks, to the front of the output. What is behind it stays.
   Refuses: 4, 8, 20, 21. */
CABINET_MUST_USE
struct cabinet_written cabinet_write_label(uint8_t *output, size_t output_length, size_t number, size_t disks,
                                           struct cabinet_label label);

#undef CABINET_MUST_USE

#ifdef __cplusplus
}
#endif

#endif
