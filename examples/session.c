/* Document 01's session, then a swap, clean, a read that is cut as it moves, save, assemble, diagnose and labels: each
   function of the header, and each field of its structs. */
#include "cabinet.h"
#include <stdio.h>
#include <string.h>

static uint8_t area[CABINET_AREA_SIZE(3, 8)], slots[CABINET_SLOTS_SIZE(3)];
static uint8_t sevens[CABINET_BLOCK_SIZE], found[CABINET_BLOCK_SIZE];

/* Ends a line, that of a refused call with the refusal's text. */
static void end_line(uint8_t refusal)
{
    if (refusal != CABINET_DONE)
        printf(": %s", cabinet_refusal_text(refusal));
    printf("\n");
}

/* Prints what the cabinet program does, but for the byte read and the text. */
static struct cabinet_state told(struct cabinet_answer answer)
{
    printf("%d %d %d %d", answer.refusal, answer.stores, answer.state.current, answer.state.online);
    end_line(answer.refusal);
    return answer.state;
}

/* A disk returns as it was pulled: it shows the label that the state holds for it. */
static struct cabinet_answer returned(struct cabinet_state state, size_t disk)
{
    uint8_t shown[CABINET_SLOT_SIZE];
    struct cabinet_written w = cabinet_write_label(shown, sizeof shown, disk, state.disks, state.labels[disk]);
    return cabinet_attach(state, disk, shown, w.length);
}

/* Prints what a read found. */
static void block(void)
{
    printf("%s\n", memcmp(found, sevens, sizeof found) == 0 ? "sevens" : "other bytes");
}

/* Document 01's H11: disk 1 of 3, committed to disks 0 and 1, region 0 dirty. */
static void labels(void)
{
    struct cabinet_label label = {3, 0, 1};
    uint8_t bytes[CABINET_SLOT_SIZE] = {0};
    struct cabinet_written w = cabinet_write_label(bytes, sizeof bytes, 1, 3, label);
    printf("%d %zu: %02x %02x %02x %02x %02x\n", w.refusal, w.length, bytes[0], bytes[1], bytes[2], bytes[3], bytes[4]);
    struct cabinet_reading r = cabinet_read_label(bytes, sizeof bytes);
    printf("%d %zu of %zu, %d %d %d, %zu\n", r.refusal, r.number, r.disks, r.label.committed, r.label.tentative,
           r.label.dirty, r.length);
}

/* Why the disk is not current, by each stage and by one that there is not. */
static void diagnoses(struct cabinet_state state, size_t disk)
{
    for (size_t stage = 1; stage <= 4; stage++) {
        struct cabinet_diagnosis d = cabinet_diagnose(state, stage, disk);
        printf("%d %d %zu %d", d.refusal, d.reason, d.disk, d.set);
        end_line(d.refusal);
    }
}

/* Document 01's. */
static struct cabinet_state session(void)
{
    struct cabinet_state s = told(cabinet_format(3, 8, area, sizeof area));
    s = told(cabinet_detach(s, 2));
    s = told(cabinet_write(s, area, sizeof area, 0, sevens, sizeof sevens, 99));
    s = told(cabinet_power_off(s));
    s = told(cabinet_restart(s, area, sizeof area, 99));
    s = told(returned(s, 2));
    s = told(cabinet_join(s, area, sizeof area, 2, 99));
    s = told(cabinet_read(s, area, sizeof area, 0, found, sizeof found, 99));
    block();
    return s;
}

/* Disk 2 dies, and a blank one joins in its place. */
static struct cabinet_state swapped(struct cabinet_state s)
{
    s = told(cabinet_save(s, slots, sizeof slots));
    s = told(cabinet_detach(s, 2));
    s = told(cabinet_swap(s, area, sizeof area, 2, 99));
    /* The dead one is not it, and neither is disk 1; then the new one, whose label is empty. */
    s = told(cabinet_attach(s, 2, slots + 2 * CABINET_SLOT_SIZE, CABINET_SLOT_SIZE));
    s = told(cabinet_attach(s, 2, slots + CABINET_SLOT_SIZE, CABINET_SLOT_SIZE));
    s = told(returned(s, 2));
    return told(cabinet_join(s, area, sizeof area, 2, 99));
}

int main(void)
{
    memset(sevens, 7, sizeof sevens);
    struct cabinet_state s = swapped(session());
    s = told(cabinet_write(s, area, sizeof area, 7, sevens, sizeof sevens, 99));
    s = told(cabinet_detach(s, 0));
    s = told(cabinet_clean(s, 99));
    /* Block 1 has zeros: the output keeps the sevens. */
    s = told(cabinet_read(s, area, sizeof area, 1, found, sizeof found, 3));
    block();
    s = told(cabinet_save(s, slots, sizeof slots));
    s = told(cabinet_assemble(3, 8, 5, slots, sizeof slots));
    printf("%d disks of %d blocks\n", s.disks, s.blocks);
    for (int d = 0; d < CABINET_MOST_DISKS; d++)
        printf("%d %d %d\n", s.labels[d].committed, s.labels[d].tentative, s.labels[d].dirty);
    diagnoses(s, 1);
    labels();
    /* No call gives this number. */
    printf("%s\n", cabinet_refusal_text(UINT8_MAX));
    return 0;
}
