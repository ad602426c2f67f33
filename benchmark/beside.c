/* Times two builds of the library in one run, by turns: an earlier one, whose functions the script `beside` has renamed
   from cabinet_ to before_, and the present one. */
#define _POSIX_C_SOURCE 199309L
#include "cabinet.h"
#include <stdio.h>
#include <stdlib.h>
#include <string.h>
#include <time.h>

enum { RUNS = 1000, CALLS = 100, DISKS = 8, BLOCKS = 64, LAST = DISKS - 1 };

typedef struct cabinet_answer read_call(struct cabinet_state, const uint8_t *, size_t, size_t, uint8_t *, size_t,
                                        uint16_t);
typedef struct cabinet_answer write_call(struct cabinet_state, uint8_t *, size_t, size_t, const uint8_t *, size_t,
                                         uint16_t);
typedef struct cabinet_answer join_call(struct cabinet_state, uint8_t *, size_t, size_t, uint16_t);
typedef struct cabinet_answer clean_call(struct cabinet_state, uint16_t);
typedef struct cabinet_answer restart_call(struct cabinet_state, uint8_t *, size_t, uint16_t);

struct build {
    read_call *read;
    write_call *write;
    join_call *join;
    clean_call *clean;
    restart_call *restart;
};

/* Before request 2.3 of document 02 a read took no budget: one that is passed lies behind all that it looks at. */
read_call before_read;
write_call before_write;
join_call before_join;
clean_call before_clean;
restart_call before_restart;

static const struct build before = {before_read, before_write, before_join, before_clean, before_restart};
static const struct build now = {cabinet_read, cabinet_write, cabinet_join, cabinet_clean, cabinet_restart};

enum call { READ, WRITE, JOIN, CLEAN, RESTART };

struct row {
    const char *name;
    enum call call;
    struct cabinet_state state;
};

struct buffers {
    uint8_t area[DISKS * BLOCKS * CABINET_BLOCK_SIZE];
    uint8_t block[CABINET_BLOCK_SIZE]; /* a read's output, a write's data */
};

/* Bytes by which every block differs from every other, so that one that is not copied, or copied elsewhere, shows. */
static void fill(struct buffers *on)
{
    uint32_t x = 1;
    for (size_t i = 0; i < sizeof *on; i++) {
        x = x * 1664525 + 1013904223;
        ((uint8_t *)on)[i] = (uint8_t)(x >> 24);
    }
}

static struct cabinet_answer make(const struct build *b, const struct row *row, struct buffers *on)
{
    const size_t number = 21;
    uint8_t *area = on->area, *block = on->block;
    switch (row->call) {
    case READ: return b->read(row->state, area, sizeof on->area, number, block, sizeof on->block, UINT16_MAX);
    case WRITE: return b->write(row->state, area, sizeof on->area, number, block, sizeof on->block, UINT16_MAX);
    case JOIN: return b->join(row->state, area, sizeof on->area, LAST, UINT16_MAX);
    case CLEAN: return b->clean(row->state, UINT16_MAX);
    default: return b->restart(row->state, area, sizeof on->area, UINT16_MAX);
    }
}

static double nanoseconds(void)
{
    struct timespec t;
    clock_gettime(CLOCK_MONOTONIC, &t);
    return t.tv_sec * 1e9 + t.tv_nsec;
}

/* The nanoseconds of a call, over a run of them. Both builds work on the same buffers. */
static double run(const struct build *b, const struct row *row)
{
    static struct buffers on;
    double start = nanoseconds();
    for (int i = 0; i < CALLS; i++)
        make(b, row, &on);
    return (nanoseconds() - start) / CALLS;
}

static int by_size(const void *a, const void *b)
{
    double x = *(const double *)a, y = *(const double *)b;
    return (x > y) - (x < y);
}

static double median(double *times)
{
    qsort(times, RUNS, sizeof *times, by_size);
    return (times[RUNS / 2 - 1] + times[RUNS / 2]) / 2;
}

/* What the builds differ in, each on buffers of its own that are filled alike; NULL where they do not. */
static const char *difference(const struct row *row)
{
    static struct buffers was, is;
    fill(&was);
    fill(&is);
    struct cabinet_answer old = make(&before, row, &was), new = make(&now, row, &is);
    if (old.refusal != new.refusal || old.stores != new.stores
        || memcmp(&old.state, &new.state, sizeof old.state) != 0)
        return "another answer";
    if (memcmp(was.area, is.area, sizeof was.area) != 0)
        return "another area";
    if (memcmp(was.block, is.block, sizeof was.block) != 0)
        return "another output";
    return NULL;
}

/* Where the two builds do not do the same, their times say nothing of each other. */
static void time_row(const struct row *row)
{
    static double times[2][RUNS];
    for (int i = 0; i < RUNS; i++) {
        times[0][i] = run(&before, row);
        times[1][i] = run(&now, row);
    }
    double was = median(times[0]), is = median(times[1]);
    printf("| %s | %.1f | %.1f | ", row->name, was, is);
    const char *other = difference(row);
    if (other == NULL)
        printf("%.3f |\n", is / was);
    else
        printf("%s |\n", other);
}

/* The same cabinet, stopped; with every region dirty on every disk; with other disks online. */
static struct cabinet_state stopped(struct cabinet_state s)
{
    s.current = 0;
    return s;
}

static struct cabinet_state dirty(struct cabinet_state s)
{
    for (int d = 0; d < DISKS; d++)
        s.labels[d].dirty = 0xff;
    return s;
}

static struct cabinet_state lost(struct cabinet_state s)
{
    s.online &= (uint8_t) ~(1 << LAST);
    return s;
}

/* The longest search for the set: each disk has another T and another C, every stage has eight sets to test, and only
   the last one of all, the last disk's C, is a candidate. */
static struct cabinet_state divided(struct cabinet_state s)
{
    for (int d = 0; d < DISKS; d++) {
        s.labels[d].tentative = (uint8_t) ~(1 << (d + 1) % DISKS);
        s.labels[d].committed = (uint8_t) ~(1 << (d + 2) % DISKS);
    }
    s.labels[LAST].committed = 1 << LAST;
    return s;
}

/* All but the last disk are current. */
static struct cabinet_state without_last(struct cabinet_state s)
{
    s.current &= (uint8_t) ~(1 << LAST);
    for (int d = 0; d < LAST; d++)
        s.labels[d].committed = s.current;
    return s;
}

int main(void)
{
    static struct buffers formatted;
    struct cabinet_state fresh = cabinet_format(DISKS, BLOCKS, formatted.area, sizeof formatted.area).state;
    const struct row rows[] = {
        {"read", READ, fresh},
        {"read that first moves", READ, lost(fresh)},
        {"write to a clean region", WRITE, fresh},
        {"write to a dirty region", WRITE, dirty(fresh)},
        {"write that first moves", WRITE, lost(fresh)},
        {"join", JOIN, without_last(fresh)},
        {"clean (quiet), all regions dirty", CLEAN, dirty(fresh)},
        {"clean (quiet), none dirty", CLEAN, fresh},
        {"restart, none dirty", RESTART, stopped(fresh)},
        {"restart, all regions dirty", RESTART, stopped(dirty(fresh))},
        {"restart, eight different sets", RESTART, stopped(divided(fresh))},
    };
    printf("| call | before, ns | now, ns | ratio |\n| --- | ---: | ---: | ---: |\n");
    for (size_t i = 0; i < sizeof rows / sizeof *rows; i++)
        time_row(&rows[i]);
    return 0;
}
