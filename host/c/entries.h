/* What the calls of entries.c, undo.c, clone.c, file.c and transfer.c are made on, and how what they answer and leave is tested. */
#include "doorsedge.h"

#include <inttypes.h>
#include <stdio.h>
#include <string.h>

#define FRAMES 5
#define RUNS 4
#define ELEMS DOORSEDGE_ELEMS_LEN(FRAMES)
#define SHARED DOORSEDGE_SHARED_LEN(RUNS)
#define UNTOUCHED UINT64_C(77)
#define MOST DOORSEDGE_MOST_BYTES

static uint64_t head[DOORSEDGE_HEAD], elems[ELEMS], shared[SHARED], out[4], places[DOORSEDGE_LIST_LEN(FRAMES)],
    sealed[DOORSEDGE_SEAL_LEN(FRAMES)], records[DOORSEDGE_DRAIN_LEN(FRAMES)], scratch[DOORSEDGE_SCRATCH_LEN(FRAMES)],
    pairs[DOORSEDGE_PAIRS_LEN(FRAMES)];

/* Head and tables, as every entry takes them. */
#define STATE head, elems, ELEMS, shared, SHARED

static int tried, failed;

static void is(int line, const char *what, uint64_t got, uint64_t want) {
    tried++;
    if (got != want) {
        failed++;
        printf("line %d: %s is %" PRIu64 ", expected %" PRIu64 "\n", line, what, got, want);
    }
}
#define IS(what, want) is(__LINE__, #what, (what), (want))

/* The first numbers of `at` are these. */
static void holds(int line, const char *what, const uint64_t *at, const uint64_t *want, size_t count) {
    for (size_t i = 0; i < count; i++)
        is(line, what, at[i], want[i]);
}
#define HOLDS(at, ...)                                                                                                 \
    holds(__LINE__, #at, (at), (const uint64_t[]){__VA_ARGS__}, sizeof((const uint64_t[]){__VA_ARGS__}) / sizeof(uint64_t))

static void fill(uint64_t *at, size_t count) {
    for (size_t i = 0; i < count; i++)
        at[i] = UNTOUCHED;
}

/* Shared slot c holds this run's header: its count, value, mark and total, and 0 for next free. */
static void header(int line, uint64_t c, uint64_t count, uint64_t value, uint64_t mark, uint64_t total) {
    const uint64_t *at = shared + (c - 1) * DOORSEDGE_HEADER;
    is(line, "a run's count", at[DOORSEDGE_HEADER_COUNT], count);
    is(line, "a run's value", at[DOORSEDGE_HEADER_VALUE], value);
    is(line, "a run's next free", at[DOORSEDGE_HEADER_NEXT_FREE], 0);
    is(line, "a run's mark", at[DOORSEDGE_HEADER_MARK], mark);
    is(line, "a run's total", at[DOORSEDGE_HEADER_TOTAL], total);
}
#define RUN(c, count, value, mark, total) header(__LINE__, c, count, value, mark, total)

/* What a refused call may not change, kept before it. */
static uint64_t kept[DOORSEDGE_HEAD + ELEMS + SHARED];

static void keep(uint64_t *to) {
    memcpy(to, head, sizeof head);
    memcpy(to + DOORSEDGE_HEAD, elems, sizeof elems);
    memcpy(to + DOORSEDGE_HEAD + ELEMS, shared, sizeof shared);
}

/* The call is refused so, and head, tables and `out` are as they were. */
static uint64_t mark_out(void) {
    fill(out, 4);
    keep(kept);
    return 0;
}

static void refused(int line, const char *what, uint64_t got, uint64_t want) {
    uint64_t now[sizeof kept / sizeof *kept];
    is(line, what, got, want);
    keep(now);
    is(line, "head and tables after a refusal", memcmp(now, kept, sizeof kept) != 0, 0);
    for (int i = 0; i < 4; i++)
        is(line, "out after a refusal", out[i], UNTOUCHED);
}
#define REFUSED(call, want) (mark_out(), refused(__LINE__, #call, (call), (want)))

/* Refusal 3 with this cause, as an entry returns it. */
#define DEAD(cause) (DOORSEDGE_DEAD + UINT64_C(256) * DOORSEDGE_##cause)

/* Slots 1, 3, 2 in a ring under 100, of 1, 4 and 2 bytes, and 4 under 200, of the most; one slot and two headers are free. */
static void two_runs(void) {
    IS(doorsedge_fresh(head, FRAMES, RUNS, elems, ELEMS, shared, SHARED), DOORSEDGE_OK);
    IS(doorsedge_insert_surject(STATE, 10, 100, 1, out), DOORSEDGE_OK);
    HOLDS(out, 1, 1);
    IS(doorsedge_insert(STATE, 1, 1, 11, 2, out), DOORSEDGE_OK);
    HOLDS(out, 2, 1);
    IS(doorsedge_insert(STATE, 1, 1, 12, 4, out), DOORSEDGE_OK);
    HOLDS(out, 3, 1);
    IS(doorsedge_insert_surject(STATE, 20, 200, UINT32_MAX, out), DOORSEDGE_OK);
    HOLDS(out, 4, 1);
    fill(out, 4);
}
