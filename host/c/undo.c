/* The last union taken back, called from C: number for number, what drops it and what keeps it, and what a head may keep. Built
   and run by host/c/run.sh. */
#include "entries.h"

/* Ring 1, 4, 3, 2 under 100 after the union of both runs, which can be undone. */
static void joined(void) {
    two_runs();
    IS(doorsedge_union(STATE, 4, 1, 1, 1, out), DOORSEDGE_OK);
    HOLDS(out, 200, 1, 1, 1);
    HOLDS(head + DOORSEDGE_UNDO_KEPT, 1, 4, 1, 200);
    fill(out, 4);
}

/* The last union taken back, number for number, after reads and a refused call; and then nothing is there to undo. */
static void taken_back(void) {
    uint64_t before[sizeof kept / sizeof *kept], now[sizeof kept / sizeof *kept];
    two_runs();
    REFUSED(doorsedge_undo(STATE), DOORSEDGE_NOTHING);
    keep(before);
    joined();
    HOLDS(head, FRAMES, 4, 0, 4, RUNS, 2, 2, 1, 1);
    RUN(1, 4, 100, 0, MOST + 7);
    IS(doorsedge_check(STATE), DOORSEDGE_OK);
    IS(doorsedge_lookup(STATE, 4, 1), DOORSEDGE_OK);
    IS(doorsedge_len_surject(STATE, 4, 1, out), DOORSEDGE_OK);
    IS(doorsedge_in_same_surject(STATE, 4, 1, 1, 1, out), DOORSEDGE_OK);
    IS(doorsedge_get(STATE, 4, 1, out), DOORSEDGE_OK);
    IS(doorsedge_get_shared(STATE, 4, 1, out), DOORSEDGE_OK);
    IS(doorsedge_get_size(STATE, 4, 1, out), DOORSEDGE_OK);
    IS(doorsedge_get_total(STATE, 4, 1, out), DOORSEDGE_OK);
    IS(doorsedge_list(STATE, 4, 1, places, DOORSEDGE_LIST_LEN(FRAMES), out), DOORSEDGE_OK);
    REFUSED(doorsedge_set(STATE, 4, 2, 21, out), DEAD(OTHER_GENERATION));
    REFUSED(doorsedge_union(STATE, 4, 1, 1, 1, out), DOORSEDGE_SAME_CLASS);
    HOLDS(head + DOORSEDGE_UNDO_KEPT, 1, 4, 1, 200);
    IS(doorsedge_undo(STATE), DOORSEDGE_OK);
    HOLDS(head, FRAMES, 4, 0, 4, RUNS, 2, 0, 2, 1, 0, 0, 0, 0);
    RUN(1, 3, 100, 0, 7);
    RUN(2, 1, 200, 0, MOST);
    keep(now);
    IS(memcmp(now, before, sizeof now) != 0, 0);
    REFUSED(doorsedge_undo(STATE), DOORSEDGE_NOTHING);
    REFUSED(doorsedge_undo(head, NULL, 0, NULL, 0), DOORSEDGE_SHAPE);
}

/* Every other accepted call drops it, those that leave equal values too. */
#define DROPS(call)                                                                                                    \
    (joined(), IS(call, DOORSEDGE_OK), HOLDS(head + DOORSEDGE_UNDO_KEPT, 0, 0, 0, 0),                                  \
     REFUSED(doorsedge_undo(STATE), DOORSEDGE_NOTHING))

static void dropped(void) {
    struct doorsedge_lent_head *own = (struct doorsedge_lent_head *)head;
    DROPS(doorsedge_set(STATE, 4, 1, 20, out));
    DROPS(doorsedge_set_shared(STATE, 4, 1, 100, out));
    DROPS(doorsedge_seal(STATE, 4, 1, sealed, DOORSEDGE_SEAL_LEN(FRAMES), out));
    DROPS(doorsedge_insert_surject(STATE, 30, 300, 0, out));
    DROPS(doorsedge_insert(STATE, 4, 1, 21, 0, out));
    DROPS(doorsedge_insert_in_place(own, elems, ELEMS, shared, SHARED, 4, 1, 21, 0, out));
    DROPS(doorsedge_remove_element(STATE, 4, 1, out));
    DROPS(doorsedge_remove_in_place(own, elems, ELEMS, shared, SHARED, 4, 1, out));
    DROPS(doorsedge_remove_shared(STATE, 4, 1, out));
    DROPS(doorsedge_drain(STATE, 4, 1, records, DOORSEDGE_DRAIN_LEN(FRAMES), out));
    DROPS(doorsedge_drain_all(STATE, records, DOORSEDGE_DRAIN_LEN(FRAMES), out));
    DROPS(doorsedge_clear(STATE, out));
    DROPS(doorsedge_compress_canonical(STATE, 0, scratch, DOORSEDGE_SCRATCH_LEN(FRAMES), out));
    DROPS(doorsedge_compress_with(STATE, 0, pairs, DOORSEDGE_PAIRS_LEN(FRAMES), out));
    DROPS(doorsedge_fresh(head, FRAMES, RUNS, elems, ELEMS, shared, SHARED));
}

/* Five runs, of which two are joined, so that four are left to exchange: with the values that they have. */
static void exchanged(void) {
    uint64_t more[DOORSEDGE_SHARED_LEN(FRAMES)];
    const size_t len = DOORSEDGE_SHARED_LEN(FRAMES);
    const uint64_t keys[8] = {1, 1, 2, 1, 3, 1, 4, 1}, values[4] = {100, 200, 300, 400};
    IS(doorsedge_fresh(head, FRAMES, FRAMES, elems, ELEMS, more, len), DOORSEDGE_OK);
    for (uint64_t n = 1; n <= FRAMES; n++)
        IS(doorsedge_insert_surject(head, elems, ELEMS, more, len, n, 100 * n, 0, out), DOORSEDGE_OK);
    IS(doorsedge_union(head, elems, ELEMS, more, len, 1, 1, 5, 1, out), DOORSEDGE_OK);
    HOLDS(head + DOORSEDGE_UNDO_KEPT, 1, 5, 1, 500);
    IS(doorsedge_exchange_shared4(head, elems, ELEMS, more, len, keys, values, out), DOORSEDGE_OK);
    HOLDS(out, 100, 200, 300, 400);
    HOLDS(head + DOORSEDGE_UNDO_KEPT, 0, 0, 0, 0);
    IS(doorsedge_undo(head, elems, ELEMS, more, len), DOORSEDGE_NOTHING);
}

/* What the head may keep: a union that gives this state. The value may be any. */
static void forged(void) {
    joined();
    for (int i = 0; i < 3; i++) {
        uint64_t *number = head + DOORSEDGE_UNDO_KEPT + i, was = *number;
        for (uint64_t other = 0; other <= FRAMES; other++) {
            *number = other;
            if (other != was)
                REFUSED(doorsedge_undo(STATE), DOORSEDGE_UNSOUND);
        }
        *number = UINT64_MAX;
        REFUSED(doorsedge_check(STATE), DOORSEDGE_UNSOUND);
        *number = was;
    }
    shared[DOORSEDGE_HEADER_MARK] = 1; /* the union would have been refused */
    REFUSED(doorsedge_undo(STATE), DOORSEDGE_UNSOUND);
    shared[DOORSEDGE_HEADER_MARK] = 0;
    head[DOORSEDGE_UNDO_VALUE] = 201;
    IS(doorsedge_undo(STATE), DOORSEDGE_OK);
    RUN(2, 1, 201, 0, MOST);
    head[DOORSEDGE_UNDO_VALUE] = 1;
    REFUSED(doorsedge_check(STATE), DOORSEDGE_UNSOUND);
}

int main(void) {
    taken_back();
    dropped();
    exchanged();
    forged();
    printf("host/c/undo: %d of %d as expected\n", tried - failed, tried);
    return failed != 0;
}
