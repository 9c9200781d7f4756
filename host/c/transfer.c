/* A study moved to another recorder's tables, called from C: number for number, what fits and what does not, in which order it is
   refused, and how both go on. Canaries stand around the target's parts. Built and run by host/c/run.sh. */
#include "entries.h"

#define ROOM 6 /* element slots and shared slots that the other tables have at most */
#define CANARY UINT64_C(0xCA4A4700)

static struct {
    uint64_t first[2], head[DOORSEDGE_HEAD], second[2], elems[DOORSEDGE_ELEMS_LEN(ROOM)], third[2],
        shared[DOORSEDGE_SHARED_LEN(ROOM)], last[2], told[1], end[2];
} next, before;

/* The other tables with these capacities, as an entry takes them. */
#define NEXT(frames, runs)                                                                                             \
    next.head, next.elems, DOORSEDGE_ELEMS_LEN(frames), next.shared, DOORSEDGE_SHARED_LEN(runs)

/* A study of its own in tables of these capacities: as many runs of one as fit, up to two, which are then joined. */
static void other_study(uint64_t frames, uint64_t runs) {
    for (int i = 0; i < 2; i++)
        next.first[i] = next.second[i] = next.third[i] = next.last[i] = next.end[i] = CANARY;
    next.told[0] = UNTOUCHED;
    fill(next.elems, DOORSEDGE_ELEMS_LEN(ROOM));
    fill(next.shared, DOORSEDGE_SHARED_LEN(ROOM));
    IS(doorsedge_fresh(next.head, frames, runs, next.elems, DOORSEDGE_ELEMS_LEN(frames), next.shared,
                       DOORSEDGE_SHARED_LEN(runs)),
       DOORSEDGE_OK);
    IS(doorsedge_insert_surject(NEXT(frames, runs), 90, 900, 9, out), DOORSEDGE_OK);
    if (frames > 1 && runs > 1) {
        IS(doorsedge_insert_surject(NEXT(frames, runs), 91, 910, 1, out), DOORSEDGE_OK);
        IS(doorsedge_union(NEXT(frames, runs), 1, 1, 2, 1, out), DOORSEDGE_OK);
    }
}

static void ready(void) {
    next.told[0] = UNTOUCHED;
    before = next;
    keep(kept);
}

static void moved(int line, uint64_t got, uint64_t want) {
    uint64_t now[sizeof kept / sizeof *kept];
    is(line, "a move's result", got, want);
    for (int i = 0; i < 2; i++) {
        is(line, "a canary before the head", next.first[i], CANARY);
        is(line, "a canary before the element table", next.second[i], CANARY);
        is(line, "a canary before the shared table", next.third[i], CANARY);
        is(line, "a canary after the shared table", next.last[i], CANARY);
        is(line, "a canary after out", next.end[i], CANARY);
    }
    if (want == DOORSEDGE_OK)
        return;
    keep(now);
    is(line, "the source after a refusal", memcmp(now, kept, sizeof kept) != 0, 0);
    is(line, "the target after a refusal", memcmp(&next, &before, sizeof next) != 0, 0);
}
/* The source's study to tables of these capacities, which have one of their own. */
#define MOVED(frames, runs, generation, want)                                                                          \
    (other_study(frames, runs), ready(),                                                                               \
     moved(__LINE__, doorsedge_transfer_canonical(NEXT(frames, runs), generation, STATE, next.told), (want)))

/* Slots 2 and 5 in a ring, slot 4, sealed and of the most bytes, in one of its own; slots 1 and 3 are free, and two headers. */
static void holes(void) {
    two_runs();
    IS(doorsedge_insert(STATE, 2, 1, 13, 8, out), DOORSEDGE_OK);
    IS(doorsedge_seal(STATE, 4, 1, sealed, DOORSEDGE_SEAL_LEN(FRAMES), out), DOORSEDGE_OK);
    IS(doorsedge_remove_element(STATE, 1, 1, out), DOORSEDGE_OK);
    IS(doorsedge_remove_element(STATE, 3, 1, out), DOORSEDGE_OK);
    HOLDS(head, FRAMES, 5, 3, 3, RUNS, 2, 0, 2, 3, 0, 0, 0, 0);
}

/* Runs by their lowest slots, each from there; what the target held is gone, and the source as a clear leaves it. */
static void number_for_number(void) {
    holes();
    MOVED(6, 4, 40, DOORSEDGE_OK);
    HOLDS(next.told, 0);
    HOLDS(next.head, 6, 3, 0, 3, 4, 2, 0, 2, 40, 0, 0, 0, 0);
    HOLDS(next.elems, 40, 11, 1, 2, 2, 2, 40, 13, 1, 1, 1, 8, 40, 20, 2, 3, 3, MOST);
    HOLDS(next.elems + 3 * DOORSEDGE_FRAME, 0, 0, 0, 0, 0, 0, 0, 0, 0, 0, 0, 0, 0, 0, 0, 0, 0, 0);
    HOLDS(next.shared, 2, 100, 0, 0, 10, 1, 200, 0, 1, MOST, 0, 0, 0, 0, 0, 0, 0, 0, 0, 0, UNTOUCHED);
    IS(doorsedge_check(NEXT(6, 4)), DOORSEDGE_OK);
    HOLDS(head, FRAMES, 0, 0, 0, RUNS, 0, 0, 0, 4, 0, 0, 0, 0);
    for (size_t i = 0; i < ELEMS; i++)
        is(__LINE__, "the source's element table", elems[i], 0);
    for (size_t i = 0; i < SHARED; i++)
        is(__LINE__, "the source's shared table", shared[i], 0);
    /* the source is empty now: it stays as it is, and the target is empty with the given generation */
    keep(kept);
    MOVED(6, 4, UINT32_MAX, DOORSEDGE_OK);
    HOLDS(next.told, 0);
    HOLDS(next.head, 6, 0, 0, 0, 4, 0, 0, 0, UINT32_MAX, 0, 0, 0, 0);
    HOLDS(next.elems, 0, 0, 0, 0, 0, 0, 0, 0, 0, 0, 0, 0);
    HOLDS(head, FRAMES, 0, 0, 0, RUNS, 0, 0, 0, 4, 0, 0, 0, 0);
    /* the last generation of the source */
    holes();
    head[DOORSEDGE_GENERATION] = DOORSEDGE_LAST_GENERATION;
    MOVED(3, 2, 1, DOORSEDGE_OK);
    HOLDS(next.told, 1);
    IS(head[DOORSEDGE_GENERATION], 1);
    IS(next.head[DOORSEDGE_GENERATION], 1);
}

/* As many slots as there are frames and runs will do; fewer give 5, then 6. 1 of either comes first, then 2 of either, then 13. */
static void what_fits(void) {
    holes();
    MOVED(2, 2, 1, DOORSEDGE_NO_ELEMENT);
    MOVED(3, 1, 1, DOORSEDGE_NO_SHARED);
    MOVED(2, 1, 1, DOORSEDGE_NO_ELEMENT);
    MOVED(2, 1, 0, DOORSEDGE_OUT_OF_RANGE);
    MOVED(3, 1, 0, DOORSEDGE_OUT_OF_RANGE);
    other_study(3, 2);
    next.head[DOORSEDGE_ELEMS_LIVE]++;
    ready();
    moved(__LINE__, doorsedge_transfer_canonical(NEXT(3, 2), 0, STATE, next.told), DOORSEDGE_UNSOUND);
    moved(__LINE__, doorsedge_transfer_canonical(NEXT(3, 2), 1, STATE, next.told), DOORSEDGE_UNSOUND);
    moved(__LINE__, doorsedge_transfer_canonical(NEXT(3, 2), 1, head, elems, ELEMS - 1, shared, SHARED, next.told), DOORSEDGE_SHAPE);
    head[DOORSEDGE_GENERATION] = 0;
    MOVED(2, 1, 0, DOORSEDGE_UNSOUND);
    MOVED(3, 2, 1, DOORSEDGE_UNSOUND);
    other_study(3, 2);
    ready();
    moved(__LINE__, doorsedge_transfer_canonical(NEXT(3, 3), 0, STATE, next.told), DOORSEDGE_SHAPE);
    moved(__LINE__, doorsedge_transfer_canonical(next.head, NULL, 0, NULL, 0, 0, STATE, next.told), DOORSEDGE_SHAPE);
    moved(__LINE__, doorsedge_transfer_canonical(NEXT(3, 2), 0, head, NULL, 0, NULL, 0, next.told), DOORSEDGE_SHAPE);
    head[DOORSEDGE_GENERATION] = 3;
    MOVED(3, 2, 1, DOORSEDGE_OK);
}

/* Neither has a union to undo; the sealed run is sealed in its new tables; and each goes on by itself. */
static void both_go_on(void) {
    two_runs();
    IS(doorsedge_seal(STATE, 4, 1, sealed, DOORSEDGE_SEAL_LEN(FRAMES), out), DOORSEDGE_OK);
    IS(doorsedge_insert_surject(STATE, 30, 300, 9, out), DOORSEDGE_OK);
    IS(doorsedge_union(STATE, 5, 1, 1, 1, out), DOORSEDGE_OK);
    HOLDS(head + DOORSEDGE_UNDO_KEPT, 1, 5, 1, 300);
    MOVED(6, 4, 2, DOORSEDGE_OK);
    REFUSED(doorsedge_undo(STATE), DOORSEDGE_NOTHING);
    IS(doorsedge_undo(NEXT(6, 4)), DOORSEDGE_NOTHING);
    IS(doorsedge_list(NEXT(6, 4), 2, 2, places, DOORSEDGE_LIST_LEN(FRAMES), out), DOORSEDGE_OK);
    HOLDS(out, 4);
    HOLDS(places, 2, 2, 3, 2, 4, 2, 1, 2);
    IS(doorsedge_get_total(NEXT(6, 4), 4, 2, out), DOORSEDGE_OK);
    HOLDS(out, 16);
    IS(doorsedge_insert(NEXT(6, 4), 5, 2, 21, 0, out), DOORSEDGE_SEALED);
    IS(doorsedge_insert(NEXT(6, 4), 1, 2, 31, 1, out), DOORSEDGE_OK);
    HOLDS(out, 6, 2);
    /* the keys of the source are dead, and its slots are given anew */
    REFUSED(doorsedge_get(STATE, 1, 1, out), DEAD(NO_SLOT));
    IS(doorsedge_insert_surject(STATE, 50, 500, 5, out), DOORSEDGE_OK);
    HOLDS(out, 1, 2);
    IS(doorsedge_get(STATE, 1, 2, out), DOORSEDGE_OK);
    HOLDS(out, 50); /* a key that is live on the other side too, and means another frame there */
    IS(doorsedge_get(NEXT(6, 4), 1, 2, out), DOORSEDGE_OK);
    HOLDS(out, 10);
    RUN(1, 1, 500, 0, 5);
    IS(doorsedge_compress_with(STATE, 0, pairs, DOORSEDGE_PAIRS_LEN(1), out), DOORSEDGE_OK);
    HOLDS(pairs, 1, 2, 1, 3);
    IS(doorsedge_compress_canonical(STATE, 1, scratch, DOORSEDGE_SCRATCH_LEN(FRAMES), out), DOORSEDGE_OK);
    IS(doorsedge_drain(STATE, 1, 1, records, DOORSEDGE_DRAIN_LEN(FRAMES), out), DOORSEDGE_OK);
    HOLDS(records, 1, 1, 50, 1, 500, 0);
}

int main(void) {
    number_for_number();
    what_fits();
    both_go_on();
    printf("host/c/transfer: %d of %d as expected\n", tried - failed, tried);
    return failed != 0;
}
