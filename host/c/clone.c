/* A study copied to review tables, called from C: number for number, what fits and what does not, whose undo it is, and how both go
   on. Canaries stand around the target's parts, and the source is compared after every copy. Built and run by host/c/run.sh. */
#include "entries.h"

#define ROOM 6 /* element slots and shared slots that the review tables have at most */
#define CANARY UINT64_C(0xCA4A4700)

static struct {
    uint64_t first[2], head[DOORSEDGE_HEAD], second[2], elems[DOORSEDGE_ELEMS_LEN(ROOM)], third[2],
        shared[DOORSEDGE_SHARED_LEN(ROOM)], last[2];
} review, before;

/* The review tables with these capacities, as an entry takes them. */
#define REVIEW(frames, runs)                                                                                           \
    review.head, review.elems, DOORSEDGE_ELEMS_LEN(frames), review.shared, DOORSEDGE_SHARED_LEN(runs)

/* Any numbers in the target but the two capacities; the canaries with them. */
static void dirty(uint64_t frames, uint64_t runs) {
    fill((uint64_t *)&review, sizeof review / sizeof(uint64_t));
    for (int i = 0; i < 2; i++)
        review.first[i] = review.second[i] = review.third[i] = review.last[i] = CANARY;
    review.head[DOORSEDGE_ELEMS_CAPACITY] = frames;
    review.head[DOORSEDGE_SHARED_CAPACITY] = runs;
}

static void copied(int line, uint64_t got, uint64_t want) {
    uint64_t now[sizeof kept / sizeof *kept];
    is(line, "a copy's result", got, want);
    keep(now);
    is(line, "the source after a copy", memcmp(now, kept, sizeof kept) != 0, 0);
    for (int i = 0; i < 2; i++) {
        is(line, "a canary before the head", review.first[i], CANARY);
        is(line, "a canary before the element table", review.second[i], CANARY);
        is(line, "a canary before the shared table", review.third[i], CANARY);
        is(line, "a canary after the shared table", review.last[i], CANARY);
    }
    if (want != DOORSEDGE_OK)
        is(line, "the target after a refusal", memcmp(&review, &before, sizeof review) != 0, 0);
}
/* The source's study to review tables of these capacities. */
#define COPIED(frames, runs, want)                                                                                     \
    (dirty(frames, runs), before = review, keep(kept),                                                                 \
     copied(__LINE__, doorsedge_clone_from(REVIEW(frames, runs), STATE), (want)))

/* Slots 4, sealed and of the most bytes, and 5, under headers 2 and 3; the slots and the header before them are free, the
   one freed last first. */
static void holes(void) {
    two_runs();
    IS(doorsedge_insert_surject(STATE, 30, 300, 9, out), DOORSEDGE_OK);
    IS(doorsedge_seal(STATE, 4, 1, sealed, DOORSEDGE_SEAL_LEN(FRAMES), out), DOORSEDGE_OK);
    IS(doorsedge_remove_shared(STATE, 1, 1, out), DOORSEDGE_OK);
    HOLDS(head, FRAMES, 5, 2, 2, RUNS, 3, 1, 2, 2, 0, 0, 0, 0);
}

/* Live slots as they are, free ones below chained lowest first, zeros past the last live ones. */
static void number_for_number(void) {
    holes();
    COPIED(6, 4, DOORSEDGE_OK);
    HOLDS(review.head, 6, 5, 1, 2, 4, 3, 1, 2, 2, 0, 0, 0, 0);
    HOLDS(review.elems, 0, 0, 0, 0, 2, 0, 0, 0, 0, 0, 3, 0, 0, 0, 0, 0, 0, 0);
    HOLDS(review.elems + 3 * DOORSEDGE_FRAME, 1, 20, 2, 4, 4, MOST, 1, 30, 3, 5, 5, 9, 0, 0, 0, 0, 0, 0);
    HOLDS(review.shared, 0, 0, 0, 0, 0, 1, 200, 0, 1, MOST, 1, 300, 0, 0, 9, 0, 0, 0, 0, 0, UNTOUCHED);
    IS(doorsedge_check(REVIEW(6, 4)), DOORSEDGE_OK);
    /* the extents of the copy are the last live slots, not the source's extents */
    IS(doorsedge_remove_element(STATE, 5, 1, out), DOORSEDGE_OK);
    COPIED(6, 4, DOORSEDGE_OK);
    HOLDS(review.head, 6, 4, 1, 1, 4, 2, 1, 1, 3, 0, 0, 0, 0);
    HOLDS(review.elems + 4 * DOORSEDGE_FRAME, 0, 0, 0, 0, 0, 0);
    IS(doorsedge_remove_element(STATE, 4, 1, out), DOORSEDGE_OK);
    COPIED(1, 1, DOORSEDGE_OK);
    HOLDS(review.head, 1, 0, 0, 0, 1, 0, 0, 0, 4, 0, 0, 0, 0);
    HOLDS(review.elems, 0, 0, 0, 0, 0, 0, UNTOUCHED);
    HOLDS(review.shared, 0, 0, 0, 0, 0, UNTOUCHED);
}

/* Tables as large as the last live slots will do; smaller ones give 5, then 6. 1 of either comes first, then 2 of the source. */
static void what_fits(void) {
    holes();
    COPIED(5, 3, DOORSEDGE_OK);
    COPIED(4, 3, DOORSEDGE_NO_ELEMENT);
    COPIED(5, 2, DOORSEDGE_NO_SHARED);
    COPIED(4, 2, DOORSEDGE_NO_ELEMENT);
    head[DOORSEDGE_GENERATION] = 0;
    COPIED(5, 3, DOORSEDGE_UNSOUND);
    COPIED(4, 2, DOORSEDGE_UNSOUND);
    COPIED(0, 3, DOORSEDGE_SHAPE);
    dirty(5, DOORSEDGE_MOST_SLOTS + 1);
    before = review;
    keep(kept);
    copied(__LINE__, doorsedge_clone_from(REVIEW(5, 3), STATE), DOORSEDGE_SHAPE);
    dirty(5, 3);
    before = review;
    copied(__LINE__, doorsedge_clone_from(REVIEW(5, 3), head, elems, ELEMS - 1, shared, SHARED), DOORSEDGE_SHAPE);
    copied(__LINE__, doorsedge_clone_from(REVIEW(5, 3), head, elems, ELEMS, shared, SHARED + 1), DOORSEDGE_SHAPE);
    copied(__LINE__, doorsedge_clone_from(REVIEW(5, 3), head, NULL, 0, NULL, 0), DOORSEDGE_SHAPE);
    copied(__LINE__, doorsedge_clone_from(REVIEW(6, 3), STATE), DOORSEDGE_SHAPE);
    copied(__LINE__, doorsedge_clone_from(REVIEW(5, 4), STATE), DOORSEDGE_SHAPE);
    copied(__LINE__, doorsedge_clone_from(review.head, NULL, 0, NULL, 0, STATE), DOORSEDGE_SHAPE);
}

/* The source's undo is the source's alone. */
static void whose_undo(void) {
    two_runs();
    IS(doorsedge_union(STATE, 4, 1, 1, 1, out), DOORSEDGE_OK);
    HOLDS(head + DOORSEDGE_UNDO_KEPT, 1, 4, 1, 200);
    COPIED(5, 4, DOORSEDGE_OK);
    HOLDS(review.head + DOORSEDGE_UNDO_KEPT, 0, 0, 0, 0);
    IS(doorsedge_undo(REVIEW(5, 4)), DOORSEDGE_NOTHING);
    IS(doorsedge_undo(STATE), DOORSEDGE_OK);
    RUN(2, 1, 200, 0, MOST);
    REFUSED(doorsedge_undo(STATE), DOORSEDGE_NOTHING);
    IS(doorsedge_len_surject(REVIEW(5, 4), 4, 1, out), DOORSEDGE_OK);
    HOLDS(out, 4);
}

/* The same keys on both sides, and then each goes on by itself. */
static void both_go_on(void) {
    holes();
    COPIED(6, 4, DOORSEDGE_OK);
    IS(doorsedge_get(REVIEW(6, 4), 5, 1, out), DOORSEDGE_OK);
    HOLDS(out, 30);
    IS(doorsedge_lookup(REVIEW(6, 4), 1, 1), DEAD(FREE_SLOT));
    IS(doorsedge_insert(REVIEW(6, 4), 4, 1, 21, 0, out), DOORSEDGE_SEALED);
    IS(doorsedge_insert(REVIEW(6, 4), 5, 1, 31, 1, out), DOORSEDGE_OK);
    HOLDS(out, 1, 2);
    IS(doorsedge_insert(STATE, 5, 1, 32, 2, out), DOORSEDGE_OK);
    HOLDS(out, 2, 2);
    IS(doorsedge_insert(STATE, 5, 1, 33, 3, out), DOORSEDGE_OK);
    IS(doorsedge_insert(STATE, 5, 1, 34, 4, out), DOORSEDGE_OK);
    HOLDS(out, 1, 2); /* a key that is live in the copy too, and means another frame there */
    IS(doorsedge_get(STATE, 1, 2, out), DOORSEDGE_OK);
    HOLDS(out, 34);
    IS(doorsedge_get(REVIEW(6, 4), 1, 2, out), DOORSEDGE_OK);
    HOLDS(out, 31);
    IS(doorsedge_list(REVIEW(6, 4), 5, 1, places, DOORSEDGE_LIST_LEN(FRAMES), out), DOORSEDGE_OK);
    HOLDS(places, 5, 1, 1, 2);
    IS(doorsedge_get_total(REVIEW(6, 4), 5, 1, out), DOORSEDGE_OK);
    HOLDS(out, 10);
    IS(doorsedge_compress_with(REVIEW(6, 4), 0, pairs, DOORSEDGE_PAIRS_LEN(3), out), DOORSEDGE_OK);
    HOLDS(pairs, 1, 2, 1, 3, 4, 1, 2, 3, 5, 1, 3, 3);
    IS(doorsedge_drain(STATE, 5, 1, records, DOORSEDGE_DRAIN_LEN(FRAMES), out), DOORSEDGE_OK);
    HOLDS(out, 4);
    IS(doorsedge_compress_canonical(STATE, 1, scratch, DOORSEDGE_SCRATCH_LEN(FRAMES), out), DOORSEDGE_OK);
    COPIED(1, 1, DOORSEDGE_OK); /* packed, it needs one slot */
    HOLDS(review.elems, 1, 20, 1, 1, 1, MOST);
    HOLDS(review.shared, 1, 200, 0, 1, MOST);
}

int main(void) {
    number_for_number();
    what_fits();
    whose_undo();
    both_go_on();
    printf("host/c/clone: %d of %d as expected\n", tried - failed, tried);
    return failed != 0;
}
