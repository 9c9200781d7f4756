/* Every entry of doorsedge.h but those on run files, which are in file.c, called from C: an accepted call and a refused one, with
   what it answers and leaves. Built and run by host/c/run.sh; tools/check-header fails where no program here calls an entry. */
#include "entries.h"

static void fresh_and_check(void) {
    fill(head, DOORSEDGE_HEAD);
    fill(elems, ELEMS);
    fill(shared, SHARED);
    REFUSED(doorsedge_check(STATE), DOORSEDGE_SHAPE);
    REFUSED(doorsedge_fresh(head, FRAMES + 1, RUNS, elems, ELEMS, shared, SHARED), DOORSEDGE_SHAPE);
    IS(doorsedge_fresh(head, FRAMES, RUNS, elems, ELEMS, shared, SHARED), DOORSEDGE_OK);
    HOLDS(head, FRAMES, 0, 0, 0, RUNS, 0, 0, 0, 1, 0, 0, 0, 0);
    IS(doorsedge_check(STATE), DOORSEDGE_OK);
    head[DOORSEDGE_ELEMS_LIVE]++;
    REFUSED(doorsedge_check(STATE), DOORSEDGE_UNSOUND);
}

static void reads(void) {
    two_runs();
    IS(doorsedge_len_surject(STATE, 3, 1, out), DOORSEDGE_OK);
    HOLDS(out, 3, UNTOUCHED);
    REFUSED(doorsedge_len_surject(STATE, 3, 2, out), DEAD(OTHER_GENERATION));
    IS(doorsedge_in_same_surject(STATE, 3, 1, 1, 1, out), DOORSEDGE_OK);
    HOLDS(out, 1, UNTOUCHED);
    IS(doorsedge_in_same_surject(STATE, 3, 1, 4, 1, out), DOORSEDGE_OK);
    HOLDS(out, 0, UNTOUCHED);
    REFUSED(doorsedge_in_same_surject(STATE, 3, 1, 5, 1, out), DEAD(NO_SLOT));
    IS(doorsedge_get(STATE, 3, 1, out), DOORSEDGE_OK);
    HOLDS(out, 12, UNTOUCHED);
    REFUSED(doorsedge_get(STATE, 0, 1, out), DEAD(NO_SLOT));
    IS(doorsedge_get_shared(STATE, 3, 1, out), DOORSEDGE_OK);
    HOLDS(out, 100, UNTOUCHED);
    REFUSED(doorsedge_get_shared(STATE, 6, 1, out), DEAD(NO_SLOT));
    fill(places, DOORSEDGE_LIST_LEN(FRAMES));
    REFUSED(doorsedge_list(STATE, 3, 1, places, DOORSEDGE_LIST_LEN(3) - 1, out), DOORSEDGE_SHORT);
    HOLDS(places, UNTOUCHED);
    IS(doorsedge_list(STATE, 3, 1, places, DOORSEDGE_LIST_LEN(FRAMES), out), DOORSEDGE_OK);
    HOLDS(out, 3, UNTOUCHED);
    HOLDS(places, 3, 1, 2, 1, 1, 1, UNTOUCHED);
}

/* What was given is read, a set payload leaves it, and what does not add up is unsound. */
static void sizes(void) {
    two_runs();
    RUN(1, 3, 100, 0, 7);
    RUN(2, 1, 200, 0, MOST);
    IS(doorsedge_get_size(STATE, 3, 1, out), DOORSEDGE_OK);
    HOLDS(out, 4, UNTOUCHED);
    IS(doorsedge_get_total(STATE, 3, 1, out), DOORSEDGE_OK);
    HOLDS(out, 7, UNTOUCHED);
    IS(doorsedge_get_size(STATE, 4, 1, out), DOORSEDGE_OK);
    HOLDS(out, MOST, UNTOUCHED);
    REFUSED(doorsedge_get_size(STATE, 3, 2, out), DEAD(OTHER_GENERATION));
    REFUSED(doorsedge_get_total(STATE, 5, 1, out), DEAD(NO_SLOT));
    IS(doorsedge_set(STATE, 4, 1, 23, out), DOORSEDGE_OK);
    IS(elems[3 * DOORSEDGE_FRAME + DOORSEDGE_FRAME_SIZE], MOST);
    shared[DOORSEDGE_HEADER_TOTAL]--;
    REFUSED(doorsedge_get_total(STATE, 1, 1, out), DOORSEDGE_UNSOUND);
    shared[DOORSEDGE_HEADER_TOTAL]++;
    IS(doorsedge_check(STATE), DOORSEDGE_OK);
    elems[3 * DOORSEDGE_FRAME + DOORSEDGE_FRAME_SIZE]++; /* past a uint32_t, and the total with it */
    shared[DOORSEDGE_HEADER + DOORSEDGE_HEADER_TOTAL]++;
    REFUSED(doorsedge_get_size(STATE, 4, 1, out), DOORSEDGE_UNSOUND);
}

/* Slot 3 is free and slot 4 has been taken again: a key of each cause, and one that lives. */
static void three_causes(void) {
    two_runs();
    IS(doorsedge_remove_element(STATE, 4, 1, out), DOORSEDGE_OK);
    IS(doorsedge_remove_element(STATE, 3, 1, out), DOORSEDGE_OK);
    IS(doorsedge_insert(STATE, 1, 1, 13, 0, out), DOORSEDGE_OK);
    HOLDS(out, 3, 3);
    IS(doorsedge_insert(STATE, 1, 1, 14, 0, out), DOORSEDGE_OK);
    HOLDS(out, 4, 3);
    IS(doorsedge_remove_element(STATE, 3, 3, out), DOORSEDGE_OK);
}

/* What a result says, and the cause of each dead key by `lookup`: tested in the order 1, 2, 3. */
static void lookup(void) {
    const uint64_t last = UINT64_MAX;
    three_causes();
    mark_out();
    IS(doorsedge_lookup(STATE, 1, 1), DOORSEDGE_OK);
    IS(doorsedge_lookup(STATE, 4, 3), DOORSEDGE_OK);
    REFUSED(doorsedge_lookup(STATE, 0, 0), DEAD(NO_SLOT));
    REFUSED(doorsedge_lookup(STATE, 0, 1), DEAD(NO_SLOT));
    REFUSED(doorsedge_lookup(STATE, FRAMES, 0), DEAD(NO_SLOT)); /* within the capacity, past the extent */
    REFUSED(doorsedge_lookup(STATE, FRAMES + 1, 1), DEAD(NO_SLOT));
    REFUSED(doorsedge_lookup(STATE, last, last), DEAD(NO_SLOT));
    REFUSED(doorsedge_lookup(STATE, (UINT64_C(1) << 32) + 1, 1), DEAD(NO_SLOT));
    REFUSED(doorsedge_lookup(STATE, 3, 3), DEAD(FREE_SLOT));
    REFUSED(doorsedge_lookup(STATE, 3, 0), DEAD(FREE_SLOT)); /* a free slot's generation is 0, and yet no key is live there */
    REFUSED(doorsedge_lookup(STATE, 3, last), DEAD(FREE_SLOT));
    REFUSED(doorsedge_lookup(STATE, 4, 1), DEAD(OTHER_GENERATION));
    REFUSED(doorsedge_lookup(STATE, 4, 0), DEAD(OTHER_GENERATION));
    REFUSED(doorsedge_lookup(STATE, 4, last), DEAD(OTHER_GENERATION));
    REFUSED(doorsedge_lookup(STATE, 1, (UINT64_C(1) << 32) + 1), DEAD(OTHER_GENERATION));
    IS(DOORSEDGE_NUMBER(doorsedge_lookup(STATE, 3, 3)), DOORSEDGE_DEAD);
    IS(DOORSEDGE_CAUSE(doorsedge_lookup(STATE, 0, 1)), DOORSEDGE_NO_SLOT);
    IS(DOORSEDGE_CAUSE(doorsedge_lookup(STATE, 3, 3)), DOORSEDGE_FREE_SLOT);
    IS(DOORSEDGE_CAUSE(doorsedge_lookup(STATE, 4, 1)), DOORSEDGE_OTHER_GENERATION);
    IS(DOORSEDGE_NUMBER(doorsedge_lookup(STATE, 1, 1)), DOORSEDGE_OK);
    IS(DOORSEDGE_CAUSE(doorsedge_lookup(STATE, 1, 1)), 0);
    IS(doorsedge_fresh(head, FRAMES, RUNS, elems, ELEMS, shared, SHARED), DOORSEDGE_OK);
    REFUSED(doorsedge_lookup(STATE, 1, 1), DEAD(NO_SLOT)); /* empty tables */
    REFUSED(doorsedge_lookup(head, NULL, 0, NULL, 0, 1, 1), DOORSEDGE_SHAPE);
    head[DOORSEDGE_GENERATION] = 0;
    REFUSED(doorsedge_lookup(STATE, 0, 1), DOORSEDGE_UNSOUND);
    IS(DOORSEDGE_CAUSE(doorsedge_lookup(STATE, 0, 1)), 0);
}

/* Of two keys and of four the first dead one's cause is told, in the order of the arguments. */
static void first_dead_key(void) {
    const uint64_t old_last[8] = {1, 1, 2, 1, 1, 1, 4, 1}, free_third[8] = {1, 1, 2, 1, 3, 3, 4, 1},
                   none_first[8] = {0, 1, 3, 3, 4, 1, 9, 9}, values[4] = {1, 2, 3, 4};
    three_causes();
    REFUSED(doorsedge_in_same_surject(STATE, 3, 3, 4, 1, out), DEAD(FREE_SLOT));
    REFUSED(doorsedge_in_same_surject(STATE, 4, 1, 3, 3, out), DEAD(OTHER_GENERATION));
    REFUSED(doorsedge_in_same_surject(STATE, 1, 1, 9, 1, out), DEAD(NO_SLOT));
    REFUSED(doorsedge_union(STATE, 4, 1, 9, 1, out), DEAD(OTHER_GENERATION));
    REFUSED(doorsedge_union(STATE, 9, 1, 4, 1, out), DEAD(NO_SLOT));
    REFUSED(doorsedge_union(STATE, 1, 1, 3, 3, out), DEAD(FREE_SLOT));
    REFUSED(doorsedge_exchange_shared4(STATE, old_last, values, out), DEAD(OTHER_GENERATION));
    REFUSED(doorsedge_exchange_shared4(STATE, free_third, values, out), DEAD(FREE_SLOT));
    REFUSED(doorsedge_exchange_shared4(STATE, none_first, values, out), DEAD(NO_SLOT));
}

static void sets(void) {
    two_runs();
    IS(doorsedge_set(STATE, 3, 1, 13, out), DOORSEDGE_OK);
    HOLDS(out, 12, UNTOUCHED);
    IS(elems[2 * DOORSEDGE_FRAME + DOORSEDGE_FRAME_PAYLOAD], 13);
    REFUSED(doorsedge_set(STATE, 3, 2, 14, out), DEAD(OTHER_GENERATION));
    IS(doorsedge_set_shared(STATE, 3, 1, 101, out), DOORSEDGE_OK);
    HOLDS(out, 100, UNTOUCHED);
    IS(shared[DOORSEDGE_HEADER_VALUE], 101);
    REFUSED(doorsedge_set_shared(STATE, 3, 2, 102, out), DEAD(OTHER_GENERATION));
}

static void exchange(void) {
    const uint64_t keys[8] = {3, 1, 1, 1, 4, 1, 2, 1}, twice[8] = {3, 1, 1, 1, 3, 1, 2, 1}, values[4] = {1, 2, 3, 4};
    IS(doorsedge_fresh(head, FRAMES, RUNS, elems, ELEMS, shared, SHARED), DOORSEDGE_OK);
    for (uint64_t n = 1; n <= 4; n++)
        IS(doorsedge_insert_surject(STATE, n, 100 * n, (uint32_t)n, out), DOORSEDGE_OK);
    IS(doorsedge_exchange_shared4(STATE, keys, values, out), DOORSEDGE_OK);
    HOLDS(out, 300, 100, 400, 200);
    RUN(1, 1, 2, 0, 1);
    RUN(2, 1, 4, 0, 2);
    RUN(3, 1, 1, 0, 3);
    RUN(4, 1, 3, 0, 4);
    REFUSED(doorsedge_exchange_shared4(STATE, twice, values, out), DOORSEDGE_SAME_CLASS);
}

/* Value, count, keys and payloads of one moment, and then no frame comes in: 12 after 3 and 4, before 5 and 7. */
static void seal(void) {
    two_runs();
    fill(sealed, DOORSEDGE_SEAL_LEN(FRAMES));
    REFUSED(doorsedge_seal(STATE, 3, 2, sealed, DOORSEDGE_SEAL_LEN(FRAMES), out), DEAD(OTHER_GENERATION));
    REFUSED(doorsedge_seal(STATE, 3, 1, sealed, DOORSEDGE_SEAL_LEN(3) - 1, out), DOORSEDGE_SHORT);
    REFUSED(doorsedge_seal(STATE, 3, 1, NULL, 0, out), DOORSEDGE_SHORT);
    HOLDS(sealed, UNTOUCHED);
    IS(shared[DOORSEDGE_HEADER_MARK], 0);
    IS(doorsedge_seal(STATE, 3, 1, sealed, DOORSEDGE_SEAL_LEN(FRAMES), out), DOORSEDGE_OK);
    HOLDS(out, 100, 3, UNTOUCHED);
    HOLDS(sealed, 3, 1, 12, 2, 1, 11, 1, 1, 10, UNTOUCHED);
    RUN(1, 3, 100, 1, 7);
    RUN(2, 1, 200, 0, MOST);
    REFUSED(doorsedge_seal(STATE, 1, 1, sealed, DOORSEDGE_SEAL_LEN(FRAMES), out), DOORSEDGE_SEALED);
    REFUSED(doorsedge_seal(STATE, 1, 1, NULL, 0, out), DOORSEDGE_SEALED);
    REFUSED(doorsedge_insert(STATE, 1, 1, 13, 0, out), DOORSEDGE_SEALED);
    REFUSED(doorsedge_insert(STATE, 1, 2, 13, 0, out), DEAD(OTHER_GENERATION));
    REFUSED(doorsedge_insert_in_place((struct doorsedge_lent_head *)head, elems, ELEMS, shared, SHARED, 1, 1, 13, 0, out),
            DOORSEDGE_SEALED);
    REFUSED(doorsedge_union(STATE, 1, 1, 4, 1, out), DOORSEDGE_SEALED);
    REFUSED(doorsedge_union(STATE, 4, 1, 1, 1, out), DOORSEDGE_SEALED);
    REFUSED(doorsedge_union(STATE, 1, 1, 2, 1, out), DOORSEDGE_SAME_CLASS);
    IS(doorsedge_insert(STATE, 4, 1, 21, 0, out), DOORSEDGE_OK);
    REFUSED(doorsedge_insert(STATE, 1, 1, 13, 0, out), DOORSEDGE_SEALED);
    REFUSED(doorsedge_insert(STATE, 4, 1, 22, 0, out), DOORSEDGE_NO_ELEMENT);
    shared[DOORSEDGE_HEADER_MARK] = 2;
    REFUSED(doorsedge_check(STATE), DOORSEDGE_UNSOUND);
}

/* What goes on at a sealed run, and where its mark goes. */
static void after_seal(void) {
    two_runs();
    IS(doorsedge_seal(STATE, 4, 1, sealed, DOORSEDGE_SEAL_LEN(FRAMES), out), DOORSEDGE_OK);
    IS(doorsedge_seal(STATE, 1, 1, sealed, DOORSEDGE_SEAL_LEN(FRAMES), out), DOORSEDGE_OK);
    IS(doorsedge_set(STATE, 4, 1, 23, out), DOORSEDGE_OK);
    IS(doorsedge_set_shared(STATE, 4, 1, 201, out), DOORSEDGE_OK);
    RUN(1, 3, 100, 1, 7);
    RUN(2, 1, 201, 1, MOST);
    IS(doorsedge_remove_element(STATE, 1, 1, out), DOORSEDGE_OK);
    RUN(1, 2, 100, 1, 6);
    IS(doorsedge_compress_canonical(STATE, 0, scratch, DOORSEDGE_SCRATCH_LEN(FRAMES), out), DOORSEDGE_OK);
    RUN(1, 2, 100, 1, 6);
    RUN(2, 1, 201, 1, MOST);
    IS(doorsedge_drain(STATE, 2, 3, records, DOORSEDGE_DRAIN_LEN(FRAMES), out), DOORSEDGE_OK);
    RUN(1, 0, 0, 0, 0);
    RUN(2, 1, 201, 1, MOST);
    IS(doorsedge_insert_surject(STATE, 30, 300, 9, out), DOORSEDGE_OK);
    RUN(1, 1, 300, 0, 9);
    IS(doorsedge_clear(STATE, out), DOORSEDGE_OK);
    RUN(1, 0, 0, 0, 0);
    RUN(2, 0, 0, 0, 0);
}

static void frames_in(void) {
    two_runs();
    REFUSED(doorsedge_insert(STATE, 4, 2, 21, 16, out), DEAD(OTHER_GENERATION));
    IS(doorsedge_insert(STATE, 4, 1, 21, 16, out), DOORSEDGE_OK);
    HOLDS(out, 5, 1, UNTOUCHED);
    RUN(2, 2, 200, 0, MOST + 16);
    REFUSED(doorsedge_insert(STATE, 4, 1, 22, 0, out), DOORSEDGE_NO_ELEMENT);
    REFUSED(doorsedge_insert_surject(STATE, 30, 300, 0, out), DOORSEDGE_NO_ELEMENT);
    REFUSED(doorsedge_union(STATE, 4, 1, 5, 1, out), DOORSEDGE_SAME_CLASS);
    IS(doorsedge_union(STATE, 4, 1, 1, 1, out), DOORSEDGE_OK);
    HOLDS(out, 200, 1, 1, 2);
    RUN(1, 5, 100, 0, MOST + 23);
    RUN(2, 0, 0, 0, 0);
}

/* A run for each header: the fifth is refused for want of one, though a frame's slot is free. */
static void no_shared(void) {
    IS(doorsedge_fresh(head, FRAMES, RUNS, elems, ELEMS, shared, SHARED), DOORSEDGE_OK);
    for (uint64_t n = 1; n <= RUNS; n++)
        IS(doorsedge_insert_surject(STATE, n, 100 * n, 0, out), DOORSEDGE_OK);
    REFUSED(doorsedge_insert_surject(STATE, 5, 500, 0, out), DOORSEDGE_NO_SHARED);
}

static void frames_out(void) {
    two_runs();
    IS(doorsedge_remove_element(STATE, 1, 1, out), DOORSEDGE_OK);
    HOLDS(out, 10, 0, 0, 0);
    RUN(1, 2, 100, 0, 6);
    REFUSED(doorsedge_remove_element(STATE, 1, 1, out), DEAD(FREE_SLOT));
    head[DOORSEDGE_GENERATION] = DOORSEDGE_LAST_GENERATION;
    IS(doorsedge_remove_element(STATE, 4, 1, out), DOORSEDGE_OK);
    HOLDS(out, 20, 1, 200, 1);
    IS(head[DOORSEDGE_GENERATION], 1);
    fill(out, 4);
    IS(doorsedge_remove_shared(STATE, 3, 1, out), DOORSEDGE_OK);
    HOLDS(out, 100, 0, UNTOUCHED);
    REFUSED(doorsedge_remove_shared(STATE, 3, 1, out), DEAD(FREE_SLOT));
    IS(head[DOORSEDGE_ELEMS_LIVE], 0);
}

static void drains(void) {
    two_runs();
    fill(records, DOORSEDGE_DRAIN_LEN(FRAMES));
    REFUSED(doorsedge_drain(STATE, 3, 1, records, DOORSEDGE_DRAIN_LEN(3) - 1, out), DOORSEDGE_SHORT);
    HOLDS(records, UNTOUCHED);
    IS(doorsedge_drain(STATE, 3, 1, records, DOORSEDGE_DRAIN_LEN(FRAMES), out), DOORSEDGE_OK);
    HOLDS(out, 3, UNTOUCHED);
    HOLDS(records, 3, 1, 12, 0, 0, 0, 2, 1, 11, 0, 0, 0, 1, 1, 10, 1, 100, 0, UNTOUCHED);
    two_runs();
    REFUSED(doorsedge_drain_all(STATE, records, DOORSEDGE_DRAIN_LEN(4) - 1, out), DOORSEDGE_SHORT);
    IS(doorsedge_drain_all(STATE, records, DOORSEDGE_DRAIN_LEN(4), out), DOORSEDGE_OK);
    HOLDS(out, 4, UNTOUCHED);
    HOLDS(records, 1, 1, 10, 0, 0, 0, 3, 1, 12, 0, 0, 0, 2, 1, 11, 1, 100, 0, 4, 1, 20, 1, 200, 0, UNTOUCHED);
    HOLDS(head, FRAMES, 0, 0, 0, RUNS, 0, 0, 0, 6, 0, 0, 0, 0);
}

static void clear_and_compress(void) {
    two_runs();
    IS(doorsedge_remove_element(STATE, 1, 1, out), DOORSEDGE_OK);
    fill(out, 4);
    fill(scratch, DOORSEDGE_SCRATCH_LEN(FRAMES));
    REFUSED(doorsedge_compress_canonical(STATE, 0, scratch, DOORSEDGE_SCRATCH_LEN(FRAMES) - 1, out), DOORSEDGE_SHORT);
    HOLDS(scratch, UNTOUCHED);
    IS(doorsedge_compress_canonical(STATE, 0, scratch, DOORSEDGE_SCRATCH_LEN(FRAMES), out), DOORSEDGE_OK);
    HOLDS(out, 0, UNTOUCHED);
    HOLDS(scratch, 0);
    HOLDS(elems, 3, 11, 1, 2, 2, 2, 3, 12, 1, 1, 1, 4, 3, 20, 2, 3, 3, MOST, 0);
    RUN(1, 2, 100, 0, 6);
    RUN(2, 1, 200, 0, MOST);
    HOLDS(head, FRAMES, 3, 0, 3, RUNS, 2, 0, 2, 3, 0, 0, 0, 0);
    IS(doorsedge_clear(STATE, out), DOORSEDGE_OK);
    HOLDS(out, 0, UNTOUCHED);
    HOLDS(head, FRAMES, 0, 0, 0, RUNS, 0, 0, 0, 4, 0, 0, 0, 0);
    head[DOORSEDGE_SHARED_EXTENT] = RUNS + 1;
    REFUSED(doorsedge_clear(STATE, out), DOORSEDGE_UNSOUND);
}

/* Slots 4 and 5 move down to 1 and 2, and headers 2 and 3 to 1 and 2, a mark with its header; each frame's old key is told
   with its new one. */
static void compress_in_order(void) {
    two_runs();
    IS(doorsedge_seal(STATE, 4, 1, sealed, DOORSEDGE_SEAL_LEN(FRAMES), out), DOORSEDGE_OK);
    IS(doorsedge_insert_surject(STATE, 30, 300, 9, out), DOORSEDGE_OK);
    HOLDS(out, 5, 1);
    IS(doorsedge_remove_shared(STATE, 1, 1, out), DOORSEDGE_OK);
    fill(pairs, DOORSEDGE_PAIRS_LEN(FRAMES));
    REFUSED(doorsedge_compress_with(STATE, 0, pairs, DOORSEDGE_PAIRS_LEN(2) - 1, out), DOORSEDGE_SHORT);
    REFUSED(doorsedge_compress_with(STATE, 0, NULL, 0, out), DOORSEDGE_SHORT);
    HOLDS(pairs, UNTOUCHED);
    fill(out, 4);
    IS(doorsedge_compress_with(STATE, 0, pairs, DOORSEDGE_PAIRS_LEN(FRAMES), out), DOORSEDGE_OK);
    HOLDS(out, 2, 0, UNTOUCHED);
    HOLDS(pairs, 4, 1, 1, 3, 5, 1, 2, 3, UNTOUCHED);
    IS(pairs[DOORSEDGE_PAIR + DOORSEDGE_PAIR_OLD_SLOT], 5);
    IS(pairs[DOORSEDGE_PAIR + DOORSEDGE_PAIR_OLD_GENERATION], 1);
    IS(pairs[DOORSEDGE_PAIR + DOORSEDGE_PAIR_NEW_SLOT], 2);
    IS(pairs[DOORSEDGE_PAIR + DOORSEDGE_PAIR_NEW_GENERATION], 3);
    HOLDS(elems, 3, 20, 1, 1, 1, MOST, 3, 30, 2, 2, 2, 9, 0);
    RUN(1, 1, 200, 1, MOST);
    RUN(2, 1, 300, 0, 9);
    RUN(3, 0, 0, 0, 0);
    HOLDS(head, FRAMES, 2, 0, 2, RUNS, 2, 0, 2, 3, 0, 0, 0, 0);
    head[DOORSEDGE_GENERATION] = DOORSEDGE_LAST_GENERATION;
    IS(doorsedge_compress_with(STATE, 0, pairs, DOORSEDGE_PAIRS_LEN(2), out), DOORSEDGE_OK);
    HOLDS(out, 2, 1, UNTOUCHED);
    HOLDS(pairs, 1, 3, 1, 1, 2, 3, 2, 1, UNTOUCHED);
    head[DOORSEDGE_ELEMS_LIVE]++;
    REFUSED(doorsedge_compress_with(STATE, 0, NULL, 0, out), DOORSEDGE_UNSOUND);
    REFUSED(doorsedge_compress_with(head, NULL, 0, NULL, 0, 0, NULL, 0, out), DOORSEDGE_SHAPE);
}

/* Ring 1, 3, 2: along the ring by `compress_canonical`, as the slots stand by `compress_with`. */
static void both_compressions(void) {
    two_runs();
    IS(doorsedge_compress_canonical(STATE, 1, scratch, DOORSEDGE_SCRATCH_LEN(FRAMES), out), DOORSEDGE_OK);
    HOLDS(elems, 1, 10, 1, 3, 2, 1, 1, 12, 1, 1, 3, 4, 1, 11, 1, 2, 1, 2, 1, 20, 2, 4, 4, MOST, 0);
    two_runs();
    IS(doorsedge_compress_with(STATE, 1, pairs, DOORSEDGE_PAIRS_LEN(FRAMES), out), DOORSEDGE_OK);
    HOLDS(elems, 1, 10, 1, 2, 3, 1, 1, 11, 1, 3, 1, 2, 1, 12, 1, 1, 2, 4, 1, 20, 2, 4, 4, MOST, 0);
}

/* One head for both kinds of entry: the writer's own struct, and its numbers for the others. */
static void in_place(void) {
    struct doorsedge_lent_head own;
    uint64_t *numbers = (uint64_t *)&own;
    IS(sizeof own, DOORSEDGE_HEAD * sizeof(uint64_t));
    IS(doorsedge_fresh(numbers, FRAMES, RUNS, elems, ELEMS, shared, SHARED), DOORSEDGE_OK);
    IS(doorsedge_insert_surject(numbers, elems, ELEMS, shared, SHARED, 10, 100, 5, out), DOORSEDGE_OK);
    IS(own.elems.live, 1);
    IS(doorsedge_insert_in_place(&own, elems, ELEMS, shared, SHARED, 1, 1, 11, 6, out), DOORSEDGE_OK);
    HOLDS(out, 2, 1);
    RUN(1, 2, 100, 0, 11);
    IS(own.elems.extent, 2);
    IS(doorsedge_len_surject(numbers, elems, ELEMS, shared, SHARED, 2, 1, out), DOORSEDGE_OK);
    HOLDS(out, 2);
    REFUSED(doorsedge_insert_in_place(&own, elems, ELEMS, shared, SHARED, 9, 1, 12, 0, out), DEAD(NO_SLOT));
    IS(doorsedge_remove_in_place(&own, elems, ELEMS, shared, SHARED, 1, 1, out), DOORSEDGE_OK);
    HOLDS(out, 10, 0, 0, 0);
    IS(own.generation, 2);
    RUN(1, 1, 100, 0, 6);
    REFUSED(doorsedge_remove_in_place(&own, elems, ELEMS, shared, SHARED, 1, 1, out), DEAD(FREE_SLOT));
    IS(numbers[DOORSEDGE_GENERATION], own.generation);
    IS(doorsedge_insert_surject(numbers, elems, ELEMS, shared, SHARED, 20, 200, 7, out), DOORSEDGE_OK);
    HOLDS(out, 1, 2);
    IS(doorsedge_union(numbers, elems, ELEMS, shared, SHARED, 2, 1, 1, 2, out), DOORSEDGE_OK);
    IS(own.undo.kept, 2);
    IS(own.undo.gone, 1);
    IS(own.undo.moved, 1);
    IS(own.undo.value, 200);
    IS(doorsedge_undo(numbers, elems, ELEMS, shared, SHARED), DOORSEDGE_OK);
    IS(own.shared.live, 2);
}

/* A copy of a study in other tables, which held anything, and one that does not fit; then a move there. More of it is in
   clone.c and transfer.c. */
static void two_studies(void) {
    uint64_t own[DOORSEDGE_HEAD], own_elems[ELEMS], own_shared[SHARED];
    two_runs();
    fill(own, DOORSEDGE_HEAD);
    fill(own_elems, ELEMS);
    fill(own_shared, SHARED);
    own[DOORSEDGE_ELEMS_CAPACITY] = FRAMES;
    own[DOORSEDGE_SHARED_CAPACITY] = RUNS;
    IS(doorsedge_clone_from(own, own_elems, ELEMS, own_shared, SHARED, STATE), DOORSEDGE_OK);
    holds(__LINE__, "own", own, head, DOORSEDGE_HEAD);
    holds(__LINE__, "own_elems", own_elems, elems, ELEMS);
    holds(__LINE__, "own_shared", own_shared, shared, SHARED);
    own[DOORSEDGE_SHARED_CAPACITY] = 1;
    IS(doorsedge_clone_from(own, own_elems, ELEMS, own_shared, DOORSEDGE_SHARED_LEN(1), STATE), DOORSEDGE_NO_SHARED);
    own[DOORSEDGE_SHARED_CAPACITY] = RUNS;
    REFUSED(doorsedge_transfer_canonical(own, own_elems, ELEMS, own_shared, SHARED, 0, STATE, out), DOORSEDGE_OUT_OF_RANGE);
    IS(doorsedge_transfer_canonical(own, own_elems, ELEMS, own_shared, SHARED, 9, STATE, out), DOORSEDGE_OK);
    HOLDS(out, 0);
    HOLDS(own, FRAMES, 4, 0, 4, RUNS, 2, 0, 2, 9);
    HOLDS(head, FRAMES, 0, 0, 0, RUNS, 0, 0, 0, 2);
}

/* NULL with length 0: an empty buffer where none is needed, one too short where it is, and tables of no shape. */
static void null_with_none(void) {
    two_runs();
    REFUSED(doorsedge_list(STATE, 1, 1, NULL, 0, out), DOORSEDGE_SHORT);
    REFUSED(doorsedge_drain(STATE, 1, 1, NULL, 0, out), DOORSEDGE_SHORT);
    REFUSED(doorsedge_drain_all(STATE, NULL, 0, out), DOORSEDGE_SHORT);
    REFUSED(doorsedge_compress_canonical(STATE, 0, NULL, 0, out), DOORSEDGE_SHORT);
    REFUSED(doorsedge_check(head, NULL, 0, shared, SHARED), DOORSEDGE_SHAPE);
    REFUSED(doorsedge_check(head, elems, ELEMS, NULL, 0), DOORSEDGE_SHAPE);
    REFUSED(doorsedge_fresh(head, FRAMES, RUNS, NULL, 0, NULL, 0), DOORSEDGE_SHAPE);
    REFUSED(doorsedge_fresh(head, 0, 0, NULL, 0, NULL, 0), DOORSEDGE_SHAPE);
    REFUSED(doorsedge_insert_surject(head, NULL, 0, NULL, 0, 1, 2, 0, out), DOORSEDGE_SHAPE);
    REFUSED(doorsedge_clear(head, NULL, 0, NULL, 0, out), DOORSEDGE_SHAPE);
    IS(doorsedge_fresh(head, FRAMES, RUNS, elems, ELEMS, shared, SHARED), DOORSEDGE_OK);
    fill(out, 4);
    IS(doorsedge_drain_all(STATE, NULL, 0, out), DOORSEDGE_OK);
    HOLDS(out, 0, UNTOUCHED);
    HOLDS(head, FRAMES, 0, 0, 0, RUNS, 0, 0, 0, 2, 0, 0, 0, 0);
    IS(doorsedge_compress_with(STATE, 0, NULL, 0, out), DOORSEDGE_OK);
    HOLDS(out, 0, 0, UNTOUCHED);
    HOLDS(head, FRAMES, 0, 0, 0, RUNS, 0, 0, 0, 3, 0, 0, 0, 0);
}

/* When an old key comes alive again: not by a removal, but by an overflow, by `fresh` and by a compression with reset. */
static void old_keys(void) {
    two_runs();
    IS(doorsedge_remove_element(STATE, 4, 1, out), DOORSEDGE_OK);
    IS(doorsedge_insert_surject(STATE, 21, 210, 0, out), DOORSEDGE_OK);
    HOLDS(out, 4, 2);
    REFUSED(doorsedge_get(STATE, 4, 1, out), DEAD(OTHER_GENERATION));
    head[DOORSEDGE_GENERATION] = DOORSEDGE_LAST_GENERATION;
    IS(doorsedge_remove_element(STATE, 4, 2, out), DOORSEDGE_OK);
    HOLDS(out, 21, 1, 210, 1);
    REFUSED(doorsedge_get(STATE, 4, 1, out), DEAD(FREE_SLOT));
    IS(doorsedge_insert_surject(STATE, 22, 220, 0, out), DOORSEDGE_OK);
    IS(doorsedge_get(STATE, 4, 1, out), DOORSEDGE_OK);
    HOLDS(out, 22);
    head[DOORSEDGE_GENERATION] = 9;
    IS(doorsedge_remove_element(STATE, 1, 1, out), DOORSEDGE_OK);
    IS(doorsedge_compress_canonical(STATE, 1, scratch, DOORSEDGE_SCRATCH_LEN(FRAMES), out), DOORSEDGE_OK);
    IS(doorsedge_get(STATE, 1, 1, out), DOORSEDGE_OK);
    HOLDS(out, 11);
    /* drain_all's closing clear goes over the last generation, and only the head shows it */
    head[DOORSEDGE_GENERATION] = DOORSEDGE_LAST_GENERATION - 3;
    IS(doorsedge_drain_all(STATE, records, DOORSEDGE_DRAIN_LEN(FRAMES), out), DOORSEDGE_OK);
    HOLDS(out, 3);
    for (uint64_t i = 0; i < 3; i++)
        IS(records[i * DOORSEDGE_RECORD + DOORSEDGE_RECORD_OVERFLOW], 0);
    IS(head[DOORSEDGE_GENERATION], 1);
    IS(doorsedge_fresh(head, FRAMES, RUNS, elems, ELEMS, shared, SHARED), DOORSEDGE_OK);
    REFUSED(doorsedge_get(STATE, 1, 1, out), DEAD(NO_SLOT));
    IS(doorsedge_insert_surject(STATE, 30, 300, 0, out), DOORSEDGE_OK);
    IS(doorsedge_get(STATE, 1, 1, out), DOORSEDGE_OK);
    HOLDS(out, 30);
}

/* A key from before an overflow, whose frame goes after it: it returns when the generation has come round to it. */
static void key_over_overflow(void) {
    IS(doorsedge_fresh(head, FRAMES, RUNS, elems, ELEMS, shared, SHARED), DOORSEDGE_OK);
    head[DOORSEDGE_GENERATION] = DOORSEDGE_LAST_GENERATION;
    IS(doorsedge_insert_surject(STATE, 10, 100, 0, out), DOORSEDGE_OK);
    IS(doorsedge_insert(STATE, 1, DOORSEDGE_LAST_GENERATION, 11, 0, out), DOORSEDGE_OK);
    IS(doorsedge_remove_element(STATE, 2, DOORSEDGE_LAST_GENERATION, out), DOORSEDGE_OK);
    HOLDS(out, 11, 0, 0, 1);
    IS(doorsedge_remove_element(STATE, 1, DOORSEDGE_LAST_GENERATION, out), DOORSEDGE_OK);
    HOLDS(out, 10, 1, 100, 0);
    REFUSED(doorsedge_get(STATE, 1, DOORSEDGE_LAST_GENERATION, out), DEAD(FREE_SLOT));
    head[DOORSEDGE_GENERATION] = DOORSEDGE_LAST_GENERATION; /* so many removals later */
    IS(doorsedge_insert_surject(STATE, 20, 200, 0, out), DOORSEDGE_OK);
    IS(doorsedge_get(STATE, 1, DOORSEDGE_LAST_GENERATION, out), DOORSEDGE_OK);
    HOLDS(out, 20);
}

/* The ceiling takes no tables: its edges, and a study in pairs, which rewrites half of it. */
static void ceiling(void) {
    const uint64_t figures[][2] = {{1, 0}, {2, 2}, {3, 3}, {4, 8}, {5, 10}, {7, 14}, {8, 24}, {65535, 983025}, {65536, 1048576}};
    for (size_t i = 0; i < sizeof figures / sizeof *figures; i++) {
        fill(out, 4);
        IS(doorsedge_union_ceiling(figures[i][0], out), DOORSEDGE_OK);
        HOLDS(out, figures[i][1], UNTOUCHED, UNTOUCHED, UNTOUCHED);
    }
    REFUSED(doorsedge_union_ceiling(0, out), DOORSEDGE_OUT_OF_RANGE);
    REFUSED(doorsedge_union_ceiling(DOORSEDGE_MOST_SLOTS + 1, out), DOORSEDGE_OUT_OF_RANGE);
    REFUSED(doorsedge_union_ceiling(UINT64_MAX, out), DOORSEDGE_OUT_OF_RANGE);
    uint64_t rewritten = 0;
    IS(doorsedge_fresh(head, FRAMES, RUNS, elems, ELEMS, shared, SHARED), DOORSEDGE_OK);
    for (uint64_t i = 1; i <= 4; i++)
        IS(doorsedge_insert_surject(STATE, 10 * i, 100 * i, 0, out), DOORSEDGE_OK);
    const uint64_t pairs_of[][2] = {{1, 2}, {3, 4}, {1, 3}};
    for (size_t i = 0; i < 3; i++) {
        IS(doorsedge_union(STATE, pairs_of[i][0], 1, pairs_of[i][1], 1, out), DOORSEDGE_OK);
        rewritten += out[3];
    }
    IS(doorsedge_union_ceiling(4, out), DOORSEDGE_OK);
    IS(2 * rewritten, out[0]);
}

int main(void) {
    fresh_and_check();
    reads();
    sizes();
    lookup();
    first_dead_key();
    sets();
    exchange();
    seal();
    after_seal();
    frames_in();
    no_shared();
    frames_out();
    drains();
    clear_and_compress();
    compress_in_order();
    both_compressions();
    in_place();
    two_studies();
    null_with_none();
    old_keys();
    key_over_overflow();
    ceiling();
    printf("host/c/entries: %d of %d as expected\n", tried - failed, tried);
    return failed != 0;
}
