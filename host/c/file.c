/* Run files, called from C: byte for byte, what is refused and in which order, room that is exact, and what a file does not hold.
   Canaries stand around the bytes. Built and run by host/c/run.sh. */
#include "entries.h"

#define WHOLE DOORSEDGE_FILE_LEN(RUNS, FRAMES)
#define CANARY 0xCA
#define STALE 0x5A

static struct {
    uint8_t first[16], file[WHOLE], last[16];
} lent;

static void is_fenced(int line) {
    for (size_t i = 0; i < sizeof lent.first; i++) {
        is(line, "a canary before the file", lent.first[i], CANARY);
        is(line, "a canary after the file", lent.last[i], CANARY);
    }
}

/* The study's file in so many bytes: the result, and every byte past the file as it was. */
static void written(int line, size_t room, uint64_t want) {
    memset(&lent, CANARY, sizeof lent);
    memset(lent.file, STALE, sizeof lent.file);
    mark_out();
    uint64_t got = doorsedge_write_file(STATE, lent.file, room, out);
    uint64_t now[sizeof kept / sizeof *kept];
    keep(now);
    is(line, "a write's result", got, want);
    is(line, "head and tables after a write", memcmp(now, kept, sizeof kept) != 0, 0);
    uint64_t length = want == DOORSEDGE_OK ? DOORSEDGE_FILE_LEN(head[DOORSEDGE_SHARED_LIVE], head[DOORSEDGE_ELEMS_LIVE]) : 0;
    is(line, "how many bytes were written", out[0], want == DOORSEDGE_OK ? length : UNTOUCHED);
    is(line, "out past its number", out[1], UNTOUCHED);
    for (size_t i = length; i < sizeof lent.file; i++)
        is(line, "a byte past the file", lent.file[i], STALE);
    is_fenced(line);
}
#define WRITTEN(room, want) written(__LINE__, room, want)

/* So many bytes read into the tables: a refusal leaves head and tables, and the bytes stay. */
static void is_read(int line, const uint8_t *bytes, size_t count, uint64_t want) {
    memset(&lent, CANARY, sizeof lent);
    if (count != 0)
        memcpy(lent.file, bytes, count);
    keep(kept);
    uint64_t got = doorsedge_read_file(STATE, count == 0 ? NULL : lent.file, count);
    uint64_t now[sizeof kept / sizeof *kept];
    keep(now);
    is(line, "a read's result", got, want);
    if (want != DOORSEDGE_OK)
        is(line, "head and tables after a refused read", memcmp(now, kept, sizeof kept) != 0, 0);
    is(line, "the file after a read", count != 0 && memcmp(lent.file, bytes, count) != 0, 0);
    is_fenced(line);
}
#define READ(bytes, count, want) is_read(__LINE__, bytes, count, want)

/* Any numbers in head and tables but the two capacities. */
static void dirty(void) {
    fill(head, DOORSEDGE_HEAD);
    fill(elems, ELEMS);
    fill(shared, SHARED);
    head[DOORSEDGE_ELEMS_CAPACITY] = FRAMES;
    head[DOORSEDGE_SHARED_CAPACITY] = RUNS;
}

/* The two runs of two_runs: 10, 12, 11 of 1, 4 and 2 bytes under 100, and 20 of the most bytes under 200. */
static const uint8_t two[] = {
    1, 0, 0, 0, 2, 0, 0, 0,                                           /* version, runs */
    24, 0, 0, 0, 56, 0, 0, 0, 80, 0, 0, 0, 32, 0, 0, 0,               /* offset and length of each */
    100, 0, 0, 0, 0, 0, 0, 0, 7, 0, 0, 0, 0, 0, 0, 0, 3, 0, 0, 0,     /* value, total, frames */
    10, 0, 0, 0, 0, 0, 0, 0, 1, 0, 0, 0,                              /* payload, size of slot 1, the run's lowest */
    12, 0, 0, 0, 0, 0, 0, 0, 4, 0, 0, 0,                              /* of slot 3, its next */
    11, 0, 0, 0, 0, 0, 0, 0, 2, 0, 0, 0,                              /* of slot 2 */
    200, 0, 0, 0, 0, 0, 0, 0, 255, 255, 255, 255, 0, 0, 0, 0, 1, 0, 0, 0,
    20, 0, 0, 0, 0, 0, 0, 0, 255, 255, 255, 255,
};

static void byte_for_byte(void) {
    two_runs();
    IS(sizeof two, DOORSEDGE_FILE_LEN(2, 4));
    WRITTEN(WHOLE, DOORSEDGE_OK);
    IS(memcmp(lent.file, two, sizeof two), 0);
    dirty();
    READ(two, sizeof two, DOORSEDGE_OK);
    HOLDS(head, FRAMES, 4, 0, 4, RUNS, 2, 0, 2, 1, 0, 0, 0, 0);
    HOLDS(elems, 1, 10, 1, 3, 2, 1, 1, 12, 1, 1, 3, 4, 1, 11, 1, 2, 1, 2, 1, 20, 2, 4, 4, MOST, 0, 0, 0, 0, 0, 0);
    HOLDS(shared, 3, 100, 0, 0, 7, 1, 200, 0, 0, MOST, 0, 0, 0, 0, 0, 0, 0, 0, 0, 0);
    IS(doorsedge_check(STATE), DOORSEDGE_OK);
    WRITTEN(sizeof two, DOORSEDGE_OK);
    IS(memcmp(lent.file, two, sizeof two), 0);
    /* no run: eight bytes, and fresh tables of them */
    IS(doorsedge_clear(STATE, out), DOORSEDGE_OK);
    WRITTEN(DOORSEDGE_FILE_PREFACE, DOORSEDGE_OK);
    const uint8_t none[DOORSEDGE_FILE_PREFACE] = {DOORSEDGE_FILE_VERSION};
    IS(memcmp(lent.file, none, sizeof none), 0);
    dirty();
    READ(none, sizeof none, DOORSEDGE_OK);
    HOLDS(head, FRAMES, 0, 0, 0, RUNS, 0, 0, 0, 1, 0, 0, 0, 0);
    for (size_t i = 0; i < ELEMS; i++)
        IS(elems[i], 0);
    for (size_t i = 0; i < SHARED; i++)
        IS(shared[i], 0);
}

/* Exactly the file's bytes will do, one fewer gives 7; 1 and 2 come before it. */
static void room(void) {
    two_runs();
    for (size_t bytes = 0; bytes < sizeof two; bytes++)
        WRITTEN(bytes, DOORSEDGE_SHORT);
    WRITTEN(sizeof two, DOORSEDGE_OK);
    WRITTEN(sizeof two + 1, DOORSEDGE_OK);
    REFUSED(doorsedge_write_file(STATE, NULL, 0, out), DOORSEDGE_SHORT);
    REFUSED(doorsedge_write_file(head, elems, ELEMS - 1, shared, SHARED, lent.file, WHOLE, out), DOORSEDGE_SHAPE);
    head[DOORSEDGE_GENERATION] = 0;
    WRITTEN(WHOLE, DOORSEDGE_UNSOUND);
    WRITTEN(0, DOORSEDGE_UNSOUND);
}

/* Every cut, a longer file, each number changed; another version; more than there is room for. */
static void departures(void) {
    uint8_t other[sizeof two + 1];
    dirty();
    READ(NULL, 0, DOORSEDGE_NO_FILE);
    for (size_t bytes = 1; bytes < sizeof two; bytes++)
        READ(two, bytes, DOORSEDGE_NO_FILE);
    memcpy(other, two, sizeof two);
    other[sizeof two] = 0;
    READ(other, sizeof other, DOORSEDGE_NO_FILE);
    /* the first byte of each number but values and payloads; a size and a count make the total or the length wrong */
    const size_t at[] = {4, 8, 12, 16, 20, 32, 40, 52, 64, 76, 88, 96, 108};
    for (size_t i = 0; i < sizeof at / sizeof *at; i++)
        for (int bit = 0; bit < 8; bit++) {
            memcpy(other, two, sizeof two);
            other[at[i]] ^= (uint8_t)(1 << bit);
            READ(other, sizeof two, DOORSEDGE_NO_FILE);
        }
    memcpy(other, two, sizeof two);
    other[0] = 2;
    READ(other, sizeof two, DOORSEDGE_OTHER_VERSION);
    READ(other, DOORSEDGE_FILE_PREFACE, DOORSEDGE_OTHER_VERSION);
    READ(other, DOORSEDGE_FILE_PREFACE - 1, DOORSEDGE_NO_FILE);
    head[DOORSEDGE_SHARED_CAPACITY] = 0;
    READ(other, DOORSEDGE_FILE_PREFACE - 1, DOORSEDGE_SHAPE);
    head[DOORSEDGE_SHARED_CAPACITY] = 1;
    head[DOORSEDGE_ELEMS_CAPACITY] = 3;
    size_t small = DOORSEDGE_ELEMS_LEN(3), one = DOORSEDGE_SHARED_LEN(1);
    IS(doorsedge_read_file(head, elems, small, shared, one, two, sizeof two - 1), DOORSEDGE_NO_FILE);
    IS(doorsedge_read_file(head, elems, small, shared, one, two, sizeof two), DOORSEDGE_NO_SHARED);
    head[DOORSEDGE_SHARED_CAPACITY] = 2;
    IS(doorsedge_read_file(head, elems, small, shared, DOORSEDGE_SHARED_LEN(2), two, sizeof two), DOORSEDGE_NO_ELEMENT);
    head[DOORSEDGE_ELEMS_CAPACITY] = 4;
    IS(doorsedge_read_file(head, elems, DOORSEDGE_ELEMS_LEN(4), shared, DOORSEDGE_SHARED_LEN(2), two, sizeof two), DOORSEDGE_OK);
    HOLDS(head, 4, 4, 0, 4, 2, 2, 0, 2, 1, 0, 0, 0, 0);
}

/* A seal, an undo and keys are not in a file: the study that was written keeps them, the one that was read has none. */
static void what_stays(void) {
    two_runs();
    IS(doorsedge_seal(STATE, 4, 1, sealed, DOORSEDGE_SEAL_LEN(FRAMES), out), DOORSEDGE_OK);
    IS(doorsedge_insert_surject(STATE, 30, 300, 9, out), DOORSEDGE_OK);
    IS(doorsedge_remove_element(STATE, 1, 1, out), DOORSEDGE_OK);
    IS(doorsedge_union(STATE, 5, 1, 2, 1, out), DOORSEDGE_OK);
    WRITTEN(WHOLE, DOORSEDGE_OK); /* head and tables stay, the undo with them */
    uint8_t file[WHOLE];
    memcpy(file, lent.file, WHOLE);
    size_t length = DOORSEDGE_FILE_LEN(2, 4);
    READ(file, length - 1, DOORSEDGE_NO_FILE);
    IS(doorsedge_undo(STATE), DOORSEDGE_OK);
    READ(file, length, DOORSEDGE_OK);
    REFUSED(doorsedge_undo(STATE), DOORSEDGE_NOTHING);
    HOLDS(elems, 1, 11, 1, 3, 2, 2, 1, 30, 1, 1, 3, 9, 1, 12, 1, 2, 1, 4, 1, 20, 2, 4, 4, MOST);
    RUN(1, 3, 100, 0, 15);
    RUN(2, 1, 200, 0, MOST); /* not sealed */
    IS(doorsedge_insert(STATE, 4, 1, 21, 0, out), DOORSEDGE_OK);
    HOLDS(out, 5, 1);
    IS(doorsedge_get(STATE, 1, 1, out), DOORSEDGE_OK); /* a key from before, which was removed, means another frame now */
    HOLDS(out, 11);
}

/* The tables of a file are those that canonical compression with reset leaves of the study, and every call goes on from there. */
static void as_compressed(void) {
    two_runs();
    IS(doorsedge_insert_surject(STATE, 30, 300, 9, out), DOORSEDGE_OK);
    IS(doorsedge_remove_element(STATE, 1, 1, out), DOORSEDGE_OK);
    IS(doorsedge_insert(STATE, 5, 1, 31, 8, out), DOORSEDGE_OK); /* comes to slot 1: the last run is the first now */
    WRITTEN(WHOLE, DOORSEDGE_OK);
    uint8_t file[WHOLE];
    memcpy(file, lent.file, WHOLE);
    IS(doorsedge_compress_canonical(STATE, 1, scratch, DOORSEDGE_SCRATCH_LEN(FRAMES), out), DOORSEDGE_OK);
    uint64_t compressed[sizeof kept / sizeof *kept], now[sizeof kept / sizeof *kept];
    keep(compressed);
    dirty();
    READ(file, DOORSEDGE_FILE_LEN(3, 5), DOORSEDGE_OK);
    keep(now);
    IS(memcmp(now, compressed, sizeof now), 0);
    IS(doorsedge_list(STATE, 3, 1, places, DOORSEDGE_LIST_LEN(FRAMES), out), DOORSEDGE_OK);
    HOLDS(places, 3, 1, 4, 1);
    IS(doorsedge_compress_with(STATE, 0, pairs, DOORSEDGE_PAIRS_LEN(FRAMES), out), DOORSEDGE_OK);
    HOLDS(pairs, 1, 1, 1, 2, 2, 1, 2, 2);
    IS(doorsedge_drain_all(STATE, records, DOORSEDGE_DRAIN_LEN(FRAMES), out), DOORSEDGE_OK);
    HOLDS(records, 1, 2, 31, 0, 0, 0, 2, 2, 30, 1, 300, 0);
    HOLDS(out, 5);
}

int main(void) {
    byte_for_byte();
    room();
    departures();
    what_stays();
    as_compressed();
    printf("host/c/file: %d of %d as expected\n", tried - failed, tried);
    return failed != 0;
}
