/* A recorder of image runs, as a host writes it in C: frames come in, runs are joined, the wrong two among them, which is taken
   back, a bad frame goes, the frames move down and the keys that are held follow, a viewer lists a run, the study is saved to a
   file and read back by a viewer with tables of its own, another recorder takes a study over, it is written out and the tables are
   ready for the next patient. Its tables are its own; nothing is allocated. Built and run by host/c/run.sh, which compares what it
   prints with recorder.stdout.
     recorder [FILE]   the study's file is kept there; without FILE it goes with the recorder */
#include "doorsedge.h"

#include <inttypes.h>
#include <stdio.h>
#include <stdlib.h>

#define FRAMES 64 /* the most frames of a study */
#define RUNS 16   /* the most runs */

typedef struct {
    uint64_t slot, generation;
} key;

/* All that a recorder keeps of a study. The payload of a frame is the number of its picture, the shared value of a run the
   number of its description. */
typedef struct {
    uint64_t head[DOORSEDGE_HEAD];
    uint64_t elems[DOORSEDGE_ELEMS_LEN(FRAMES)];
    uint64_t shared[DOORSEDGE_SHARED_LEN(RUNS)];
} study;

/* The tables' pointers and lengths, as every entry takes them. */
#define TABLES(s) (s)->elems, DOORSEDGE_ELEMS_LEN(FRAMES), (s)->shared, DOORSEDGE_SHARED_LEN(RUNS)

/* Refusals that a correct recorder never meets end it. */
static void must(const char *what, uint64_t result) {
    if (result != DOORSEDGE_OK) {
        fprintf(stderr, "%s: refused %" PRIu64 " cause %" PRIu64 "\n", what, DOORSEDGE_NUMBER(result), DOORSEDGE_CAUSE(result));
        exit(1);
    }
}

static void begin_study(study *s) {
    must("fresh", doorsedge_fresh(s->head, FRAMES, RUNS, TABLES(s)));
}

/* What a picture's file would say. */
static uint32_t bytes_of(uint64_t picture) {
    return 1000 + (uint32_t)picture;
}

static key begin_run(study *s, uint64_t picture, uint64_t description) {
    uint64_t out[2];
    must("new run", doorsedge_insert_surject(s->head, TABLES(s), picture, description, bytes_of(picture), out));
    return (key){out[0], out[1]};
}

/* The frame after `last`. Running out of room is no fault of the recorder: the caller is told. */
static int add_frame(study *s, key *last, uint64_t picture) {
    uint64_t out[2];
    uint64_t refusal = doorsedge_insert(s->head, TABLES(s), last->slot, last->generation, picture, bytes_of(picture), out);
    if (refusal == DOORSEDGE_NO_ELEMENT)
        return 0;
    must("insert", refusal);
    *last = (key){out[0], out[1]};
    return 1;
}

/* Joins two runs under one description; the other description comes back. */
static uint64_t join_runs(study *s, key a, key b, key *kept) {
    uint64_t out[4];
    must("union", doorsedge_union(s->head, TABLES(s), a.slot, a.generation, b.slot, b.generation, out));
    *kept = (key){out[1], out[2]};
    printf("joined: description %" PRIu64 " goes, %" PRIu64 " frames changed their run\n", out[0], out[3]);
    return out[0];
}

/* Takes the last union back, which a viewer's calls in between do not hinder; any other call does. */
static void take_back(study *s) {
    uint64_t refusal = doorsedge_undo(s->head, TABLES(s));
    if (refusal == DOORSEDGE_NOTHING) {
        printf("nothing to take back: refused %" PRIu64 "\n", refusal);
        return;
    }
    must("undo", refusal);
    printf("taken back\n");
}

static void drop_frame(study *s, key k) {
    uint64_t out[4];
    must("remove", doorsedge_remove_element(s->head, TABLES(s), k.slot, k.generation, out));
    printf("dropped picture %" PRIu64 "%s\n", out[0], out[1] ? ", the run's last" : "");
}

/* What an overlay says of a key that it was handed: whether its frame is there, and if not, why. */
static void tell(const study *s, const char *whose, key k) {
    uint64_t result = doorsedge_lookup(s->head, TABLES(s), k.slot, k.generation);
    if (DOORSEDGE_NUMBER(result) != DOORSEDGE_DEAD)
        must("lookup", result);
    const char *why = "its frame is there";
    switch (DOORSEDGE_CAUSE(result)) {
    case DOORSEDGE_NO_SLOT: why = "no key of this study"; break;
    case DOORSEDGE_FREE_SLOT: why = "its frame was dropped"; break;
    case DOORSEDGE_OTHER_GENERATION: why = "an old key, another frame is in its slot"; break;
    }
    printf("%s: %s\n", whose, why);
}

/* What a viewer shows of a run: its description, how many bytes it has and its pictures, from the given frame on. */
static void show_run(const study *s, key k) {
    uint64_t places[DOORSEDGE_LIST_LEN(FRAMES)], count[1], value[1], bytes[1], picture[1];
    must("shared value", doorsedge_get_shared(s->head, TABLES(s), k.slot, k.generation, value));
    must("total", doorsedge_get_total(s->head, TABLES(s), k.slot, k.generation, bytes));
    must("list", doorsedge_list(s->head, TABLES(s), k.slot, k.generation, places, DOORSEDGE_LIST_LEN(FRAMES), count));
    printf("run %" PRIu64 ", %" PRIu64 " bytes:", value[0], bytes[0]);
    for (uint64_t i = 0; i < count[0]; i++) {
        const uint64_t *place = places + i * DOORSEDGE_PLACE;
        must("get", doorsedge_get(s->head, TABLES(s), place[DOORSEDGE_PLACE_SLOT], place[DOORSEDGE_PLACE_GENERATION], picture));
        printf(" %" PRIu64, picture[0]);
    }
    printf("\n");
}

/* The frames move down, in the order in which they stand. Every key is new then: those that the recorder holds become the
   new ones of their frames. */
static void pack(study *s, key *held[], size_t count) {
    uint64_t pairs[DOORSEDGE_PAIRS_LEN(FRAMES)], out[2];
    must("compress", doorsedge_compress_with(s->head, TABLES(s), 0, pairs, DOORSEDGE_PAIRS_LEN(FRAMES), out));
    for (size_t i = 0; i < count; i++) {
        const uint64_t *pair = pairs;
        while (pair[DOORSEDGE_PAIR_OLD_SLOT] != held[i]->slot) /* each is the key of a frame, so it is among them */
            pair += DOORSEDGE_PAIR;
        *held[i] = (key){pair[DOORSEDGE_PAIR_NEW_SLOT], pair[DOORSEDGE_PAIR_NEW_GENERATION]};
    }
    printf("packed: %" PRIu64 " frames, each with a new key\n", out[0]);
}

/* The study's file, to the start of this stream. */
static size_t save(const study *s, FILE *to) {
    static uint8_t file[DOORSEDGE_FILE_LEN(RUNS, FRAMES)];
    uint64_t bytes[1];
    must("write", doorsedge_write_file(s->head, TABLES(s), file, sizeof file, bytes));
    rewind(to);
    if (fwrite(file, 1, bytes[0], to) != bytes[0] || fflush(to) != 0) {
        perror("the study's file");
        exit(1);
    }
    return bytes[0];
}

/* The first bytes of the stream as a study, whatever the tables held: any bytes may come from outside, so a refusal is told. */
static uint64_t load(study *s, FILE *from, size_t bytes) {
    static uint8_t file[DOORSEDGE_FILE_LEN(RUNS, FRAMES)];
    rewind(from);
    s->head[DOORSEDGE_ELEMS_CAPACITY] = FRAMES;
    s->head[DOORSEDGE_SHARED_CAPACITY] = RUNS;
    return doorsedge_read_file(s->head, TABLES(s), file, fread(file, 1, bytes < sizeof file ? bytes : sizeof file, from));
}

/* Saved, and read by a viewer: once cut by a byte on its way, and once whole. There the frames have slots 1 and up, in the file's
   order, and every key is new. */
static void save_and_view(const study *s, FILE *file) {
    static study viewer;
    size_t bytes = save(s, file);
    printf("saved: %zu bytes\n", bytes);
    printf("a file that was cut: refused %" PRIu64 "\n", load(&viewer, file, bytes - 1));
    must("read", load(&viewer, file, bytes));
    printf("the viewer has %" PRIu64 " runs and %" PRIu64 " frames\n", viewer.head[DOORSEDGE_SHARED_LIVE],
           viewer.head[DOORSEDGE_ELEMS_LIVE]);
    for (uint64_t slot = 1; slot <= viewer.head[DOORSEDGE_ELEMS_LIVE];) {
        uint64_t count[1];
        show_run(&viewer, (key){slot, 1});
        must("count", doorsedge_len_surject(viewer.head, TABLES(&viewer), slot, 1, count));
        slot += count[0];
    }
}

/* The study goes to another recorder's tables, whatever they held, and this one's are empty. Every key is new: the frames are
   numbered from 1, run by run, with the generation that is handed in. */
static void hand_over(study *s, study *to, uint32_t generation) {
    uint64_t over[1];
    must("transfer", doorsedge_transfer_canonical(to->head, TABLES(to), generation, s->head, TABLES(s), over));
    printf("handed over: %" PRIu64 " frames in %" PRIu64 " runs, %" PRIu64 " are left here\n", to->head[DOORSEDGE_ELEMS_LIVE],
           to->head[DOORSEDGE_SHARED_LIVE], s->head[DOORSEDGE_ELEMS_LIVE]);
}

/* The study leaves the tables, run by run; they are empty then, and old keys are dead. */
static void write_out(study *s) {
    uint64_t records[DOORSEDGE_DRAIN_LEN(FRAMES)], count[1];
    must("drain all", doorsedge_drain_all(s->head, TABLES(s), records, DOORSEDGE_DRAIN_LEN(FRAMES), count));
    for (uint64_t i = 0; i < count[0]; i++) {
        const uint64_t *record = records + i * DOORSEDGE_RECORD;
        printf("out %" PRIu64, record[DOORSEDGE_RECORD_PAYLOAD]);
        if (record[DOORSEDGE_RECORD_LAST])
            printf(", end of run %" PRIu64, record[DOORSEDGE_RECORD_VALUE]);
        printf("\n");
    }
}

int main(int argc, char **argv) {
    static study s, second;
    FILE *file = argc > 1 ? fopen(argv[1], "wb+") : tmpfile();
    if (!file) {
        perror("the study's file");
        return 1;
    }
    begin_study(&s);
    begin_study(&second);

    /* two runs come in at the same time */
    key left = begin_run(&s, 100, 1), left_last = left;
    key right = begin_run(&s, 200, 2), right_last = right;
    for (uint64_t i = 1; i < 4; i++)
        add_frame(&s, &left_last, 100 + i);
    add_frame(&s, &right_last, 201);
    show_run(&s, left);
    show_run(&s, right);

    /* joined by mistake, which is seen in the viewer: both runs are as they were */
    key kept;
    join_runs(&s, left, right, &kept);
    show_run(&s, kept);
    take_back(&s);
    show_run(&s, left);
    show_run(&s, right);
    take_back(&s);

    /* they were one after all, from the last frames on: the larger run's description stays */
    join_runs(&s, right_last, left_last, &kept);
    show_run(&s, kept);

    /* a bad frame goes, and its key is refused from then on */
    tell(&s, "the key of picture 200", right);
    drop_frame(&s, right);
    uint64_t picture[1], result = doorsedge_get(s.head, TABLES(&s), right.slot, right.generation, picture);
    printf("its key then: refused %" PRIu64 " cause %" PRIu64 "\n", DOORSEDGE_NUMBER(result), DOORSEDGE_CAUSE(result));
    tell(&s, "the key of picture 200", right);
    tell(&s, "a key that was damaged", (key){right.slot + 1024, right.generation});

    /* the free slot goes, and the run is the same under its new keys */
    pack(&s, (key *[]){&left, &left_last}, 2);
    tell(&s, "the key of picture 200", right);
    printf("the last frame of the left run: key %" PRIu64 " %" PRIu64 "\n", left_last.slot, left_last.generation);
    show_run(&s, left);

    /* another run comes in, and the study is saved */
    key third = begin_run(&s, 400, 4);
    add_frame(&s, &third, 401);
    save_and_view(&s, file);
    fclose(file);

    /* there is room for 64 frames, and 57 more come in */
    uint64_t came = 0;
    while (add_frame(&s, &left_last, 300 + came))
        came++;
    printf("%" PRIu64 " more frames, then no room\n", came);

    /* a table that was damaged on its way is not used */
    s.elems[DOORSEDGE_FRAME_NEXT] ^= 1;
    printf("damaged: refused %" PRIu64 "\n", doorsedge_check(s.head, TABLES(&s)));
    s.elems[DOORSEDGE_FRAME_NEXT] ^= 1;
    printf("mended: refused %" PRIu64 "\n", doorsedge_check(s.head, TABLES(&s)));

    /* the next patient: a short study, which another recorder takes over and writes out */
    uint64_t over[1];
    must("clear", doorsedge_clear(s.head, TABLES(&s), over));
    key only = begin_run(&s, 500, 5);
    begin_run(&s, 600, 6);
    add_frame(&s, &only, 501);
    hand_over(&s, &second, 40);
    tell(&s, "the key of picture 501 at the first", only);
    show_run(&second, (key){1, 40});
    write_out(&second);
    return 0;
}
