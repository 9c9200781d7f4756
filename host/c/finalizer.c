/* A finalizer and a writer at one run, as a host writes them in C. The finalizer seals: it has the run's description, its
   count and every picture of one moment, and saves that. A writer that comes a moment too late is refused 12, so it knows,
   and begins a run of its own; no picture is lost, and the saved count is the number of pictures saved. Built and run by
   host/c/run.sh, which compares what it prints with finalizer.stdout. */
#include "doorsedge.h"

#include <inttypes.h>
#include <stdio.h>
#include <stdlib.h>

#define FRAMES 16    /* the most frames of a study */
#define RUNS 4       /* the most runs */
#define PICTURE 5000 /* bytes to a picture */

typedef struct {
    uint64_t slot, generation;
} key;

/* The payload of a frame is the number of its picture, the shared value of a run the number of its description. */
static uint64_t head[DOORSEDGE_HEAD], elems[DOORSEDGE_ELEMS_LEN(FRAMES)], shared[DOORSEDGE_SHARED_LEN(RUNS)];
#define STATE head, elems, DOORSEDGE_ELEMS_LEN(FRAMES), shared, DOORSEDGE_SHARED_LEN(RUNS)

/* Refusals that a correct recorder never meets end it. */
static void must(const char *what, uint64_t result) {
    if (result != DOORSEDGE_OK) {
        fprintf(stderr, "%s: refused %" PRIu64 " cause %" PRIu64 "\n", what, DOORSEDGE_NUMBER(result), DOORSEDGE_CAUSE(result));
        exit(1);
    }
}

static key begin_run(uint64_t picture, uint64_t description) {
    uint64_t out[2];
    must("new run", doorsedge_insert_surject(STATE, picture, description, PICTURE, out));
    return (key){out[0], out[1]};
}

/* The writer: a picture comes after the last one. Where the run is sealed it begins another, under the same description. */
static key write_frame(key last, uint64_t picture, uint64_t description) {
    uint64_t out[2];
    uint64_t refusal = doorsedge_insert(STATE, last.slot, last.generation, picture, PICTURE, out);
    if (refusal == DOORSEDGE_SEALED) {
        printf("picture %" PRIu64 " comes too late: refused %" PRIu64 ", a run of its own\n", picture, refusal);
        return begin_run(picture, description);
    }
    must("insert", refusal);
    printf("picture %" PRIu64 " is in\n", picture);
    return (key){out[0], out[1]};
}

/* The finalizer: one call, and what it has is the run. Where it was saved before it is not saved again. */
static void save_run(key any) {
    uint64_t places[DOORSEDGE_SEAL_LEN(FRAMES)], out[2], bytes[1];
    uint64_t refusal = doorsedge_seal(STATE, any.slot, any.generation, places, DOORSEDGE_SEAL_LEN(FRAMES), out);
    if (refusal == DOORSEDGE_SEALED) {
        printf("saved already: refused %" PRIu64 "\n", refusal);
        return;
    }
    must("seal", refusal);
    /* nothing comes in any more, and nothing was removed since: the total is that of what was written */
    must("total", doorsedge_get_total(STATE, any.slot, any.generation, bytes));
    printf("saved: description %" PRIu64 ", %" PRIu64 " pictures, %" PRIu64 " bytes:", out[0], out[1], bytes[0]);
    for (uint64_t i = 0; i < out[1]; i++)
        printf(" %" PRIu64, places[i * DOORSEDGE_SEAL_PLACE + DOORSEDGE_SEAL_PLACE_PAYLOAD]);
    printf("\n");
}

int main(void) {
    must("fresh", doorsedge_fresh(head, FRAMES, RUNS, elems, DOORSEDGE_ELEMS_LEN(FRAMES), shared, DOORSEDGE_SHARED_LEN(RUNS)));
    key first = begin_run(100, 1), last = first;
    for (uint64_t picture = 101; picture < 104; picture++)
        last = write_frame(last, picture, 1);
    save_run(first);

    /* the frame that was lost once: put in after the count was taken */
    key late = write_frame(last, 104, 1);
    late = write_frame(late, 105, 1);
    uint64_t out[4];
    printf("joining it: refused %" PRIu64 "\n",
           doorsedge_union(STATE, late.slot, late.generation, first.slot, first.generation, out));

    /* the run is as it was saved, and the late pictures are saved too */
    must("count", doorsedge_len_surject(STATE, first.slot, first.generation, out));
    printf("the first run has %" PRIu64 " pictures\n", out[0]);
    save_run(first);
    save_run(late);

    /* a bad picture may still go; the run goes with its last one, and the slot's next run is open again */
    must("remove", doorsedge_remove_element(STATE, last.slot, last.generation, out));
    printf("picture %" PRIu64 " goes\n", out[0]);
    must("remove run", doorsedge_remove_shared(STATE, first.slot, first.generation, out));
    write_frame(begin_run(200, 2), 201, 2);
    return 0;
}
