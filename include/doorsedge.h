/* Doorsedge: runs of frames in lent tables, with a shared value and a total of bytes for each run.

   A port of `SurjectArena` of the Rust crate triple_arena 0.15.1 (MIT OR Apache-2.0), every function of it proved.
   Link with target/staticlib/libhost.a (`tools/archive`), or, where `./install` has laid it, with
   `pkg-config --cflags --libs doorsedge`.

   The caller owns everything: a head of DOORSEDGE_HEAD numbers, a table of element slots, a table of shared slots, and
   the buffers that some calls write. Nothing is allocated, nothing is kept between calls. Any numbers may stand in
   them: each call tests them and refuses what does not fit.

   Pointers. A length is counted in numbers (uint64_t), not in bytes; a run file's alone is counted in bytes. Each pointer
   must be to memory of the size said, aligned as a uint64_t is, a run file's aligned in any way, and what a call may write
   must not overlap anything else that it is given. NULL is allowed exactly where a length of 0 comes with it: `drain_all`
   of empty tables takes (NULL, 0) for its records, `compress_with` for its pairs.

   One call at a time may be made on a head and its tables, reads included: nothing here locks, so threads that share
   them need one lock around every call. And what a call answered holds until the next call: a count that was read
   before another actor's insert is not the run's count after it. Who saves a run takes it by `seal`, not by a count and a
   list.

   Sealing. `seal` answers a run's shared value and count and writes the key and payload of each of its frames, all of one
   moment, and marks the run in its shared slot. From then on no frame comes into that run: `insert` at it and `union` with
   it, from either side, are refused 12, and so is sealing it again. So the frames of the run are always among those that
   `seal` wrote, by their new keys after a compression. Reading, setting, removing and draining go on as before. The mark
   goes when the run's last frame goes, and with `clear`, `fresh` and `read_file`; a compression takes it along. There is
   no call that takes a seal back.

   Undo. After an accepted `union` the head keeps what is needed to take it back, in its last four numbers, and `undo`
   does: head and both tables are then number for number as they were before the union, ring order, free chain and shared
   slot included, and there is nothing further to undo. Any other accepted call drops what the head keeps, but a read,
   `list`, `lookup`, `check` and `write_file`; so does a set or an exchange of values that were there already. A refused
   call leaves it alone. So who wants to offer an undo makes no other call in between; and of several unions only the last
   comes back. No frame comes or goes by an undo, and no key changes.

   Copies. `clone_from` copies a study to other tables, say to those of a review station: every frame and every header to
   the slot that it has, so that each key that is live in the source is live in the copy, and no other, and means the same
   frame there: every read with such keys answers alike on both. The copy has nothing to undo. The source is only read, and
   keeps its own undo. The target's head gives its capacities, which may differ from the source's; whatever else stood in the
   target's head and tables goes, sound or not. From then on the two are apart: what is done in one does not show in the
   other, and a key that one of them gives may be live in the other too and mean another frame there. So mark whose key it is.

   Moves. `transfer_canonical` moves a study to other tables, say to those of the recorder that goes on with it: all frames in
   canonical order, numbered from slot 1 as `compress_canonical` would number them, each with the generation that is handed in.
   Whatever the target held is gone. The source is left as `clear` leaves it, and `out` says whether its generation overflowed
   in that; but an empty source stays as it was, and leaves an empty target with that generation. What must fit is how many
   frames and runs the source has, wherever they lie. Neither side has anything to undo then. No key from before, of either
   study, is good afterwards: for the source it is as after `clear`, for the target as after `fresh`. Who needs a frame's new
   key lists its run before the move: the frames of a run come to slots one after the other, from the one of the lowest slot on.

   Run files. `write_file` writes a study into bytes that the caller stores or sends: every run's shared value and total,
   and its frames' payloads and sizes in ring order from its lowest slot, runs in the order of their lowest slots. Nothing
   of the study changes, and its undo is kept. `read_file` makes a study of such bytes, in tables of any capacities that
   have room: the frames come to slots 1 and up in the file's order, run k under shared slot k, as `compress_canonical`
   would have them. What a file does not hold is not there then: no run is sealed, every frame has generation 1, nothing is
   to be undone. So the keys of the study that was written are no keys of the one that was read, and of the tables that
   were read into, a read makes all earlier keys old, as `fresh` does. Bytes are believed in nothing: they are tested whole
   before a number is stored, and what is not exactly a run file is refused 9, or 11 where its version is another. So a
   file that was cut, or got longer, or was changed in an offset, length, count, size or total is refused; one whose values
   or payloads alone were changed is not, since those may be any numbers. docs/FILE.md has the format on one page.

   Sizes. A frame has a size in bytes, a uint32_t given with it, and a run's header the total of its frames' sizes.
   `insert` adds to the total, `union` adds both, `undo` parts them again, removals and drains subtract, and both
   compressions, copies and moves carry sizes and totals along; setting a payload leaves the size. A total stays below
   281,474,976,710,656 (65,536 frames of 4,294,967,295 bytes have less), so nothing overflows and no call is refused for
   it. `get_size` and `get_total` read them. Neither places nor records hold sizes: who needs a frame's size reads it
   before the frame goes.

   Refusals. Each entry returns 0 when it accepted, else the number of the refusal. A refused call changes nothing: head,
   tables, buffers and `out` stay as they were. The tests come in the order 1, 2, 13, 10, 3, 4, 12, 6, 5, 7, and each entry
   below lists those that it can give; `clone_from` and `transfer_canonical` alone test 5 before 6, and `read_file` tests in
   the order 1, 9, 11, 9, 6, 5. Every entry that takes tables can give 1, and 2 but for `fresh` and `read_file`; of the two
   studies of `clone_from`, 2 is said of the source alone, of those of `transfer_canonical` of both, and each number of the
   source first. Refusal 3 says why the key is dead: the entry returns 3 + 256 * cause, so compare DOORSEDGE_NUMBER(result)
   with DOORSEDGE_DEAD, never the result itself. Every other result is the number alone.

   Keys. A key is two numbers, slot and generation. It is live while its frame is in the tables, and dead (refusal 3)
   from its frame's removal on. Where only these calls write the tables, a dead key can come alive again, meaning
   another frame, only after one of these:
     - an answer said overflow: the generation went from 4,294,967,295 to 1, and rises again through old numbers. A
       removal raises it by one, so with a thousand a second that comes after 49 days;
     - drain_all overflowed in its closing clear, which no answer says: the head's generation is then 1;
     - `fresh`, `read_file`, or a compression with `reset`: the generation is 1 again;
     - `clone_from` to these tables, for each key that they gave or held before it: the generation is the source's then;
     - `transfer_canonical` to these tables: the generation is the one handed in. From these tables it is a `clear`.
   A key that came with a copy is, in the copy, a key that was given when the source gave it: what the source's calls did up
   to the copy, and the copy's calls from there on, is what counts for it.
   Why a key is dead. One of three causes, tested in this order: 1 its slot is 0 or past the extent, 2 its slot is free,
   3 its slot holds a frame of another generation. Of several keys it is the cause of the first dead one, in the order of
   the arguments. Where only these calls write the tables, a key that was given since the last `fresh`, `clear`,
   `drain_all`, compression, read of a file, move from or to these tables or copy to them, or that was live in that copy,
     - never has cause 1;
     - has cause 2 where its frame is gone and its slot is free;
     - has cause 3 where its frame is gone and another came into its slot.
   So cause 1 is that of a key from before, of other tables, or damaged on its way. But such keys can have any of the three.
   `lookup` asks for nothing but this.

   After `fresh`, `clear`, `drain_all`, `read_file`, a compression and a move, on both sides, forget all keys from before,
   and after a copy those of the target's old study; `compress_with` tells each frame's new one. What to do on overflow: before the next frame is put
   in, compress, and forget all keys from before. Or, where keys have to stay, forget those of frames that are gone (a
   read gives 3 for each), and each of the others as soon as its frame goes: they are good until then.

   What a call costs. Anything may stand in the tables, so every call but `fresh` and `read_file` reads both of them whole, up
   to their capacities, before it does its own work; `fresh` writes them whole, `clone_from` reads the source's and writes
   the target's, and `transfer_canonical` reads and writes both. That is 4 to 7 ns a slot on the machine of docs/SPEED.md, and
   up to 30 where one ring lies scattered over
   65,536 slots: choose capacities that a study needs. Where the head keeps a union, the smaller of its two runs is
   walked once more. `read_file` goes through the file twice, first to test it, and writes the tables whole. A call takes at
   most DOORSEDGE_STACK bytes of stack (tests/stack-use.sh adds them up), and each but `write_file` at most 9,728; it uses no
   other memory than what is lent, and asks for one symbol from outside, memset.

   Planning unions. Each `union` answers how many frames changed their run: that many class entries it rewrote. From `fresh`
   on, as long as frames are only put in and runs joined (reads, sets, seals and refused calls may come between), these
   counts together are at most what `union_ceiling` answers for the number of frames put in, however the runs are joined:
   1,000 frames cost at most 9,000 rewrites, 65,536 at most 1,048,576. Half of the ceiling can come about: at a power of two,
   where runs are always joined with runs as large as they are. Any other accepted call ends this: then count from the
   next `fresh`.

   Sound. Up to the extent an element slot is free if its generation is 0, a shared slot if its count is 0; else it is
   live. Refusal 2 is given exactly if one of these does not hold:
      1  the head's generation is 1 to 4,294,967,295
      2  each extent is at most its capacity
      3  each live number is how many live slots there are
      4  a live element slot's generation is 1 to 4,294,967,295
      5  each free chain, from the root along next free, meets every free slot up to the extent and no other, none
         twice, and ends at 0
      6  a free slot holds 0 but for next free, a live shared slot 0 in next free, a slot past the extent 0 everywhere
      7  previous and next of a live element slot are live, and undo each other
      8  the class of a live element slot is a live shared slot
      9  all frames of a ring (along next) have one class
     10  all frames of a class are in one ring
     11  every live shared slot has a ring, and its count is that ring's number of frames
     12  the mark of a live shared slot is 0 or 1 (of a free one it is 0, by line 6)
     13  the size of a live element slot is at most 4,294,967,295
     14  the total of a live shared slot is the sum of the sizes around its ring
     15  the head's last four numbers are 0, or they describe a union whose taking back gives a sound state, from which that
         union gives the present one
   The definition is crates/rules/specs/Sound.antt, a field for each line, and of line 15 crates/rules/specs/Undo.antt.

   Numbers. Payloads and shared values are any uint64_t. Yes is 1 and no is 0. */
#ifndef DOORSEDGE_H
#define DOORSEDGE_H

#include <stddef.h>
#include <stdint.h>

#ifdef __cplusplus
extern "C" {
#endif

/* ---- Refusals */

enum doorsedge_refusal {
    DOORSEDGE_OK = 0,
    DOORSEDGE_SHAPE = 1,      /* a capacity is not 1 to 65,536, or a table's length is not what its capacity asks */
    DOORSEDGE_UNSOUND = 2,    /* the shape fits, but head and tables are not a sound state (Sound 1 to 15, above) */
    DOORSEDGE_DEAD = 3,       /* a key handed in is not live; the result says why, see doorsedge_cause */
    DOORSEDGE_SAME_CLASS = 4, /* two keys that must be of different runs are of one */
    DOORSEDGE_NO_ELEMENT = 5, /* no element slot up to the capacity is free; of a copy: its last frame's slot is past it; of a
                                 move or a file: it has more frames */
    DOORSEDGE_NO_SHARED = 6,  /* no shared slot up to the capacity is free; of a copy: its last header's slot is past it; of a
                                 move or a file: it has more runs */
    DOORSEDGE_SHORT = 7,      /* a buffer has fewer places than needed */
    DOORSEDGE_NO_FILE = 9,    /* the bytes are no run file */
    DOORSEDGE_NOTHING = 10,   /* there is no union to take back */
    DOORSEDGE_OTHER_VERSION = 11, /* the bytes begin with another version than DOORSEDGE_FILE_VERSION */
    DOORSEDGE_SEALED = 12,    /* the run is sealed: no frame may come into it, nor may it be sealed again */
    DOORSEDGE_OUT_OF_RANGE = 13 /* a number handed in is not in its range: of the ceiling call, or a generation of 0 */
};

/* Why a key is dead: of the first dead key, in the order of the arguments. */
enum doorsedge_cause {
    DOORSEDGE_NO_SLOT = 1,         /* its slot is 0 or past the extent */
    DOORSEDGE_FREE_SLOT = 2,       /* its slot is free */
    DOORSEDGE_OTHER_GENERATION = 3 /* its slot holds a frame of another generation */
};

/* What a result says: the refusal's number, 0 when accepted; and the cause of refusal 3, else 0. */
#define DOORSEDGE_NUMBER(result) ((result) & UINT64_C(255))
#define DOORSEDGE_CAUSE(result) ((result) >> 8)

/* ---- Layout. Slots are numbered from 1; slot s of a table of width w begins at number (s - 1) * w. */

#define DOORSEDGE_HEAD 13         /* numbers to a head */
#define DOORSEDGE_FRAME 6         /* numbers to an element slot */
#define DOORSEDGE_HEADER 5        /* numbers to a shared slot */
#define DOORSEDGE_PLACE 2         /* numbers to a place that `list` writes */
#define DOORSEDGE_SEAL_PLACE 3    /* numbers to a place that `seal` writes */
#define DOORSEDGE_RECORD 6        /* numbers to a record that `drain` and `drain_all` write */
#define DOORSEDGE_PAIR 4          /* numbers to a pair of keys that `compress_with` writes */
#define DOORSEDGE_MOST_SLOTS 65536
#define DOORSEDGE_STACK 17408     /* bytes of stack that a call takes at most, memset's own not counted */
#define DOORSEDGE_LAST_GENERATION UINT64_C(4294967295)
#define DOORSEDGE_MOST_BYTES UINT64_C(4294967295) /* the greatest size of a frame */

/* A run file: its version, and the bytes before its contents, of each run in the contents, of each body before its frames,
   and of each frame. */
#define DOORSEDGE_FILE_VERSION 1
#define DOORSEDGE_FILE_PREFACE 8 /* version, run count: a uint32_t each; all numbers of a file are little-endian */
#define DOORSEDGE_FILE_ENTRY 8   /* the body's offset from the file's start, and its length: a uint32_t each */
#define DOORSEDGE_FILE_BODY 20   /* shared value and total, a uint64_t each; frame count, a uint32_t */
#define DOORSEDGE_FILE_FRAME 12  /* payload, a uint64_t; size, a uint32_t */

/* Bytes of the file of so many runs and frames: at most 2,621,448. */
#define DOORSEDGE_FILE_LEN(runs, frames)                                                                               \
    (DOORSEDGE_FILE_PREFACE + (size_t)(runs) * (DOORSEDGE_FILE_ENTRY + DOORSEDGE_FILE_BODY) +                          \
     (size_t)(frames) * DOORSEDGE_FILE_FRAME)

/* Lengths, in numbers, for capacities and counts of frames. */
#define DOORSEDGE_ELEMS_LEN(capacity) ((size_t)(capacity) * DOORSEDGE_FRAME)
#define DOORSEDGE_SHARED_LEN(capacity) ((size_t)(capacity) * DOORSEDGE_HEADER)
#define DOORSEDGE_LIST_LEN(frames) ((size_t)(frames) * DOORSEDGE_PLACE)
#define DOORSEDGE_SEAL_LEN(frames) ((size_t)(frames) * DOORSEDGE_SEAL_PLACE)
#define DOORSEDGE_DRAIN_LEN(frames) ((size_t)(frames) * DOORSEDGE_RECORD)
#define DOORSEDGE_PAIRS_LEN(frames) ((size_t)(frames) * DOORSEDGE_PAIR)
#define DOORSEDGE_SCRATCH_LEN(capacity) ((size_t)(capacity) * DOORSEDGE_FRAME)

/* The head's numbers. The extent is the highest slot ever used since fresh, clear, compression, copy, move or read of a file;
   the slots of what was copied, moved or read count as used. The last four are of the union that `undo` takes back, and all 0
   where there is none. */
enum doorsedge_head {
    DOORSEDGE_ELEMS_CAPACITY = 0,
    DOORSEDGE_ELEMS_EXTENT = 1,
    DOORSEDGE_ELEMS_ROOT = 2, /* first free slot, 0 for none */
    DOORSEDGE_ELEMS_LIVE = 3, /* how many frames there are */
    DOORSEDGE_SHARED_CAPACITY = 4,
    DOORSEDGE_SHARED_EXTENT = 5,
    DOORSEDGE_SHARED_ROOT = 6,
    DOORSEDGE_SHARED_LIVE = 7, /* how many runs there are */
    DOORSEDGE_GENERATION = 8,  /* 1 to 4,294,967,295 */
    DOORSEDGE_UNDO_KEPT = 9,   /* element slot of the key whose run's shared value was kept */
    DOORSEDGE_UNDO_GONE = 10,  /* element slot of the other key */
    DOORSEDGE_UNDO_MOVED = 11, /* how many frames changed their run */
    DOORSEDGE_UNDO_VALUE = 12  /* the shared value that was removed */
};

/* An element slot's numbers. A free one holds the next free slot in `next`, and 0 elsewhere. */
enum doorsedge_frame {
    DOORSEDGE_FRAME_GENERATION = 0, /* 0 when free */
    DOORSEDGE_FRAME_PAYLOAD = 1,
    DOORSEDGE_FRAME_CLASS = 2, /* the run's shared slot */
    DOORSEDGE_FRAME_PREVIOUS = 3,
    DOORSEDGE_FRAME_NEXT = 4,
    DOORSEDGE_FRAME_SIZE = 5 /* in bytes, at most DOORSEDGE_MOST_BYTES */
};

/* A shared slot's numbers. */
enum doorsedge_header {
    DOORSEDGE_HEADER_COUNT = 0, /* frames of the run, 0 when free */
    DOORSEDGE_HEADER_VALUE = 1, /* 0 when free */
    DOORSEDGE_HEADER_NEXT_FREE = 2,
    DOORSEDGE_HEADER_MARK = 3, /* 1 if the run is sealed, else 0; 0 when free */
    DOORSEDGE_HEADER_TOTAL = 4 /* the sizes of the run's frames, summed; 0 when free */
};

/* A place that `list` writes: the key of a frame. */
enum doorsedge_place { DOORSEDGE_PLACE_SLOT = 0, DOORSEDGE_PLACE_GENERATION = 1 };

/* A place that `seal` writes: the key of a frame, and its payload. */
enum doorsedge_seal_place {
    DOORSEDGE_SEAL_PLACE_SLOT = 0,
    DOORSEDGE_SEAL_PLACE_GENERATION = 1,
    DOORSEDGE_SEAL_PLACE_PAYLOAD = 2
};

/* A record that `drain` and `drain_all` write: the key that the frame had, its payload, whether it was the last frame
   of its run, the run's shared value (0 if not last), and whether the generation overflowed in this removal. */
enum doorsedge_record {
    DOORSEDGE_RECORD_SLOT = 0,
    DOORSEDGE_RECORD_GENERATION = 1,
    DOORSEDGE_RECORD_PAYLOAD = 2,
    DOORSEDGE_RECORD_LAST = 3,
    DOORSEDGE_RECORD_VALUE = 4,
    DOORSEDGE_RECORD_OVERFLOW = 5
};

/* A pair that `compress_with` writes: the key that the frame had, and the key that it has now. */
enum doorsedge_pair {
    DOORSEDGE_PAIR_OLD_SLOT = 0,
    DOORSEDGE_PAIR_OLD_GENERATION = 1,
    DOORSEDGE_PAIR_NEW_SLOT = 2,
    DOORSEDGE_PAIR_NEW_GENERATION = 3
};

/* ---- State */

/* Makes empty tables of these capacities: all zero, generation 1. The tables and the head may hold anything before.
   Refusals: 1, by the two capacities handed in and the two lengths. */
uint64_t doorsedge_fresh(uint64_t head[DOORSEDGE_HEAD], uint64_t elems_capacity, uint64_t shared_capacity,
                         uint64_t *elems, size_t elems_len, uint64_t *shared, size_t shared_len);

/* Tells whether head and tables are a sound state: 0 if so. Changes nothing.
   Refusals: 1, 2. */
uint64_t doorsedge_check(const uint64_t head[DOORSEDGE_HEAD], const uint64_t *elems, size_t elems_len,
                         const uint64_t *shared, size_t shared_len);

/* ---- Reads: they change nothing but `out`. */

/* Tells whether the key is live: 0 if so, else why not.
   Refusals: 1, 2, 3. */
uint64_t doorsedge_lookup(const uint64_t head[DOORSEDGE_HEAD], const uint64_t *elems, size_t elems_len,
                          const uint64_t *shared, size_t shared_len, uint64_t slot, uint64_t generation);

/* out: how many frames the key's run has.
   Refusals: 1, 2, 3. */
uint64_t doorsedge_len_surject(const uint64_t head[DOORSEDGE_HEAD], const uint64_t *elems, size_t elems_len,
                               const uint64_t *shared, size_t shared_len, uint64_t slot, uint64_t generation,
                               uint64_t out[1]);

/* out: 1 if both keys are of one run, else 0.
   Refusals: 1, 2, 3. */
uint64_t doorsedge_in_same_surject(const uint64_t head[DOORSEDGE_HEAD], const uint64_t *elems, size_t elems_len,
                                   const uint64_t *shared, size_t shared_len, uint64_t slot0, uint64_t generation0,
                                   uint64_t slot1, uint64_t generation1, uint64_t out[1]);

/* out: the frame's payload.
   Refusals: 1, 2, 3. */
uint64_t doorsedge_get(const uint64_t head[DOORSEDGE_HEAD], const uint64_t *elems, size_t elems_len,
                       const uint64_t *shared, size_t shared_len, uint64_t slot, uint64_t generation, uint64_t out[1]);

/* out: the shared value of the key's run.
   Refusals: 1, 2, 3. */
uint64_t doorsedge_get_shared(const uint64_t head[DOORSEDGE_HEAD], const uint64_t *elems, size_t elems_len,
                              const uint64_t *shared, size_t shared_len, uint64_t slot, uint64_t generation,
                              uint64_t out[1]);

/* out: the frame's size in bytes.
   Refusals: 1, 2, 3. */
uint64_t doorsedge_get_size(const uint64_t head[DOORSEDGE_HEAD], const uint64_t *elems, size_t elems_len,
                            const uint64_t *shared, size_t shared_len, uint64_t slot, uint64_t generation,
                            uint64_t out[1]);

/* out: the total of the key's run: the sizes of its frames, summed.
   Refusals: 1, 2, 3. */
uint64_t doorsedge_get_total(const uint64_t head[DOORSEDGE_HEAD], const uint64_t *elems, size_t elems_len,
                             const uint64_t *shared, size_t shared_len, uint64_t slot, uint64_t generation,
                             uint64_t out[1]);

/* Writes the keys of the key's run into `places`, in ring order from the key: DOORSEDGE_PLACE numbers a frame.
   Numbers past those written stay as they were.
   out: how many frames were written.
   Refusals: 1, 2, 3, 7 (fewer than DOORSEDGE_LIST_LEN(frames of the run) numbers). */
uint64_t doorsedge_list(const uint64_t head[DOORSEDGE_HEAD], const uint64_t *elems, size_t elems_len,
                        const uint64_t *shared, size_t shared_len, uint64_t slot, uint64_t generation,
                        uint64_t *places, size_t places_len, uint64_t out[1]);

/* ---- Sets: keys, rings, sizes and totals stay as they are, and of the head all but what it keeps of a union, which
   goes. */

/* Stores a payload. out: the old one.
   Refusals: 1, 2, 3. */
uint64_t doorsedge_set(uint64_t head[DOORSEDGE_HEAD], uint64_t *elems, size_t elems_len, const uint64_t *shared,
                       size_t shared_len, uint64_t slot, uint64_t generation, uint64_t payload, uint64_t out[1]);

/* Stores the shared value of the key's run. out: the old one.
   Refusals: 1, 2, 3. */
uint64_t doorsedge_set_shared(uint64_t head[DOORSEDGE_HEAD], const uint64_t *elems, size_t elems_len,
                              uint64_t *shared, size_t shared_len, uint64_t slot, uint64_t generation, uint64_t value,
                              uint64_t out[1]);

/* Stores the shared values of four different runs at once. keys: slot and generation of each key in turn.
   out: the old values, in key order.
   Refusals: 1, 2, 3 (with the cause of the first dead one of the four), 4 (two keys of one run). */
uint64_t doorsedge_exchange_shared4(uint64_t head[DOORSEDGE_HEAD], const uint64_t *elems, size_t elems_len,
                                    uint64_t *shared, size_t shared_len, const uint64_t keys[8],
                                    const uint64_t values[4], uint64_t out[4]);

/* ---- Seal: what a finalizer calls. Keys and rings stay as they are, and of the head all but what it keeps of a union,
   which goes. */

/* Seals the key's run: writes the key and the payload of each of its frames into `places`, in ring order from the key,
   DOORSEDGE_SEAL_PLACE numbers a frame, and sets the run's mark. Numbers past those written stay as they were. From then
   on no frame comes into the run; see Sealing, above.
   out: the run's shared value; and how many frames it has, which is how many were written.
   Refusals: 1, 2, 3, 12 (the run is sealed already), 7 (fewer than DOORSEDGE_SEAL_LEN(frames of the run) numbers; the run
   is not sealed then). */
uint64_t doorsedge_seal(uint64_t head[DOORSEDGE_HEAD], const uint64_t *elems, size_t elems_len, uint64_t *shared,
                        size_t shared_len, uint64_t slot, uint64_t generation, uint64_t *places, size_t places_len,
                        uint64_t out[2]);

/* ---- Frames in and out */

/* Begins a run: one frame with this payload and this size in bytes, and this shared value. The run's total is the size.
   out: the frame's key.
   Refusals: 1, 2, 6, 5. */
uint64_t doorsedge_insert_surject(uint64_t head[DOORSEDGE_HEAD], uint64_t *elems, size_t elems_len, uint64_t *shared,
                              size_t shared_len, uint64_t payload, uint64_t value, uint32_t size, uint64_t out[2]);

/* Puts a frame of this size in bytes into the key's run, immediately after the key's frame. The run's total grows by it.
   out: the new frame's key.
   Refusals: 1, 2, 3, 12 (the run is sealed), 5. */
uint64_t doorsedge_insert(uint64_t head[DOORSEDGE_HEAD], uint64_t *elems, size_t elems_len, uint64_t *shared,
                          size_t shared_len, uint64_t slot, uint64_t generation, uint64_t payload, uint32_t size,
                          uint64_t out[2]);

/* Joins two runs. The larger run's shared value is kept, or the first key's where they are equally large, by their numbers of
   frames and not by their bytes; the totals are added; keys stay live. The head keeps what `undo` needs.
   out: the removed shared value, slot and generation of the key (of the two) whose value is kept, and how many frames
   changed their run.
   Refusals: 1, 2, 3, 4 (both keys of one run), 12 (one of the runs is sealed). */
uint64_t doorsedge_union(uint64_t head[DOORSEDGE_HEAD], uint64_t *elems, size_t elems_len, uint64_t *shared,
                         size_t shared_len, uint64_t slot0, uint64_t generation0, uint64_t slot1, uint64_t generation1,
                         uint64_t out[4]);

/* Takes the last union back; see Undo, above. Head and tables become what they were before it, and nothing is kept.
   Refusals: 1, 2, 10 (no union was made, or another call was accepted since that is no read, list, lookup, check or
   write_file). */
uint64_t doorsedge_undo(uint64_t head[DOORSEDGE_HEAD], uint64_t *elems, size_t elems_len, uint64_t *shared,
                        size_t shared_len);

/* Removes a frame. The run's total is less by its size. The generation rises by one.
   out: its payload; 1 if it was the run's last frame, else 0; the run's shared value if it was, else 0; and 1 if the
   generation overflowed (went from 4,294,967,295 to 1), else 0.
   Refusals: 1, 2, 3. */
uint64_t doorsedge_remove_element(uint64_t head[DOORSEDGE_HEAD], uint64_t *elems, size_t elems_len, uint64_t *shared,
                                  size_t shared_len, uint64_t slot, uint64_t generation, uint64_t out[4]);

/* Removes the key's whole run. The generation rises by one, once.
   out: the shared value; and 1 if the generation overflowed, else 0.
   Refusals: 1, 2, 3. */
uint64_t doorsedge_remove_shared(uint64_t head[DOORSEDGE_HEAD], uint64_t *elems, size_t elems_len, uint64_t *shared,
                                 size_t shared_len, uint64_t slot, uint64_t generation, uint64_t out[2]);

/* Removes the key's run frame by frame, in ring order from the key, and writes DOORSEDGE_RECORD numbers for each into
   `records`. The generation rises by one for each. Numbers past those written stay as they were.
   out: how many records were written.
   Refusals: 1, 2, 3, 7 (fewer than DOORSEDGE_DRAIN_LEN(frames of the run) numbers). */
uint64_t doorsedge_drain(uint64_t head[DOORSEDGE_HEAD], uint64_t *elems, size_t elems_len, uint64_t *shared,
                         size_t shared_len, uint64_t slot, uint64_t generation, uint64_t *records, size_t records_len,
                         uint64_t out[1]);

/* ---- All at once */

/* Drains every run: again and again the run of the lowest live slot, from there. Then clears; that last step's overflow
   is not reported. Without frames no record is needed: (NULL, 0) will do.
   out: how many records were written.
   Refusals: 1, 2, 7 (fewer than DOORSEDGE_DRAIN_LEN(all frames) numbers). */
uint64_t doorsedge_drain_all(uint64_t head[DOORSEDGE_HEAD], uint64_t *elems, size_t elems_len, uint64_t *shared,
                             size_t shared_len, uint64_t *records, size_t records_len, uint64_t out[1]);

/* Makes the tables as `fresh` leaves them, but with a generation one higher, also when they were empty.
   out: 1 if the generation overflowed, else 0.
   Refusals: 1, 2. */
uint64_t doorsedge_clear(uint64_t head[DOORSEDGE_HEAD], uint64_t *elems, size_t elems_len, uint64_t *shared,
                         size_t shared_len, uint64_t out[1]);

/* Moves all frames down: runs in the order of their lowest slots, each in ring order from there, to slots 1 and up; run
   k gets shared slot k. Every frame gets a new key: the new slot, and the generation, which becomes 1 if `reset` is not 0
   and else rises by one. The first DOORSEDGE_SCRATCH_LEN(element capacity) numbers of `scratch` are left 0, any past
   those as they were.
   out: 1 if the generation overflowed, else 0 (always 0 with `reset`).
   Refusals: 1, 2, 7 (fewer than DOORSEDGE_SCRATCH_LEN(element capacity) numbers). */
uint64_t doorsedge_compress_canonical(uint64_t head[DOORSEDGE_HEAD], uint64_t *elems, size_t elems_len,
                                      uint64_t *shared, size_t shared_len, uint64_t reset, uint64_t *scratch,
                                      size_t scratch_len, uint64_t out[1]);

/* Moves all frames down and keeps their order: the frames, in the order of their slots, to slots 1 and up, and the headers,
   in the order of theirs, to shared slots 1 and up. Runs stay what they were: rings, payloads, sizes, shared values, counts,
   marks and totals. Every frame gets a new key, as by `compress_canonical`, and both keys of each are written into `pairs`,
   DOORSEDGE_PAIR numbers a frame, in the order of the slots. Numbers past those written stay as they were. No scratch is
   needed, and without frames no pairs are: (NULL, 0) will do then.
   out: how many pairs were written, which is how many frames there are; and 1 if the generation overflowed, else 0 (always 0
   with `reset`).
   Refusals: 1, 2, 7 (fewer than DOORSEDGE_PAIRS_LEN(all frames) numbers). */
uint64_t doorsedge_compress_with(uint64_t head[DOORSEDGE_HEAD], uint64_t *elems, size_t elems_len, uint64_t *shared,
                                 size_t shared_len, uint64_t reset, uint64_t *pairs, size_t pairs_len,
                                 uint64_t out[2]);

/* ---- Planning: it takes no tables. */

/* The ceiling on union work: from `fresh` on, with `n` frames put in and nothing but frames put in and runs joined, all
   unions together change the run of at most this many frames; see Planning unions, above.
   out: n times the place of its highest one bit, places counted from 0.
   Refusals: 13 (n is zero, or above DOORSEDGE_MOST_SLOTS). */
uint64_t doorsedge_union_ceiling(uint64_t n, uint64_t out[1]);

/* ---- Two studies: the target first, then the source, which `clone_from` only reads. Nothing of the one overlaps the
   other. */

/* Copies a study; see Copies, above. Head and tables of the target become the source's live frames and headers in their own
   slots, with rings, payloads, sizes, shared values, counts, totals and marks, and with its generation. The extents are the
   last live slots, 0 where there is none; the free slots below are chained lowest first; every slot past is zero; and there
   is nothing to undo. Of the target only the two capacities are read and kept, and any numbers may stand in it. What must
   fit is the source's last live slots, not its live numbers; a compression of the source moves them down.
   Refusals: 1 (of the source, then of the target), 2 (of the source), 5, 6. */
uint64_t doorsedge_clone_from(uint64_t head[DOORSEDGE_HEAD], uint64_t *elems, size_t elems_len, uint64_t *shared,
                              size_t shared_len, const uint64_t from_head[DOORSEDGE_HEAD], const uint64_t *from_elems,
                              size_t from_elems_len, const uint64_t *from_shared, size_t from_shared_len);

/* Moves a study; see Moves, above. The target becomes what `compress_canonical` would make of the source, with this
   generation and the target's capacities, and the source what `clear` makes of it; an empty source stays as it was. Rings,
   payloads, sizes, shared values, counts, totals and marks come along.
   out: 1 if the source's generation overflowed, else 0 (always 0 where the source is empty).
   Refusals: 1 (of the source, then of the target), 2 (likewise), 13 (the generation is zero), 5, 6 (the source has more
   frames than the target's element capacity, or more runs than its shared capacity). */
uint64_t doorsedge_transfer_canonical(uint64_t head[DOORSEDGE_HEAD], uint64_t *elems, size_t elems_len,
                                      uint64_t *shared, size_t shared_len, uint32_t generation,
                                      uint64_t from_head[DOORSEDGE_HEAD], uint64_t *from_elems, size_t from_elems_len,
                                      uint64_t *from_shared, size_t from_shared_len, uint64_t out[1]);

/* ---- Run files; see above, and docs/FILE.md. `file` is bytes, and `file_len` how many. */

/* Writes the study as a run file to the start of `file`. Head and tables stay as they are, what the head keeps of a union
   too, and so do the bytes past the file.
   out: how many bytes the file has: DOORSEDGE_FILE_LEN(all runs, all frames), by the head's two live numbers.
   Refusals: 1, 2, 7 (fewer than so many bytes). */
uint64_t doorsedge_write_file(const uint64_t head[DOORSEDGE_HEAD], const uint64_t *elems, size_t elems_len,
                              const uint64_t *shared, size_t shared_len, uint8_t *file, size_t file_len,
                              uint64_t out[1]);

/* Makes a study of a run file, which is all of `file`, whatever stood in head and tables: of these only the two capacities
   are read and kept. The frames come to slots 1 and up in the file's order, each run to a ring of its own, run k under shared
   slot k, unsealed, and all with generation 1; everything past them is zero, and there is nothing to undo.
   Refusals: 1, 9, 11, 9, 6, 5, in this order: 9 for fewer than DOORSEDGE_FILE_PREFACE bytes, 11, 9 for anything else that
   is not as docs/FILE.md says, 6 for more runs than the shared capacity, 5 for more frames than the element capacity. */
uint64_t doorsedge_read_file(uint64_t head[DOORSEDGE_HEAD], uint64_t *elems, size_t elems_len, uint64_t *shared,
                             size_t shared_len, const uint8_t *file, size_t file_len);

/* ---- The head lent in place: a writer lends its own struct, which lies as the DOORSEDGE_HEAD numbers do, and calls
   these two as `insert` and `remove_element` are called. The same struct may be handed to the other entries, as its
   numbers:

       struct doorsedge_lent_head head;
       uint64_t *numbers = (uint64_t *)&head;
       doorsedge_fresh(numbers, FRAMES, RUNS, elems, elems_len, shared, shared_len);
       doorsedge_insert_surject(numbers, elems, elems_len, shared, shared_len, payload, value, size, key);
       doorsedge_insert_in_place(&head, elems, elems_len, shared, shared_len, key[0], key[1], payload, size, key); */

struct doorsedge_pool {
    uint64_t capacity, extent, root, live;
};

struct doorsedge_memory {
    uint64_t kept, gone, moved, value;
};

struct doorsedge_lent_head {
    struct doorsedge_pool elems, shared;
    uint64_t generation;
    struct doorsedge_memory undo;
};

/* As `doorsedge_insert`.
   Refusals: 1, 2, 3, 12, 5. */
uint64_t doorsedge_insert_in_place(struct doorsedge_lent_head *head, uint64_t *elems, size_t elems_len,
                                   uint64_t *shared, size_t shared_len, uint64_t slot, uint64_t generation,
                                   uint64_t payload, uint32_t size, uint64_t out[2]);

/* As `doorsedge_remove_element`.
   Refusals: 1, 2, 3. */
uint64_t doorsedge_remove_in_place(struct doorsedge_lent_head *head, uint64_t *elems, size_t elems_len,
                                   uint64_t *shared, size_t shared_len, uint64_t slot, uint64_t generation,
                                   uint64_t out[4]);

#ifdef __cplusplus
}
#endif

#endif
