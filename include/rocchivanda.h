/*
 * The machine and the record checker for C. Link target/staticlib/librocchivanda.a, which `./build-library` writes for
 * x86-64 Linux, on a processor with SSE4.1 (x86-64-v2). The library allocates nothing, keeps nothing between calls and
 * calls only memcpy and memset.
 *
 * "Document 01" is the paper that fixes every byte, number and order. What each function leaves is proved for every
 * input: crates/rocchivanda/specs/Calls.antt is the promise, and docs/PROMISES.md says it in words.
 *
 * Slices. Each slice is two arguments, a pointer and how many entries it has: bytes, and for `answer` numbers of 64
 * bits. The caller owes what C cannot check:
 *   - the entries are there, to be read, and where the pointer is not const also to be written;
 *   - no pointer is null, also where there are no entries; `answer` is aligned as a uint64_t is;
 *   - a slice that is not const overlaps no other slice of the call, and nothing else reads or writes the slices
 *     until the call returns.
 * Nothing else is asked: lengths and contents may be any.
 *
 * The slices that step, step_recorded and run share:
 *   state   the 360 bytes of document 01: registers 0 to 255, then pc 256, next_pc 264, hi 272, lo 280, heap 288, step
 *           296, input offset 304, hint length 312 (8 bytes each, big-endian), key 320, exited 352, code 353, rules
 *           354, five zeros
 *   pages   page records of 4,104 bytes: page number (8 bytes, big-endian), then 4,096 bytes. Bytes after the last
 *           whole record are never touched
 *   hint    the hint buffer; its room is its length, at most 65,536
 *   output  what is written or hinted stands at its front; its other bytes stay
 *   index   the input index, records of 48 bytes: key 32, start 8, length 8
 *   data    the input data
 *   answer  four numbers; those after the fourth stay:
 *             [0]  the used page records, in and out
 *             [1]  the answer's first value:  Wrote its stream, Hint its count, Exited its code, Refused its number,
 *                  otherwise 0
 *             [2]  the answer's second value: Wrote its count, otherwise 0
 *             [3]  how many steps were unrefused and from unexited states: of run its count, of a step 1 or 0
 *
 * The result is the answer's kind, ROCCHIVANDA_STEPPED to ROCCHIVANDA_REFUSED.
 *
 * A state that is not 360 bytes or not well-formed (exited not 0 or 1, or one of the five zeros another number):
 * Refused with 1, and nothing but `answer` changes: [0] stays, [1] is 1, [2] and [3] are 0.
 * Fewer than four entries in `answer`: the result is 4, and nothing at all changes.
 */
#ifndef ROCCHIVANDA_H
#define ROCCHIVANDA_H

#include <stddef.h>
#include <stdint.h>

#ifdef __cplusplus
extern "C" {
#endif

/* The number of this interface, as rocchivanda_version answers it. */
#define ROCCHIVANDA_VERSION 1

/* The kinds of an answer. */
#define ROCCHIVANDA_STEPPED 0
#define ROCCHIVANDA_WROTE 1
#define ROCCHIVANDA_HINT 2
#define ROCCHIVANDA_EXITED 3
#define ROCCHIVANDA_REFUSED 4

/* How many bytes a state, a page record, an index record and a step record have, and how many entries an answer. */
#define ROCCHIVANDA_STATE_SIZE 360
#define ROCCHIVANDA_PAGE_SIZE 4104
#define ROCCHIVANDA_INDEX_SIZE 48
#define ROCCHIVANDA_RECORD_SIZE 752
#define ROCCHIVANDA_ANSWER_SIZE 4

/*
 * One step. A refusal with 2 to 13 changes only the state's step counter beside `answer`, one with 1 and a step of an
 * exited state nothing.
 */
uint64_t rocchivanda_step(
    uint8_t *state, size_t state_size,
    uint8_t *pages, size_t pages_size,
    uint8_t *hint, size_t hint_size,
    uint8_t *output, size_t output_size,
    const uint8_t *index, size_t index_size,
    const uint8_t *data, size_t data_size,
    uint64_t *answer, size_t answer_size);

/*
 * One step, as above, with its record: 752 bytes that rocchivanda_check accepts. `record` is filled for every unrefused
 * step from an unexited state that is not wide (5000 on 5; 5001 on 1, 2, 4), and otherwise stays. A `record` that is
 * not 752 bytes: Refused with 1, and nothing but `answer` changes.
 */
uint64_t rocchivanda_step_recorded(
    uint8_t *state, size_t state_size,
    uint8_t *pages, size_t pages_size,
    uint8_t *hint, size_t hint_size,
    uint8_t *output, size_t output_size,
    const uint8_t *index, size_t index_size,
    const uint8_t *data, size_t data_size,
    uint8_t *record, size_t record_size,
    uint64_t *answer, size_t answer_size);

/*
 * Steps until an answer other than Stepped comes, or as many steps as `budget` are made. The answer is the last step's.
 * Budget 0 makes none: for a well-formed state the answer is Stepped, whatever its rules, hint length and used page
 * records, and [3] is 0.
 */
uint64_t rocchivanda_run(
    uint8_t *state, size_t state_size,
    uint8_t *pages, size_t pages_size,
    uint8_t *hint, size_t hint_size,
    uint8_t *output, size_t output_size,
    const uint8_t *index, size_t index_size,
    const uint8_t *data, size_t data_size,
    uint64_t budget,
    uint64_t *answer, size_t answer_size);

/* Judges a step record: 0 where it is accepted, or the number of its refusal, 21 to 27. */
uint64_t rocchivanda_check(const uint8_t *record, size_t record_size);

/* The number of this interface. It changes when a promise above does. */
uint64_t rocchivanda_version(void);

#ifdef __cplusplus
}
#endif

#endif
