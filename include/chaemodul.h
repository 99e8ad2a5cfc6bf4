/*
 * Chaemodul: the C interface of the proved register, run and judge (static library `capi`).
 *
 * Every function takes every input. Nothing is kept between calls, nothing is allocated, and a call touches only what is lent to it.
 * Refusal numbers are those of README.md; 0 is good. Pointers must be valid for the lengths given, and what is written must not overlap
 * what is read.
 */
#ifndef CHAEMODUL_H
#define CHAEMODUL_H

#include <stddef.h>
#include <stdint.h>

#ifdef __cplusplus
extern "C" {
#endif

/*
 * Judges an event log of log_len bytes. Returns answer[0].
 *   answer[0] refusal number, [1] its place (the offset of the refused field's first byte; 0 for a good log and for 7),
 *   answer[2] atomic: 1 if a legal serialization exists, else 0,
 *   answer[3] first: the number, from 1, of the first read at which none does, or 0,
 *   answer[4] writes ended, [5] reads ended, [6] reads overlapped.
 * Of a refused log, [2] to [6] are 0.
 */
uint32_t chaemodul_judge(const uint8_t *log, size_t log_len, uint32_t answer[7]);

/*
 * Runs a schedule of schedule_len bytes and writes its event log to out, which has room for out_len bytes. Returns answer[0].
 *   answer[0] refusal number, [1] its place (0 for a good run, for 7 and for 8), [2] the log's length, 0 when refused.
 * The bytes of out behind the log keep what they held; a refused run leaves all of them as found. `schedule` and `out` must not overlap.
 * Room for 65,535 bytes is always enough.
 */
uint32_t chaemodul_run(const uint8_t *schedule, size_t schedule_len, uint8_t *out, size_t out_len, uint32_t answer[3]);

/*
 * The machine's state, 25 numbers:
 *    0 to  3   buf[0,0] buf[0,1] buf[1,0] buf[1,1]
 *    4 to  7   their tags, in the same order
 *    8 to 11   ww rr c[0] c[1]
 *   12 to 14   q aw cw
 *   15 to 17   the writer's start, number and kept value
 *   18 to 20   r br cr
 *   21 to 23   the reader's value, start and number
 *   24         masq
 * The initial state for a value v: v v v v, 1 1 1 1, 0 1 0 0, 20 0 0, 0 1 v, 40 1 0, v 0 0, 1.
 *
 * Each function makes one move in place and returns its refusal number; a refused state is untouched. A number that does not fit (a
 * location or a bit above 255) is refused 9 like any other out of its range.
 */

/* A writer's start with its value: step 20, the beginning of a write. */
uint32_t chaemodul_writer_start(uint32_t state[25], uint32_t value);

/* Another writer step: 21 to 27. */
uint32_t chaemodul_writer_step(uint32_t state[25]);

/* A writer flicker at 21, 24 or 26: the bit being assigned there becomes `bit`. */
uint32_t chaemodul_writer_flicker(uint32_t state[25], uint32_t bit);

/* A reader step: 40 to 44. */
uint32_t chaemodul_reader_step(uint32_t state[25]);

/* A reader flicker at 41: rr becomes `bit`. */
uint32_t chaemodul_reader_flicker(uint32_t state[25], uint32_t bit);

#ifdef __cplusplus
}
#endif

#endif
