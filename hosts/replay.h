/* Host code, not proved: the declarations of the proved calls of crates `replay` and `ascending_replay`.
   A whole list of calls on a freshly opened session, an ordinary or an ascending one.
   `tools/archives replay ascending_replay` proves them and writes target/staticlib/libreplay.a and
   libascending_replay.a; hosts/replay_example.c and hosts/ascending_example.c show a call,
   hosts/replay_storage.h lays the storage out in one block of memory. docs/REPLAY.md describes the
   encoding of the calls. */
#ifndef REPLAY_H
#define REPLAY_H

#include <stddef.h>
#include <stdint.h>

#include "layout.h"
#include "order_limits.h"
#include "refusals.h"

#ifdef __cplusplus
extern "C" {
#endif

/* How many numbers an entry of the order has, and a registration's row. */
#define REPLAY_ENTRY_NUMBERS ORDER_ENTRY_NUMBERS
#define REPLAY_ROW_NUMBERS ORDER_ROW_NUMBERS

/* What a session of parallelism P (1 to 64,999) over V places (1 to 16,777,216) needs, in numbers.
   The pool may have any length: it bounds the input and output numbers of all accepted adds. An ascending
   session needs the same but for the waiting storage and the pool, of which it has none. */
#define REPLAY_SPANS(p) ((size_t)ORDER_SPANS * REPLAY_ENTRY_NUMBERS * ((size_t)(p) + 1))
#define REPLAY_ORDER(v) ((size_t)REPLAY_ENTRY_NUMBERS * (size_t)(v))
#define REPLAY_TALLY(p) ((size_t)(p) + 1)
#define REPLAY_ROWS(v) ((size_t)REPLAY_ROW_NUMBERS * (size_t)(v))
#define REPLAY_MARKS(v) ((size_t)(v))
#define REPLAY_LOCATIONS(v) ((size_t)(v))
#define REPLAY_WAITING(v) ((size_t)ORDER_WAITING_NUMBERS * (size_t)(v))

/* Parallelism and lane of x, an entry's fourth number or a row's fifth, which is parallelism + 65,536 * lane.
   The lane is at most ORDER_MOST_LANE. */
#define REPLAY_PARALLELISM(x) ((uint32_t)(x) % ORDER_LANE_RADIX)
#define REPLAY_LANE(x) ((uint32_t)(x) / ORDER_LANE_RADIX)

/* Marks of a place. */
#define REPLAY_UNTRACKED 0
#define REPLAY_WRITTEN ORDER_MARK_WRITTEN
#define REPLAY_SET ORDER_MARK_SET

/* What replay_calls and replay_held do. Opens a session on the lent storage, whose contents before do not matter,
   and makes all calls. Each slice is a pointer and a count of numbers; slices do not overlap, and no
   pointer is null, also where the count is 0. Returns 64 times a count, or the number of a refusal,
   and then nothing was written: 15 for a malformed list of calls, 1 for a P or V out of range, 2 for a
   slice that is too short.

   spans, waiting, pool   the session's own
   order                  4 numbers an entry: value, added, accepted, parallelism + 65,536 * lane
   tally                  how many entries have the parallelism 0, 1, .. P
   rows                   5 numbers a registration: added, accepted, written, order index,
                          parallelism + 65,536 * lane; all but written is 0 until its entry is in the order
   marks, locations       for each place; a location is its span number * 2^32 + its position
   answers                the number of each call, 0 if it was accepted; one for each call is needed */
typedef uint64_t replay_function(uint32_t *spans, size_t spans_count,
                                 uint32_t *order, size_t order_count,
                                 uint32_t *tally, size_t tally_count,
                                 uint32_t *rows, size_t rows_count,
                                 uint16_t *marks, size_t marks_count,
                                 uint64_t *locations, size_t locations_count,
                                 uint64_t *waiting, size_t waiting_count,
                                 uint32_t *pool, size_t pool_count,
                                 uint64_t *answers, size_t answers_count,
                                 const uint64_t *calls, size_t calls_count,
                                 uint64_t p, uint64_t v);

/* Returns 64 times the order's length in entries. */
replay_function replay_calls;

/* Writes what replay_calls writes, and returns 64 times the entries that the window's 32 spans hold after
   the calls: those placed and not yet in the order. 0 after a flush or final; who waits is not counted. */
replay_function replay_held;

/* The same under the ascending profile, for circuits that number their places in the order in which they
   are set and written. A set must be of the lowest place that is neither set nor written, and the outputs of
   an add must be that place and those after it, in this order; its inputs lie below its first output or,
   with no outputs, below that lowest place. Any other set or add is answered with 21. Then nothing ever waits, and
   the calls that are accepted leave what replay_calls leaves of them. No list is kept: w bounds the
   input and output numbers of all accepted adds, as a pool's length does elsewhere.
   Returns 64 times the order's length in entries, or the number of a refusal as above. */
uint64_t replay_ascending(uint32_t *spans, size_t spans_count,
                          uint32_t *order, size_t order_count,
                          uint32_t *tally, size_t tally_count,
                          uint32_t *rows, size_t rows_count,
                          uint16_t *marks, size_t marks_count,
                          uint64_t *locations, size_t locations_count,
                          uint64_t *answers, size_t answers_count,
                          const uint64_t *calls, size_t calls_count,
                          uint64_t p, uint64_t v, uint64_t w);

#ifdef __cplusplus
}
#endif

#endif
