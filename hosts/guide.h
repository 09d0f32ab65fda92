/* Host code, not proved: the declaration of the proved call of crate `alone_replay`.
   A whole list of requests to the guide alone, freshly opened. `tools/archives alone_replay` proves it
   and writes target/staticlib/libalone_replay.a; hosts/guide_example.c shows a call, docs/GUIDE.md
   describes requests and answers. */
#ifndef GUIDE_H
#define GUIDE_H

#include <stddef.h>
#include <stdint.h>

#include "layout.h"
#include "order_limits.h"
#include "refusals.h"

#ifdef __cplusplus
extern "C" {
#endif

/* Numbers of a request, of the answer to one, and of an entry of the order. */
#define GUIDE_REQUEST 6
#define GUIDE_ANSWER (5 + ORDER_SPANS)
#define GUIDE_ENTRY ORDER_ENTRY_NUMBERS

/* What a guide of parallelism P (1 to 64,999) and V pushes (1 to 16,777,216) needs, in numbers. */
#define GUIDE_SPANS(p) ((size_t)ORDER_SPANS * GUIDE_ENTRY * ((size_t)(p) + 1))
#define GUIDE_ORDER(v) ((size_t)GUIDE_ENTRY * (size_t)(v))
#define GUIDE_TALLY(p) ((size_t)(p) + 1)
#define GUIDE_ANSWERS(requests) ((size_t)GUIDE_ANSWER * (size_t)(requests))

/* Kinds of a request. */
#define GUIDE_FLUSH 0
#define GUIDE_PUSH 1
#define GUIDE_PUSH_AFTER 2

/* Opens a guide on the lent storage, whose contents before do not matter, and serves all requests.
   Each slice is a pointer and a count of numbers; slices do not overlap, and no pointer is null,
   also where the count is 0. Returns 0, and then the numbers of refused requests stand in their
   answers; or the number of a refusal, and then nothing was written: 15 for a count of numbers that
   is no multiple of six or a kind above 2, else 1 for a P or V out of range, else 2 for a slice that
   is too short.

   requests   6 numbers a request: kind, span, position, value, added, accepted; span and position
              are those of `after` for kind 2 and not looked at otherwise; a flush has a kind alone
   spans      the guide's own
   order      4 numbers an entry: value, added, accepted, parallelism (its lane, by layout.h, is 0)
   tally      how many entries have the parallelism 0, 1, .. P
   answers    37 numbers a request: its number, 0 if it was accepted; span and position of an
              accepted push, else 0, 0; the order's length in entries; span 0's number; 32 lengths */
uint32_t guide_replay(uint64_t p, uint64_t v,
                      const uint32_t *requests, size_t requests_count,
                      uint32_t *spans, size_t spans_count,
                      uint32_t *order, size_t order_count,
                      uint32_t *tally, size_t tally_count,
                      uint32_t *answers, size_t answers_count);

#ifdef __cplusplus
}
#endif

#endif
