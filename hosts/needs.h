/* Host code, not proved: the declaration of the proved call of crate `jobneeds`.
   What a job needs, from its bytes alone: nothing is run. `tools/archives jobneeds` proves it and writes
   target/staticlib/libjobneeds.a; hosts/needs_example.c shows a call, docs/JOB.md says what the numbers
   are for. What the call promises is rules/specs/Needs.antt, `needs` and `most-spans`, laid out as
   jobneeds/specs/Layout.antt says. */
#ifndef NEEDS_H
#define NEEDS_H

#include <stddef.h>
#include <stdint.h>

#include "reply.h"

#ifdef __cplusplus
extern "C" {
#endif

/* Where each number stands, and how many there are: the job's registrations, the numbers in all their
   lists, its plain flushes, and the most spans that running it releases. */
#define NEEDS_REGISTRATIONS 0
#define NEEDS_POOL 1
#define NEEDS_FLUSHES 2
#define NEEDS_SPANS 3
#define NEEDS_NUMBERS 4

/* Reads a job, all lines of it. The job is a pointer and a count of bytes; it and `needs` do not overlap,
   and neither pointer is null, also where the count is 0. Nothing is kept between calls, and calls may run
   at the same time.

   Returns 0, the four numbers then standing in `needs`, each below 2^32; or, for a refused job, 64 times
   the line plus the number of the refusal, all of `needs` untouched; ORDER_CODE and ORDER_LINE take that
   apart. A job is refused with ORDER_LONG_JOB where it has more than 65,536 bytes, or else with
   ORDER_MALFORMED, and with nothing else: parallelism, places and calls are read and not judged.

   The call works on the stack and needs less than 300 KB of it; `tests/needs/run.sh` measures that, and
   fails where it is more. */
uint64_t job_needs(const uint8_t *job, size_t job_count, uint64_t needs[NEEDS_NUMBERS]);

#ifdef __cplusplus
}
#endif

#endif
