/* Host code, not proved: the declarations of the proved calls of crate `reason`.
   Why a registration waits, after a list of calls and after a job. `tools/archives reason` proves them and
   writes target/staticlib/libreason.a; hosts/reason_example.c shows a call. docs/REPLAY.md describes lists of
   calls, docs/JOB.md jobs. What the calls promise is rules/specs/Reason.antt: `explained` and `reason-number`,
   and of a job `job-explained` and `job-reason-number`. */
#ifndef REASON_H
#define REASON_H

#include <stddef.h>
#include <stdint.h>

#include "replay.h"
#include "reply.h"

#ifdef __cplusplus
extern "C" {
#endif

/* A returned number. Its code is 0 where the registration waits; then it has the registration's greatest input,
   and the lowest place of the session that is untracked, neither set nor written, which is at or below that
   input. Whatever calls are made later, the registration waits while this place is untracked. Where it is an
   output of an accepted registration, no later call tracks it; else a set of it is accepted.

   Else the code is ORDER_NEVER_ACCEPTED where r is not below the count of accepted registrations,
   ORDER_NOT_WAITING where registration r is placed, or another order_code where the list of calls or the job is
   refused. Registrations are numbered from 0 as they are accepted. */
#define REASON_CODE(returned) ORDER_CODE(returned)
#define REASON_INPUT(returned) ((uint64_t)(returned) / ORDER_REPLY_RADIX / ORDER_PLACE_RADIX)
#define REASON_PLACE(returned) ((uint64_t)(returned) / ORDER_REPLY_RADIX % ORDER_PLACE_RADIX)

/* Makes the calls of a list as replay_calls does: the storage, what it must be and what stands in it afterwards,
   the answers and the refusals (15, 1 and 2, and then nothing was written) are the same; replay.h has them. Then
   says why registration r waits. */
uint64_t replay_reason(uint32_t *spans, size_t spans_count,
                       uint32_t *order, size_t order_count,
                       uint32_t *tally, size_t tally_count,
                       uint32_t *rows, size_t rows_count,
                       uint16_t *marks, size_t marks_count,
                       uint64_t *locations, size_t locations_count,
                       uint64_t *waiting, size_t waiting_count,
                       uint32_t *pool, size_t pool_count,
                       uint64_t *answers, size_t answers_count,
                       const uint64_t *calls, size_t calls_count,
                       uint64_t p, uint64_t v, uint64_t r);

/* Runs a job as order_job does, with no listing, and says why registration r waits where the job stopped: at its
   final, whether that was accepted (and nothing waits) or refused with ORDER_STILL_WAITING. A job that is refused
   otherwise has its line, too, by ORDER_LINE. The job is a pointer, not null, and a count of bytes. Nothing is
   kept between calls, and calls may run at the same time.

   The call works on the stack and needs less than 400 KB of it; `tests/reason/run.sh` measures that, and
   fails where it is more. */
uint64_t order_reason(const uint8_t *job, size_t job_count, uint64_t r);

#ifdef __cplusplus
}
#endif

#endif
