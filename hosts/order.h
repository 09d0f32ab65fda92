/* Host code, not proved: the declaration of the proved call of crate `host`.
   A job's bytes in, its listing's bytes out. `tools/archives host` proves it and writes
   target/staticlib/libhost.a; hosts/order_example.c shows a call, docs/JOB.md describes jobs and
   listings. What the call promises is rules/specs/Listing.antt: `reply`, `result` and `bytes-after`. */
#ifndef ORDER_H
#define ORDER_H

#include <stddef.h>
#include <stdint.h>

#include "reply.h"

#ifdef __cplusplus
extern "C" {
#endif

/* The greatest listing has fewer bytes than this; a job has at most as many. */
#define ORDER_LISTING_BYTES ORDER_PROGRAM_LISTING_BYTES
#define ORDER_JOB_BYTES ORDER_MOST_JOB_BYTES

/* Runs a job. The two slices are a pointer and a count of bytes each, do not overlap, and neither
   pointer is null, also where the count is 0. Nothing is kept between calls, and calls may run at the
   same time.

   Returns 64 times the listing's length, the listing then standing at the start of `listing` and what
   lies behind it untouched; or, for a refused job, 64 times the line plus the number of the refusal
   (an order_code), all of `listing` untouched.

   The call works on the stack and needs less than 450 KB of it; `tests/job/run.sh` measures that, and
   fails where it is more. */
uint64_t order_job(const uint8_t *job, size_t job_count, uint8_t *listing, size_t listing_count);

/* A returned number is taken apart by ORDER_CODE and ORDER_LINE of reply.h, and by this one. */
#define ORDER_LENGTH(returned) ((size_t)((returned) / ORDER_REPLY_RADIX)) /* the listing's, if the job was accepted */

#ifdef __cplusplus
}
#endif

#endif
