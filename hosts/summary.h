/* Host code, not proved: the declaration of the proved call of crate `summary`.
   What final gives of a tally, for hosts that have a tally, as `replay_calls` leaves it.
   `tools/archives summary` proves it and writes target/staticlib/libsummary.a. */
#ifndef SUMMARY_H
#define SUMMARY_H

#include <stddef.h>
#include <stdint.h>

#include "order_limits.h"
#include "refusals.h"

#ifdef __cplusplus
extern "C" {
#endif

/* Where each part of a summary begins, and how many numbers it has, 195: the average's 32 bits
   (IEEE 754 binary32), the median, the counts for the parallelisms 0 to 127, and the sums of the counts
   for 0 to 999, 1,000 to 1,999 and so on. */
#define SUMMARY_AVERAGE 0
#define SUMMARY_MEDIAN 1
#define SUMMARY_COUNTS 2
#define SUMMARY_THOUSANDS (SUMMARY_COUNTS + ORDER_LOW_COUNTS)
#define SUMMARY_NUMBERS (SUMMARY_THOUSANDS + ORDER_SUMS_OF_THOUSANDS)

/* The greatest tally: so many counts, and their sum. */
#define SUMMARY_TALLY_MOST (ORDER_MOST_PARALLELISM + 1)
#define SUMMARY_SUM_MOST ORDER_MOST_PLACES

/* Fills the first 195 numbers of `summary` with the summary of `tally`, whose counts past its length
   are 0; what lies past them stays. Each slice is a pointer and a count of numbers; the slices do not
   overlap, and no pointer is null, also where the count is 0. Returns 0, or the number of a refusal,
   and then nothing was written: ORDER_OUT_OF_RANGE for a tally longer than 65,000 counts or a sum above
   2^24 (no session has such), or else ORDER_TOO_SHORT for fewer than 195 numbers in `summary`. */
uint64_t order_summary(const uint32_t *tally, size_t tally_count,
                       uint32_t *summary, size_t summary_count);

#ifdef __cplusplus
}
#endif

#endif
