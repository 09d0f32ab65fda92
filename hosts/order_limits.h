/* Host code, not proved. Written by tools/refusals.py from crates/rules/specs/Limits.antt.
   The limits of the specification under the names that the definitions have; what each is stands there. */
#ifndef ORDER_LIMITS_H
#define ORDER_LIMITS_H

#include <stdint.h>

#define ORDER_MOST_PARALLELISM 64999
#define ORDER_MOST_PLACES 16777216
#define ORDER_MOST_IN_A_LIST 65535
#define ORDER_MOST_FLUSHES 65535
#define ORDER_LEAST_FLAGGED UINT64_C(4611686018427387904)
#define ORDER_LAST_SPAN_LIMIT UINT64_C(4294967264)
#define ORDER_MARK_WRITTEN 32768
#define ORDER_MARK_SET 49152
#define ORDER_MOST_LANE 255
#define ORDER_LOCATION_RADIX UINT64_C(4294967296)
#define ORDER_AVERAGE_DIVISOR 65000
#define ORDER_LOW_COUNTS 128
#define ORDER_SUMS_OF_THOUSANDS 65
#define ORDER_MOST_JOB_BYTES 65536
#define ORDER_PROGRAM_LISTING_BYTES 65536
#define ORDER_REPLY_RADIX 64
#define ORDER_PLACE_RADIX 16777216
#define ORDER_JOB_PARALLELISM 64
#define ORDER_JOB_PLACES 512
#define ORDER_JOB_POOL 4096

#endif
