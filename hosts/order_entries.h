/* Host code, not proved: the declaration of the proved call of crate `order_entries`.
   The order as structs, kept beside the flat order. `tools/archives order_entries` proves it and writes
   target/staticlib/liborder_entries.a; hosts/storage_example.c shows a call. What the call promises is
   order_copy/specs/Copied.antt: `copied`. */
#ifndef ORDER_ENTRIES_H
#define ORDER_ENTRIES_H

#include <stddef.h>
#include <stdint.h>

#include "refusals.h"

#ifdef __cplusplus
extern "C" {
#endif

/* An entry of the order; 16 bytes, of which the last is free. */
struct order_info {
    uint32_t value, added, accepted;
    uint16_t parallelism;
    uint8_t lane;
};

/* Copies entries `from` to `to` - 1 of a flat order (four numbers an entry) to the same indices of
   `order`; every other struct stays as it was. Each slice is a pointer and a count; they do not
   overlap, and neither pointer is null, also where the count is 0. Returns 0; or ORDER_TOO_SHORT, every
   struct as it was, where `from` is past `to`, one of the two slices is too short for `to` entries, or
   the fourth number of an entry to be copied, parallelism + 65,536 * lane, has more than 24 bits (none of
   a session has). */
uint64_t order_append_new(struct order_info *order, size_t order_count,
                          const uint32_t *flat, size_t flat_count,
                          size_t from, size_t to);

#ifdef __cplusplus
}
#endif

#endif
