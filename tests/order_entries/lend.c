/* An order of structs kept beside the flat order of a session, as a host in C would: after each call
   the new entries are copied. */
#include <stddef.h>
#include <stdint.h>
#include <stdio.h>
#include <string.h>

#include "order_entries.h"

enum { ENTRIES = 1000 };

static uint32_t flat[4 * ENTRIES];
static struct order_info order[ENTRIES];

/* The fourth number is parallelism + 65,536 * lane. */
static int is_copied(size_t k) {
    return order[k].value == flat[4 * k] && order[k].added == flat[4 * k + 1] &&
           order[k].accepted == flat[4 * k + 2] && order[k].parallelism == flat[4 * k + 3] % 65536 &&
           order[k].lane == flat[4 * k + 3] / 65536;
}

static int is_untouched(size_t k) {
    return order[k].value == 7 && order[k].added == 7 && order[k].accepted == 7 && order[k].parallelism == 7 &&
           order[k].lane == 7;
}

/* Refused with 2, and every struct is as it was. */
static int is_refused(size_t order_length, size_t flat_length, size_t from, size_t to) {
    static struct order_info before[ENTRIES];
    memcpy(before, order, sizeof order);
    return order_append_new(order, order_length, flat, flat_length, from, to) == 2 &&
           memcmp(before, order, sizeof order) == 0;
}

static int refusals_hold(void) {
    for (size_t k = 0; k < ENTRIES; k++)
        order[k].value = 7;
    int hold = is_refused(ENTRIES, 4 * ENTRIES, 6, 5) && is_refused(9, 4 * ENTRIES, 0, 10) &&
               is_refused(ENTRIES, 4 * 10 - 1, 0, 10) && is_refused(ENTRIES, 4 * ENTRIES, SIZE_MAX, SIZE_MAX) &&
               is_refused(ENTRIES, 4 * ENTRIES, 0, SIZE_MAX);
    /* more than 24 bits */
    flat[4 * 5 + 3] = 1 << 24;
    hold = hold && is_refused(ENTRIES, 4 * ENTRIES, 0, 10);
    flat[4 * 5 + 3] = UINT32_MAX;
    hold = hold && is_refused(ENTRIES, 4 * ENTRIES, 0, 10);
    /* what is not copied is not looked at */
    return hold && order_append_new(order, 10, flat, 4 * 10, 6, 10) == 0 && is_copied(6) && !is_copied(5);
}

/* Fourth numbers at the ends of parallelism and lane: none has more than 24 bits. */
static int ends_are_copied(void) {
    static const uint32_t ends[][3] = {
        {0, 0, 0}, {65535, 65535, 0}, {65536, 0, 1}, {64999 + 65536 * 255, 64999, 255}, {(1 << 24) - 1, 65535, 255},
    };
    for (size_t i = 0; i < sizeof ends / sizeof *ends; i++) {
        flat[4 * 5 + 3] = ends[i][0];
        if (order_append_new(order, 10, flat, 4 * 10, 5, 6) != 0 || order[5].parallelism != ends[i][1] || order[5].lane != ends[i][2])
            return 0;
    }
    return 1;
}

int main(void) {
    _Static_assert(sizeof(struct order_info) == 16, "an entry has 16 bytes");
    for (size_t k = 0; k < ENTRIES; k++)
        order[k] = (struct order_info){7, 7, 7, 7, 7};
    size_t written = 0, calls = 0;
    while (written < ENTRIES) {
        /* a call of the session appends a few entries, at times none */
        size_t now = written + calls * 37 % 11;
        if (now > ENTRIES)
            now = ENTRIES;
        for (size_t i = 4 * written; i < 4 * now; i++)
            flat[i] = (uint32_t)(i % 4 == 3 ? 65535 - i % 1000 + 65536 * (255 - i / 4 % 256) : 4000000000u + i);
        if (order_append_new(order, ENTRIES, flat, 4 * ENTRIES, written, now) != 0) {
            printf("tests/order_entries: C: call %zu was refused\n", calls);
            return 1;
        }
        written = now;
        calls++;
        for (size_t k = 0; k < ENTRIES; k++) {
            if (k < written ? !is_copied(k) : !is_untouched(k)) {
                printf("tests/order_entries: C: call %zu: entry %zu is wrong\n", calls, k);
                return 1;
            }
        }
    }
    if (!refusals_hold()) {
        printf("tests/order_entries: C: a refusal is wrong\n");
        return 1;
    }
    if (!ends_are_copied()) {
        printf("tests/order_entries: C: a parallelism or a lane at its end is wrong\n");
        return 1;
    }
    printf("tests/order_entries: C: %d entries in %zu calls, as in the flat order; seven refusals\n", ENTRIES, calls);
    return 0;
}
