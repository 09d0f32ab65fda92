/* The exported call for tests/reference/check.py: the job on standard input, the listing length as the
   last argument. Prints the returned number on a line, then the listing of an accepted job. Listing
   bytes that must stay untouched are looked at; status 1 if they have changed. */
#include <inttypes.h>
#include <stdio.h>
#include <stdlib.h>

#include "order.h"

#define PATTERN(i) ((uint8_t)(0xA5 ^ (uint8_t)(i) ^ (uint8_t)((i) >> 8)))

int main(int argc, char **argv) {
    if (argc < 2)
        return 2;
    size_t lent = strtoull(argv[argc - 1], NULL, 10), room = 1 << 17, count = 0, got;
    uint8_t *job = malloc(room);
    while ((got = fread(job + count, 1, room - count, stdin)) > 0)
        if ((count += got) == room)
            job = realloc(job, room *= 2);
    /* exactly as long as lent, so that valgrind sees a byte too far */
    uint8_t *exact = malloc(count + (count == 0)), *listing = malloc(lent + (lent == 0));
    for (size_t i = 0; i < count; i++)
        exact[i] = job[i];
    for (size_t i = 0; i < lent; i++)
        listing[i] = PATTERN(i);

    uint64_t returned = order_job(exact, count, listing, lent);
    size_t length = ORDER_CODE(returned) == 0 ? ORDER_LENGTH(returned) : 0;
    printf("%" PRIu64 "\n", returned);
    fwrite(listing, 1, length, stdout);
    for (size_t i = length; i < lent; i++)
        if (listing[i] != PATTERN(i)) {
            fprintf(stderr, "listing byte %zu was written\n", i);
            return 1;
        }
    free(job);
    free(exact);
    free(listing);
    return 0;
}
