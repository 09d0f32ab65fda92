/* Host code, not proved: one call of order_job, the job on standard input, its listing on standard output.

       tools/archives host
       gcc -Ihosts hosts/order_example.c target/staticlib/libhost.a -o order_example
       ./order_example <crates/order/stdin

   Another count of listing bytes may be lent: ./order_example 100
   The exit status is 1 for a refused job, 2 where the job cannot be read, the listing written or the word taken. */
#include <stdio.h>

#include "order.h"

static uint8_t job[ORDER_JOB_BYTES + 1], listing[ORDER_LISTING_BYTES];

/* Digits alone as a number, at most as many as there are listing bytes; more than those for any other word. */
static size_t bytes_asked(const char *word) {
    size_t bytes = 0;
    do {
        if (*word < '0' || *word > '9')
            return sizeof listing + 1;
        bytes = 10 * bytes + (size_t)(*word - '0');
    } while (*++word != '\0' && bytes <= sizeof listing);
    return bytes;
}

int main(int count_of_words, char **words) {
    size_t room = count_of_words > 1 ? bytes_asked(words[1]) : sizeof listing;
    if (count_of_words > 2 || room > sizeof listing) {
        fprintf(stderr, "a number of listing bytes is taken, from 0 to %zu, and nothing else\n", sizeof listing);
        return 2;
    }
    size_t count = fread(job, 1, sizeof job, stdin);
    if (ferror(stdin)) {
        fputs("the job cannot be read\n", stderr);
        return 2;
    }

    uint64_t returned = order_job(job, count, listing, room);
    unsigned code = ORDER_CODE(returned);
    if (code != ORDER_ACCEPTED) {
        printf("refused with %u on line %lu: %s\n", code, ORDER_LINE(returned), order_code_text(code));
        return 1;
    }
    size_t length = ORDER_LENGTH(returned);
    if (fwrite(listing, 1, length, stdout) != length || fflush(stdout) != 0) {
        fputs("the listing cannot be written\n", stderr);
        return 2;
    }
    return 0;
}
