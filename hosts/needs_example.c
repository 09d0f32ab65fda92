/* Host code, not proved: one call of job_needs, the job in a file or on standard input, its needs on standard output.

       tools/archives jobneeds
       gcc -Ihosts hosts/needs_example.c target/staticlib/libjobneeds.a -o needs_example
       ./needs_example crates/order/stdin

   The exit status is 1 for a refused job, 2 where the job cannot be read, the answer written or the words taken. */
#include <inttypes.h>
#include <stdio.h>

#include "needs.h"

/* One byte more than a job may have, so that a longer one is seen to be. */
static uint8_t job[ORDER_MOST_JOB_BYTES + 1];

static int print_answer(uint64_t returned, const uint64_t *needs) {
    unsigned code = ORDER_CODE(returned);
    if (code != ORDER_ACCEPTED) {
        printf("refused with %u on line %lu: %s\n", code, ORDER_LINE(returned), order_code_text(code));
        return 1;
    }
    printf("registrations=%" PRIu64 "\n", needs[NEEDS_REGISTRATIONS]);
    printf("pool=%" PRIu64 "\n", needs[NEEDS_POOL]);
    printf("flushes=%" PRIu64 "\n", needs[NEEDS_FLUSHES]);
    printf("most_spans=%" PRIu64 "\n", needs[NEEDS_SPANS]);
    return 0;
}

int main(int count_of_words, char **words) {
    uint64_t needs[NEEDS_NUMBERS];
    if (count_of_words > 2) {
        fputs("one file with a job is taken, and nothing else\n", stderr);
        return 2;
    }
    FILE *file = count_of_words > 1 ? fopen(words[1], "rb") : stdin;
    size_t count = file != NULL ? fread(job, 1, sizeof job, file) : 0;
    if (file == NULL || ferror(file)) {
        fputs("the job cannot be read\n", stderr);
        return 2;
    }

    int ended = print_answer(job_needs(job, count, needs), needs);
    if (fflush(stdout) != 0 || ferror(stdout)) {
        fputs("the answer cannot be written\n", stderr);
        return 2;
    }
    return ended;
}
