/* Host code, not proved: what a job's registrations wait for, by a call of order_reason for each. The job is in a
   file or on standard input.

       tools/archives reason
       gcc -Ihosts hosts/reason_example.c target/staticlib/libreason.a -o reason_example
       ./reason_example examples/refused/still-waiting.job

   The exit status is 0 where nothing waits at the job's final, 1 where something does or the job is refused
   otherwise, 2 where the job cannot be read, the answer written or the words taken. */
#include <inttypes.h>
#include <stdio.h>

#include "reason.h"

/* One byte more than a job may have, so that a longer one is seen to be. */
static uint8_t job[ORDER_MOST_JOB_BYTES + 1];

/* Asks for one registration after the other, until there are no more. */
static int print_reasons(size_t count) {
    int ended = 0;
    for (uint64_t r = 0;; r++) {
        uint64_t returned = order_reason(job, count, r);
        switch (REASON_CODE(returned)) {
        case ORDER_ACCEPTED:
            printf("registration=%" PRIu64 " input=%" PRIu64 " place=%" PRIu64 "\n",
                   r, REASON_INPUT(returned), REASON_PLACE(returned));
            ended = 1;
            break;
        case ORDER_NOT_WAITING:
            break;
        case ORDER_NEVER_ACCEPTED:
            return ended;
        default:
            printf("refused with %u on line %lu: %s\n", REASON_CODE(returned), ORDER_LINE(returned),
                   order_code_text(REASON_CODE(returned)));
            return 1;
        }
    }
}

int main(int count_of_words, char **words) {
    if (count_of_words > 2) {
        fputs("one file with a job is taken, and nothing else\n", stderr);
        return 2;
    }
    FILE *file = count_of_words > 1 ? fopen(words[1], "rb") : stdin;
    size_t count = file != NULL ? fread(job, 1, sizeof job, file) : 0;
    if (file == NULL || ferror(file)) {
        fputs("the job cannot be read\n", stderr);
        return 2;
    }

    int ended = print_reasons(count);
    if (fflush(stdout) != 0 || ferror(stdout)) {
        fputs("the answer cannot be written\n", stderr);
        return 2;
    }
    return ended;
}
