/* Host code, not proved: calls of job_line_end, the job in a file or on standard input, its lines on standard output.

       tools/archives jobtext
       gcc -Ihosts hosts/line_end_example.c target/staticlib/libjobtext.a -o line_end_example
       ./line_end_example crates/order/stdin

   The exit status is 1 where bytes follow the last line end and for more bytes than a job may have, 2 where the job
   cannot be read, the answer written or the words taken. */
#include <stdio.h>

#include "line_end.h"
#include "order_limits.h"

/* One byte more than a job may have, so that a longer one is seen to be. */
static uint8_t job[ORDER_MOST_JOB_BYTES + 1];

/* Where each line starts, and the place of its byte 10. */
static int print_lines(size_t count) {
    size_t start = 0, end;
    for (unsigned line = 1; (end = job_line_end(job, count, start)) < count; line++) {
        printf("line=%u start=%zu end=%zu\n", line, start, end);
        start = end + 1;
    }
    if (start == count)
        return 0;
    printf("no line from byte %zu on: byte 10 is missing, and a job that ends so is refused\n", start);
    return 1;
}

int main(int count_of_words, char **words) {
    if (count_of_words > 2) {
        fputs("one file with a job is taken, and nothing else\n", stderr);
        return 2;
    }
    FILE *file = count_of_words > 1 ? fopen(words[1], "rb") : stdin;
    size_t count = file != NULL ? fread(job, 1, sizeof job, file) : 0;
    if (file == NULL || ferror(file)) {
        fputs("the job cannot be read\n", stderr);
        return 2;
    }
    if (count == sizeof job) {
        fprintf(stderr, "a job has at most %zu bytes\n", sizeof job - 1);
        return 1;
    }

    int ended = print_lines(count);
    if (fflush(stdout) != 0 || ferror(stdout)) {
        fputs("the answer cannot be written\n", stderr);
        return 2;
    }
    return ended;
}
