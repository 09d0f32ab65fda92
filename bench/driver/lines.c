/* Host code, not proved: measures how fast the end of a line is found: byte by byte, by `job_line_end` and by C's memchr; and how fast
   lines are read whole, their ends found byte by byte and by words. bench/lines.sh builds and runs it.

     line_ends JOB..    files with jobs, to be read line by line

   Cycles are those of the processor's time stamp counter, which goes at one rate whatever the processor's own. The sides take turns, and the
   least of the repetitions counts. */
#include <stdint.h>
#include <stdio.h>
#include <stdlib.h>
#include <string.h>
#include <x86intrin.h>

#include "line_end.h"

size_t line_end_by_bytes(const uint8_t *job, size_t job_count, size_t from);
size_t read_by_bytes(const uint8_t *job, size_t job_count, size_t from, uint64_t *into, size_t into_count);
size_t read_by_words(const uint8_t *job, size_t job_count, size_t from, uint64_t *into, size_t into_count);

enum { BYTES = 65536, REPETITIONS = 41, TIMES = 20, SIDES = 3 };

typedef size_t search(const uint8_t *job, size_t job_count, size_t from);
typedef size_t reader(const uint8_t *job, size_t job_count, size_t from, uint64_t *into, size_t into_count);

static uint8_t text[BYTES + 1];
static uint64_t numbers[BYTES];

static size_t line_end_by_memchr(const uint8_t *job, size_t job_count, size_t from) {
    const uint8_t *found = memchr(job + from, '\n', job_count - from);
    return found != NULL ? (size_t)(found - job) : job_count;
}

static void fail(const char *what, const char *more) {
    fprintf(stderr, "lines: %s%s\n", what, more);
    exit(1);
}

/* The cycles of finding all line ends of the text, TIMES over; their places are added up. */
static uint64_t searched(search *end_of, uint64_t *sum) {
    uint64_t start = __rdtsc();
    for (int i = 0; i < TIMES; i++)
        for (size_t at = 0; at < BYTES;) {
            size_t end = end_of(text, BYTES, at);
            *sum += end;
            at = end + 1;
        }
    return __rdtsc() - start;
}

/* Lines of so many bytes, the byte 10 among them: bytes a cycle on each side. */
static void measure_ends(size_t length) {
    search *sides[SIDES] = {line_end_by_bytes, job_line_end, line_end_by_memchr};
    uint64_t least[SIDES] = {UINT64_MAX, UINT64_MAX, UINT64_MAX}, sums[SIDES] = {0, 0, 0};
    for (size_t i = 0; i < BYTES; i++)
        text[i] = (i + 1) % length == 0 ? '\n' : i % 5 == 4 ? ',' : (uint8_t)('0' + i % 10);
    for (int i = 0; i < REPETITIONS; i++)
        for (int side = 0; side < SIDES; side++) {
            uint64_t cycles = searched(sides[side], &sums[side]);
            if (cycles < least[side]) least[side] = cycles;
        }
    if (sums[0] != sums[1] || sums[0] != sums[2]) fail("the sides find other ends", "");
    double rate[SIDES];
    for (int side = 0; side < SIDES; side++) rate[side] = (double)BYTES * TIMES / (double)least[side];
    printf("| %zu | %.2f | %.2f | %.2f | %.2f |\n", length, rate[0], rate[1], rate[2], rate[1] / rate[0]);
}

/* The cycles of reading all lines of the text. */
static uint64_t read_through(reader *read, size_t count) {
    uint64_t start = __rdtsc();
    for (size_t at = 0; at < count;) {
        size_t next = read(text, count, at, numbers, BYTES);
        if (next == at) fail("a line is malformed", "");
        at = next;
    }
    return __rdtsc() - start;
}

/* Cycles a byte of reading so many bytes of text, line ends found byte by byte and by words. */
static void measure_reading(const char *name, size_t count) {
    reader *sides[] = {read_by_bytes, read_by_words};
    uint64_t least[] = {UINT64_MAX, UINT64_MAX};
    size_t lines = 0;
    for (int i = 0; i < TIMES * REPETITIONS; i++)
        for (int side = 0; side < 2; side++) {
            uint64_t cycles = read_through(sides[side], count);
            if (cycles < least[side]) least[side] = cycles;
        }
    for (size_t i = 0; i < count; i++) lines += text[i] == '\n';
    double before = (double)least[0] / (double)count, after = (double)least[1] / (double)count;
    printf("| %s | %zu | %.1f | %.2f | %.2f | %.0f %% |\n", name, count, (double)count / (double)lines, before, after, 100 * (1 - after / before));
}

/* A line `in=` with as many numbers of so many digits as the text holds: its length. */
static size_t list_of(size_t digits) {
    size_t length = 3;
    memcpy(text, "in=", length);
    while (length + digits + 1 <= BYTES) {
        for (size_t i = 0; i < digits; i++, length++) text[length] = (uint8_t)('1' + length % 9);
        text[length++] = ',';
    }
    text[length - 1] = '\n';
    return length;
}

/* As many copies of some lines as the text holds: its length. */
static size_t copies_of(const char *lines) {
    size_t length = 0, each = strlen(lines);
    for (; length + each <= BYTES; length += each) memcpy(text + length, lines, each);
    return length;
}

static size_t file_of(const char *path) {
    FILE *file = fopen(path, "rb");
    size_t count = file != NULL ? fread(text, 1, BYTES + 1, file) : 0;
    if (count == 0 || count > BYTES) fail("no job, or a long one: ", path);
    fclose(file);
    return count;
}

int main(int argc, char **argv) {
    static const size_t lengths[] = {5, 16, 128, 1024, 65536};
    puts("Bytes a cycle:\n\n| line, bytes | byte by byte | by words | memchr | words / bytes |\n|---:|---:|---:|---:|---:|");
    for (size_t i = 0; i < sizeof lengths / sizeof *lengths; i++) measure_ends(lengths[i]);
    puts("\nCycles a byte of lines read whole:\n\n| lines | bytes | bytes a line | ends byte by byte | ends by words | less by |");
    puts("|---|---:|---:|---:|---:|---:|");
    for (size_t digits = 1; digits <= 9; digits += 2) {
        char name[40];
        snprintf(name, sizeof name, "one list, numbers of %zu digit%s", digits, digits > 1 ? "s" : "");
        measure_reading(name, list_of(digits));
    }
    measure_reading("`in=`, `out=` without numbers", copies_of("in=\nout=\n"));
    measure_reading("`flush=1`", copies_of("flush=1\n"));
    for (int i = 1; i < argc; i++) measure_reading(argv[i], file_of(argv[i]));
    return 0;
}
