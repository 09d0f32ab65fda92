/* Host code, not proved: a search behind the interface of `job_line_end`, as a library to link the tests with instead
   of the proved one: so the tests can be tested. It looks at a word of eight bytes at a time, and takes what its masks
   say without looking again. With the name of a fault in the environment variable STAND_IN_FAULT it does one thing
   wrong, which the tests must notice. */
#include <stdio.h>
#include <stdlib.h>
#include <string.h>

#include "line_end.h"

enum { WORD = 8 };

/* The faults by name; those of the masks are named after a mask, the byte that it gets, and which one of the word. */
enum fault {
    NO_FAULT, TWO_WORDS, FIRST_OF_TWO_LEFT_OUT, SECOND_OF_TWO_LEFT_OUT, BOTH_OF_TWO_NEEDED, STEP_OF_SEVEN, STEP_OF_NINE,
    STEP_OF_SIXTEEN, ELEVEN_IN_A_WORD, ELEVEN_AMONG_ODD, HIGH_BIT_IGNORED, NOT_ADDED, ODD_BYTES_LEFT_OUT,
    LAST_WORD_LEFT_OUT, FIRST_BYTE_LEFT_OUT, LAST_BYTE_LEFT_OUT, READS_ONE_PAST, READS_ONE_BEFORE,
    READS_A_WHOLE_LAST_WORD, READS_ALIGNED_WORDS, PAST_THE_END_ITSELF, PAST_THE_END_FROM_0, FAR_START_WRAPS,
    FAR_START_SIGNED, START_OF_32_BITS, COUNT_OF_16_BITS, STOPS_AFTER_4096, STOPS_AFTER_A_MEGABYTE, NONE_LENGTH_LESS_1,
    NONE_GREATEST, NONE_START, START_DOWN, START_UP, START_TO_AN_ALIGNED_ADDRESS, SECOND_OF_A_WORD, LAST_OF_A_WORD,
    PAIR_OF_OTHERS, WITHOUT_THE_START, WRITES_AN_END, WRITES_AN_END_AND_BACK, MASKS
};
static const char *const names[MASKS] = {
    "none", "two-words", "first-of-two-left-out", "second-of-two-left-out", "both-of-two-needed", "step-of-seven",
    "step-of-nine", "step-of-sixteen", "eleven-in-a-word", "eleven-among-odd-bytes", "high-bit-ignored",
    "nothing-added", "odd-bytes-left-out", "last-word-left-out", "first-byte-left-out", "last-byte-left-out",
    "reads-one-past-the-end", "reads-one-before-the-text", "reads-a-whole-last-word", "reads-aligned-words",
    "past-the-end-itself", "past-the-end-from-0", "far-start-wraps", "far-start-signed", "start-of-32-bits",
    "count-of-16-bits", "stops-after-4096", "stops-after-a-megabyte", "none-is-length-less-1", "none-is-greatest",
    "none-is-start", "start-rounded-down", "start-rounded-up", "start-to-an-aligned-address", "second-of-a-word",
    "last-of-a-word", "pair-of-others", "without-the-start", "writes-an-end", "writes-an-end-and-back"};

static enum fault fault;
static int prepared;

/* What each byte is compared with, its seven low bits, what is added to them, and the bit that tells. */
static struct { uint64_t tens, low, sum, high; } masks;

/* The same byte eight times. */
static uint64_t each(uint8_t byte) {
    return UINT64_C(0x0101010101010101) * byte;
}

static void put(uint64_t *mask, unsigned at, uint8_t byte) {
    *mask = (*mask & ~((uint64_t)0xff << 8 * at)) | (uint64_t)byte << 8 * at;
}

/* A fault of a mask: MASK-BYTE-AT, the byte in hexadecimal; `both` are those of 0x7f. */
static void spoil(const char *name) {
    char mask[5] = "";
    unsigned byte = 0, at = WORD;
    int both = sscanf(name, "%4[a-z]-%2x-%1u", mask, &byte, &at) == 3 && strcmp(mask, "both") == 0;
    uint64_t *word = strcmp(mask, "tens") == 0 ? &masks.tens : both || strcmp(mask, "low") == 0 ? &masks.low
                   : strcmp(mask, "sum") == 0 ? &masks.sum : strcmp(mask, "high") == 0 ? &masks.high : NULL;
    if (word == NULL || at >= WORD) {
        fprintf(stderr, "tests/line_end/stand_in.c: no fault %s\n", name);
        exit(2);
    }
    put(word, at, (uint8_t)byte);
    if (both)
        put(&masks.sum, at, (uint8_t)byte);
}

static void prepare(void) {
    const char *name = getenv("STAND_IN_FAULT");
    prepared = 1;
    masks.tens = each(10);
    masks.low = masks.sum = each(0x7f);
    masks.high = each(0x80);
    if (name == NULL)
        return;
    while (fault < MASKS && strcmp(name, names[fault]) != 0)
        fault++;
    if (fault == MASKS)
        spoil(name);
    if (fault == ELEVEN_IN_A_WORD)
        masks.low = each(0x7e);
    if (fault == NOT_ADDED)
        masks.sum = 0;
}

/* The first of the bytes is the lowest. */
static uint64_t word_of(const uint8_t *bytes) {
    uint64_t word = 0;
    for (int k = WORD; k-- > 0;)
        word = word << 8 | bytes[k];
    return word;
}

/* The high bits of a word's bytes 10. A byte's sum carries nothing into the next. */
static uint64_t tens_of(uint64_t word) {
    uint64_t other = word ^ masks.tens;
    uint64_t sum = (other & masks.low) + masks.sum;
    uint64_t tens = ~(fault == HIGH_BIT_IGNORED ? sum : sum | other) & masks.high;
    if (fault == PAIR_OF_OTHERS && (word >> 24 & 0xffff) == 0x0b8a)
        tens |= (uint64_t)0x80 << 24;
    return tens;
}

/* The byte of a word that is its first 10, or WORD. */
static size_t within(uint64_t word) {
    uint64_t tens = tens_of(word);
    size_t first = WORD, last = WORD, second = WORD;
    if (tens == 0)
        return WORD;
    for (size_t k = WORD; k-- > 0;)
        if (tens >> (8 * k) & 0x80) {
            second = first;
            first = k;
            last = last == WORD ? k : last;
        }
    if (fault == LAST_OF_A_WORD)
        return last;
    return fault == SECOND_OF_A_WORD && second < WORD ? second : first;
}

/* Where the search begins. */
static size_t start(const uint8_t *job, size_t count, size_t from) {
    size_t up = from;
    switch (fault) {
    case START_DOWN: return from / WORD * WORD;
    case START_UP: up = (from + WORD - 1) / WORD * WORD; break;
    case START_TO_AN_ALIGNED_ADDRESS: up = from + (WORD - ((uintptr_t)job + from) % WORD) % WORD; break;
    case FIRST_BYTE_LEFT_OUT: up = from + 1; break;
    default: break;
    }
    return up < count ? up : count;
}

static size_t step(void) {
    return fault == STEP_OF_SEVEN ? 7 : fault == STEP_OF_NINE ? 9 : fault == STEP_OF_SIXTEEN ? 16 : WORD;
}

/* Passes two words at a time as long as neither has a byte 10; only where that, or a fault of it, is asked for. */
static size_t pass_two(const uint8_t *job, size_t count, size_t i) {
    if (fault < TWO_WORDS || fault > BOTH_OF_TWO_NEEDED)
        return i;
    while (count - i >= 2 * WORD) {
        int first = within(word_of(job + i)) < WORD, second = within(word_of(job + i + WORD)) < WORD;
        first = first && fault != FIRST_OF_TWO_LEFT_OUT;
        second = second && fault != SECOND_OF_TWO_LEFT_OUT;
        if (fault == BOTH_OF_TWO_NEEDED ? first && second : first || second)
            break;
        i += 2 * WORD;
    }
    return i;
}

/* The right search, but for the faults that lie in it. */
static size_t find(const uint8_t *job, size_t count, size_t from) {
    size_t i = pass_two(job, count, start(job, count, from));
    size_t left_out = fault == LAST_WORD_LEFT_OUT ? WORD : 0;
    while (i < count && count - i >= WORD + left_out) {
        size_t k = within(word_of(job + i));
        if (k < WORD)
            return fault == WITHOUT_THE_START ? k : i + k;
        i += step();
    }
    if (left_out != 0 && count - i >= WORD)
        i += WORD;
    if (fault == ODD_BYTES_LEFT_OUT)
        return count;
    if (fault == READS_A_WHOLE_LAST_WORD && i < count && within(word_of(job + i)) >= count - i)
        return count;
    for (; i < count; i++)
        if (job[i] == 10 || (fault == ELEVEN_AMONG_ODD && job[i] == 11))
            return i;
    return count;
}

/* Bytes that are read and make no difference. */
static void read_more(const uint8_t *job, size_t count) {
    volatile uint8_t byte = 0;
    if (fault == READS_ONE_PAST)
        byte = job[count];
    if (fault == READS_ONE_BEFORE)
        byte = job[-1];
    if (fault == READS_ALIGNED_WORDS && count > 0)
        byte = job[count - 1 + (WORD - 1 - ((uintptr_t)job + count - 1) % WORD)];
    (void)byte;
}

/* Bytes that are written: an end behind which nothing need be looked for. */
static void write_end(const uint8_t *job, size_t count) {
    uint8_t *last = (uint8_t *)job + count - 1, byte;
    if (count == 0 || (fault != WRITES_AN_END && fault != WRITES_AN_END_AND_BACK))
        return;
    byte = *last;
    *(volatile uint8_t *)last = 10;
    if (fault == WRITES_AN_END_AND_BACK)
        *(volatile uint8_t *)last = byte;
}

static size_t shortened(size_t count) {
    switch (fault) {
    case LAST_BYTE_LEFT_OUT: return count > 0 ? count - 1 : 0;
    case COUNT_OF_16_BITS: return count % 65536;
    case STOPS_AFTER_4096: return count < 4096 ? count : 4096;
    case STOPS_AFTER_A_MEGABYTE: return count < 1 << 20 ? count : 1 << 20;
    default: return count;
    }
}

size_t job_line_end(const uint8_t *job, size_t job_count, size_t from) {
    if (!prepared)
        prepare();
    if ((fault == FAR_START_SIGNED && from > SIZE_MAX / 2) || (fault == PAST_THE_END_FROM_0 && from > job_count))
        from = 0;
    if (fault == START_OF_32_BITS)
        from = (uint32_t)from;
    if (fault == FAR_START_WRAPS && from > job_count && from + WORD <= job_count && within(word_of(job + from)) < WORD)
        return from + within(word_of(job + from));
    if (from > job_count)
        return fault == PAST_THE_END_ITSELF ? from : job_count;
    read_more(job, job_count);
    size_t count = shortened(job_count), found = find(job, count, from);
    write_end(job, job_count);
    if (found < count)
        return found;
    switch (fault) {
    case NONE_LENGTH_LESS_1: return job_count - 1;
    case NONE_GREATEST: return SIZE_MAX;
    case NONE_START: return from;
    default: return job_count;
    }
}
