/* Host code, not proved: holds `job_line_end` to a search byte by byte.

     line_end texts SEED TIMES    texts beside pages that cannot be read, with bytes 10 directly outside of them
     line_end blocks SEED         fewer of them, in heap blocks of exactly their size, for valgrind

   Prints what was compared; with status 1, the first difference. The smallest texts come first. */
#define _DEFAULT_SOURCE /* for MAP_ANONYMOUS */
#include <inttypes.h>
#include <signal.h>
#include <stddef.h>
#include <stdint.h>
#include <stdio.h>
#include <stdlib.h>
#include <string.h>
#include <sys/mman.h>
#include <unistd.h>

#include "line_end.h"

/* What texts are made of beside byte 10: its neighbours, the eight that differ from it in one bit, and the least and
   the greatest of seven and of eight bits. */
static const uint8_t others[] = {0x00, 0x02, 0x08, 0x09, 0x0b, 0x0e, 0x1a, 0x2a, 0x4a, 0x7f, 0x80, 0x8a, 0xff};
enum { OTHERS = sizeof others, SMALL = 40, LONG = (1 << 20) + 3 };

/* Starts so far past the end that adding a word to them, or taking them for signed, gives a small number. */
static const size_t far[] = {SIZE_MAX, SIZE_MAX - 6, SIZE_MAX - 7, SIZE_MAX - 8, SIZE_MAX / 2 + 1};
enum { FAR = sizeof far / sizeof *far };

/* Where a text is lent: at each offset from an aligned address; or with a page directly before or behind it that
   cannot be read; or in a heap block of its own. Bytes 10 stand beside it wherever there is room. */
enum { OFFSETS = 16, BEHIND_GUARD = OFFSETS, BEFORE_GUARD, PLACES, BLOCK = PLACES };
enum { BESIDE = 64 };

static uint8_t *room, *room_end;

/* What is asked at the moment, and the right answer. */
static struct { const uint8_t *text; size_t count, from, wanted; } asked;

/* How often each kind of case came up. */
enum { AT_START, FIRST_WORD, LATER_WORD, ODD_BYTES, NOWHERE, AT_END, PAST_END, NO_BYTES, WITHIN_WORD, KINDS };
static const char *const kinds[KINDS] = {
    "found at the start", "in the first word", "in a later word", "among the odd bytes", "nowhere", "started at the end",
    "past the end", "without bytes", "from no multiple of 8"};
static uint64_t seen[KINDS], lent_at[PLACES + 1], calls, texts;

static void fail(const char *what, const char *more) {
    fprintf(stderr, "tests/line_end/main.c: %s%s\n", what, more);
    exit(2);
}

/* The search that the call is held to. */
static size_t search(const uint8_t *text, size_t count, size_t from) {
    size_t i = from < count ? from : count;
    while (i < count && text[i] != 10)
        i++;
    return i;
}

/* Says what differs and ends. Of a long text the bytes around the right answer are shown. */
static void differ(const char *what) {
    size_t first = asked.count > BESIDE && asked.wanted > BESIDE / 2 ? asked.wanted - BESIDE / 2 : 0;
    printf("DIFFERENCE: from %zu in %zu bytes: expected %zu, %s; byte %zu and so on:", asked.from, asked.count,
           asked.wanted, what, first);
    for (size_t i = first; i < asked.count && i < first + BESIDE; i++)
        printf(" %02x", asked.text[i]);
    printf("; lent at an address of 16k + %zu\n", (size_t)((uintptr_t)asked.text % OFFSETS));
    fflush(stdout);
    _exit(1);
}

/* The call has touched what it must not, and holds no lock of the output. */
static void outside(int number) {
    (void)number;
    differ("but a byte outside is read, or one is written");
}

static void note(const uint8_t *text, size_t count, size_t from, size_t found) {
    calls++;
    seen[NO_BYTES] += count == 0;
    if (from >= count) {
        seen[from == count ? AT_END : PAST_END]++;
        return;
    }
    seen[WITHIN_WORD] += from % 8 != 0;
    size_t words = (count - from) / 8, word = (found - from) / 8;
    if (found == count)
        seen[NOWHERE]++;
    else if (text[from] == 10)
        seen[AT_START]++;
    else
        seen[word >= words ? ODD_BYTES : word == 0 ? FIRST_WORD : LATER_WORD]++;
}

static void compare(const uint8_t *text, size_t count, size_t from) {
    asked.text = text;
    asked.count = count;
    asked.from = from;
    asked.wanted = search(text, count, from);
    size_t found = job_line_end(text, count, from);
    if (found != asked.wanted) {
        char what[40];
        snprintf(what, sizeof what, "got %zu", found);
        differ(what);
    }
    note(text, count, from, found);
}

/* The bytes beside a text that lies in the room: at most BESIDE on each side. */
static size_t before(const uint8_t *at) {
    return at - room < BESIDE ? (size_t)(at - room) : BESIDE;
}

static size_t behind(const uint8_t *end) {
    return room_end - end < BESIDE ? (size_t)(room_end - end) : BESIDE;
}

/* A block of exactly so many bytes; of none, the end of a block. */
static uint8_t *block_of(size_t count) {
    uint8_t *block = malloc(count + (count == 0));
    if (block == NULL)
        fail("no memory", "");
    return block + (count == 0);
}

/* So many bytes of the room, with bytes 10 beside them. */
static uint8_t *room_for(size_t count, int place) {
    uint8_t *at = place == BEHIND_GUARD ? room : place == BEFORE_GUARD ? room_end - count : room + BESIDE + place;
    memset(at - before(at), 10, before(at));
    memset(at + count, 10, behind(at + count));
    return at;
}

static uint8_t *lend(const uint8_t *text, size_t count, int place) {
    uint8_t *at = place == BLOCK ? block_of(count) : room_for(count, place);
    memcpy(at, text, count);
    lent_at[place]++;
    texts++;
    return at;
}

static int all_tens(const uint8_t *at, size_t count) {
    size_t i = 0;
    while (i < count && at[i] == 10)
        i++;
    return i == count;
}

/* Text and bytes beside it are what they were. */
static void take_back(const uint8_t *text, size_t count, int place, uint8_t *at) {
    int same = memcmp(at, text, count) == 0;
    if (place != BLOCK)
        same = same && all_tens(at - before(at), before(at)) && all_tens(at + count, behind(at + count));
    if (!same)
        differ("but a byte has been changed");
    if (place == BLOCK)
        free(at - (count == 0));
}

/* Every start, some past the end too. */
static void hold(const uint8_t *text, size_t count, int place) {
    uint8_t *at = lend(text, count, place);
    for (size_t from = 0; from <= count + 2; from++)
        compare(at, count, from);
    for (int i = 0; i < FAR; i++)
        compare(at, count, far[i]);
    take_back(text, count, place, at);
}

static void hold_guarded(const uint8_t *text, size_t count) {
    hold(text, count, BEHIND_GUARD);
    hold(text, count, BEFORE_GUARD);
}

/* Small texts of one byte, with no byte 10, one anywhere, and two. */
static void hold_small(void) {
    uint8_t text[SMALL];
    for (size_t count = 0; count <= SMALL; count++)
        for (int k = 0; k < OTHERS; k++) {
            memset(text, others[k], count);
            hold_guarded(text, count);
            for (size_t i = 0; i < count; i++) {
                text[i] = 10;
                hold_guarded(text, count);
                for (size_t j = i + 1; j < count; j++) {
                    text[j] = 10;
                    hold_guarded(text, count);
                    text[j] = others[k];
                }
                text[i] = others[k];
            }
        }
}

/* Any three bytes side by side, at every place of three words whose other bytes are the least or the greatest: what
   one byte of a word carries into the next. */
static void hold_neighbours(void) {
    enum { COUNT = 24, EACH = OTHERS + 1 };
    uint8_t text[COUNT], bytes[EACH];
    memcpy(bytes, others, OTHERS);
    bytes[OTHERS] = 10;
    for (int n = 0; n < EACH * EACH * EACH; n++)
        for (size_t at = 0; at + 3 <= COUNT; at++)
            for (int fill = 0x00; fill <= 0xff; fill += 0xff) {
                memset(text, fill, COUNT);
                text[at] = bytes[n % EACH];
                text[at + 1] = bytes[n / EACH % EACH];
                text[at + 2] = bytes[n / EACH / EACH];
                hold(text, COUNT, BEFORE_GUARD);
            }
}

/* Starts at the ends of a long text and around its byte 10; of a short one some lie past the end. */
static void compare_long(const uint8_t *at, size_t count, size_t ten) {
    for (size_t near = 0; near <= 17; near++) {
        compare(at, count, near);
        compare(at, count, ten + 8 - near);
        compare(at, count, count + 2 - near);
    }
    for (int i = 0; i < FAR; i++)
        compare(at, count, far[i]);
}

/* One text with one byte 10, or none where it would lie at the end, on pages that cannot be written. */
static void hold_long(uint8_t *text, size_t count, size_t ten, int place) {
    uint8_t byte = text[ten];
    if (ten < count)
        text[ten] = 10;
    uint8_t *at = lend(text, count, place);
    if (mprotect(room, (size_t)(room_end - room), PROT_READ) != 0)
        fail("no pages that cannot be written", "");
    compare_long(at, count, ten);
    if (mprotect(room, (size_t)(room_end - room), PROT_READ | PROT_WRITE) != 0)
        fail("no pages that can be written", "");
    take_back(text, count, place, at);
    text[ten] = byte;
}

static void hold_lengths(void) {
    static uint8_t text[LONG + 1];
    static const size_t around[] = {8, 64, 4096, 65536, 131072};
    for (int fill = 0; fill < 2; fill++) {
        memset(text, fill ? 0xff : 0x0b, sizeof text);
        for (size_t i = 0; i < 16; i++) {
            size_t count = i < 15 ? around[i / 3] - 1 + i % 3 : LONG;
            for (int place = BEHIND_GUARD; place <= BEFORE_GUARD; place++) {
                hold_long(text, count, 0, place);
                hold_long(text, count, count / 2, place);
                hold_long(text, count, count - 1, place);
                hold_long(text, count, count, place);
            }
        }
    }
}

/* The random numbers: splitmix64. */
static uint64_t state;

static uint64_t below(uint64_t bound) {
    uint64_t z = state += 0x9e3779b97f4a7c15u;
    z = (z ^ z >> 30) * 0xbf58476d1ce4e5b9u;
    z = (z ^ z >> 27) * 0x94d049bb133111ebu;
    return (z ^ z >> 31) % bound;
}

/* So many bytes of 64 are 10; of the others half are any bytes. */
static void fill_random(uint8_t *text, size_t count, uint64_t tens) {
    for (size_t i = 0; i < count; i++) {
        uint8_t other = (uint8_t)(below(2) ? below(256) : others[below(OTHERS)]);
        text[i] = below(64) < tens ? 10 : other;
    }
}

static const uint64_t shares[] = {0, 1, 4, 16, 48, 63};

static void hold_random(uint64_t count, int block) {
    uint8_t text[200];
    for (uint64_t n = 0; n < count; n++) {
        size_t length = (size_t)below(sizeof text + 1);
        fill_random(text, length, shares[below(sizeof shares / sizeof *shares)]);
        hold(text, length, block ? BLOCK : (int)(n % PLACES));
    }
}

/* Line by line through long texts, as a reader goes. */
static void hold_lines(uint64_t count) {
    static uint8_t text[LONG];
    for (uint64_t n = 0; n < count; n++) {
        fill_random(text, LONG, shares[1 + n % 3]);
        uint8_t *at = lend(text, LONG, BEFORE_GUARD);
        for (size_t from = 0; from <= LONG; from = search(text, LONG, from) + 1)
            compare(at, LONG, from);
        take_back(text, LONG, BEFORE_GUARD, at);
    }
}

/* Fewer small texts, in blocks: no byte 10, and one anywhere. */
static void hold_blocks(void) {
    uint8_t text[SMALL];
    for (size_t count = 0; count <= SMALL; count++)
        for (size_t i = 0; i <= count; i++) {
            memset(text, others[(count + i) % OTHERS], count);
            if (i < count)
                text[i] = 10;
            hold(text, count, BLOCK);
        }
}

/* The room, with a page on either side that cannot be read. */
static void make_room(void) {
    size_t page = (size_t)sysconf(_SC_PAGESIZE), pages = LONG / page + 2;
    uint8_t *all = mmap(NULL, (pages + 2) * page, PROT_NONE, MAP_PRIVATE | MAP_ANONYMOUS, -1, 0);
    if (all == MAP_FAILED || mprotect(all + page, pages * page, PROT_READ | PROT_WRITE) != 0)
        fail("no pages", "");
    room = all + page;
    room_end = room + pages * page;
    signal(SIGSEGV, outside);
    signal(SIGBUS, outside);
}

/* Prints what was compared; fails where a kind of case, or a place from one to another, did not come up. */
static void tell(const char *where, int first, int last) {
    printf("line_end: %s: %" PRIu64 " calls on %" PRIu64 " texts:", where, calls, texts);
    for (int kind = 0; kind < KINDS; kind++)
        printf("%s %" PRIu64 " %s", kind ? "," : "", seen[kind], kinds[kind]);
    puts(": no difference");
    for (int kind = 0; kind < KINDS; kind++)
        if (seen[kind] == 0)
            fail("this did not come up: ", kinds[kind]);
    for (int place = first; place <= last; place++)
        if (lent_at[place] == 0)
            fail("no text was lent at one of the places", "");
}

int main(int argc, char **argv) {
    state = argc > 2 ? strtoull(argv[2], NULL, 10) : 0;
    if (argc == 4 && strcmp(argv[1], "texts") == 0) {
        uint64_t times = strtoull(argv[3], NULL, 10);
        make_room();
        hold_small();
        hold_neighbours();
        hold_lengths();
        hold_random(18000 * times, 0);
        hold_lines(3 * times);
        tell("beside pages that cannot be read", 0, PLACES - 1);
    } else if (argc == 3 && strcmp(argv[1], "blocks") == 0) {
        hold_blocks();
        hold_random(200, 1);
        tell("in blocks of their size", BLOCK, BLOCK);
    } else {
        fail("texts SEED TIMES | blocks SEED", "");
    }
    return 0;
}
