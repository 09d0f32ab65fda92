/* Host code, not proved: what replay_storage.h does with good and with bad arguments. Ends with 0 if
   all is as it should be, and says what is not. Compiled as C99 and as C++11. */
#include <stdio.h>
#include <stdlib.h>
#include <string.h>

#include "guide.h"
#include "order.h"
#include "order_entries.h"
#include "replay_storage.h"

static int wrong;

static void look(int holds, const char *what) {
    if (!holds) {
        fprintf(stderr, "tests/hosts/storage.c: not so: %s\n", what);
        wrong = 1;
    }
}

/* J1 of document 01 with its last registration in lane 9, a set (8) and a lane (18) that are refused, and a plain flush. */
static const uint64_t calls[] = {1, 0, 1, 0, 2, 1, 0, 1, 1, 2, 1, 1, 1, 2, 2, 1, 0, 1, 3, 3,
                                 5, 256, 0, 1, 5, 5, 9, 0, 1, 4, 4};
enum { CALLS = sizeof calls / sizeof *calls, MADE = 9, P = 2, V = 6, W = 16 };
static const uint64_t codes[MADE] = {0, ORDER_TAKEN_PLACE, 0, 0, 0, 0, ORDER_UNKNOWN_LANE, 0, 0};

/* The slices lie in the block, one after the other, none over another; of an ascending session there are six. */
static void look_at_layout(const struct replay_storage *s, const char *block, size_t bytes) {
    struct { const void *at; size_t bytes, align; } slices[8];
    const void *at[8] = {s->locations, s->waiting, s->spans, s->order, s->tally, s->rows, s->pool, s->marks};
    size_t count[8] = {REPLAY_LOCATIONS(V), REPLAY_WAITING(V), REPLAY_SPANS(P), REPLAY_ORDER(V),
                       REPLAY_TALLY(P), REPLAY_ROWS(V), W, REPLAY_MARKS(V)};
    size_t size[8] = {8, 8, 4, 4, 4, 4, 4, 2};
    const char *end = block;
    look((s->waiting == NULL) == (s->pool == NULL), "there are waiting storage and pool, or neither");
    for (int i = 0; i < 8; i++) {
        if (at[i] == NULL)
            continue;
        slices[i].at = at[i];
        slices[i].bytes = count[i] * size[i];
        slices[i].align = size[i];
        look((uintptr_t)slices[i].at % slices[i].align == 0, "a slice is aligned");
        look((const char *)slices[i].at >= end, "a slice begins where the one before has ended");
        end = (const char *)slices[i].at + slices[i].bytes;
    }
    look(end <= block + bytes, "the slices end within the block");
}

/* The order, the rows and the places after a run. */
static void look_at_results(const struct replay_storage *s) {
    struct replay_entry first = replay_entry_at(s, 0), labelled = replay_entry_at(s, 3), past = replay_entry_at(s, 4);
    look(first.value == 0 && first.added == 0 && first.accepted == 0 && first.parallelism == 2 && first.lane == 0, "entry 0");
    look(labelled.added == 3 && labelled.parallelism == 1 && labelled.lane == 9, "entry 3");
    look(past.value == 0 && past.added == 0 && past.accepted == 0 && past.parallelism == 0 && past.lane == 0, "no entry 4");
    look(REPLAY_PARALLELISM(s->order[15]) == 1 && REPLAY_LANE(s->order[15]) == 9, "the fourth number of entry 3");
    struct replay_row last = replay_row_at(s, 3), none = replay_row_at(s, V);
    look(last.added == 3 && last.accepted == 3 && last.written == 4 && last.order_index == 3 &&
         last.parallelism == 1 && last.lane == 9, "row 3");
    look(none.added == 0 && none.parallelism == 0 && none.written == 0 && none.lane == 0, "no row V");
    look(replay_mark_at(s, 0) == REPLAY_SET && replay_mark_at(s, 4) == REPLAY_WRITTEN &&
         replay_mark_at(s, 5) == REPLAY_UNTRACKED && replay_mark_at(s, V) == REPLAY_UNTRACKED, "marks");
    look(replay_location_at(s, 0).span == 0 && replay_location_at(s, 1).span == 1 &&
         replay_location_at(s, 2).span == 2 && replay_location_at(s, V).span == 0, "locations");
}

/* Tally and summary count the entries that there are. */
static void look_at_counts(const struct replay_storage *s) {
    struct replay_summary summary;
    size_t with[P + 1] = {0, 0, 0};
    uint32_t sum = 0;
    memset(&summary, 0x5a, sizeof summary);
    for (size_t i = 0; i < s->entries; i++)
        with[replay_entry_at(s, i).parallelism % (P + 1)]++;
    for (size_t p = 0; p <= P + 3; p++)
        sum += replay_tally_at(s, p);
    look(sum == s->entries && replay_tally_at(s, 1) == with[1], "the tally counts the order's entries");
    look(replay_summary_of(s, &summary) == ORDER_ACCEPTED && summary.counts[0] == 0 &&
         summary.counts[1] == with[1] && summary.counts[2] == with[2] && summary.counts[3] == 0 &&
         summary.thousands[0] == 4 && summary.thousands[1] == 0, "the summary's counts are the order's");
    look(summary.median == (2 * with[1] >= 4 ? 1u : 2u), "the median");
    look(summary.average == (float)(4.0 / 65000), "the average");
    look(replay_summary_of(s, NULL) == ORDER_TOO_SHORT, "a null summary is refused");
}

/* Two runs in a block so far from an aligned address, full of a pattern before, with bytes around it
   that must stay. */
static void look_at_runs(char *memory, size_t offset) {
    size_t bytes = replay_storage_bytes(P, V, W);
    uint64_t answers[MADE + 1];
    memset(answers, 0x5a, sizeof answers);
    memset(memory, 0x5a, bytes + 64);
    struct replay_storage s = replay_storage_in(memory + offset, P, V, W);
    look(s.refusal == ORDER_ACCEPTED && s.entries == 0, "a storage is laid out");
    look_at_layout(&s, memory + offset, bytes);
    for (int again = 0; again < 2; again++) {
        look(replay_run(&s, calls, CALLS, answers, MADE) == 64 * 4, "the run returns 64 times 4 entries");
        look(s.entries == 4, "there are four entries");
        look(memcmp(answers, codes, sizeof codes) == 0, "each call has its number");
        look(answers[MADE] == 0x5a5a5a5a5a5a5a5au, "the answer after the last stays");
        look_at_results(&s);
        look_at_counts(&s);
    }
    for (size_t i = 0; i < offset; i++)
        look(memory[i] == 0x5a, "the bytes before the block stay");
    for (size_t i = offset + bytes; i < bytes + 64; i++)
        look(memory[i] == 0x5a, "the bytes behind the block stay");
}

/* The same list on an ascending session: a place that is set twice is a breach of the profile, all else is the same. In a
   block for such a session alone, and in one for an ordinary session. */
static void look_at_ascending(char *memory, size_t offset, int alone) {
    static const uint64_t ascending[MADE] = {0, ORDER_PROFILE_BREACH, 0, 0, 0, 0, ORDER_UNKNOWN_LANE, 0, 0};
    size_t bytes = alone ? replay_ascending_bytes(P, V) : replay_storage_bytes(P, V, W);
    uint64_t answers[MADE + 1];
    memset(answers, 0x5a, sizeof answers);
    memset(memory, 0x5a, bytes + 64);
    struct replay_storage s = alone ? replay_ascending_in(memory + offset, P, V, W)
                                    : replay_storage_in(memory + offset, P, V, W);
    look(s.refusal == ORDER_ACCEPTED && s.entries == 0 && (s.waiting == NULL) == alone, "a storage is laid out");
    look_at_layout(&s, memory + offset, bytes);
    for (int again = 0; again < 2; again++) {
        look(replay_run_ascending(&s, calls, CALLS, answers, MADE) == 64 * 4 && s.entries == 4, "there are four entries");
        look(memcmp(answers, ascending, sizeof ascending) == 0, "each call has its number");
        look(answers[MADE] == 0x5a5a5a5a5a5a5a5au, "the answer after the last stays");
        look_at_results(&s);
        look_at_counts(&s);
        look(replay_run(&s, calls, CALLS, answers, MADE) == (alone ? (uint64_t)ORDER_TOO_SHORT : 64 * 4),
             "an ordinary session needs the waiting storage");
        look(alone == (s.entries == 0), "after a refused run there is no entry");
        look(replay_run_held(&s, calls, CALLS, answers, MADE) == (alone ? ORDER_TOO_SHORT : 0), "replay_run_held too");
        look(replay_run_reason(&s, calls, CALLS, answers, MADE, 0) ==
             (uint64_t)(alone ? ORDER_TOO_SHORT : ORDER_NOT_WAITING), "replay_run_reason too");
    }
    for (size_t i = 0; i < offset; i++)
        look(memory[i] == 0x5a, "the bytes before the block stay");
    for (size_t i = offset + bytes; i < bytes + 64; i++)
        look(memory[i] == 0x5a, "the bytes behind the block stay");
}

/* J1 has seven list numbers: w of 7, and the greatest, take them, and 6 leaves the last registration out. */
static void look_at_list_numbers(void) {
    static char block[100000];
    static const uint64_t bounds[3] = {6, 7, UINT64_MAX};
    uint64_t answers[MADE];
    for (int i = 0; i < 3; i++) {
        struct replay_storage s = replay_ascending_in(block, P, V, bounds[i]);
        uint64_t returned = replay_run_ascending(&s, calls, CALLS, answers, MADE);
        look(returned == 64 * (i == 0 ? 3 : 4) && answers[7] == (i == 0 ? ORDER_FULL_POOL : ORDER_ACCEPTED),
             "w bounds the list numbers");
    }
}

/* What the window holds after each beginning of the list; two blocks of memory, one for each call, are the same
   afterwards. */
static void look_at_held(void) {
    static const size_t ends[MADE] = {2, 4, 9, 14, 19, 20, 25, 30, 31};
    static const uint64_t held[MADE] = {0, 0, 1, 2, 3, 0, 0, 1, 0};
    static char block[100000], other[sizeof block];
    uint64_t answers[MADE], others[MADE];
    struct replay_storage s = replay_storage_in(block, P, V, W), t = replay_storage_in(other, P, V, W);
    look(replay_run_held(&s, NULL, 0, NULL, 0) == 0 && s.entries == 0, "a fresh window holds nothing");
    for (size_t made = 1; made <= MADE; made++) {
        size_t count = ends[made - 1];
        memset(block, 0x5a, sizeof block);
        memset(other, 0x5a, sizeof other);
        look(replay_run_held(&s, calls, count, answers, made) == 64 * held[made - 1], "so much is held");
        look(replay_run(&t, calls, count, others, made) % 64 == 0 && t.entries == s.entries, "the order's length");
        look(memcmp(answers, others, made * sizeof *answers) == 0, "both calls answer the same");
        look(memcmp(block, other, sizeof block) == 0, "both calls write the same");
    }
    look_at_results(&s);
    look_at_counts(&s);
}

/* Why registrations wait after each beginning of a list in which two do, one of them until its end; the blocks of memory of
   this call and of replay_run are the same afterwards. */
static void look_at_reasons(void) {
    static const uint64_t list[] = {2, 1, 1, 1, 2, 2, 2, 3, 0, 0, 1, 0, 4, 1, 1};
    static const size_t ends[5] = {5, 10, 12, 13, 15};
    static const uint64_t first[5] = {1, 1, 1, 1, ORDER_NOT_WAITING}; /* its greatest input, or the number */
    static const uint64_t place[5] = {0, 0, 1, 1, 3};
    static char block[100000], other[sizeof block];
    uint64_t answers[5], others[5];
    struct replay_storage s = replay_storage_in(block, P, V, W), t = replay_storage_in(other, P, V, W);
    look(replay_run_reason(&s, NULL, 0, NULL, 0, 0) == ORDER_NEVER_ACCEPTED && s.entries == 0, "nothing was accepted");
    for (size_t made = 1; made <= 5; made++) {
        size_t i = made - 1, count = ends[i];
        memset(block, 0x5a, sizeof block);
        memset(other, 0x5a, sizeof other);
        uint64_t returned = replay_run_reason(&s, list, count, answers, made, 0);
        look(first[i] == ORDER_NOT_WAITING ? returned == first[i]
                                           : REASON_CODE(returned) == ORDER_ACCEPTED && REASON_INPUT(returned) == first[i] &&
                                                 REASON_PLACE(returned) == place[i], "why the first waits, or that it does not");
        look(replay_run(&t, list, count, others, made) % 64 == 0 && t.entries == s.entries, "the order's length");
        look(memcmp(answers, others, made * sizeof *answers) == 0, "both calls answer the same");
        look(memcmp(block, other, sizeof block) == 0, "both calls write the same");
        returned = replay_run_reason(&s, list, count, answers, made, 1);
        look(made == 1 ? returned == ORDER_NEVER_ACCEPTED
                       : REASON_CODE(returned) == ORDER_ACCEPTED && REASON_INPUT(returned) == 3 &&
                             REASON_PLACE(returned) == place[i], "why the second waits");
        look(replay_run_reason(&s, list, count, answers, made, UINT64_MAX) == ORDER_NEVER_ACCEPTED, "no registration 2^64 - 1");
    }
    look(answers[3] == ORDER_STILL_WAITING, "final is refused while one waits");
    look(replay_run_reason(&s, list, 4, answers, 5, 0) == ORDER_MALFORMED, "a list that is cut short is refused");
    look(replay_run_reason(&s, list, 5, answers, 0, 0) == ORDER_TOO_SHORT, "too few answers are refused");
    look(replay_run_reason(&s, NULL, 5, answers, 5, 0) == ORDER_MALFORMED, "null calls are refused");
    look(replay_run_reason(&s, list, 5, NULL, 5, 0) == ORDER_TOO_SHORT && s.entries == 0, "null answers are refused");
    look(replay_run_reason(NULL, list, 5, answers, 5, 0) == ORDER_TOO_SHORT, "no storage is refused");
}

/* Sizes that no session has, and blocks that are too short. */
static void look_at_sizes(void) {
    static char block[100000];
    size_t bytes = replay_storage_bytes(P, V, W);
    look(bytes > 0 && bytes < sizeof block, "a small storage has some bytes");
    look(replay_storage_bytes(0, V, W) == 0 && replay_storage_bytes(65000, V, W) == 0, "P out of range has none");
    look(replay_storage_bytes(P, 0, W) == 0 && replay_storage_bytes(P, 16777217, W) == 0, "V out of range has none");
    look(replay_storage_bytes(UINT64_MAX, UINT64_MAX, UINT64_MAX) == 0, "the greatest of all have none");
    look(replay_storage_bytes(P, V, UINT64_MAX) == 0 && replay_storage_bytes(P, V, SIZE_MAX / 8) == 0,
         "a pool that no memory holds has none");
    look(replay_storage_bytes(64999, 16777216, 0) > 1300000000u, "the greatest session has its bytes");
    look(replay_storage_bytes(P, V, W + 1) == bytes + 4, "a pool number has four bytes");
    look(replay_storage_in(block, 0, V, W).refusal == ORDER_OUT_OF_RANGE, "P = 0 is refused with 1");
    look(replay_storage_in(block, P, UINT64_MAX, W).refusal == ORDER_OUT_OF_RANGE, "a huge V is refused with 1");
    look(replay_storage_in(block, P, V, UINT64_MAX).refusal == ORDER_TOO_SHORT, "a huge W is refused with 2");
    look(replay_storage_in(NULL, P, V, W).refusal == ORDER_TOO_SHORT, "null memory is refused with 2");
    look(replay_storage_within(block, bytes - 1, P, V, W).refusal == ORDER_TOO_SHORT, "a byte less is refused");
    look(replay_storage_within(block, bytes, P, V, W).refusal == ORDER_ACCEPTED, "bytes enough are accepted");
    size_t fewer = replay_ascending_bytes(P, V);
    look(fewer + 32 * V + 4 * W == bytes, "an ascending session needs 32 bytes a place and 4 a list number fewer");
    look(replay_ascending_bytes(P, V + 1) == fewer + 46, "46 bytes a place");
    look(replay_ascending_bytes(0, V) == 0 && replay_ascending_bytes(65000, V) == 0 && replay_ascending_bytes(P, 0) == 0 &&
         replay_ascending_bytes(P, 16777217) == 0, "P or V out of range has no ascending session");
    look(replay_ascending_in(block, 0, V, W).refusal == ORDER_OUT_OF_RANGE, "P = 0 is refused with 1 there");
    look(replay_ascending_in(block, P, UINT64_MAX, W).refusal == ORDER_OUT_OF_RANGE, "a huge V is refused with 1 there");
    look(replay_ascending_in(NULL, P, V, W).refusal == ORDER_TOO_SHORT, "null memory is refused with 2 there");
    look(replay_ascending_within(block, fewer - 1, P, V, W).refusal == ORDER_TOO_SHORT, "a byte less is refused there");
    look(replay_ascending_within(block, fewer, P, V, UINT64_MAX).refusal == ORDER_ACCEPTED, "any W is accepted there");
}

/* replay_run, replay_run_held or replay_run_ascending. */
typedef uint64_t running(struct replay_storage *, const uint64_t *, size_t, uint64_t *, size_t);

/* Runs that are refused: nothing is written, and without storage all reads as 0. */
static void look_at_refused_runs(running *run) {
    static char block[100000];
    uint64_t answers[MADE];
    struct replay_summary summary;
    struct replay_storage none = replay_storage_in(NULL, P, V, W), s = replay_storage_in(block, P, V, W);
    look(run(&none, calls, CALLS, answers, MADE) == ORDER_TOO_SHORT, "a run without storage is refused");
    look(run(NULL, calls, CALLS, answers, MADE) == ORDER_TOO_SHORT, "a run on null is refused");
    look(replay_summary_of(&none, &summary) == ORDER_TOO_SHORT, "a summary without storage is refused");
    look(replay_entry_at(&none, 0).parallelism == 0 && replay_row_at(&none, 0).parallelism == 0 &&
         replay_tally_at(&none, 0) == 0 && replay_mark_at(&none, 0) == 0 && replay_location_at(&none, 0).span == 0,
         "without storage all is 0");
    memset(block, 0x5a, sizeof block);
    look(run(&s, calls, CALLS, answers, MADE - 1) == ORDER_TOO_SHORT, "an answer less is refused");
    look(run(&s, calls, CALLS, NULL, MADE) == ORDER_TOO_SHORT, "null answers are refused");
    look(run(&s, NULL, CALLS, answers, MADE) == ORDER_MALFORMED, "null calls are refused");
    look(run(&s, calls, CALLS - 2, answers, MADE) == ORDER_MALFORMED, "a call cut short is refused");
    look(s.entries == 0, "after a refused run there is no entry");
    for (size_t i = 0; i < sizeof block; i++)
        look(block[i] == 0x5a, "a refused run writes nothing");
    look(run(&s, NULL, 0, NULL, 0) == 0 && s.entries == 0, "no calls at all are accepted");
}

/* G2 of document 01: a value after nothing, one after it, and a third after a location that is not held. */
static void look_at_guide(void) {
    static uint32_t spans[GUIDE_SPANS(3)], order[GUIDE_ORDER(9)], tally[GUIDE_TALLY(3)], answers[GUIDE_ANSWERS(4)];
    static const uint32_t requests[4 * GUIDE_REQUEST] = {
        GUIDE_PUSH, 0, 0, 5, 0, 0,
        GUIDE_PUSH_AFTER, 1, 0, 6, 1, 1,
        GUIDE_PUSH_AFTER, 1, 1, 7, 2, 2,
        GUIDE_FLUSH, 0, 0, 0, 0, 0,
    };
    const uint32_t *answer = answers;
    look(guide_replay(3, 9, requests, 4 * GUIDE_REQUEST, spans, GUIDE_SPANS(3), order, GUIDE_ORDER(9),
                      tally, GUIDE_TALLY(3), answers, GUIDE_ANSWERS(4)) == ORDER_ACCEPTED, "requests are served");
    look(answer[0] == 0 && answer[1] == 1 && answer[2] == 0, "the first stands at (1,0)");
    answer += GUIDE_ANSWER;
    look(answer[0] == 0 && answer[1] == 2 && answer[2] == 0, "the second stands at (2,0)");
    answer += GUIDE_ANSWER;
    look(answer[0] == ORDER_NOT_HELD, "the third is refused with 13");
    answer += GUIDE_ANSWER;
    look(answer[0] == 0 && answer[3] == 2 && order[0] == 5 && order[4] == 6, "two entries are in the order");
    look(guide_replay(0, 9, requests, 4 * GUIDE_REQUEST, spans, GUIDE_SPANS(3), order, GUIDE_ORDER(9),
                      tally, GUIDE_TALLY(3), answers, GUIDE_ANSWERS(4)) == ORDER_OUT_OF_RANGE, "P = 0 is refused");
}

/* The numbers in words, and the other calls in the same program. */
static void look_at_others(void) {
    uint8_t listing[1000];
    const char *empty = "parallelism=1\nplaces=1\nfinal=1\n";
    struct order_info info;
    uint32_t flat[4] = {7, 8, 9, 10 + 65536 * 11};
    look(order_job((const uint8_t *)empty, strlen(empty), listing, sizeof listing) % 64 == 0, "an empty job");
    look(order_job((const uint8_t *)empty, strlen(empty), listing, 1) == 64 + ORDER_LONG_LISTING, "17 on line 1");
    look(sizeof info == 16, "an entry has 16 bytes");
    look(order_append_new(&info, 1, flat, 4, 0, 1) == 0 && info.value == 7 && info.parallelism == 10 && info.lane == 11,
         "a struct");
    look(order_append_new(&info, 1, flat, 4, 0, 2) == ORDER_TOO_SHORT, "two entries of one are refused");
    flat[3] = REPLAY_MOST_PARALLELISM + ORDER_LANE_RADIX * (ORDER_MOST_LANE + 1);
    look(order_append_new(&info, 1, flat, 4, 0, 1) == ORDER_TOO_SHORT && info.lane == 11, "a lane of nine bits is refused");
    flat[3] -= ORDER_LANE_RADIX;
    look(REPLAY_PARALLELISM(flat[3]) == 64999 && REPLAY_LANE(flat[3]) == 255, "the greatest parallelism and lane");
    look(order_append_new(&info, 1, flat, 4, 0, 1) == 0 && info.parallelism == 64999 && info.lane == 255, "as a struct");
    look(strcmp(order_code_text(0), "accepted") == 0, "0 is accepted");
    for (uint64_t n = 1; n <= ORDER_PROFILE_BREACH; n++)
        look(strcmp(order_code_text(n), order_code_text(1000)) != 0, "each number has its words");
}

int main(void) {
    char *memory = (char *)malloc(replay_storage_bytes(P, V, W) + 64);
    look(memory != NULL, "there is memory for a small storage");
    for (size_t offset = 16; memory != NULL && offset < 24; offset++) {
        look_at_runs(memory, offset);
        look_at_ascending(memory, offset, 1);
        look_at_ascending(memory, offset, 0);
    }
    free(memory);
    look_at_list_numbers();
    look_at_held();
    look_at_reasons();
    look_at_sizes();
    look_at_refused_runs(replay_run);
    look_at_refused_runs(replay_run_held);
    look_at_refused_runs(replay_run_ascending);
    look_at_guide();
    look_at_others();
    return wrong;
}
