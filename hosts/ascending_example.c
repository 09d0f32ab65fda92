/* Host code, not proved: the job J1 of document 01 on an ascending session, its order printed; then two calls that
   breach the profile.

       tools/archives ascending_replay
       gcc -Ihosts hosts/ascending_example.c target/staticlib/libascending_replay.a -o ascending_example
       ./ascending_example

   J1 numbers its places in the order in which they are set and written, so its order is that of every session. The
   exit status is 1 where the list is refused, or a call of it otherwise than with ORDER_PROFILE_BREACH. */
#include <inttypes.h>
#include <stdio.h>

#include "replay.h"

#define P 2
#define V 6
#define W 16

int main(void) {
    static uint32_t spans[REPLAY_SPANS(P)], order[REPLAY_ORDER(V)], tally[REPLAY_TALLY(P)];
    static uint32_t rows[REPLAY_ROWS(V)];
    static uint16_t marks[REPLAY_MARKS(V)];
    static uint64_t locations[REPLAY_LOCATIONS(V)];

    static const uint64_t calls[] = {
        1, 0,          /* set 0 */
        2, 1, 0, 1, 1, /* add, input 0, output 1 */
        2, 1, 1, 1, 2, /* add, input 1, output 2 */
        2, 1, 0, 1, 3, /* add, input 0, output 3 */
        1, 5,          /* set 5, but 4 is the lowest place that is neither set nor written */
        2, 1, 4, 1, 4, /* add, output 4, but its input is not below that */
        2, 0, 1, 4,    /* add, no input, output 4 */
        4,             /* final */
    };
    uint64_t answers[8];
    int ended = 0;

    uint64_t returned = replay_ascending(
        spans, REPLAY_SPANS(P), order, REPLAY_ORDER(V), tally, REPLAY_TALLY(P),
        rows, REPLAY_ROWS(V), marks, REPLAY_MARKS(V), locations, REPLAY_LOCATIONS(V),
        answers, sizeof answers / sizeof *answers, calls, sizeof calls / sizeof *calls, P, V, W);

    if (returned % ORDER_REPLY_RADIX != ORDER_ACCEPTED) {
        fprintf(stderr, "the list of calls: refused with %" PRIu64 ": %s\n", returned, order_code_text(returned));
        return 1;
    }
    for (size_t i = 0; i < sizeof answers / sizeof *answers; i++)
        if (answers[i] == ORDER_PROFILE_BREACH)
            printf("call %zu breaches the profile\n", i);
        else if (answers[i] != ORDER_ACCEPTED) {
            fprintf(stderr, "call %zu: refused with %" PRIu64 ": %s\n", i, answers[i], order_code_text(answers[i]));
            ended = 1;
        }
    for (uint64_t i = 0; i < returned / ORDER_REPLY_RADIX; i++) {
        const uint32_t *entry = order + REPLAY_ENTRY_NUMBERS * i;
        printf("order=%" PRIu64 " added=%" PRIu32 " accepted=%" PRIu32 " parallelism=%" PRIu32
               " written=%" PRIu32 " lane=%" PRIu32 "\n",
               i, entry[1], entry[2], REPLAY_PARALLELISM(entry[3]),
               rows[REPLAY_ROW_NUMBERS * entry[1] + 2], REPLAY_LANE(entry[3]));
    }
    return ended;
}
