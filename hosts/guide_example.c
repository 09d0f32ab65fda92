/* Host code, not proved: one call of guide_replay, four pushes and a flush; the answers and the order printed.

       tools/archives alone_replay
       gcc -Ihosts hosts/guide_example.c target/staticlib/libalone_replay.a -o guide_example
       ./guide_example */
#include <inttypes.h>
#include <stdio.h>

#include "guide.h"

#define P 2
#define V 4

/* Kind, span and position of `after`, value, added, accepted. */
static const uint32_t requests[] = {
    GUIDE_PUSH, 0, 0, 70, 0, 0,
    GUIDE_PUSH_AFTER, 1, 0, 71, 1, 1, /* after the first entry, which got span 1, position 0 */
    GUIDE_PUSH, 0, 0, 72, 2, 2,
    GUIDE_PUSH, 0, 0, 73, 3, 3,
    GUIDE_FLUSH, 0, 0, 0, 0, 0,
};
#define REQUESTS (sizeof requests / sizeof *requests / GUIDE_REQUEST)

int main(void) {
    static uint32_t spans[GUIDE_SPANS(P)], order[GUIDE_ORDER(V)], tally[GUIDE_TALLY(P)];
    static uint32_t answers[GUIDE_ANSWERS(REQUESTS)];
    int ended = 0;
    uint32_t length = 0;

    uint32_t code = guide_replay(P, V, requests, sizeof requests / sizeof *requests,
                                 spans, GUIDE_SPANS(P), order, GUIDE_ORDER(V), tally, GUIDE_TALLY(P),
                                 answers, GUIDE_ANSWERS(REQUESTS));
    if (code != ORDER_ACCEPTED) {
        fprintf(stderr, "the list of requests: refused with %" PRIu32 ": %s\n", code, order_code_text(code));
        return 1;
    }
    for (size_t i = 0; i < REQUESTS; i++) {
        const uint32_t *answer = answers + GUIDE_ANSWER * i;
        if (answer[0] != ORDER_ACCEPTED) {
            fprintf(stderr, "request %zu: refused with %" PRIu32 ": %s\n", i, answer[0], order_code_text(answer[0]));
            ended = 1;
        } else if (requests[GUIDE_REQUEST * i] != GUIDE_FLUSH) {
            printf("request %zu: span %" PRIu32 ", position %" PRIu32 "\n", i, answer[1], answer[2]);
        }
        length = answer[3];
    }
    for (uint32_t i = 0; i < length; i++) {
        const uint32_t *entry = order + GUIDE_ENTRY * i;
        printf("order=%" PRIu32 " value=%" PRIu32 " added=%" PRIu32 " accepted=%" PRIu32 " parallelism=%" PRIu32 "\n",
               i, entry[0], entry[1], entry[2], entry[3]);
    }
    return ended;
}
