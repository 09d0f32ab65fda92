/* Host code, not proved: the job J1 of document 01 through replay_storage, its order also as structs.

       tools/archives replay summary order_entries
       gcc -Ihosts hosts/storage_example.c target/staticlib/libreplay.a \
           target/staticlib/libsummary.a target/staticlib/liborder_entries.a -o storage_example
       ./storage_example

   The exit status is 1 where the list or a call of it is refused. */
#include <inttypes.h>
#include <stdio.h>
#include <stdlib.h>

#include "order_entries.h"
#include "replay_storage.h"

#define P 2
#define V 6
#define W 16

static const uint64_t calls[] = {
    1, 0,          /* set 0 */
    2, 1, 0, 1, 1, /* add, input 0, output 1 */
    2, 1, 1, 1, 2, /* add, input 1, output 2 */
    2, 1, 0, 1, 3, /* add, input 0, output 3 */
    2, 0, 1, 4,    /* add, no input, output 4 */
    4,             /* final */
};

static int refused(const char *what, uint64_t code) {
    fprintf(stderr, "%s: refused with %" PRIu64 ": %s\n", what, code, order_code_text(code));
    return 1;
}

static void print_order(const struct replay_storage *storage) {
    for (size_t i = 0; i < storage->entries; i++) {
        struct replay_entry entry = replay_entry_at(storage, i);
        struct replay_row row = replay_row_at(storage, entry.added);
        printf("order=%zu added=%" PRIu32 " accepted=%" PRIu32 " parallelism=%" PRIu32 " written=%" PRIu32
               " lane=%" PRIu32 "\n",
               i, entry.added, entry.accepted, entry.parallelism, row.written, entry.lane);
    }
    for (size_t parallelism = 1; parallelism <= storage->p; parallelism++)
        printf("parallelism %zu: %" PRIu32 " entries\n", parallelism, replay_tally_at(storage, parallelism));
}

static int print_median(const struct replay_storage *storage) {
    struct replay_summary summary;
    uint64_t code = replay_summary_of(storage, &summary);
    if (code != ORDER_ACCEPTED)
        return refused("the summary", code);
    printf("median %" PRIu32 "\n", summary.median);
    return 0;
}

static int print_last_struct(const struct replay_storage *storage) {
    struct order_info infos[V];
    uint64_t code = order_append_new(infos, V, storage->order, REPLAY_ORDER(V), 0, storage->entries);
    if (code != ORDER_ACCEPTED)
        return refused("the order as structs", code);
    if (storage->entries > 0)
        printf("the last entry: added %" PRIu32 ", parallelism %u, lane %u\n", infos[storage->entries - 1].added,
               (unsigned)infos[storage->entries - 1].parallelism, (unsigned)infos[storage->entries - 1].lane);
    return 0;
}

int main(void) {
    uint64_t answers[6];
    void *memory = malloc(replay_storage_bytes(P, V, W));
    struct replay_storage storage = replay_storage_in(memory, P, V, W);
    int ended = 0;

    uint64_t returned = replay_run(&storage, calls, sizeof calls / sizeof *calls,
                                   answers, sizeof answers / sizeof *answers);
    if (returned % ORDER_REPLY_RADIX != ORDER_ACCEPTED) {
        free(memory);
        return refused("the list of calls", returned);
    }
    for (size_t i = 0; i < sizeof answers / sizeof *answers; i++)
        if (answers[i] != ORDER_ACCEPTED)
            ended = refused("a call", answers[i]);
    print_order(&storage);
    if (print_median(&storage) || print_last_struct(&storage))
        ended = 1;
    free(memory);
    return ended;
}
