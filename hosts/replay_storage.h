/* Host code, not proved: the storage of a session in one block of memory, around the proved replay_calls,
   replay_held, replay_reason and replay_ascending.

       size_t bytes = replay_storage_bytes(p, v, w);           0: no session is that large
       void *memory = malloc(bytes);
       struct replay_storage storage = replay_storage_in(memory, p, v, w);
       uint64_t returned = replay_run(&storage, calls, calls_count, answers, answers_count);
       for (size_t i = 0; i < storage.entries; i++) .. replay_entry_at(&storage, i) ..

   For an ascending session it is replay_ascending_bytes(p, v), replay_ascending_in(memory, p, v, w) and
   replay_run_ascending.

   All functions are defined here; the program is linked with the archive of crate replay, with that
   of crate summary where it calls replay_summary_of, with that of crate reason where it calls
   replay_run_reason, and with that of crate ascending_replay where it calls replay_run_ascending.
   hosts/storage_example.c is a whole program. docs/REPLAY.md describes the calls' encoding, and what
   the slices hold. */
#ifndef REPLAY_STORAGE_H
#define REPLAY_STORAGE_H

#include <string.h>

#include "reason.h"
#include "replay.h"
#include "summary.h"

/* The greatest parallelism and count of places that a session has. */
#define REPLAY_MOST_PARALLELISM ORDER_MOST_PARALLELISM
#define REPLAY_MOST_PLACES ORDER_MOST_PLACES

/* The slices of a session, laid out in memory that the caller owns, and what became of the last run.
   Read them as you like; write none while the results of a run are wanted. */
struct replay_storage {
    uint64_t refusal;    /* an order_code: not 0 if no storage could be laid out */
    uint64_t p, v;       /* parallelism and count of places */
    size_t pool_count;   /* W: how many list numbers all accepted adds may have together */
    uint64_t *locations; /* V numbers: a place's span number * 2^32 + its position */
    uint64_t *waiting;   /* 4 V numbers, the session's own; null where there is room for an ascending one only */
    uint32_t *spans;     /* 128 (P + 1) numbers, the session's own */
    uint32_t *order;     /* 4 V numbers, 4 an entry */
    uint32_t *tally;     /* P + 1 numbers: how many entries have the parallelism 0, 1, .. P */
    uint32_t *rows;      /* 5 V numbers, 5 a registration */
    uint32_t *pool;      /* W numbers, the session's own; null as above */
    uint16_t *marks;     /* V numbers: REPLAY_UNTRACKED, REPLAY_WRITTEN or REPLAY_SET */
    size_t entries;      /* the order's length; 0 before the first run and after a refused one */
};

/* An entry of the order. */
struct replay_entry {
    uint32_t value, added, accepted, parallelism, lane;
};

/* What is recorded of a registration. */
struct replay_row {
    uint32_t added, accepted, written, order_index, parallelism, lane;
};

/* Where a place stands: (0,0) if it is set. */
struct replay_location {
    uint32_t span, position;
};

/* What final gives of the tally: the average is the order's length by 65,000 (as the Rust has it), the
   median the first parallelism up to which half of the entries lie; the counts for each parallelism
   below 128, and for each thousand of them. */
struct replay_summary {
    float average;
    uint32_t median, counts[128], thousands[65];
};

/* The bytes that the slices of an ascending session take. */
static inline size_t replay_ascending_fixed(uint64_t p, uint64_t v) {
    return sizeof(uint64_t) * REPLAY_LOCATIONS(v) +
           sizeof(uint32_t) * (REPLAY_SPANS(p) + REPLAY_ORDER(v) + REPLAY_TALLY(p) + REPLAY_ROWS(v)) +
           sizeof(uint16_t) * REPLAY_MARKS(v);
}

/* The bytes that all slices but the pool take. */
static inline size_t replay_storage_fixed(uint64_t p, uint64_t v) {
    return replay_ascending_fixed(p, v) + sizeof(uint64_t) * REPLAY_WAITING(v);
}

/* Whether there are sessions of parallelism p over v places: ORDER_ACCEPTED or ORDER_OUT_OF_RANGE. */
static inline uint64_t replay_range_code(uint64_t p, uint64_t v) {
    int within = p >= 1 && p <= REPLAY_MOST_PARALLELISM && v >= 1 && v <= REPLAY_MOST_PLACES;
    return within ? ORDER_ACCEPTED : ORDER_OUT_OF_RANGE;
}

/* The order_code for a session of parallelism p over v places with a pool of w numbers: 0, or
   ORDER_OUT_OF_RANGE for p or v, or ORDER_TOO_SHORT for a pool that no memory holds. */
static inline uint64_t replay_storage_code(uint64_t p, uint64_t v, uint64_t w) {
    if (replay_range_code(p, v) != ORDER_ACCEPTED)
        return ORDER_OUT_OF_RANGE;
    if (w > (SIZE_MAX / 2 - replay_storage_fixed(p, v)) / sizeof(uint32_t) - 2)
        return ORDER_TOO_SHORT;
    return ORDER_ACCEPTED;
}

/* How many bytes a block must have; 0 where replay_storage_code refuses. Any address will do: bytes
   to begin at a multiple of 8 are counted. */
static inline size_t replay_storage_bytes(uint64_t p, uint64_t v, uint64_t w) {
    if (replay_storage_code(p, v, w) != ORDER_ACCEPTED)
        return 0;
    return replay_storage_fixed(p, v) + sizeof(uint32_t) * (size_t)w + (sizeof(uint64_t) - 1);
}

/* The same for an ascending session; 0 for a p or v out of range. */
static inline size_t replay_ascending_bytes(uint64_t p, uint64_t v) {
    if (replay_range_code(p, v) != ORDER_ACCEPTED)
        return 0;
    return replay_ascending_fixed(p, v) + (sizeof(uint64_t) - 1);
}

/* The slices from an address on, with the waiting storage and the pool only where they are asked for. */
static inline struct replay_storage replay_laid_out(void *memory, uint64_t p, uint64_t v, uint64_t w, int ordinary) {
    struct replay_storage storage = {ORDER_ACCEPTED, p, v, (size_t)w, NULL, NULL, NULL, NULL,
                                     NULL, NULL, NULL, NULL, 0};
    /* by descending size of their numbers, so that each slice begins where its numbers may stand */
    size_t ahead = (size_t)(-(uintptr_t)memory % sizeof(uint64_t));
    uint64_t *next;
    storage.locations = (uint64_t *)(void *)((char *)memory + ahead);
    next = storage.locations + REPLAY_LOCATIONS(v);
    if (ordinary) {
        storage.waiting = next;
        next += REPLAY_WAITING(v);
    }
    storage.spans = (uint32_t *)(void *)next;
    storage.order = storage.spans + REPLAY_SPANS(p);
    storage.tally = storage.order + REPLAY_ORDER(v);
    storage.rows = storage.tally + REPLAY_TALLY(p);
    if (ordinary)
        storage.pool = storage.rows + REPLAY_ROWS(v);
    storage.marks = (uint16_t *)(void *)(storage.rows + REPLAY_ROWS(v) + (ordinary ? storage.pool_count : 0));
    return storage;
}

/* What stands for a storage where none can be laid out. */
static inline struct replay_storage replay_no_storage(uint64_t code) {
    struct replay_storage storage = {code, 0, 0, 0, NULL, NULL, NULL, NULL, NULL, NULL, NULL, NULL, 0};
    return storage;
}

/* Lays the slices out in a block of so many bytes. The block's contents do not matter and are not
   changed before the first run; the caller keeps the block, and frees it when all is read. Where
   `refusal` of the result is not 0 there is no storage in it: ORDER_OUT_OF_RANGE for p or v,
   ORDER_TOO_SHORT for a null pointer, a block shorter than replay_storage_bytes(p, v, w), or a w for
   which that is 0. */
static inline struct replay_storage replay_storage_within(void *memory, size_t bytes,
                                                          uint64_t p, uint64_t v, uint64_t w) {
    uint64_t code = replay_storage_code(p, v, w);
    if (code == ORDER_ACCEPTED && (memory == NULL || bytes < replay_storage_bytes(p, v, w)))
        code = ORDER_TOO_SHORT;
    return code == ORDER_ACCEPTED ? replay_laid_out(memory, p, v, w, 1) : replay_no_storage(code);
}

/* The same in a block that has replay_storage_bytes(p, v, w) bytes. */
static inline struct replay_storage replay_storage_in(void *memory, uint64_t p, uint64_t v, uint64_t w) {
    return replay_storage_within(memory, replay_storage_bytes(p, v, w), p, v, w);
}

/* The same for an ascending session, without waiting storage and pool: w is a number to count to, and any will do. */
static inline struct replay_storage replay_ascending_within(void *memory, size_t bytes,
                                                            uint64_t p, uint64_t v, uint64_t w) {
    uint64_t code = replay_range_code(p, v);
    if (code == ORDER_ACCEPTED && (memory == NULL || bytes < replay_ascending_bytes(p, v)))
        code = ORDER_TOO_SHORT;
    return code == ORDER_ACCEPTED ? replay_laid_out(memory, p, v, w, 0) : replay_no_storage(code);
}

/* In a block that has replay_ascending_bytes(p, v) bytes. */
static inline struct replay_storage replay_ascending_in(void *memory, uint64_t p, uint64_t v, uint64_t w) {
    return replay_ascending_within(memory, replay_ascending_bytes(p, v), p, v, w);
}

/* The slices as the first arguments of the proved calls: of replay_ascending, and of the others. */
#define REPLAY_ASCENDING_SLICES(storage)                                                      \
    (storage)->spans, REPLAY_SPANS((storage)->p), (storage)->order, REPLAY_ORDER((storage)->v), \
    (storage)->tally, REPLAY_TALLY((storage)->p), (storage)->rows, REPLAY_ROWS((storage)->v),   \
    (storage)->marks, REPLAY_MARKS((storage)->v),                                             \
    (storage)->locations, REPLAY_LOCATIONS((storage)->v)
#define REPLAY_SLICES(storage)                                                                \
    REPLAY_ASCENDING_SLICES(storage),                                                         \
    (storage)->waiting, REPLAY_WAITING((storage)->v), (storage)->pool, (storage)->pool_count

/* What every run begins with: no entries, and the refusal of a storage that could not be laid out, of null calls and of
   null answers, unless their count is 0. */
static inline uint64_t replay_any_code(struct replay_storage *storage, const uint64_t *calls, size_t calls_count,
                                       const uint64_t *answers, size_t answers_count) {
    if (storage == NULL)
        return ORDER_TOO_SHORT;
    storage->entries = 0;
    if (storage->refusal != ORDER_ACCEPTED)
        return storage->refusal;
    if (calls == NULL && calls_count > 0)
        return ORDER_MALFORMED;
    if (answers == NULL && answers_count > 0)
        return ORDER_TOO_SHORT;
    return ORDER_ACCEPTED;
}

/* The same for a run of an ordinary session, for which a storage laid out for an ascending one is too short. */
static inline uint64_t replay_run_code(struct replay_storage *storage, const uint64_t *calls, size_t calls_count,
                                       const uint64_t *answers, size_t answers_count) {
    uint64_t code = replay_any_code(storage, calls, calls_count, answers, answers_count);
    return code == ORDER_ACCEPTED && storage->waiting == NULL ? (uint64_t)ORDER_TOO_SHORT : code;
}

/* What replay_run and replay_run_held have in common: `function` is called on the storage, if there is any. */
static inline uint64_t replay_run_by(replay_function *function, struct replay_storage *storage,
                                     const uint64_t *calls, size_t calls_count,
                                     uint64_t *answers, size_t answers_count) {
    uint64_t nothing = 0, code = replay_run_code(storage, calls, calls_count, answers, answers_count);
    if (code != ORDER_ACCEPTED)
        return code;
    return function(REPLAY_SLICES(storage), answers == NULL ? &nothing : answers, answers_count,
                    calls == NULL ? &nothing : calls, calls_count, storage->p, storage->v);
}

/* How many entries the tally counts: the order's length. */
static inline size_t replay_tallied(const struct replay_storage *storage) {
    size_t sum = 0;
    for (size_t i = 0; i < REPLAY_TALLY(storage->p); i++)
        sum += storage->tally[i];
    return sum;
}

/* Opens a session on the storage and makes all calls; each call's number, 0 if it was accepted, goes to
   `answers`, of which one for each call is needed. Returns what replay_calls returns, 64 times the
   order's length or the number of a refusal; besides, the refusal of a storage that could not be laid
   out, ORDER_TOO_SHORT for null answers and ORDER_MALFORMED for null calls (unless their count is 0).
   A storage may be run again; each run opens a session afresh. */
static inline uint64_t replay_run(struct replay_storage *storage, const uint64_t *calls, size_t calls_count,
                                  uint64_t *answers, size_t answers_count) {
    uint64_t returned = replay_run_by(replay_calls, storage, calls, calls_count, answers, answers_count);
    if (returned % ORDER_REPLY_RADIX == ORDER_ACCEPTED)
        storage->entries = (size_t)(returned / ORDER_REPLY_RADIX);
    return returned;
}

/* The same run, but what is returned is that of replay_held: 64 times the entries that the window's spans
   hold after the calls. The results are read as after replay_run; the order is as long as the tally says. */
static inline uint64_t replay_run_held(struct replay_storage *storage, const uint64_t *calls, size_t calls_count,
                                       uint64_t *answers, size_t answers_count) {
    uint64_t returned = replay_run_by(replay_held, storage, calls, calls_count, answers, answers_count);
    if (returned % ORDER_REPLY_RADIX == ORDER_ACCEPTED)
        storage->entries = replay_tallied(storage);
    return returned;
}

/* The same run once more, but what is returned is that of replay_reason: why registration r waits after the calls, taken
   apart by REASON_CODE, REASON_INPUT and REASON_PLACE. Where it was never accepted or does not wait, the calls have been
   made, and the results are read as after every other run. */
static inline uint64_t replay_run_reason(struct replay_storage *storage, const uint64_t *calls, size_t calls_count,
                                         uint64_t *answers, size_t answers_count, uint64_t r) {
    uint64_t nothing = 0, returned = replay_run_code(storage, calls, calls_count, answers, answers_count);
    if (returned != ORDER_ACCEPTED)
        return returned;
    returned = replay_reason(REPLAY_SLICES(storage), answers == NULL ? &nothing : answers, answers_count,
                             calls == NULL ? &nothing : calls, calls_count, storage->p, storage->v, r);
    switch (REASON_CODE(returned)) {
    case ORDER_ACCEPTED:
    case ORDER_NEVER_ACCEPTED:
    case ORDER_NOT_WAITING:
        storage->entries = replay_tallied(storage);
    }
    return returned;
}

/* Opens an ascending session on the storage and makes all calls, as replay_run does for an ordinary one; returned is
   what replay_ascending returns. A storage laid out for an ordinary session will do too. */
static inline uint64_t replay_run_ascending(struct replay_storage *storage, const uint64_t *calls, size_t calls_count,
                                            uint64_t *answers, size_t answers_count) {
    uint64_t nothing = 0, returned = replay_any_code(storage, calls, calls_count, answers, answers_count);
    if (returned != ORDER_ACCEPTED)
        return returned;
    returned = replay_ascending(REPLAY_ASCENDING_SLICES(storage), answers == NULL ? &nothing : answers, answers_count,
                                calls == NULL ? &nothing : calls, calls_count,
                                storage->p, storage->v, storage->pool_count);
    if (returned % ORDER_REPLY_RADIX == ORDER_ACCEPTED)
        storage->entries = (size_t)(returned / ORDER_REPLY_RADIX);
    return returned;
}

/* Entry `index` of the order; past its end all zeros, which no entry is: its parallelism is 1 or more. */
static inline struct replay_entry replay_entry_at(const struct replay_storage *storage, size_t index) {
    struct replay_entry entry = {0, 0, 0, 0, 0};
    if (index < storage->entries) {
        const uint32_t *numbers = storage->order + REPLAY_ENTRY_NUMBERS * index;
        entry.value = numbers[0];
        entry.added = numbers[1];
        entry.accepted = numbers[2];
        entry.parallelism = REPLAY_PARALLELISM(numbers[3]);
        entry.lane = REPLAY_LANE(numbers[3]);
    }
    return entry;
}

/* The row of a registration, numbered from 0 as it was added; after an accepted run. All but `written`
   is 0 until the entry stands in the order; all zeros where there is no such registration. */
static inline struct replay_row replay_row_at(const struct replay_storage *storage, size_t registration) {
    struct replay_row row = {0, 0, 0, 0, 0, 0};
    if (storage->refusal == ORDER_ACCEPTED && registration < storage->v) {
        const uint32_t *numbers = storage->rows + REPLAY_ROW_NUMBERS * registration;
        row.added = numbers[0];
        row.accepted = numbers[1];
        row.written = numbers[2];
        row.order_index = numbers[3];
        row.parallelism = REPLAY_PARALLELISM(numbers[4]);
        row.lane = REPLAY_LANE(numbers[4]);
    }
    return row;
}

/* How many entries have a parallelism, after an accepted run. */
static inline uint32_t replay_tally_at(const struct replay_storage *storage, size_t parallelism) {
    int there = storage->refusal == ORDER_ACCEPTED && parallelism <= storage->p;
    return there ? storage->tally[parallelism] : 0;
}

/* The summary of the tally, after an accepted run. Returns 0; or a refusal, `summary` as it was: that of
   a storage that could not be laid out, or ORDER_TOO_SHORT for a null pointer. */
static inline uint64_t replay_summary_of(const struct replay_storage *storage, struct replay_summary *summary) {
    uint32_t numbers[SUMMARY_NUMBERS];
    uint64_t code;
    if (storage->refusal != ORDER_ACCEPTED)
        return storage->refusal;
    if (summary == NULL)
        return ORDER_TOO_SHORT;
    code = order_summary(storage->tally, REPLAY_TALLY(storage->p), numbers, SUMMARY_NUMBERS);
    if (code == ORDER_ACCEPTED) {
        memcpy(&summary->average, numbers + SUMMARY_AVERAGE, sizeof summary->average);
        summary->median = numbers[SUMMARY_MEDIAN];
        memcpy(summary->counts, numbers + SUMMARY_COUNTS, sizeof summary->counts);
        memcpy(summary->thousands, numbers + SUMMARY_THOUSANDS, sizeof summary->thousands);
    }
    return code;
}

/* The mark of a place, after an accepted run; REPLAY_UNTRACKED for a place that there is not. */
static inline uint16_t replay_mark_at(const struct replay_storage *storage, size_t place) {
    int there = storage->refusal == ORDER_ACCEPTED && place < storage->v;
    return (uint16_t)(there ? storage->marks[place] : REPLAY_UNTRACKED);
}

/* The location of a place that is set or written, after an accepted run; (0,0) of any other. */
static inline struct replay_location replay_location_at(const struct replay_storage *storage, size_t place) {
    struct replay_location location = {0, 0};
    if (storage->refusal == ORDER_ACCEPTED && place < storage->v) {
        location.span = (uint32_t)(storage->locations[place] >> 32);
        location.position = (uint32_t)(storage->locations[place] & 0xffffffffu);
    }
    return location;
}

#endif
