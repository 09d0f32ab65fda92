/* Host code, not proved. Written by tools/refusals.py from hosts/refusals.txt.
   The numbers of refusals, and what they mean in words; docs/JOB.md says what to do about each. */
#ifndef ORDER_REFUSALS_H
#define ORDER_REFUSALS_H

#include <stdint.h>

enum order_code {
    ORDER_ACCEPTED = 0,
    ORDER_OUT_OF_RANGE = 1,
    ORDER_TOO_SHORT = 2,
    ORDER_TOO_MANY_NUMBERS = 3,
    ORDER_FLAGGED_PLACE = 4,
    ORDER_UNKNOWN_PLACE = 5,
    ORDER_REPEATED_OUTPUT = 6,
    ORDER_CLOSED = 7,
    ORDER_TAKEN_PLACE = 8,
    ORDER_TOO_MANY_REGISTRATIONS = 9,
    ORDER_FULL_POOL = 10,
    ORDER_TOO_MANY_FLUSHES = 11,
    ORDER_STILL_WAITING = 12,
    ORDER_NOT_HELD = 13,
    ORDER_GUIDE_EXHAUSTED = 14,
    ORDER_MALFORMED = 15,
    ORDER_LONG_JOB = 16,
    ORDER_LONG_LISTING = 17,
    ORDER_UNKNOWN_LANE = 18,
    ORDER_NEVER_ACCEPTED = 19,
    ORDER_NOT_WAITING = 20,
    ORDER_PROFILE_BREACH = 21
};

/* A number in words: when it is given. Never null; a number that is none of the above is said to be so. */
static inline const char *order_code_text(uint64_t number) {
    switch (number) {
    case ORDER_ACCEPTED:
        return "accepted";
    case ORDER_OUT_OF_RANGE:
        return "the parallelism is not from 1 to 64,999, or the count of places is not from 1 to 16,777,216";
    case ORDER_TOO_SHORT:
        return "the lent storage is too short for this parallelism, this count of places or this list";
    case ORDER_TOO_MANY_NUMBERS:
        return "a registration has more than 65,535 inputs or more than 65,535 outputs";
    case ORDER_FLAGGED_PLACE:
        return "a place has bit 62 (witness) or bit 63 (placeholder)";
    case ORDER_UNKNOWN_PLACE:
        return "a place is not below the count of places";
    case ORDER_REPEATED_OUTPUT:
        return "a place stands twice among the outputs of a registration";
    case ORDER_CLOSED:
        return "the session is closed by an accepted final";
    case ORDER_TAKEN_PLACE:
        return "a place to be set or written is already set, written or promised by a waiting registration";
    case ORDER_TOO_MANY_REGISTRATIONS:
        return "as many registrations are accepted as there are places";
    case ORDER_FULL_POOL:
        return "the list numbers of all accepted registrations and of this one would together pass the pool";
    case ORDER_TOO_MANY_FLUSHES:
        return "65,535 plain flushes are done";
    case ORDER_STILL_WAITING:
        return "final was called while a registration waits for its inputs";
    case ORDER_NOT_HELD:
        return "the guide alone was asked to place after a location, not before its window, at which it holds no entry";
    case ORDER_GUIDE_EXHAUSTED:
        return "the guide alone has accepted as many pushes as it was opened for, or its span numbers are used up";
    case ORDER_MALFORMED:
        return "a line is malformed, missing or surplus; in a list of calls or requests, a number starts none or one is cut short";
    case ORDER_LONG_JOB:
        return "the job has more than 65,536 bytes";
    case ORDER_LONG_LISTING:
        return "the listing is longer than the bytes that are lent for it";
    case ORDER_UNKNOWN_LANE:
        return "a registration's lane is over 255";
    case ORDER_NEVER_ACCEPTED:
        return "no registration of this number was accepted";
    case ORDER_NOT_WAITING:
        return "the registration was accepted and does not wait";
    case ORDER_PROFILE_BREACH:
        return "in an ascending session, a place to be set or written is not the lowest one neither set nor written, or an input is not below the first output (with none, below that lowest one)";
    default:
        return "no number of a refusal";
    }
}

#endif
