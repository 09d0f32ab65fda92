"""Host code, not proved. Written by tools/refusals.py from hosts/refusals.txt.

The numbers of refusals as an enum, with what they mean in words."""

import enum


class Refusal(enum.IntEnum):
    """Why a call, a list of calls or a job was refused, or no reason given."""

    OUT_OF_RANGE = 1
    TOO_SHORT = 2
    TOO_MANY_NUMBERS = 3
    FLAGGED_PLACE = 4
    UNKNOWN_PLACE = 5
    REPEATED_OUTPUT = 6
    CLOSED = 7
    TAKEN_PLACE = 8
    TOO_MANY_REGISTRATIONS = 9
    FULL_POOL = 10
    TOO_MANY_FLUSHES = 11
    STILL_WAITING = 12
    NOT_HELD = 13
    GUIDE_EXHAUSTED = 14
    MALFORMED = 15
    LONG_JOB = 16
    LONG_LISTING = 17
    UNKNOWN_LANE = 18
    NEVER_ACCEPTED = 19
    NOT_WAITING = 20
    PROFILE_BREACH = 21

    @property
    def when(self):
        """When it is given."""
        return WHEN[self]

    @property
    def advice(self):
        """What to do about it."""
        return ADVICE[self]

    def __str__(self):
        return self.when


WHEN = {
    1: "the parallelism is not from 1 to 64,999, or the count of places is not from 1 to 16,777,216",
    2: "the lent storage is too short for this parallelism, this count of places or this list",
    3: "a registration has more than 65,535 inputs or more than 65,535 outputs",
    4: "a place has bit 62 (witness) or bit 63 (placeholder)",
    5: "a place is not below the count of places",
    6: "a place stands twice among the outputs of a registration",
    7: "the session is closed by an accepted final",
    8: "a place to be set or written is already set, written or promised by a waiting registration",
    9: "as many registrations are accepted as there are places",
    10: "the list numbers of all accepted registrations and of this one would together pass the pool",
    11: "65,535 plain flushes are done",
    12: "final was called while a registration waits for its inputs",
    13: "the guide alone was asked to place after a location, not before its window, at which it holds no entry",
    14: "the guide alone has accepted as many pushes as it was opened for, or its span numbers are used up",
    15: "a line is malformed, missing or surplus; in a list of calls or requests, a number starts none or one is cut short",
    16: "the job has more than 65,536 bytes",
    17: "the listing is longer than the bytes that are lent for it",
    18: "a registration's lane is over 255",
    19: "no registration of this number was accepted",
    20: "the registration was accepted and does not wait",
    21: "in an ascending session, a place to be set or written is not the lowest one neither set nor written, or an input is not below the first output (with none, below that lowest one)",
}

ADVICE = {
    1: "choose both within their ranges",
    2: "lend more storage; `order` has it for a parallelism of at most 64 and at most 512 places, `order-large` for every one in range",
    3: "divide the registration into several",
    4: "name places by their index alone",
    5: "count the places from 0, or open with more of them",
    6: "name each output once",
    7: "make final the last call",
    8: "let each place be set once or written by one registration",
    9: "open with more places",
    10: "lend a longer pool; `order` has 4,096 numbers, `order-large` as many as the job needs",
    11: "flush less often; final still runs",
    12: "set or write every place up to the greatest input of each registration before final",
    13: "give a location that a push has returned",
    14: "open a guide for more pushes",
    15: "compare the line with the grammar",
    16: "run it by `order-large`, which takes jobs of any size",
    17: "lend more bytes, or run the job by `order-large`, which prints listings of any size",
    18: "number the lanes from 0 to 255",
    19: "ask for a registration below the count of accepted ones; they are numbered from 0",
    20: "nothing: it is placed",
    21: "number the places in the order in which they are set and written, or use an ordinary session",
}


def text(number):
    """A number in words, 0 for accepted; a number that is no refusal's is said to be so."""
    return "accepted" if number == 0 else WHEN.get(number, "no number of a refusal")
