"""Host code, not proved: a list of calls made on a fresh session, by the proved `replay_calls`, `replay_held` and
`replay_ascending`."""
import ctypes

from . import layout
from .libraries import as_arguments, function
from .limits import REPLY_RADIX
from .refusals import Refusal

SET, ADD, FLUSH, FINAL, LANE_ADD = 1, 2, 3, 4, 5
MOST = 2**64 - 1


class Rejected(Exception):
    """A job, a list of calls or a tally was refused: `refusal`, and for a job `line`."""

    def __init__(self, number, line=None):
        self.refusal = Refusal(number)
        self.line = line
        where = "" if line is None else f"line {line}: "
        super().__init__(f"{where}{self.refusal} (number {self.refusal.value})")


def numbers_of(values):
    """Numbers of 64 bits, as a list."""
    found = list(values)
    for value in found:
        if not isinstance(value, int) or not 0 <= value <= MOST:
            raise ValueError(f"{value!r} is no 64-bit number")
    return found


class Calls:
    """A list of calls, made one after another; each method returns the list itself."""

    def __init__(self):
        self.encoded = []
        self.count = 0
        self.pooled = 0

    def _more(self, numbers):
        self.encoded += numbers
        self.count += 1
        return self

    def set(self, place):
        return self._more([SET, *numbers_of([place])])

    def add(self, inputs, outputs, lane=None):
        """Adds a registration, in lane 0 unless a lane is given; a call with one over 255 is refused with 18."""
        ins, outs = numbers_of(inputs), numbers_of(outputs)
        start = [ADD] if lane is None else [LANE_ADD, *numbers_of([lane])]
        self.pooled += len(ins) + len(outs)
        return self._more([*start, len(ins), *ins, len(outs), *outs])

    def flush(self):
        return self._more([FLUSH])

    def final(self):
        return self._more([FINAL])


class Replayed:
    """What a list of calls left: each call's number (0 where it was accepted), the order, rows, marks and tally."""

    def __init__(self, storage, numbers, length):
        self.storage = storage
        self.numbers = numbers
        self.length = length

    def entries(self):
        """The order's entries, one after another."""
        return (layout.entry_at(self.storage["order"], index) for index in range(self.length))

    def row(self, registration):
        """A registration's row; zeros but for `written` until its entry stands in the order."""
        if not 0 <= registration < len(self.storage["rows"]) // layout.ROW_NUMBERS:
            raise IndexError(registration)
        return layout.row_at(self.storage["rows"], registration)

    def tally(self):
        """How many entries have each parallelism, from 0 to P."""
        return list(self.storage["tally"])

    def mark(self, place):
        """0 untracked, 32,768 written by a registration, 49,152 set."""
        if not 0 <= place < len(self.storage["marks"]):
            raise IndexError(place)
        return self.storage["marks"][place]

    def summary(self):
        """The average, the median, the counts for 0 to 127 and the 65 sums of thousands."""
        numbers = (ctypes.c_uint32 * layout.SUMMARY_NUMBERS)()
        refused = function("order_summary")(*as_arguments(self.storage["tally"], numbers))
        if refused:
            raise Rejected(refused)
        return layout.figures_of(numbers)


def judged(parallelism, places, calls, pooled):
    """Parallelism, places and the most list numbers, where there is such a session; of all calls' lists where none is given."""
    if not isinstance(calls, Calls):
        raise TypeError(f"a list of calls is a Calls, not {calls!r:.100}")
    numbers = numbers_of([parallelism, places, calls.pooled if pooled is None else pooled])
    if not layout.in_range(*numbers[:2]):
        raise Rejected(Refusal.OUT_OF_RANGE)
    return numbers


def made(name, parallelism, places, calls, pool, *more):
    """The calls made by the library's function of that name, with more numbers: the storage, each call's number, what it says."""
    parallelism, places, size = judged(parallelism, places, calls, pool)
    return made_on(layout.storage(parallelism, places, size), name, calls, parallelism, places, *more)


def made_on(storage, name, calls, *more):
    """The same on this storage."""
    answers = layout.array(ctypes.c_uint64, calls.count)
    encoded = (ctypes.c_uint64 * len(calls.encoded))(*calls.encoded)
    result = function(name)(*as_arguments(*storage.values(), answers, encoded), *more)
    # An accepted list gives a number times the radix, a refused one its own, which is below that.
    if 0 < result < REPLY_RADIX:
        raise Rejected(result)
    return storage, list(answers), result // REPLY_RADIX


def replay(parallelism, places, calls, pool=None):
    """Runs a list of calls on a fresh session. The pool has room for all lists of the calls unless given.

    Raises Rejected where the parallelism or the count of places is out of range, MemoryError where there is
    no memory for so many places or so large a pool, and TypeError where `calls` is no list of calls."""
    return Replayed(*made("replay_calls", parallelism, places, calls, pool))


def held(parallelism, places, calls, pool=None):
    """How many entries the window's 32 spans hold after a list of calls: those placed and not yet in the order.

    The calls are made, and the same is raised, as by `replay`; registrations that wait are not counted."""
    return made("replay_held", parallelism, places, calls, pool)[-1]


def replay_ascending(parallelism, places, calls, list_numbers=None):
    """Runs a list of calls on a fresh ascending session, whose accepted adds have at most so many list numbers together.

    A set must be of the lowest place that is neither set nor written, an add write that place and those after it in this
    order, and read places below them; any other has the number 21. What is accepted leaves what `replay` leaves of it, and
    the same is raised."""
    numbers = judged(parallelism, places, calls, list_numbers)
    return Replayed(*made_on(layout.ascending_storage(*numbers[:2]), "replay_ascending", calls, *numbers))
