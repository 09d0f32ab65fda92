"""Host code, not proved: how the libraries lay numbers out in storage; nothing else here knows these figures.

docs/REPLAY.md has the same table."""
import collections
import ctypes
import struct

from .limits import LOW_COUNTS, MOST_PARALLELISM, MOST_PLACES, SUMS_OF_THOUSANDS

Entry = collections.namedtuple("Entry", "value added accepted parallelism lane")
Row = collections.namedtuple("Row", "added accepted written index parallelism lane")
Figures = collections.namedtuple("Figures", "average median counts thousands")

SPANS = 32
# Parallelism and lane stand in one number: parallelism + LANE_RADIX * lane.
LANE_RADIX = 65_536
ENTRY_NUMBERS = len(Entry._fields) - 1
ROW_NUMBERS = len(Row._fields) - 1
WAITING_PER_PLACE = 4
COUNTS, THOUSANDS = LOW_COUNTS, SUMS_OF_THOUSANDS
SUMMARY_NUMBERS = 2 + COUNTS + THOUSANDS


def in_range(parallelism, places):
    """Whether a session can be opened with these at all."""
    return 1 <= parallelism <= MOST_PARALLELISM and 1 <= places <= MOST_PLACES


def array(kind, count):
    """So many numbers of a kind; MemoryError says how many there is no memory for."""
    try:
        return (kind * count)()
    except (MemoryError, OverflowError):
        raise MemoryError(f"no memory for {count} numbers of {ctypes.sizeof(kind)} bytes") from None


def ascending_storage(parallelism, places):
    """The slices that an ascending session works on, in the order of the call's arguments."""
    return {
        "spans": array(ctypes.c_uint32, ENTRY_NUMBERS * SPANS * (parallelism + 1)),
        "order": array(ctypes.c_uint32, ENTRY_NUMBERS * places),
        "tally": array(ctypes.c_uint32, parallelism + 1),
        "rows": array(ctypes.c_uint32, ROW_NUMBERS * places),
        "marks": array(ctypes.c_uint16, places),
        "locations": array(ctypes.c_uint64, places),
    }


def storage(parallelism, places, pool):
    """The slices that an ordinary session works on, in the order of the call's arguments."""
    return {
        **ascending_storage(parallelism, places),
        "waiting": array(ctypes.c_uint64, WAITING_PER_PLACE * places),
        "pool": array(ctypes.c_uint32, pool),
    }


def unpacked(numbers, index, count):
    """The fields of an entry or a row among the flat numbers, so many each; the last number is two of them."""
    *fields, last = numbers[count * index : count * (index + 1)]
    lane, parallelism = divmod(last, LANE_RADIX)
    return (*fields, parallelism, lane)


def entry_at(order, index):
    return Entry(*unpacked(order, index, ENTRY_NUMBERS))


def row_at(rows, registration):
    return Row(*unpacked(rows, registration, ROW_NUMBERS))


def figures_of(numbers):
    """The numbers of a summary: the average's bits, the median, the counts, the sums of thousands."""
    average = struct.unpack("<f", struct.pack("<I", numbers[0]))[0]
    return Figures(average, numbers[1], tuple(numbers[2 : 2 + COUNTS]), tuple(numbers[2 + COUNTS : SUMMARY_NUMBERS]))
