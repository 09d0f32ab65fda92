"""Host code, not proved: a job run by one call of the proved `order_job`."""
import collections
import ctypes

from .calls import Rejected, numbers_of
from .layout import array
from .libraries import as_arguments, function
from .limits import PROGRAM_LISTING_BYTES, REPLY_RADIX

LISTING_BYTES = PROGRAM_LISTING_BYTES

# An entry's line: its order index, and the line's other fields by their names.
Listed = collections.namedtuple("Listed", "index added accepted parallelism written lane")


class Listing:
    """The listing of an accepted job: its text, the numbers of its head by name, its entries."""

    def __init__(self, text):
        self.text = text
        self.head = {}
        self.entries = []
        for line in text.splitlines():
            numbers = {key: int(number) for key, number in (word.split("=") for word in line.split(" "))}
            if "order" in numbers:
                self.entries.append(Listed(numbers["order"], *(numbers[key] for key in Listed._fields[1:])))
            else:
                self.head.update(numbers)

    def __str__(self):
        return self.text


def encoded(job):
    """A job, which is text or bytes, as bytes."""
    if not isinstance(job, (str, bytes, bytearray)):
        raise TypeError(f"a job is text or bytes, and not {type(job).__name__}")
    return job.encode() if isinstance(job, str) else bytes(job)


def bytes_of(job):
    """A job, which is text or bytes, as an array."""
    data = encoded(job)
    return (ctypes.c_uint8 * len(data)).from_buffer_copy(data) if data else (ctypes.c_uint8 * 0)()


def answer_of(result):
    """What a call that reads a job says of an accepted one. Raises Rejected where it was refused, with the line at fault, if any."""
    rest, number = divmod(result, REPLY_RADIX)
    if number:
        raise Rejected(number, rest or None)
    return rest


def run_job(job, room=LISTING_BYTES):
    """Runs a job, given as text or bytes, with so many bytes for its listing. Raises Rejected where it is refused."""
    text = bytes_of(job)
    listing = array(ctypes.c_uint8, *numbers_of([room]))
    length = answer_of(function("order_job")(*as_arguments(text, listing)))
    return Listing(bytes(listing[:length]).decode("ascii"))
