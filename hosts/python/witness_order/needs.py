"""Host code, not proved: what a job needs, from its text alone, by one call of the proved `job_needs`."""
import collections
import ctypes

from .job import answer_of, bytes_of
from .libraries import as_arguments, function

# Registrations, the numbers in all their lists, plain flushes, and the most spans that running the job releases.
Needs = collections.namedtuple("Needs", "registrations pool flushes most_spans")


def job_needs(job):
    """What a job needs, given as text or bytes; it is not run, and its parallelism, places and calls are not judged.

    Raises Rejected where it has more than 65,536 bytes, or where a line is malformed, missing or surplus."""
    numbers = (ctypes.c_uint64 * len(Needs._fields))()
    answer_of(function("job_needs")(*as_arguments(bytes_of(job)), numbers))
    return Needs(*numbers)
