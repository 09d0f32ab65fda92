"""Host code, not proved: where a line of a job ends, by one call of the proved `job_line_end`."""
import ctypes

from .job import encoded
from .libraries import U8, function


def line_end(job, start=0):
    """The place of the first byte 10 at or after `start`; None where there is none, or where `start` lies past the bytes.

    The next line starts one further, and what stands after the last byte 10 is no line. Places are those of bytes: a text
    is taken as its bytes in UTF-8, made anew by each call, so that bytes serve better to go through many lines.
    Raises ValueError where `start` is no number from 0 on."""
    if not isinstance(start, int) or start < 0:
        raise ValueError(f"{start!r} is no place in a job")
    data = encoded(job)
    # The bytes are looked at where they lie; of a start above 64 bits the library would get the lower ones alone.
    end = function("job_line_end")(ctypes.cast(data, ctypes.POINTER(U8)), len(data), min(start, len(data)))
    return end if end < len(data) else None
