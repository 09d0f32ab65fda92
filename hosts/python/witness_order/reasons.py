"""Host code, not proved: why a registration waits, by the proved `replay_reason` and `order_reason`."""
import collections

from .calls import made, numbers_of
from .job import answer_of, bytes_of
from .libraries import as_arguments, function
from .limits import PLACE_RADIX

# The registration's greatest input, and the lowest place that is neither set nor written. Whatever is called later, the
# registration waits while this place is so.
Reason = collections.namedtuple("Reason", "input place")


def reason(parallelism, places, calls, registration, pool=None):
    """Why a registration waits after a list of calls; registrations are numbered from 0 as they are accepted.

    The calls are made, and the same is raised, as by `replay`; besides, Rejected is raised where the registration was
    never accepted or does not wait."""
    asked = numbers_of([registration])
    return Reason(*divmod(made("replay_reason", parallelism, places, calls, pool, *asked)[-1], PLACE_RADIX))


def job_reason(job, registration):
    """Why a registration waits where a job stopped, given as text or bytes: at its final, accepted or refused with 12.

    Raises Rejected where the job is refused otherwise, with the line; without one where the registration was never
    accepted or does not wait."""
    asked = numbers_of([registration])
    return Reason(*divmod(answer_of(function("order_reason")(*as_arguments(bytes_of(job)), *asked)), PLACE_RADIX))
