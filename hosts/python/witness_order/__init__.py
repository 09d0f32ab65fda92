r"""Host code, not proved: execution orders of circuits, by the proved libraries.

    from witness_order import Calls, held, job_needs, job_reason, line_end, reason, replay, replay_ascending, run_job

    job = "parallelism=2\nplaces=2\nin=\nout=0\nin=0\nout=1\nfinal=1\n"
    print(job_needs(job).pool, line_end(job))
    for entry in run_job(job).entries:
        print(entry.added, entry.parallelism)

    calls = Calls().set(0).add([0], [1, 2]).add([2], [3], lane=1).final()
    result = replay(parallelism=4, places=4, calls=calls)
    print(result.numbers, [(entry.added, entry.lane) for entry in result.entries()], result.summary().median)
    print(replay_ascending(parallelism=4, places=4, calls=calls).numbers)
    print(held(parallelism=4, places=4, calls=Calls().add([], [0])))
    print(reason(parallelism=4, places=4, calls=Calls().add([3], [1]), registration=0).place)
    print(job_reason("parallelism=2\nplaces=2\nset=1\nin=1\nout=\nfinal=1\n", 0).place)

A job or a list of calls that is refused as a whole raises `Rejected`, with the number as a `Refusal` and,
for a job, the line. A call refused within a list raises nothing: `numbers` has its number, and it has
changed nothing. A registration that was never accepted or does not wait has no reason, and raises
`Rejected` with no line. The formats stand in docs/JOB.md and docs/REPLAY.md.

The shared library is that in the folder that ORDER_LIBS names; else, in the repository, it is linked from
the archives that tools/archives builds; else it is where tools/install puts it.
"""
from .layout import Entry, Figures, Row
from .libraries import LibraryMissing
from .refusals import Refusal
from .calls import Calls, Rejected, Replayed, held, replay, replay_ascending
from .job import Listed, Listing, run_job
from .lines import line_end
from .needs import Needs, job_needs
from .reasons import Reason, job_reason, reason

__all__ = [
    "Calls", "Entry", "Figures", "LibraryMissing", "Listed", "Listing", "Needs", "Reason", "Refusal", "Rejected", "Replayed", "Row",
    "held", "job_needs", "job_reason", "line_end", "reason", "replay", "replay_ascending", "run_job",
]
