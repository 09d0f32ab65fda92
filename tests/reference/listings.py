#!/usr/bin/env python3
"""Holds the listings of accepted jobs to the Rust: from a file of cases that `reference jobs` or
`reference floors` wrote, each accepted job is put to the oracle as a session, its lanes removed, and a
listing is made of the oracle's answers and of the lanes in the job.

    listings.py FILE ORACLE
"""

import subprocess
import sys


def unescaped(text):
    return text.encode("ascii").decode("unicode_escape")


def accepted_jobs(path):
    """(job, listing) of each accepted job in a file of cases."""
    with open(path, encoding="ascii") as file:
        lines = file.read().splitlines()
    for i in range(0, len(lines), 3):
        job, out = (unescaped(line.partition(" ")[2]) for line in lines[i : i + 2])
        if out.startswith("status=0\n"):
            yield job, out


def lines_of(job):
    """Key and value of each line."""
    return [line.split("=") for line in job.splitlines()]


def run_of(job):
    """The job as a run of the oracle."""
    lines = lines_of(job)
    (_, p), (_, v) = lines[:2]
    run, inputs = [f"session {p} {v}"], ""
    for key, value in lines[2:]:
        if key == "in":
            inputs = value or "-"
        elif key == "out":
            run.append(f"add {inputs} {value or '-'}")
        elif key == "set":
            run.append(f"set {value}")
        elif key != "lane":
            run.append(key)
    return "\n".join(run + ["end"]) + "\n"


def lanes_of(job):
    """The lane of each registration: that of the line before its in line, or 0."""
    lines = lines_of(job)
    return [int(value) if before == "lane" else 0 for (before, value), (key, _) in zip(lines, lines[1:]) if key == "in"]


def parallelism_of(job):
    return int(job.partition("\n")[0].partition("=")[2])


def listing_of(job, answers):
    """The listing by the oracle's answers; floor and lanes, which the Rust does not know, by its order and by the job."""
    p, lanes = parallelism_of(job), lanes_of(job)
    order = [tuple(map(int, entry.split(","))) for entry in answers["order"].split()]
    rows = [tuple(map(int, row.split(","))) for row in answers["rows"].split()]
    places = answers["final"].split()[1]
    floor = min((entry[3] for index, entry in enumerate(order) if index + p <= len(order)), default=0)
    lines = ["status=0", f"entries={len(order)}", f"places={places}", f"floor={floor}"]
    lines.append(f"median={answers['median']}")
    for index, (value, added, accepted, parallelism) in enumerate(order):
        row_added, row_accepted, written, row_index, row_parallelism = rows[added]
        assert (row_added, row_accepted, row_index) == (added, accepted, index)
        assert (row_parallelism, value) == (parallelism, added)
        lines.append(
            f"order={index} added={added} accepted={accepted} "
            f"parallelism={parallelism} written={written} lane={lanes[added]}"
        )
    return "".join(line + "\n" for line in lines)


def main():
    path, oracle = sys.argv[1:]
    jobs = list(accepted_jobs(path))
    text = "".join(run_of(job) for job, _ in jobs)
    done = subprocess.run([oracle], input=text, capture_output=True, check=True, text=True)
    answers, listings = {}, []
    for line in done.stdout.splitlines():
        if line == "end":
            listings.append(listing_of(jobs[len(listings)][0], answers))
            answers = {}
        elif line.startswith("= "):
            word, _, rest = line[2:].partition(" ")
            answers[word] = rest
    assert len(listings) == len(jobs), "a run is missing"
    wrong = [i for i, (_, listing) in enumerate(jobs) if listing != listings[i]]
    for i in wrong[:3]:
        print(f"job {jobs[i][0]!r}\n  expected {jobs[i][1]!r}\n  the Rust {listings[i]!r}")
    print(f"listings: {len(jobs)} accepted jobs against the Rust, {len(wrong)} differ")
    sys.exit(1 if wrong or not jobs else 0)


main()
