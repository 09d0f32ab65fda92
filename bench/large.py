#!/usr/bin/env python3
"""Host code, not proved: measures order-large beside the Rust and prints the table, as Markdown. bench/large.sh builds first.

    large.py REPETITIONS

A figure is the whole program's time on the processor, its own and the system's, and its greatest
resident memory: the job is read from a file and the listing written to one. The sides take turns.
"""

import filecmp
import os
import pathlib
import sys

WORK = pathlib.Path("target/bench")
SIDES = {
    "Rust, published": ["target/bench/large", "published"],
    "Rust, ordered": ["target/bench/large", "ordered"],
    "order-large": ["target/cargo/release/order-large"],
}
# Nothing waits in these, so that the published registrar has the same order too.
CASES = [(name, size) for size in (1 << 20, 1 << 22) for name in ("forward", "poseidon", "chain")]
P = 1024


def run(command, output):
    """Seconds on the processor and megabytes."""
    with open(output, "wb") as out:
        child = os.posix_spawn(command[0], command, os.environ, file_actions=[(os.POSIX_SPAWN_DUP2, out.fileno(), 1)])
        _, status, used = os.wait4(child, 0)
    if status != 0:
        sys.exit(f"large.py: {' '.join(command)} ended with {status}")
    return used.ru_utime + used.ru_stime, used.ru_maxrss * 1024 / 1e6


def measure(name, size, repetitions):
    job = WORK / "large.job"
    run([str(WORK / "jobtext"), name, str(P), str(size), "0"], job)
    least = {}
    for _ in range(repetitions):
        for side, command in SIDES.items():
            figures = run([*command, str(job)], WORK / f"{side}.listing")
            least[side] = min(least.get(side, figures), figures)
    listings = [WORK / f"{side}.listing" for side in SIDES]
    for other in listings[:-1]:
        if not filecmp.cmp(other, listings[-1], shallow=False):
            sys.exit(f"large.py: {name} at {size}: {other} and {listings[-1]} differ")
    sizes = [os.path.getsize(path) / 1e6 for path in (job, listings[-1])]
    for path in [job, *listings]:
        path.unlink()
    return sizes, least


def main():
    words = sys.argv[1:]
    if len(words) != 1 or not (words[0].isascii() and words[0].isdigit() and 0 < int(words[0]) < 10_000):
        print("large.py: REPETITIONS is a number from 1 to 9999", file=sys.stderr)
        sys.exit(2)
    repetitions = int(words[0])
    heads = "".join(f" {side}, s |" for side in SIDES) + "".join(f" {side}, MB |" for side in SIDES)
    print("| workload | places | job, MB | listing, MB |" + heads)
    print("|---|---:|---:|---:|" + "---:|" * (2 * len(SIDES)))
    for name, size in CASES:
        (job, listing), least = measure(name, size, repetitions)
        times = "".join(f" {least[side][0]:.2f} |" for side in SIDES)
        memory = "".join(f" {least[side][1]:,.0f} |" for side in SIDES)
        print(f"| {name} | {size:,} | {job:.0f} | {listing:.0f} |{times}{memory}", flush=True)


main()
