#!/usr/bin/env python3
"""Host code, not proved: prints the benchmark's tables, as Markdown, from what bench/run.sh measured.

    report.py TIMES COUNTS
"""

import subprocess
import sys

SIDES = ["published", "ordered", "ours", "ascending"]
# Those that take every list; ascending takes only lists in its profile.
ORDINARY = SIDES[:3]
# What opens the session within the run.
OWN = SIDES[2:]


def read(path, names):
    """Lines of figures as dictionaries; words that are numbers become numbers."""
    with open(path, encoding="utf-8") as file:
        for line in file:
            words = line.rstrip("\n").split("\t")
            yield {k: int(w) if w.isdigit() else w for k, w in zip(names, words, strict=True)}


def by_case(lines):
    """The figures of each case (workload, P, size, waiting), side by side, in the file's order."""
    cases = {}
    for line in lines:
        case = (line["name"], line["p"], line["size"], line["waiting"])
        cases.setdefault(case, {})[line["side"]] = line
    return cases


def times(path):
    names = ["name", "p", "size", "waiting", "v", "registrations", "side", "open", "run"]
    return by_case(read(path, names))


def counts(path):
    return by_case(read(path, ["name", "p", "size", "waiting", "side", "open", "run"]))


def print_table(title, head, rows):
    print(f"\n### {title}\n")
    print("| " + " | ".join(head) + " |")
    print("|" + "---|" * 1 + "---:|" * (len(head) - 1))
    for row in rows:
        print("| " + " | ".join(row) + " |")


def number(value):
    return "–" if value is None else f"{value:,.0f}"


def ratio(value, other):
    return "–" if value is None or not other else f"{value / other:.2f}"


def per_registration(sides, registrations, figure):
    """A figure for one registration on each side, None where a side is missing or does not take the list."""
    return [figure(sides[s]) / registrations if s in sides else None for s in SIDES]


def shown(case):
    name, p, size, waiting = case
    return [name, number(p), number(waiting) if waiting else "–"]


def registrations_of(sides):
    return next(iter(sides.values()))["registrations"]


def beside(values):
    """The three sides that take every list, and ours over each of the two others."""
    published, ordered, ours = values
    return [number(v) for v in values] + [ratio(ours, published), ratio(ours, ordered)]


def beside_all(values):
    """The same, then ascending, and that over ours."""
    *ordinary, ascending = values
    return beside(ordinary) + [number(ascending), ratio(ascending, ordinary[-1])]


HEAD = ["Rust, published", "Rust, ordered", "ours", "ours / published", "ours / ordered"]
HEAD_ALL = HEAD + ["ascending", "ascending / ours"]


def time_rows(cases):
    for case, sides in cases.items():
        some = next(iter(sides.values()))
        values = per_registration(sides, some["registrations"], lambda f: f["run"])
        yield shown(case) + [number(some["v"]), number(some["registrations"])] + beside_all(values)


def opening_rows(cases):
    for case, sides in cases.items():
        some = next(iter(sides.values()))
        values = [sides[s]["open"] / 1000 if s in sides else None for s in SIDES]
        yield shown(case)[:2] + [number(some["v"])] + [number(v) for v in values]


def count_rows(counted, timed):
    for case, sides in counted.items():
        registrations = registrations_of(timed[case])
        run = lambda f: f["run"] - (f["open"] if f["side"] in OWN else 0)
        yield shown(case) + [number(registrations)] + beside_all(per_registration(sides, registrations, run))


def marginal(sides, base, side, size):
    """What each of `size` more registrations costs a side: the run with them less the run without. None where the side is
    missing, or where that is less than a fifth of the run: the times scatter as much."""
    if side not in sides or side not in base:
        return None
    more = sides[side]["run"] - base[side]["run"]
    return more / size if 5 * more >= sides[side]["run"] else None


def marginal_rows(cases):
    """What one more registration costs while others wait."""
    for (name, p, size, waiting), sides in cases.items():
        base = cases.get((name, p, 0, waiting))
        if name != "delayed" or size == 0 or base is None:
            continue
        yield [number(waiting)] + beside([marginal(sides, base, s, size) for s in ORDINARY])


def main():
    timed, counted = times(sys.argv[1]), counts(sys.argv[2])
    places = ["workload", "P", "waiting", "V", "registrations"]
    print_table("Nanoseconds a registration", places + HEAD_ALL, time_rows(timed))
    print_table(
        "Nanoseconds to place one registration while others wait under as many places",
        ["waiting"] + HEAD, marginal_rows(timed))
    if counted:
        print_table("Instructions a registration", places[:3] + places[4:] + HEAD_ALL, count_rows(counted, timed))
        print_table(
            "Instructions to place one registration while others wait under as many places",
            ["waiting"] + HEAD, marginal_rows(counted))
    plain = {c: s for c, s in timed.items() if c[3] == 0}
    print_table("Microseconds to open", ["workload", "P", "V"] + HEAD[:3] + ["ascending"], opening_rows(plain))
    storage = subprocess.run(["target/bench/bench", "storage"], capture_output=True, text=True, check=True)
    ordinary, ascending = storage.stdout.split()
    print(f"\n`replay` is lent {ordinary} bytes for each place and 4 for each number of the lists, `ascending_replay` {ascending}"
          " and none; for the spans and the tally both have 516 bytes for each of P + 1.")


if __name__ == "__main__":
    main()
