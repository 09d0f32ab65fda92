#!/usr/bin/env python3
"""Writes what the program guide_vectors is run on, from the kept sample of the Rust's answers.

    vectors.py stdin     the traced lists of the guide alone with P <= 64, as 32-bit numbers
    vectors.py stdout    what the program must write: the Rust's answers to them

A list is P, V, the count of calls and six numbers a call (kind, span, position, value, added,
accepted; kind 0 is a flush, 1 a push after nothing, 2 a push after a location). Of each call the
program writes the number of its refusal, its location and the order's length after it, a line;
then the order's entries, a line each, and the tally's P + 1 counts on one line.
"""
import struct
import sys


def runs():
    for name in ("placements", "guides"):
        run = None
        for line in open(f"oracle/sample/{name}.txt", encoding="ascii"):
            words = line.split()
            if words[:1] == ["guide"]:
                run = {"p": int(words[1]), "v": int(words[2]), "calls": [], "at": []}
            elif run is None or not words:
                continue
            elif words == ["trace"]:
                run["traced"] = True
            elif words[0] in ("push", "flush"):
                run["calls"].append(words)
            elif words[0] == "=":
                if words[1] == "at":
                    run["at"].append(words[2:])
                else:
                    run[words[1]] = words[2:]
            elif words == ["end"]:
                if run.get("traced") and run["p"] <= 64 and len(run["calls"]) <= 128:
                    yield run
                run = None


def numbers(run):
    yield from (run["p"], run["v"], len(run["calls"]))
    for call in run["calls"]:
        if call[0] == "flush":
            yield from (0, 0, 0, 0, 0, 0)
            continue
        span, position = (0, 0) if call[4] == "-" else map(int, call[4].split(","))
        yield from (1 if call[4] == "-" else 2, span, position, *map(int, call[1:4]))


def lines(run):
    yield "0"
    for code, location, length, *_ in run["at"]:
        span, position = ("0", "0") if location == "-" else location.split(",")
        yield f"{code} {span} {position} {length}"
    for entry in run["order"]:
        yield entry.replace(",", " ")
    tally = dict(tuple(map(int, pair.split(","))) for pair in run["tally"])
    yield "".join(f"{tally.get(p, 0)} " for p in range(run["p"] + 1))


if sys.argv[1:] == ["stdin"]:
    for one in runs():
        sys.stdout.buffer.write(b"".join(struct.pack("<I", n) for n in numbers(one)))
elif sys.argv[1:] == ["stdout"]:
    for one in runs():
        print("\n".join(lines(one)))
else:
    sys.exit("use: vectors.py stdin | stdout")
