#!/usr/bin/env python3
"""Holds a command to the hand-worked cases (cases.py), or to a file of cases that
`reference jobs` or `reference floors` wrote.

    check.py placements              the kept sample has the figures that document 01 works through
    check.py runs COMMAND..          the command answers runs, as `reference runs` does
    check.py lanes COMMAND..         the same of cases.LANES: the lanes of order, rows and held entries
    check.py jobs [FILE] COMMAND..   the command reads a job and prints what the program prints
    check.py floors COMMAND..        the command reads a job and prints a listing with the floor of cases.FLOORS
    check.py host [FILE] COMMAND..   the command, given the listing length as its last argument, reads
                                     a job and prints the returned number on a line, then the listing

FILE is told from a command by its ending, .cases. Prints the count, or what differs; status 1 then.
"""

import subprocess
import sys

sys.dont_write_bytecode = True  # a test leaves nothing beside the sources

import cases


def ask(command, text):
    done = subprocess.run(command, input=text, capture_output=True, check=False)
    if done.returncode != 0:
        return b"status %d of the command: %s" % (done.returncode, done.stderr)
    return done.stdout


def unescaped(text):
    """The bytes behind \\n, \\\\ and \\xHH."""
    return text.encode("ascii").decode("unicode_escape").encode("latin-1")


def read_cases(path):
    """(sentence, job, out, lent, returned) of each case in a file."""
    with open(path, encoding="ascii") as file:
        lines = file.read().splitlines()
    for i in range(0, len(lines), 3):
        job, out, host = (line.partition(" ")[2] for line in lines[i : i + 3])
        lent, returned = map(int, host.split())
        yield f"{path}:{i + 1}", unescaped(job), unescaped(out), lent, returned


def sample_answers(path):
    """The answers of each named run in a sample file: name, then word, then the rest of the line."""
    answers, name = {}, None
    with open(path, encoding="ascii") as file:
        for line in file.read().splitlines():
            if line.startswith("# "):
                name = line[2:].partition(":")[0]
                answers[name] = {}
            elif line.startswith("= ") and not line.startswith("= at "):
                word, _, rest = line[2:].partition(" ")
                answers[name][word] = rest.split()
    for lines in answers.values():
        entries = [entry.split(",") for entry in lines.get("order", [])]
        lines["registrations"] = [entry[0] for entry in entries]
        lines["parallelism"] = [entry[3] for entry in entries]
    return answers


def check_placements():
    answers = sample_answers("oracle/sample/placements.txt")
    for name, word, skipped, wanted in cases.PLACEMENTS:
        yield f"{name}: {word}", wanted, " ".join(answers[name][word][skipped:])


def check_runs(command):
    for sentence, run, codes in cases.RUNS:
        answer = ask(command, run.encode()).decode().splitlines()
        wanted = " ".join(["= refused"] + [f"{call},{code}" for call, code in codes.items()])
        found = [line for line in answer if line.startswith("= refused")]
        yield sentence, [wanted], found
        yield sentence + ", and it changes nothing", *untouched(command, run, codes, answer)


def untouched(command, run, codes, answer):
    """The answers of the same run without its refused calls, and those of the run itself."""
    if "open" in codes:
        return [], []
    opening, *calls, last = run.splitlines()
    kept = [call for i, call in enumerate(calls) if i not in codes]
    text = "\n".join([opening] + kept + [last]) + "\n"
    other = ask(command, text.encode()).decode().splitlines()

    def answers(lines):
        return [x for x in lines if x.startswith("=") and not x.startswith("= refused")]

    return answers(other), answers(answer)


def check_lanes(command):
    for sentence, run, *lanes in cases.LANES:
        answer = ask(command, run.encode()).decode().splitlines()
        words = ("order-lanes", "row-lanes", "held-lanes")
        wanted = [" ".join(["=", word] + told.split()) for word, told in zip(words, lanes)]
        yield sentence, wanted, [line for line in answer if line.startswith(tuple("= " + word for word in words))]


def check_jobs(path, command):
    if path:
        for sentence, job, out, _, _ in read_cases(path):
            yield sentence, out, ask(command, job)
    else:
        for sentence, job, out in cases.JOBS:
            yield sentence, out, ask(command, job)


def check_floors(command):
    for sentence, job, floor in cases.FLOORS:
        answer = ask(command, job).splitlines()
        yield sentence, [b"floor=%d" % floor], [line for line in answer if line.startswith(b"floor=")]


def check_host(path, command):
    """A refused job's number leaves the listing empty; an accepted one's is 64 times its length."""
    if path:
        wanted = read_cases(path)
    else:
        wanted = [
            (sentence, job, cases.J1_LISTING if returned % 64 == 0 else b"", lent, returned)
            for sentence, job, lent, returned in cases.HOSTS
        ]
    for sentence, job, out, lent, returned in wanted:
        listing = out if returned % 64 == 0 else b""
        answer = ask(command + [str(lent)], job)
        yield sentence, b"%d\n" % returned + listing, answer


def main():
    kind, *command = sys.argv[1:] or [""]
    if not command and kind != "placements":
        sys.exit(__doc__)
    path = command.pop(0) if command and command[0].endswith(".cases") else None
    checks = {
        "placements": check_placements,
        "runs": lambda: check_runs(command),
        "lanes": lambda: check_lanes(command),
        "jobs": lambda: check_jobs(path, command),
        "floors": lambda: check_floors(command),
        "host": lambda: check_host(path, command),
    }
    if kind not in checks:
        sys.exit(__doc__)
    count = failed = 0
    for sentence, wanted, found in checks[kind]():
        count += 1
        if wanted != found:
            failed += 1
            print(f"{kind}: {sentence}\n  expected {wanted!r:.300}\n  found    {found!r:.300}")
    print(f"{kind}: {count} cases, {failed} failed")
    sys.exit(1 if failed else 0)


main()
