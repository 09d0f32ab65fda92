#!/usr/bin/env python3
"""Host code, not proved: counts what is hard to read in the crates.

    tools/metrics.py                a line for each count
    tools/metrics.py --names        and below it where: crates, functions, files
    tools/metrics.py --check        says where a contract has more than 400 characters or a crate spells a layout out
                                    which is another's; the status is then 1
    --root FOLDER                   of another repository than the one that this tool stands in

Counted are contracts of more than 400 characters; lines of more than 200 characters; functions of more than 40 lines (from `fn` to the closing bracket, without the
contract) or with more than 8 parameters; the crates that spell a layout out which is another's (`4 *` or `/ 4` for an
entry, `5 *` or `/ 5` for a row, `2 * v` to `4 * v` for the waiting storage), rules and laws aside, which define them;
unused names (tools/unused.py); and the uses that crates.txt lists."""

import collections
import pathlib
import re
import sys

import sources
import unused

FUNCTION = re.compile(r'(?m)^(?:pub )?(?:extern "C" )?fn (\w+)')
# Each layout: how it is spelled, and the crates that may.
PLACES = r"(?:v|\(?\w+ ?\.v\)?)"
LAYOUTS = {
    "entry": (re.compile(rf"(?<![\w.])(?:4 \* (?!{PLACES}(?!\w)))|(?<![\w.])\S+ / 4(?!\d)"), {"entries"}),
    "row": (re.compile(r"(?<![\w.])5 \* |(?<![\w.])\S+ / 5(?!\d)"), {"records"}),
    "waiting storage": (re.compile(rf"(?<![\w.])[234] \* {PLACES}(?!\w)"), {"registrar", "lists", "taken", "pool"}),
}
DEFINING = {"rules", "laws", "vectors"}
NONE = ("contracts over", "crates that spell")  # counts that are to be 0


class Function:
    """A function of a source: its place, its lines without the contract, its parameters, its contract's length."""

    def __init__(self, name, place, lines, parameters, contract):
        self.name, self.place, self.lines, self.parameters, self.contract = name, place, lines, parameters, contract


def functions(crate):
    for path in crate.files("src"):
        lines = crate.plain(path).split("\n")
        for at, line in enumerate(lines):
            found = FUNCTION.match(line)
            if not found:
                continue
            end = next((index for index in range(at, len(lines)) if lines[index] == "}"), len(lines) - 1)
            whole = lines[at : end + 1]
            clauses = sources.CLAUSE.findall("\n".join(whole))
            promised = sum(clause.count("\n") + 1 for clause in clauses)
            head = "\n".join(whole).split("(", 1)[1].split(")", 1)[0]
            parameters = [word for word in re.split(r",(?![^\[]*\])", head) if word.strip()]
            place = f"{path.relative_to(crate.root)}:{at + 1} {found[1]}"
            yield Function(found[1], place, len(whole) - promised, len(parameters), len(" ".join(" ".join(clauses).split())))


def spelled(crate):
    """Of each layout how often a crate's code with its contracts, and its specifications, spell it."""
    for layout, (pattern, owners) in LAYOUTS.items():
        for part in ("src", "specs"):
            text = "\n".join(crate.plain(path) for path in crate.files(part))
            count = len(pattern.findall(text))
            if count and crate.name not in owners | DEFINING:
                yield layout, part, count


def counts(root):
    """(what, how many, where) of each count."""
    crates = sources.crates(root)
    every = [one for crate in crates.values() for one in functions(crate)]
    long = sorted((one for one in every if one.contract > 400), key=lambda one: -one.contract)
    yield "contracts over 400 characters", len(long), [f"{one.place} {one.contract}" for one in long]
    wide = collections.Counter()
    for crate in crates.values():
        for part in ("src", "specs", "proofs"):
            for path in crate.files(part):
                for line in sources.read(path).split("\n"):
                    wide[f"{crate.name}/{part}"] += len(line) > 200
    yield "lines over 200 characters", sum(wide.values()), [f"{name} {count}" for name, count in wide.most_common() if count]
    large = sorted((one for one in every if one.lines > 40), key=lambda one: -one.lines)
    yield "functions", len(every), []
    yield "functions over 40 lines", len(large), [f"{one.place} {one.lines}" for one in large]
    many = sorted((one for one in every if one.parameters > 8), key=lambda one: -one.parameters)
    yield "functions with more than 8 parameters", len(many), [f"{one.place} {one.parameters}" for one in many]
    found = [(name, *one) for name, crate in crates.items() for one in spelled(crate)]
    for layout in LAYOUTS:
        for part, word in (("src", "code"), ("specs", "specifications")):
            here = [f"{name} {count}" for name, kind, where, count in found if kind == layout and where == part]
            yield f"crates that spell a layout out: {layout}, in {word}", len(here), here
    _, kinds, kept = unused.report(root)
    for kind, count in kinds:
        yield f"unused: {kind}s", count, []
    yield "unused, and kept with a reason", kept, []
    yield "crates", len(crates), []
    yield "uses that crates.txt lists", sum(len(crate.uses) for crate in crates.values()), []


def main():
    words, root, names, check = sys.argv[1:], sources.own_repository(), False, False
    while words:
        word = words.pop(0)
        if word == "--help":
            print(__doc__)
            return
        if word == "--names":
            names = True
        elif word == "--check":
            check = True
        elif word == "--root" and words:
            root = pathlib.Path(words.pop(0))
        else:
            sys.exit("usage: tools/metrics.py [--names] [--check] [--root FOLDER]")
    try:
        if check:
            wrong = [f"{what}: {line}" for what, _, where in counts(root) if what.startswith(NONE) for line in where]
            print("\n".join(wrong) or "no long contract, no layout outside its crate")
            sys.exit(1 if wrong else 0)
        for what, count, where in counts(root):
            print(f"{count:7,}  {what}")
            for line in where if names else []:
                print(f"           {line}")
    except (sources.Wrong, OSError) as error:
        sys.exit(f"tools/metrics.py: {error}")


if __name__ == "__main__":
    main()
