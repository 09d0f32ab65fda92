#!/usr/bin/env python3
"""Writes recorded runs of the oracle as specifications that the checker computes (crate `vectors`).

    oracle/vectors.py           writes them again
    oracle/vectors.py --check   compares them with what would be written; on a difference it says what differs,
                                and the status is 1

Reads oracle/sample (FORMAT.md) and writes crates/vectors/specs/Runs1.antt, Runs2.antt, ..: of each shape
of session in the sample the smallest runs with a trace and without, and the smallest runs of the guide
alone. Each file ends in a theorem: what the definitions of `rules` give after the run's calls is what the
oracle answered. Nothing is left to chance: from the same sample come the same files.
"""

import os
import sys

HERE = os.path.dirname(os.path.abspath(__file__))
sys.path.insert(0, os.path.join(HERE, os.pardir, "tools"))
import sources  # noqa: E402

SAMPLE = os.path.join(HERE, "sample")
SPECS = sources.own_repository() / "crates" / "vectors" / "specs"
PER_SHAPE = 4
GUIDES = 8
CALLS = 60
A_FILE = 20


def runs(name):
    """The runs of a file of the sample: the comment above, and the run's lines."""
    comment, lines = "", []
    with open(os.path.join(SAMPLE, name)) as text:
        for line in text:
            line = line.rstrip("\n")
            if line.startswith("#"):
                comment = line[2:]
            elif line:
                lines.append(line)
                if line == "end":
                    yield comment, lines
                    lines = []


def calls_of(lines):
    return [line for line in lines[1:] if not line.startswith("=") and line not in ("trace", "end")]


def answers_of(lines):
    answers = {}
    for line in lines:
        if line.startswith("= ") and not line.startswith("= at "):
            word, _, rest = line[2:].partition(" ")
            answers[word] = [[None if x == "-" else int(x) for x in tuple_.split(",")] for tuple_ in rest.split()]
    return answers


def numbers(text):
    return [] if text == "-" else [int(x) for x in text.split(",")]


def cons(items):
    return " ∷ ".join(list(items) + ["[]"])


def listed(xs):
    return "[]" if not xs else "(" + cons(str(x) for x in xs) + ")"


def nested(xss):
    return "[]" if not xss else "(" + cons(listed(xs) for xs in xss) + ")"


def call(line):
    words = line.split()
    if words[0] == "set":
        return f"set {words[1]}"
    if words[0] == "add":
        return f"add {listed(numbers(words[1]))} {listed(numbers(words[2]))}"
    return words[0]


def request(line):
    words = line.split()
    if words[0] == "push":
        after = numbers(words[4])
        where = "none" if not after else f"(at {after[0]} {after[1]})"
        return f"push {where} (item {words[1]} {words[2]} {words[3]})"
    return "flush"


def filled(pairs, length):
    counts = [0] * length
    for index, count in pairs:
        counts[index] = count
    return counts


def closing(answers):
    """The counts that final fixed; the average's bits, the median, and the two lists with their lengths."""
    if "final" not in answers:
        return []
    low, thousands = trimmed(answers["low"], 128), trimmed(answers["thousands"], 65)
    return [sum(answers["final"], [])] + answers["average"] + answers["median"] + [[128] + low, [65] + thousands]


def trimmed(pairs, length):
    counts = filled(pairs, length)
    while counts and counts[-1] == 0:
        counts.pop()
    return counts


def trace(lines):
    """After each call: its number, what a push returned, the order's length, a session's mark, the window."""
    for line in lines:
        if line.startswith("= at "):
            words = line.split()[2:]
            if lines[0].startswith("session"):
                words[2] = "0" if words[2] == "-" else str(int(words[2]) + 1)
            yield [int(x) for word in words if word != "-" for x in word.split(",")]


def compared(name, lines, got, tables):
    if lines[1] == "trace":
        got, tables = "traced_" + got, [list(trace(lines))] + tables
    else:
        got = "after_" + got
    return "\n".join([
        f"    -- {name}",
        "    record {",
        f"      got = {got};",
        "      want = " + cons(nested(table) for table in tables) + ";",
        "    }",
    ])


def session(name, lines):
    _, p, v = lines[0].split()[:3]
    a = answers_of(lines)
    waiting = [[tuple_[0], reg] for tuple_ in a["waiting"] for reg in tuple_[1:]]
    tables = [a["order"], a["rows"], a["places"], waiting, [filled(a["tally"], int(p) + 1)], a["held"], closing(a)]
    return compared(name, lines, f"calls {p} {v} ({cons(call(c) for c in calls_of(lines))})", tables)


def guide(name, lines):
    _, p, v = lines[0].split()
    a = answers_of(lines)
    tables = [a["order"], [filled(a["tally"], int(p) + 1)], a["held"]]
    return compared(name, lines, f"requests {p} {v} ({cons(request(c) for c in calls_of(lines))})", tables)


def chosen_sessions():
    """Of each shape the smallest."""
    shapes = {}
    for name, lines in list(runs("placements.txt")) + list(runs("sessions.txt")):
        if lines[0].startswith("session") and len(calls_of(lines)) <= CALLS:
            shapes.setdefault((name, lines[1] == "trace"), []).append(lines)
    for (name, _), group in shapes.items():
        for lines in sorted(group, key=lambda x: len(calls_of(x)))[:PER_SHAPE]:
            yield session(name, lines)


def chosen_guides():
    for traced in (True, False):
        small = [(name, lines) for name, lines in runs("guides.txt") if int(lines[0].split()[1]) <= 64 and (lines[1] == "trace") == traced]
        for name, lines in sorted(small, key=lambda x: len(calls_of(x[1])))[:GUIDES]:
            yield guide("the guide alone: " + name, lines)


# what the theorem computes with, by module of `rules` and of this crate
RULES = {
    "Guide": "parallelism parallelism_by last_parallelism annotate released fresh release flush seek found begin choose put settle apply place tallied tally",
    "Model": "initial member marked tracked run_from watermark greatest ready loc_of later top after spotted reg_of place_one due left queue keep push off rest with_set with_add cascade settle_all do_set do_add with_record note_add note_flush note_final with_flush do_flush do_final",
    "Checks": "verdict any repeats written_by taken pooled check_closed check_places check_set check_add check_flush check_final",
    "Calls": "checks answer apply_call unless_refused step run",
    "Alone": "alone holds stray worn check_push check_flush_alone requests reply location serve serve_step serve_all",
    "Summary": "sum average median_from median counts thousands figures",
    "Record": "mark_by unfilled fill row_after row_of summary",
}
# and of the library's floats
FLOATS = "round size span climb units odd to_bits"

SHOWN = "at item keep_zero trimmed window entry held_item joined row rows_from place_row places_from traced figured closing after_calls traced_calls where_to served after_requests traced_requests"
OTHER = {"Guide": {"flush": "flush_guide"}, "Model": {"push": "push_stack"}}

TOP = """\
-- Recorded runs of the Rust, written by oracle/vectors.py: what the definitions give after each is what the oracle answered. Assumes nothing.
use Rattle.std.specs.Prelude.{◌≡◌, refl, List, [], ◌∷◌, map}
use Rattle.std.proofs.Math.Option.{none}
use Rattle.std.specs.Int.Count.{count_trailing_zeros}
"""

BEGIN = "\npub runs : List Compared\nruns =\n"

END = """
-- each run's two sides are the same
pub agree : map (λ r. r.got) runs ≡ map (λ r. r.want) runs
unfolding runs %s
agree = refl
"""


def head(constructors):
    lines = [TOP, f"use Rattle.std.specs.Float.Ieee.{{{', '.join(FLOATS.split())}}}\n"]
    for module, names in RULES.items():
        other = OTHER.get(module, {})
        words = [f"{name} as {other[name]}" if name in other else name for name in names.split()] + constructors.get(module, [])
        lines.append(f"use Rattle.rules.specs.{module}.{{{', '.join(words)}}}\n")
    lines.append(f"use Rattle.vectors.specs.Shown.{{Compared, add, {', '.join(SHOWN.split())}}}\n")
    return "".join(lines)


def unfolded():
    return " ".join(OTHER.get(module, {}).get(name, name) for module, names in RULES.items() for name in names.split()) + " " + SHOWN + " " + FLOATS + " count_trailing_zeros"


def written():
    """The files by name, and a sentence on what is in them."""
    sessions, guides = list(chosen_sessions()), list(chosen_guides())
    parts = [(sessions[i:i + A_FILE], {"Calls": ["set", "flush", "final"]}) for i in range(0, len(sessions), A_FILE)]
    parts += [(guides[i:i + A_FILE], {"Alone": ["push", "flush"]}) for i in range(0, len(guides), A_FILE)]
    texts = {}
    for number, (runs, constructors) in enumerate(parts, 1):
        body = BEGIN + "\n".join(text.replace("    record {", "    ∷ record {") if i else text for i, text in enumerate(runs)) + "\n    ∷ []\n" + END % unfolded()
        words = sources.first_words(sources.uncommented(body, "--"))
        lines = [sources.line_of_used(line, words) for line in head(constructors).split("\n")]
        texts[f"Runs{number}.antt"] = sources.folded("\n".join(line for line in lines if line is not None) + body)
    texts["Lib.antt"] = "-- Recorded runs of the Rust, computed from the definitions of `rules`.\npub mod Shown\n" + "".join(
        f"pub mod Runs{number}\n" for number in range(1, len(parts) + 1))
    laid_out = sources.formatted({f"vectors/specs/{name}": text for name, text in texts.items()})
    return {name: laid_out[f"vectors/specs/{name}"] for name in texts}, f"{len(sessions)} sessions and {len(guides)} runs of the guide alone in {len(parts)} files"


def main():
    if sys.argv[1:] == ["--help"]:
        print(__doc__)
        return
    if sys.argv[1:] not in ([], ["--check"]):
        sys.exit("usage: oracle/vectors.py [--check]")
    try:
        texts, sentence = written()
        there = {path.name: sources.read(path) for path in SPECS.glob("*.antt") if path.name != "Shown.antt"}
        if sys.argv[1:]:
            wrong = list(sources.differences(there, texts, "oracle/vectors.py"))
            wrong += [f"{name} is there, and oracle/vectors.py writes none of that name" for name in sorted(there.keys() - texts.keys())]
            if wrong:
                raise sources.Wrong("\n".join(wrong))
        else:
            for name in there.keys() - texts.keys():
                (SPECS / name).unlink()
            for name, text in texts.items():
                (SPECS / name).write_text(text, encoding="utf-8")
    except (sources.Wrong, OSError) as error:
        sys.exit(f"oracle/vectors.py: {error}")
    print(sentence)


if __name__ == "__main__":
    main()
