#!/usr/bin/env python3
"""Host code, not proved: what moved and what stayed between two commits, for a change's page in docs/changes.

    tools/moved.py BEFORE [AFTER]         two commits (AFTER: HEAD); a table, then the names
    tools/moved.py --times BEFORE AFTER   two logs of .ci/run: the seconds of each step that differs, and of all

Counted are:
    definition      a record, data, abbrev or unfoldable in specs/, and everything in crates/rules
    law, law proof  the type of a theorem in specs/ with the parameters of its module; its proof
    promise         requires and ensures of a function in src/
    code            the function's signature and body
    proof           the folder proofs/FUNCTION
    wrong program   an edit in must-fail/
What only went to another file of its crate, or stands under other comments, has stayed. What a crate no longer has, and
another has now under the same name, went there: with the same text, or moved on the way.
"""
import io
import os
import re
import subprocess
import sys
import tarfile
from collections import defaultdict

KINDS = ("definition", "law", "law proof", "promise", "code", "proof", "wrong program")
MODIFIERS = ("pub", "abbrev", "unfoldable", "instance", "opaque", "private")
NO_BLOCK = ("use", "open", "import", "mod", "infix", "infixl", "infixr")


def files_of(revision):
    """The files below crates/ at a commit, by path."""
    archive = subprocess.run(["git", "archive", revision, "crates"], capture_output=True)
    if archive.returncode:
        sys.exit(f"moved: {archive.stderr.decode().strip() or 'git archive failed'}")
    found = {}
    with tarfile.open(fileobj=io.BytesIO(archive.stdout)) as tar:
        for member in tar:
            if member.isfile():
                found[member.name] = tar.extractfile(member).read().decode("utf-8", "replace")
    return found


def words_of(line):
    """A line's modifiers, and its words after them."""
    words = line.split()
    count = 0
    while count < len(words) and words[count] in MODIFIERS:
        count += 1
    return words[:count], words[count:]


def groups(lines, indent):
    """The lines that start at this indent, each with those indented below it and what closes them."""
    group = []
    for line in lines:
        if len(line) - len(line.lstrip()) == indent and line.lstrip()[0] not in ")]}":
            if group:
                yield group
            group = []
        group.append(line)
    if group:
        yield group


def statements(lines, indent=0, parameters=""):
    """(name, is a definition, its statement, its body) for each name of a specification; what stands in
    a parametrised module has the module's parameters in its statement."""
    heads, bodies, defined = {}, defaultdict(list), set()
    waiting = []
    last = None
    for group in groups(lines, indent):
        modifiers, words = words_of(group[0])
        if not words or words[0] in NO_BLOCK:
            continue
        if words[0] == "module":
            count = 1 + next((at for at, line in enumerate(group) if line.rstrip().endswith("where")), 0)
            head = " ".join(line.strip() for line in group[:count])
            yield from statements(group[count:], indent + 2, parameters + head + "\n")
        elif words[0] == "unfolding":
            waiting += group
        else:
            name = words[1] if words[0] in ("record", "data") and len(words) > 1 else words[0]
            if words[0] in ("record", "data") or {"abbrev", "unfoldable"} & set(modifiers):
                defined.add(name)
            if name not in heads:
                heads[name] = group
            else:
                bodies[name] += waiting + group
            waiting = []
            last = name
    if waiting and last:
        bodies[last] += waiting
    for name, head in heads.items():
        yield name, name in defined, parameters + "\n".join(head), "\n".join(bodies[name])


FUNCTION = re.compile(r'(?m)^(?:[ ]*#\[[^\n]*\]\n)?(?P<indent>[ ]*)(?:pub )?(?:extern "C" )?fn (?P<name>\w+)')
CLAUSE = re.compile(r"(?m)^\s*(?:requires|ensures|decreases)\b")


def functions(text):
    """(name, promise, code) of each function of a source file."""
    text = re.sub(r"(?m)^\s*//[^\n]*\n", "", text)
    for found in FUNCTION.finditer(text):
        end = re.compile(rf"(?m)^{found['indent']}\}}$").search(text, found.end())
        whole = text[found.start() : end.end() if end else len(text)]
        body = re.search(r"(?m)^[ ]*\{$|\{$", whole)
        opening = body.start() if body else len(whole)
        clause = CLAUSE.search(whole, 0, opening)
        at = clause.start() if clause else opening
        yield found["name"], whole[at:opening].strip(), whole[:at].rstrip() + "\n" + whole[opening:]


def state(revision):
    """Of each kind the texts by crate and name; a name that stands in several modules has all its texts."""
    found = {kind: defaultdict(str) for kind in KINDS}
    for path, text in files_of(revision).items():
        part = path.split("/")
        if len(part) < 4:
            continue
        crate, room = part[1], part[2]
        if room == "specs" and path.endswith(".antt"):
            lines = [line for line in text.split("\n") if line.strip() and not line.lstrip().startswith("--")]
            for name, is_definition, head, body in statements(lines):
                if is_definition or crate == "rules":
                    found["definition"][crate, name] += head + "\n" + body
                else:
                    found["law"][crate, name] += head
                    found["law proof"][crate, name] += body
        elif room == "src" and path.endswith(".rt"):
            for name, promise, code in functions(text):
                found["promise"][crate, name] += promise
                found["code"][crate, name] += code
        elif room == "proofs" and path.endswith(".antt"):
            found["proof"][crate, part[3]] += text
        elif room == "must-fail":
            found["wrong program"][crate, part[3]] = text
    return found


def pairs(old, new):
    """For each place of the old texts that is no longer there, the new place of that name, if there is one: one that has
    the same text, else the first. No new place is taken twice."""
    free = defaultdict(list)
    for crate, name in sorted(new.keys() - old.keys()):
        free[name].append((crate, name))
    found = {}
    gone = sorted(old.keys() - new.keys())
    for same in (True, False):
        for place in gone:
            there = [at for at in free[place[1]] if not same or new[at] == old[place]]
            if place not in found and there:
                found[place] = there[0]
                free[place[1]].remove(there[0])
    return found


def compare(before, after):
    old, new = state(before), state(after)
    print("| | before | stayed | in another crate | moved | new | gone |")
    print("|---|---:|---:|---:|---:|---:|---:|")
    named = []
    for kind in KINDS:
        a, b = old[kind], new[kind]
        both = a.keys() & b.keys()
        went = pairs(a, b)
        moved = sorted([name for name in both if a[name] != b[name]] + [at for at, to in went.items() if a[at] != b[to]])
        elsewhere = sorted(at for at, to in went.items() if a[at] == b[to])
        added, gone = sorted(b.keys() - a.keys() - set(went.values())), sorted(a.keys() - b.keys() - went.keys())
        stayed = len(a) - len(elsewhere) - len(moved) - len(gone)
        print(f"| {kind} | {len(a)} | {stayed} | {len(elsewhere)} | {len(moved)} | {len(added)} | {len(gone)} |")
        found = (("in another crate", elsewhere), ("moved", moved), ("new", added), ("gone", gone))
        named += [(kind, what, names) for what, names in found if names]
        if kind == "promise" and a:
            kept = 100 * (stayed + len(elsewhere)) // len(a)
    if old["promise"]:
        print(f"\n{kept} % of the promises stayed.")
    for kind, what, names in named:
        by_crate = defaultdict(list)
        for crate, name in names:
            by_crate[crate].append(name)
        print(f"\n{kind}, {what}: " + "; ".join(f"{crate}: {', '.join(of)}" for crate, of in by_crate.items()))


def seconds(path):
    """The seconds of each step that a log names."""
    try:
        with open(path, encoding="utf-8", errors="replace") as log:
            text = log.read()
    except OSError as error:
        sys.exit(f"moved: {error}")
    found = re.findall(r"(?m)^   (\S.*): ok, (\d+) s$", text)
    if not found:
        sys.exit(f"moved: {path} names no step that ended")
    return {step: int(count) for step, count in found}


def times(before, after):
    old, new = seconds(before), seconds(after)
    print("| step | before, s | after, s |")
    print("|---|---:|---:|")
    for step in dict.fromkeys([*old, *new]):
        if step not in old or step not in new or abs(old[step] - new[step]) > 1:
            print(f"| {step} | {old.get(step, '–')} | {new.get(step, '–')} |")
    print(f"| all | {sum(old.values())} | {sum(new.values())} |")


def main(words):
    options = [word for word in words if word.startswith("-")]
    if words == ["--help"]:
        print(__doc__.strip())
    elif words[:1] == options == ["--times"] and len(words) == 3:
        times(*words[1:])
    elif len(words) in (1, 2) and not options:
        compare(words[0], words[1] if len(words) > 1 else "HEAD")
    else:
        print(__doc__.strip(), file=sys.stderr)
        return 2
    return 0


def guarded(words):
    """The same, where what is printed may be lost: that is said, unless the reader has gone."""
    if sys.stdout is None:
        sys.exit("moved: standard output is closed")
    try:
        status = main(words)
        sys.stdout.flush()
        return status
    except OSError as error:
        # Python would try again at its end.
        os.dup2(os.open(os.devnull, os.O_WRONLY), sys.stdout.fileno())
        return 0 if isinstance(error, BrokenPipeError) else f"moved: {error}"


if __name__ == "__main__":
    sys.exit(guarded(sys.argv[1:]))
