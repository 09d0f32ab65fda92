#!/usr/bin/env python3
"""Host code, not proved: long lines of specs and proofs, broken where a reader would break them.

    tools/lines.py --check      names each line of an .antt or .rt file that is longer than 200; on a finding the status is 1
    tools/lines.py CRATE..      breaks such lines of these crates' .antt files, and names those of their code

A clause's body goes below its left side, and each `let` on a line of its own. Then what is still too long is broken: a
record or a list in brackets by its members, a type at its arrows, a chain of equations at its `∙`, and an application
between its arguments. `rt fmt` indents what comes of it; that goes on until no line is too long.
"""

import sys

from antt import CLOSE, OPEN, ROOT, crates_named, depths, files_of, tokens_of, write

WIDE = 200                  # no line is longer
FULL = 140                  # a line that is broken is filled up to here
GENERATED = {"vectors"}     # crates that a program wrote: their lines may be long
ROUNDS = 12
AFTER = ("→", "$")          # a line is broken after these; before any other operator


def broken(text):
    """The text with its long lines broken once; the formatter indents them."""
    lines, depth, last = [], 0, ""
    for line in text.split("\n"):
        tokens = tokens_of(line)
        if len(line) > WIDE:
            lines += pieces(line, tokens, depth == 0)
        elif last.endswith(" in") and after_let(tokens) is not None:
            indent = line[:len(line) - len(line.lstrip())]
            lines += [line[:after_let(tokens)].rstrip(), indent + line[after_let(tokens):]]
        else:
            lines.append(line)
        depth += depths(tokens)[-1]
        last = line
    return "\n".join(lines)


def pieces(line, tokens, outer):
    """A line in pieces; `outer`: no bracket is open where it begins."""
    indent = len(line) - len(line.lstrip())
    if line.lstrip().startswith("--"):
        return filled(line, [at for at, mark in enumerate(line) if mark == " " and at > indent + 3], " " * indent + "-- ")
    if tokens[0].text == "use":
        return imports(line)
    cuts = cuts_of(line, tokens, outer)
    deeper = " " * (indent + 4)
    if isinstance(cuts, int):
        return [line[:cuts].rstrip(), deeper + line[cuts:].lstrip()]
    return filled(line, cuts, deeper)


def cuts_of(line, tokens, outer):
    """Where to break a line: one position where it must be broken, or some of which it may be."""
    depth, words = depths(tokens), [token.text for token in tokens]
    top = [index for index in range(len(tokens)) if depth[index] == 0]
    if after_let(tokens) is not None:
        return after_let(tokens)
    if outer and words[0] != "let" and "=" in (words[index] for index in top):
        equals = next(index for index in top if words[index] == "=")
        if equals + 1 < len(words):
            return tokens[equals].end
    elif outer and ":" in words[1:4]:
        cuts = [token.end for index, token in enumerate(tokens) if depth[index + 1] == 0 and
                (token.text == "→" or token.text == ")" and words[index + 1:index + 2] == ["("])]
        if fits(line, cuts):
            return cuts
    group = longest_list(line, tokens, depth)
    if group is not None:
        return tokens[group].end
    for level in range(min(depth), max(depth) + 1):
        for operators in (AFTER, ("∙",), ("∷", "×", "⊎", "≡"), None):
            cuts = [tokens[index].start for index in range(1, len(tokens))
                    if depth[index] <= level and may_break(line, tokens, index, operators)]
            if fits(line, cuts):
                return cuts
    return cuts


def fits(line, cuts):
    """Whether a line that is cut at some of these positions is nowhere too long."""
    return all(len(piece) <= WIDE for piece in filled(line, cuts, ""))


def after_let(tokens):
    """Where the text goes on after the `let` with which it begins; None where it does not begin with one, or ends with it."""
    depth, lets = depths(tokens), 0
    for index, token in enumerate(tokens):
        if depth[index] == 0:
            lets += (token.text == "let") - (token.text == "in")
            if lets == 0:
                rest = tokens[index + 1:]
                return rest[0].start if token.text == "in" and rest and [t.text for t in rest] not in (["("], ["{"]) else None
    return None


def imports(line):
    """A `use` line as several of the same module."""
    head, _, names = line.rstrip("}").partition("{")
    found = [head + "{"]
    for name in names.split(", "):
        if len(found[-1]) + len(name) > FULL:
            found.append(head + "{")
        found[-1] += (", " if not found[-1].endswith("{") else "") + name
    return [part + "}" for part in found]


def longest_list(line, tokens, depth):
    """The index of the bracket that opens the longest list or record of the line's own level, if it is most of the line."""
    level, found = min(depth), []
    for index, token in enumerate(tokens):
        if token.text in "({" and depth[index] == level:
            close = next((i for i in range(index + 1, len(tokens)) if depth[i + 1] == level), None)
            if close is None:
                continue
            inner = range(index + 1, close)
            if any(depth[i] == level + 1 and tokens[i].text in ",;" for i in inner):
                found.append((tokens[close].end - token.start, index))
    if found and max(found)[0] > min(FULL, len(line) // 2):
        return max(found)[1]
    return None


def may_break(line, tokens, index, operators):
    """Whether a line may be broken before a token; with `operators`, only at one of these."""
    token, before = tokens[index], tokens[index - 1]
    if operators:
        return before.text in AFTER if operators == AFTER else token.text in operators
    if token.start == before.end or token.text in CLOSE or before.text in OPEN:
        return False
    if token.text in ("=", ":", ".", ",", ";", "in", "↦", "!", *AFTER) or before.text in ("λ", "let", "=", ":"):
        return False
    binder = next((t.text for t in reversed(tokens[:index]) if t.text in ("λ", ".")), ".")
    return binder == "." and (before.text in AFTER or not is_operator(before.text))


def is_operator(text):
    return text not in OPEN | CLOSE and not any(mark.isalnum() or mark in "_.,;→" for mark in text)


def filled(line, cuts, start):
    """A line cut at some of these positions, so that each piece is as long as fits."""
    found, rest, at = [], line, 0
    prefix = ""
    while len(prefix) + len(rest) > FULL:
        fitting = [cut for cut in cuts if at < cut and len(prefix) + cut - at <= FULL]
        cut = max(fitting) if fitting else min((cut for cut in cuts if cut > at), default=None)
        if cut is None or not line[cut:].strip():
            break
        found.append((prefix + line[at:cut].strip() if prefix else line[at:cut].rstrip()))
        at, prefix = cut, start
        rest = line[at:].strip()
    found.append(prefix + rest if prefix else rest)
    return found


def undo_unless_same(path, text):
    """Puts the old text back if more than layout has changed: what the formatter adds to a broken list is layout."""
    def words(text):
        return [token.text for line in text.split("\n") if not line.startswith("use ") for token in tokens_of(line)
                if token.text not in (",", ";", "|")]

    if words(path.read_text(encoding="utf-8")) != words(text):
        path.write_text(text, encoding="utf-8")
        return "its words would change"
    return None


def too_long(path):
    lines = path.read_text(encoding="utf-8").split("\n")
    return [(at, len(line)) for at, line in enumerate(lines, 1) if len(line) > WIDE]


def code_of(crate="*"):
    """The code of a crate, or of all, with its contracts: their lines are broken by hand."""
    return sorted((ROOT / "crates").glob(f"{crate}/src/**/*.rt"))


def check():
    written = [path for path in files_of() if path.relative_to(ROOT).parts[1] not in GENERATED]
    found = [f"{path.relative_to(ROOT)}:{at}: {length} characters" for path in written + code_of() for at, length in too_long(path)]
    for line in found:
        print(line)
    if found:
        sys.exit(f"lines: {len(found)} are longer than {WIDE} (tools/lines.py CRATE breaks those of a crate's specs and proofs)")


def main(arguments):
    if "--help" in arguments:
        return print(__doc__.strip())
    if arguments == ["--check"]:
        return check()
    crates = crates_named("tools/lines.py", arguments)
    for path in (path for crate in crates if crate not in GENERATED for path in files_of(crate)):
        for _ in range(ROUNDS):
            text = path.read_text(encoding="utf-8")
            new = broken(text)
            wrong = new != text and (write(path, new) or undo_unless_same(path, text))
            if wrong:
                print(f"{path.relative_to(ROOT)} is left as it is: {wrong}")
            if wrong or path.read_text(encoding="utf-8") == text:
                break
        for at, length in too_long(path):
            print(f"{path.relative_to(ROOT)}:{at}: {length} characters: no place to break it was found")
    for path in (path for crate in crates for path in code_of(crate)):
        for at, length in too_long(path):
            print(f"{path.relative_to(ROOT)}:{at}: {length} characters: lines of code are broken by hand")


if __name__ == "__main__":
    main(sys.argv[1:])
