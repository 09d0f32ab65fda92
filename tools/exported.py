#!/usr/bin/env python3
"""Host code, not proved: the exported calls of a crate NAME, which its static library NAME_c has by their C names.

    tools/exported.py           puts the calls of each static library right
    tools/exported.py --check   compares them; on a difference it says which, and the status is 1
    --root FOLDER               of another repository than the one that this tool stands in

A library's functions are no symbols of C, so each crate with exported calls has a static library beside it. There stands
each `extern "C"` function of the crate once more, with the same parameters and clauses, and calls it; the `use` lines bring
what these name. The comment on a call may say more than the crate's, and the one above all is the static library's own."""

import pathlib
import re
import sys

import sources
from sources import Wrong

EXPORTED = re.compile(r'((?://[^\n]*\n)*)#\[unsafe\(no_mangle\)\]\n(pub extern "C" fn (\w+)\((.*?)\)[^\n]*\n(?: +[^\n]*\n)*)\{\n.*?^\}\n', re.S | re.M)
WIDE = 100  # the formatter breaks a longer call


def calls_of(text):
    """Of each exported call its name, its parameters' names, the comment above it, and its signature with the clauses."""
    return [(found[3], re.findall(r"(\w+): ", found[4]), found[1], found[2]) for found in EXPORTED.finditer(text)]


def brought(text, body):
    """The `use` lines of a text that bring what a body names."""
    words = sources.first_words(sources.uncommented(body, "//"))
    ghost, code = [], []
    for line in sources.uncommented(text, "//").split("\n"):
        if line.startswith("ghost use "):
            ghost.append(sources.line_of_used(line, words))
        grouped = re.fullmatch(r"use (\w+)::(?:(\w+)|\{([^}]*)\});", line)
        if grouped:
            names = [name.strip() for name in (grouped[2] or grouped[3]).split(",") if re.search(rf"\b{name.strip()}\b", body)]
            if names:
                code.append(f"use {grouped[1]}::{names[0]};" if len(names) == 1 else f"use {grouped[1]}::{{{', '.join(names)}}};")
    return [line for line in ghost if line], code


def written(crate, kept):
    """A static library's source as it is to be, from its crate's and from what it is now."""
    comments = {name: comment for name, _, comment, _ in calls_of(kept)}
    head = re.match(r"(?://[^\n]*\n)+", kept)
    bodies = []
    for name, parameters, comment, signature in calls_of(crate.source_as_it_is()):
        call = f"    {crate.name}::{name}({', '.join(parameters)})"
        if len(call) > WIDE:
            call = f"    {crate.name}::{name}(\n        {', '.join(parameters)},\n    )"
        bodies.append(f"{comments.get(name, comment)}#[unsafe(no_mangle)]\n{signature}{{\n{call}\n}}\n")
    body = "\n".join(bodies)
    ghost, code = brought(crate.source_as_it_is(), body)
    parts = [(head[0] if head else f"// The exported calls of crate {crate.name}, by their C names.\n") + "#![tactic(auto)]\n"]
    parts += ["\n".join(lines) + "\n" for lines in (ghost, code) if lines]
    return "\n".join([*parts, body])


def compared(root):
    """Of each static library its path, its text as it is, and as it is to be."""
    crates = sources.crates(root)
    for name, crate in crates.items():
        if crate.kind == "staticlib":
            of = crates.get(name.removesuffix("_c"))
            if of is None or of is crate:
                raise Wrong(f"crates.txt: {name} is a static library, and there is no crate of its name without _c")
            path = crate.folder / "src" / "lib.rt"
            kept = sources.read(path) if path.exists() else ""
            yield path, kept, written(of, kept)
        elif not name.endswith("_c") and f"{name}_c" not in crates and calls_of(crate.source_as_it_is()):
            raise Wrong(f"crates.txt: {name} has exported calls, and there is no {name}_c")


def main():
    words, root, check = sys.argv[1:], sources.own_repository(), False
    while words:
        word = words.pop(0)
        if word == "--help":
            print(__doc__)
            return
        if word == "--check":
            check = True
        elif word == "--root" and words:
            root = pathlib.Path(words.pop(0))
        else:
            sys.exit("usage: tools/exported.py [--check] [--root FOLDER]")
    try:
        found = list(compared(root))
        kept = {str(path.relative_to(root)): text for path, text, _ in found}
        texts = {str(path.relative_to(root)): text for path, _, text in found}
        wrong = list(sources.differences(kept, texts, "tools/exported.py"))
        if check and wrong:
            raise Wrong("\n".join(wrong))
        for path, text, new in found if not check else []:
            if text != new:
                path.parent.mkdir(parents=True, exist_ok=True)
                path.write_text(new, encoding="utf-8")
    except (Wrong, OSError) as error:
        sys.exit(f"tools/exported.py: {error}")
    print(f"exported: {sum(len(calls_of(text)) for text in texts.values())} calls of {len(found)} crates, the same in their static libraries")


if __name__ == "__main__":
    main()
