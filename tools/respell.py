#!/usr/bin/env python3
"""Host code, not proved: brings the repository's own definitions and lemmas to snake case: `clear-start` becomes `clear_start`.

usage: tools/respell.py [--check] [FILE..]     without FILE every .rt, .antt and .edit file below crates/

Names that other libraries declare, and names that Rattle makes, keep their dashes; so do words of comments, unless they stand
between backticks. --check writes nothing and prints names that would fall together.
"""
import collections
import glob
import os
import re
import sys

IDENT = r"[^\W\d][\w'\-₀-₉]*"
TOKEN = re.compile(r"(?<![\w'\-.])\.?" + IDENT + r"|\." + IDENT)
DECLARED = re.compile(r"\s*(?:abbrev |unfoldable |pub |data |record )*(" + IDENT + r"(?: " + IDENT + r")*)(?: [^:]*)? : ")
USE = re.compile(r"^\s*(?:pub )?(?:ghost )?use ([^\s{;]+?)(?:\.\{([^}]*)\}|\s+as\s+\S+)?;?\s*$")


def files(pattern):
    return sorted(glob.glob(pattern))


def own():
    """The dashed names that specs/ and the lemma files of proofs/ declare."""
    names = set()
    for path in files("crates/*/specs/*.antt") + files("crates/*/proofs/*.antt"):
        with open(path, encoding="utf-8") as f:
            for line in f:
                m = DECLARED.match(line)
                if m:
                    names.update(name for name in m[1].split() if "-" in name)
    return names


def foreign(text, crates):
    """The dashed names that a file imports from other libraries."""
    names = set()
    for line in text.splitlines():
        m = USE.match(line)
        if not m or not m[2]:
            continue
        parts = m[1].split(".")
        if parts[0] == "Rattle" and len(parts) > 1 and parts[1] in crates and "specs" in parts[2:3] + parts[2:4]:
            continue
        if parts[0] == "Rattle" and len(parts) > 3 and parts[1] in crates and parts[2] == "proofs" and parts[3][0].isupper():
            continue
        for name in m[2].split(","):
            name = name.strip().split(" as ")[-1].strip()
            if "-" in name:
                names.add(name)
    return names


def snake(name):
    return name.replace("-", "_")


def pieces(text, rt):
    """A file's text as (is it code, text)."""
    if rt:
        comment, string = r"//[^\n]*", r"\"(?:[^\"\\\n]|\\.)*\""
    else:
        comment, string = r"(?<!\S)--(?:\s[^\n]*|(?=\n))", r"\"(?:[^\"\\\n]|\\.)*\""
    at = 0
    for m in re.finditer(comment + "|" + string, text):
        yield True, text[at : m.start()]
        yield False, m[0]
        at = m.end()
    yield True, text[at:]


def turned(path, text, names, crates, taken):
    rt = path.endswith(".rt") or path.endswith(".edit")
    lemmas = path.endswith(".antt") and (f"{os.sep}specs{os.sep}" in path or path.count(os.sep) == 3)
    kept = foreign(text, crates)
    if rt:
        names = names | set(re.findall(r"\bas ([a-z]\w*(?:-\w+)+)", text))

    def one(m):
        dot, name = ("." if m[0][0] == "." else ""), m[0].lstrip(".")
        if "-" not in name or name.endswith("-"):
            return m[0]
        if name in names:
            if not dot and name in kept:
                return m[0]
        elif dot or not lemmas or name in kept:
            return m[0]
        taken[snake(name)].add(name)
        return dot + snake(name)

    out = []
    for code, piece in pieces(text, rt):
        if code:
            for m in TOKEN.finditer(piece):
                name = m[0].lstrip(".")
                if "-" not in name:
                    taken[name].add(name)
            out.append(TOKEN.sub(one, piece))
        else:
            out.append(re.sub(r"`(" + IDENT + r")`", lambda m: "`" + (snake(m[1]) if m[1] in names else m[1]) + "`", piece))
    return "".join(out)


def renamed():
    """Rattle makes a module `specs.contracts`, so a file Contracts.antt becomes Promises.antt."""
    for path in files("crates/*/specs/Contracts.antt"):
        crate = path.split(os.sep)[1]
        os.rename(path, path.replace("Contracts.antt", "Promises.antt"))
        for other in glob.glob("crates/**/*", recursive=True):
            if not other.endswith((".rt", ".antt", ".edit")):
                continue
            with open(other, encoding="utf-8") as f:
                text = f.read()
            new = text.replace(f"Rattle.{crate}.specs.Contracts.", f"Rattle.{crate}.specs.Promises.")
            if other == os.path.join("crates", crate, "specs", "Lib.antt"):
                new = new.replace("pub mod Contracts\n", "pub mod Promises\n")
            if other.endswith(".edit"):
                new = new.replace("specs/Contracts.antt", "specs/Promises.antt")
            if new != text:
                with open(other, "w", encoding="utf-8") as f:
                    f.write(new)


def main(argv):
    if argv == ["--help"]:
        print(__doc__.strip())
        return
    wrong = [a for a in argv if a.startswith("-") and a != "--check"]
    if wrong:
        sys.exit(f"tools/respell.py: unknown option {wrong[0]} (see --help)")
    check = "--check" in argv
    named = [a for a in argv if not a.startswith("--")]
    crates = {os.path.basename(c) for c in files("crates/*")}
    names = own()
    if not named and not check:
        renamed()
    paths = named or [p for e in ("rt", "antt", "edit") for p in files(f"crates/*/**/*.{e}") + glob.glob(f"crates/*/*/**/*.{e}", recursive=True)]
    changed = 0
    for path in sorted(set(p for p in paths if f"{os.sep}out{os.sep}" not in p)):
        with open(path, encoding="utf-8") as f:
            text = f.read()
        taken = collections.defaultdict(set)
        new = turned(path, text, names, crates, taken)
        for to, olds in sorted(taken.items()):
            if len(olds) > 1:
                print(f"{path}: {', '.join(sorted(olds))} fall together")
        if new != text:
            changed += 1
            if not check:
                with open(path, "w", encoding="utf-8") as f:
                    f.write(new)
    print(f"{len(names)} names, {changed} files" + (" would change" if check else " changed"))


if __name__ == "__main__":
    main(sys.argv[1:])
