#!/usr/bin/env python3
"""Host code, not proved: crates.txt, which lists the crates that each crate uses, written from the crates.

    tools/crates.py           writes crates.txt anew
    tools/crates.py --check   compares it with what would be written; on a difference it says which, and the
                              status is 1
    --root FOLDER             of another repository than the one that this tool stands in

A crate uses those that its files mention (`rules::MOST_PLACES` in code, `Rattle.rules.specs.Guide` in
contracts, specifications and proofs), and those whose types its values hold: a struct's fields, and what the
functions and methods take and give that it calls. The names, their order and the comments are those of crates.txt as it
stands, but that a crate comes after all that it uses. A new crate begins as a line `name:    # what it holds`, a static library as `name staticlib:    # what it holds`."""

import difflib
import pathlib
import re
import sys

import sources
from sources import KIT, Wrong

HEAD = "# Each crate with what it uses, in dependency order; written by tools/crates.py, but for names, order and comments.\n"


def mentioned(crate, known):
    """The crates and the toolchain's libraries that a crate's files name."""
    code = re.sub(r"(?m)^\s*ghost .*$", "", crate.source())
    names = set(re.findall(r"\b([a-z][a-z0-9_]*)::", code))
    for part in ("src", "specs", "proofs"):
        for path in crate.files(part):
            names |= set(re.findall(r"Rattle\.([a-z][a-z0-9_]*)", crate.plain(path)))
    return (names & (known | set(KIT))) - {crate.name}


class Types:
    """The structs and enums of all crates, and which crates' types a value of one holds."""

    def __init__(self, crates):
        self.source = {name: crate.source() for name, crate in crates.items()}
        self.body = {}
        for name, text in self.source.items():
            for kind in re.finditer(r"(?m)^(?:pub )?(?:struct|enum) (\w+)\s*(?:\{(.*?)^\}|(\(.*?\));|;)", text, re.S):
                self.body[name, kind[1]] = kind[2] or kind[3] or ""
        # what a type's methods take and give counts with its fields
        for name, text in self.source.items():
            for methods in re.finditer(r"(?m)^impl (\w+) \{(.*?)^\}", text, re.S):
                if (name, methods[1]) in self.body:
                    self.body[name, methods[1]] += "\n".join(re.findall(r"\bfn \w+(\(.*?\)(?: -> [^\n{]*)?)", methods[2], re.S))

    def home(self, crate, word):
        """The crate of a type, by the word that a crate uses for it; None of what is no type of a crate."""
        if (crate, word) in self.body:
            return crate
        brought = re.search(rf"(?m)(?:^|(?<=; ))use (\w+)::{word};", self.source[crate])
        return brought[1] if brought and (brought[1], word) in self.body else None

    def named(self, crate, text):
        """(crate, type) of each type that a crate's text names."""
        found = {(self.home(crate, word), word) for word in re.findall(r"\b[A-Z]\w*", text)}
        found |= set(re.findall(r"\b([a-z]\w*)::([A-Z]\w*)", text))
        return {kind for kind in found if kind in self.body}

    def held(self, kinds):
        """The crates whose types values of these types hold, themselves among them."""
        seen, todo = set(), list(kinds)
        while todo:
            kind = todo.pop()
            if kind not in seen:
                seen.add(kind)
                todo += self.named(kind[0], self.body[kind])
        return {crate for crate, _ in seen}

    def signature(self, crate, function):
        """What a function takes and gives, as text."""
        found = re.search(rf"\bfn {function}(\(.*?\)(?: -> [^\n{{]*)?)\s*(?:requires|ensures|decreases|\{{|where)", self.source[crate], re.S)
        return found[1] if found else ""

    def used(self, crate):
        """The crates whose types a crate's values hold: those that it names, and those of the calls that it makes."""
        text = self.source[crate]
        kinds = self.named(crate, text)
        brought = [(home, word) for home, word in re.findall(r"(?m)(?:^|(?<=; ))use (\w+)::([a-z]\w*);", text)]
        for home, function in set(re.findall(r"\b([a-z]\w*)::([a-z]\w*)\(", text) + brought):
            if home in self.source:
                kinds |= self.named(home, self.signature(home, function))
        return self.held(kinds) - {crate}


def uses(crates):
    """What each crate uses."""
    types, known = Types(crates), set(crates)
    return {name: mentioned(crate, known) | types.used(name) for name, crate in crates.items()}


def ordered(names, needs):
    """The names in their order, but each after all that it needs."""
    done, begun = [], set()

    def put(name, way):
        if name in way:
            raise Wrong("the crates use each other in a circle: " + " uses ".join(way[way.index(name) :] + [name]))
        if name not in begun:
            for other in names:
                if other in needs[name]:
                    put(other, way + [name])
            begun.add(name)
            done.append(name)

    for name in names:
        put(name, [])
    return done


def written(root):
    """crates.txt as it is to be."""
    crates = sources.crates(root)
    needs = uses(crates)
    order = ordered(list(crates), needs)
    text = HEAD
    for name in order:
        if not crates[name].comment:
            raise Wrong(f"crates.txt: {name} has no comment: say after a # what it holds")
        named = [other for other in order + list(KIT) if other in needs[name]]
        head = f"{name} {crates[name].kind}:" if crates[name].kind else f"{name}:"
        text += " ".join([head] + named) + f"    # {crates[name].comment}\n"
    return text


def arguments():
    """Whether only to compare, and the repository's root."""
    words, root, check = sys.argv[1:], sources.own_repository(), False
    while words:
        word = words.pop(0)
        if word == "--help":
            print(__doc__)
            sys.exit(0)
        elif word == "--check":
            check = True
        elif word == "--root" and words:
            root = pathlib.Path(words.pop(0))
        else:
            sys.exit("usage: tools/crates.py [--check] [--root FOLDER]")
    return check, root


def main():
    check, root = arguments()
    try:
        text, path = written(root), root / "crates.txt"
        kept = sources.read(path)
        if check and kept != text:
            lines = difflib.unified_diff(kept.splitlines(), text.splitlines(), "crates.txt", "what the crates use", n=0, lineterm="")
            raise Wrong("crates.txt is not what the crates use: run tools/crates.py\n" + "\n".join(lines))
        if kept != text:
            path.write_text(text, encoding="utf-8")
    except (Wrong, OSError) as error:
        sys.exit(f"tools/crates.py: {error}")
    body = [line.partition("#")[0] for line in text.splitlines()]
    print(f"crates.txt: {sum(':' in line for line in body)} crates with {sum(len(line.split(':')[1].split()) for line in body if ':' in line)} uses")


if __name__ == "__main__":
    main()
