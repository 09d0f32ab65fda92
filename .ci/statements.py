#!/usr/bin/env python3
"""Checks what the documents say of crates and definitions: each crate that they name is listed in
crates.txt, each `Module.name` is defined in a specification of that module, each `crate/Module` is there, and
each `crate::item` stands in that crate's source. Prints the count, or each citation that leads nowhere.

Read are all documents of the repository; in a table whose first column is `old name`, not that column. Of the crates'
own files the comments are read."""

import os
import re
import sys

CODE = re.compile(r"`([^`\n]+)`")
CITED = re.compile(r"(?:([a-z][a-z0-9_]*)/)?([A-Z][A-Za-z0-9]*)((?:\.[^\s.:(]+)*)$")
ITEM = re.compile(r"([a-z][a-z0-9_]*)::(\w+)$")
CRATES = re.compile(r"\bcrates?\s+`?([a-z][a-z0-9_]*(?:(?:,\s*|\s+and\s+)[a-z][a-z0-9_]*)*)")
BOLD = re.compile(r"\*\*([a-z][a-z0-9_]*)\*\*")
PATH = re.compile(r"\bcrates/([a-z][a-z0-9_]*)")
PLAIN = re.compile(r"(?<![\w/`])([a-z][a-z0-9_]*)/([A-Z][A-Za-z0-9]*)\b(?![\w-]*\.md)")
# Words that follow `crate` without naming one.
WORDS = set("""a above all an and are as at below beside by can come do each for from had has have hard holds if in into is it its
    may must need needs not of on once one or over own so stand stands than that the their then there they this to under
    was were when where which who whose will with would""".split())
# The one document in which a bold word is a crate.
ROOMS = "./docs/ARCHITECTURE.md"


def documents():
    for folder, folders, files in os.walk("."):
        folders[:] = sorted(name for name in folders if name not in (".git", "target", "out"))
        yield from (os.path.join(folder, name) for name in sorted(files) if name.endswith(".md"))


def comments():
    """(path, comments) of each source, specification and proof."""
    for folder, folders, files in os.walk("crates"):
        folders[:] = [name for name in folders if name != "out"]
        for name in sorted(files):
            mark = {".rt": "//", ".antt": "--"}.get(os.path.splitext(name)[1])
            if mark:
                path = os.path.join(folder, name)
                with open(path, encoding="utf-8") as text:
                    yield path, "\n".join(line.partition(mark)[2] for line in text if line.lstrip().startswith(mark))


def listed():
    with open("crates.txt", encoding="utf-8") as text:
        return {line.split(":")[0].split()[0] for line in text if ":" in line and not line.startswith("#")}


def names_of(line):
    """What a line of a specification defines: the names before its colon or its parameters."""
    words = re.split(r"[:({]", line, maxsplit=1)[0].split()
    if len(words) == len(line.split()):
        return []
    return [word for word in words if word not in ("unfoldable", "abbrev", "pub", "record", "data")]


def modules():
    """Of each crate and module of specifications, or of lemmas beside its proofs, the names that it defines."""
    found = {}
    for crate in sorted(os.listdir("crates")):
        for part in ("specs", "proofs"):
            folder = os.path.join("crates", crate, part)
            for name in sorted(os.listdir(folder)) if os.path.isdir(folder) else []:
                if name.endswith(".antt"):
                    with open(os.path.join(folder, name), encoding="utf-8") as text:
                        defined = {word for line in text if not line.lstrip().startswith(("--", "use ")) for word in names_of(line)}
                    found.setdefault(crate, {}).setdefault(name[:-5], set()).update(defined)
    return found


def items(crate):
    """The functions, constants and types of a crate's source."""
    found = set()
    for folder, _, files in os.walk(os.path.join("crates", crate, "src")):
        for name in files:
            with open(os.path.join(folder, name), encoding="utf-8") as text:
                found |= set(re.findall(r"\b(?:fn|const|struct|enum) (\w+)", text.read()))
    return found


def defines(names, cited):
    return any(name.startswith(cited[:-1]) for name in names) if cited.endswith("*") else cited in names


def problem(found, crate, module, cited):
    """What is wrong with a citation of a crate's module and of names in it, or None."""
    crates = [crate] if crate else found
    there = [found[name][module] for name in crates if module in found.get(name, {})]
    if not there:
        return "no such module of specifications"
    missing = [name for name in cited if not any(defines(names, name) for names in there)]
    return f"`{missing[0]}` is not defined there" if missing else None


def present(text):
    """A document's text without the first column of a table of old names."""
    lines, old = [], False
    for line in text.split("\n"):
        old = line.startswith("| old name |") or (old and line.startswith("|"))
        lines.append("|" + line.split("|", 2)[2] if old and line.count("|") > 2 else line)
    return "\n".join(lines)


def citations(text, bold):
    """The crates that a text names, its citations as crate or None, module, names, and its items."""
    crates = [word for names in CRATES.findall(text) for word in re.split(r"[,\s]+", names)]
    crates = [word for word in crates if word not in WORDS] + PATH.findall(text) + (BOLD.findall(text) if bold else [])
    cited = [(crate, module, []) for crate, module in PLAIN.findall(text) if not os.path.isdir(crate)]
    called = []
    for code in CODE.findall(text):
        match = CITED.match(code)
        if match and (match[1] or match[3]) and not os.path.isdir(match[1] or "-"):
            cited.append((match[1], match[2], [name for name in match[3].split(".") if name]))
        called += ITEM.findall(code)
    return crates, cited, called


def texts():
    """(path, crates, citations, items) of each document, and of each file's comments, where a crate is named by its
    modules and items alone: the word itself may mean another thing there."""
    for document in documents():
        with open(document, encoding="utf-8") as file:
            yield (document[2:], *citations(present(file.read()), document == ROOMS))
    for path, text in comments():
        _, cited, called = citations(text, False)
        yield path, [], [one for one in cited if one[0] and one[0] != "specs"], called


def main():
    known, found, count, wrong = listed(), modules(), 0, []
    read = 0
    for document, crates, cited, called in texts():
        read += 1
        called = [(crate, item) for crate, item in called if crate in known]
        count += len(crates) + len(cited) + len(called)
        for crate in crates + [crate for crate, _, _ in cited if crate]:
            if crate not in known:
                wrong.append(f"{document}: crate {crate}: crates.txt has none of that name")
        for crate, module, names in cited:
            fault = problem(found, crate, module, names)
            if fault:
                wrong.append(f"{document}: {crate + '/' if crate else ''}{'.'.join([module] + names)}: {fault}")
        wrong += [f"{document}: {crate}::{item}: its source has none of that name" for crate, item in called if item not in items(crate)]
    for line in sorted(set(wrong)):
        print(line)
    print(f"{count} citations of crates and definitions in {read} documents and files, {len(set(wrong))} lead nowhere")
    sys.exit(1 if wrong else 0)


main()
