#!/usr/bin/env python3
"""Host code, not proved: names that nothing uses, in the crates.

    tools/unused.py                          says each, and ends with status 1 if there is one
    tools/unused.py --remove-imports [CRATE..]  removes imported names that their file does not use, in all
                                             crates or in some; `rt check` decides then whether one was needed
    tools/unused.py --keep REASON            adds what specs/ and proofs/ declare unused to those kept with a reason
    --root FOLDER                            of another repository than the one that this tool stands in

Used is, of
    an imported name   what occurs in its file, an operator by its parts, a module as `name.`
    a declaration      of specs/ and proofs/: what a contract, a function's proof (its invariants and answers, and what its
                       tactics are given by `using` and `unfolding`) or docs/STATEMENTS.md names, or a declaration
                       that is itself used; a line `unfolding` uses nothing
    an item of src/    a function, constant, struct or enum: what some code names, of a program, of a crate or of
                       the tests in Rattle; what is exported to hosts; and `main`
What is kept unused stands in tools/unused.txt, each with its reason."""

import pathlib
import re
import sys

import sources
from sources import WORD, Wrong

KEPT = "tools/unused.txt"
# The files of a function's proof, whose public names the check asks for.
OF_A_FUNCTION = ("Invariants.antt", "Answers.antt", "Proof.antt")
CITING = "docs/STATEMENTS.md"
ITEM = re.compile(r'(?m)^(?:#\[.*\]\n)?(?:pub )?(extern "C" )?(fn|const|struct|enum) (\w+)')


# ---- imports

def without_imports(text):
    """A file's text without comments and without its `use` lines."""
    return "\n".join("" if re.match(r"\s*(ghost )?use ", line) else line for line in text.split("\n"))


def unused_imports(crate):
    """(path, line number, the word here) of each imported name that its file does not use."""
    for part in ("src", "specs", "proofs"):
        for path in crate.files(part):
            text = crate.plain(path)
            words = sources.first_words(without_imports(text))
            for number, line in enumerate(text.split("\n"), 1):
                code = re.match(r"use (\w+)::[\w:]*?(?:(\w+)|\{([^}]*)\});", line)
                if code:
                    # of std also traits are brought, whose methods alone are named
                    for item in (code[2] or code[3]).split(",") if (crate.root / "crates" / code[1]).is_dir() else []:
                        if not re.search(rf"\b{item.split()[-1]}\b", without_imports(text)):
                            yield path, number, item.split()[-1]
                else:
                    for name in sources.idle(line, words):
                        yield path, number, name


def remove_imports(root, names):
    crates = sources.crates(root)
    for name in names:
        if name not in crates:
            raise Wrong(f"no crate {name}")
    count = 0
    for name in names or crates:
        found = {}
        for path, number, word in unused_imports(crates[name]):
            found.setdefault(path, {}).setdefault(number, set()).add(word)
        for path, lines in found.items():
            text = sources.read(path).split("\n")
            kept = [sources.line_without(line, lines[number]) if number in lines else line for number, line in enumerate(text, 1)]
            path.write_text("\n".join(line for line in kept if line is not None), encoding="utf-8")
            count += sum(len(words) for words in lines.values())
    print(f"unused: {count} imported names removed")


# ---- declarations

class File:
    """A file of specifications or proofs: what it declares, and which names lead where."""

    def __init__(self, root, crate, path):
        self.crate, self.path = crate.name, path
        text = crate.plain(path)
        self.declarations = sources.declarations(text)
        self.names = {}
        self.modules = {}
        for line in text.split("\n"):
            self.bring(root, line)
        for one in self.declarations:
            for name in [one.name] + one.constructors:
                for part in sources.parts_of(name):
                    self.names[part] = (path, name)

    def bring(self, root, line):
        brought = sources.imports(line)
        target = brought and sources.module_file(root, brought[0])
        if not target:
            return
        for there, here in brought[1]:
            if there is None:
                self.modules[here] = target
            else:
                for part in sources.parts_of(here):
                    self.names[part] = (target, there)

    def leads(self, word):
        """The file and name that a word of this file stands for, or None."""
        name, _, rest = word.partition(".")
        if rest and name in self.modules:
            return self.modules[name], rest.split(".")[0]
        for part in sources.parts_of(name):
            if part in self.names:
                return self.names[part]
        return None


class Source(File):
    """A source's contracts, which name declarations and declare none."""

    def __init__(self, root, crate, path):
        self.crate, self.path = crate.name, path
        self.declarations, self.names, self.modules = [], {}, {}
        text = crate.plain(path)
        for line in text.split("\n"):
            self.bring(root, line)
        self.words = WORD.findall(without_imports(text))
        # what tactics are given, by its path in the code: `crate::proofs::Runs::lemma`
        for of, part, modules, name in re.findall(r"\b(\w+)::(specs|proofs)::((?:\w+::)+)([^\s,()]+)", text):
            target = sources.module_file(root, f"Rattle.{crate.name if of == 'crate' else of}.{part}.{modules[:-2].replace('::', '.')}")
            if target:
                self.names[f"{of}::{part}::{modules}{name}"] = (target, name)


def cited(root):
    """The names that the index of statements cites, whatever their module."""
    path = root / CITING
    text = sources.read(path) if path.exists() else ""
    return {name for code in re.findall(r"`([^`\n]+)`", text) for word in WORD.findall(code) for name in word.split(".")}


def unused_declarations(root, crates):
    """(name for the list of what is kept, path, line) of each declaration that nothing used leads to."""
    files, todo = {}, []
    for crate in crates.values():
        for part in ("specs", "proofs"):
            for path in crate.files(part):
                files[path] = File(root, crate, path)
    owner = {(file.path, name): one for file in files.values() for one in file.declarations for name in [one.name] + one.constructors}
    headlines = cited(root)
    for file in files.values():
        for one in file.declarations:
            if (file.path.name in OF_A_FUNCTION and one.public) or one.name in headlines:
                todo.append((file, one))
    for crate in crates.values():
        for path in crate.files("src"):
            source = Source(root, crate, path)
            todo += [(files[at[0]], owner[at]) for at in map(source.leads, source.words) if at in owner]
    used = set()
    while todo:
        file, one = todo.pop()
        if id(one) not in used:
            used.add(id(one))
            todo += [(files[at[0]], owner[at]) for at in map(file.leads, one.words) if at in owner]
    for file in files.values():
        for one in file.declarations:
            if id(one) not in used:
                part = file.path.relative_to(crates[file.crate].folder)
                module = "/".join(part.with_suffix("").parts[1 if part.parts[0] == "specs" else 0 :])
                yield f"{file.crate}/{module}.{one.name}", file.path, one.line


# ---- items of code

def code_of(text):
    """A source's code: without contracts' imports, and without clauses."""
    return sources.CLAUSE.sub("", re.sub(r"(?m)^\s*ghost\b.*$", "", text))


def unused_items(root, crates):
    """The same of each function, constant, struct and enum."""
    code = {name: code_of(crate.source()) for name, crate in crates.items()}
    tests = "\n".join(sources.uncommented(sources.read(path), "//") for path in sorted((root / "tests").rglob("*.rattle")))
    for name, crate in crates.items():
        others = "\n".join(text for other, text in code.items() if other != name) + "\n" + tests
        for path in crate.files("src"):
            text = crate.plain(path)
            for found in ITEM.finditer(text):
                exported, kind, item = found.groups()
                if exported or item == "main":
                    continue
                here = len(re.findall(rf"\b{item}\b", code[name])) > 1
                there = re.search(rf"\b{name}::(?:\w+::)*{item}\b", others)
                if not here and not there:
                    yield f"{name}::{item}", path, text[: found.start(2)].count("\n") + 1


# ---- what is kept

def kept(root):
    """The exceptions: name to reason. A name is `crate/Module.name`, `crate/Module` for all of it, `crate::item`."""
    found = {}
    path = root / KEPT
    if not path.exists():
        return found
    for number, line in enumerate(sources.read(path).splitlines(), 1):
        if line.startswith("#") or not line.strip():
            continue
        name, bar, reason = (part.strip() for part in line.partition("|"))
        if not bar or not reason or not re.fullmatch(r"[a-z]\w*(::\w+|/[^\s|]+)", name):
            raise Wrong(f"{KEPT}:{number}: not `crate/Module.name | reason` or `crate::item | reason`")
        if name in found:
            raise Wrong(f"{KEPT}:{number}: {name} stands there twice")
        found[name] = reason
    return found


def keep(root, reason):
    """Adds what is declared and unused to the list, with this reason."""
    known = kept(root)
    names = [name for name, _, _ in unused_declarations(root, sources.crates(root)) if not {name, name.rsplit(".", 1)[0]} & known.keys()]
    with open(root / KEPT, "a", encoding="utf-8") as file:
        file.writelines(f"{name} | {reason}\n" for name in names)
    print(f"unused: {len(names)} declarations more are kept")


def report(root):
    """Sentences on what is unused, and the counts by kind."""
    crates = sources.crates(root)
    reasons = kept(root)
    needed, lines, counts = set(), [], []
    for word, found in (("declaration", unused_declarations(root, crates)), ("item", unused_items(root, crates))):
        count = 0
        for name, path, line in found:
            reason = next((key for key in (name, name.rsplit(".", 1)[0]) if key in reasons), None)
            if reason:
                needed.add(reason)
            else:
                count += 1
                lines.append(f"{path.relative_to(root)}:{line}: nothing uses {name}")
        counts.append((word, count))
    count = 0
    for crate in crates.values():
        for path, line, name in unused_imports(crate):
            count += 1
            lines.append(f"{path.relative_to(root)}:{line}: imports {name}, and does not use it")
    counts.append(("imported name", count))
    lines += [f"{KEPT}: {name} is used or gone: its line has to go" for name in reasons if name not in needed]
    return lines, counts, len(reasons)


def main():
    words, root, remove, reason, names = sys.argv[1:], sources.own_repository(), False, None, []
    while words:
        word = words.pop(0)
        if word == "--help":
            print(__doc__)
            return
        if word == "--root" and words:
            root = pathlib.Path(words.pop(0))
        elif word == "--remove-imports":
            remove = True
        elif word == "--keep" and words and words[0].strip():
            reason = words.pop(0).strip()
        elif remove and not word.startswith("-"):
            names.append(word)
        else:
            sys.exit("usage: tools/unused.py [--remove-imports [CRATE..] | --keep REASON] [--root FOLDER]")
    try:
        if remove:
            remove_imports(root, names)
            return
        if reason:
            keep(root, reason)
            return
        lines, counts, exceptions = report(root)
    except (Wrong, OSError) as error:
        sys.exit(f"tools/unused.py: {error}")
    for line in lines:
        print(line)
    print("unused: " + ", ".join(f"{count} {word}{'' if count == 1 else 's'}" for word, count in counts) + f"; {exceptions} kept with a reason")
    sys.exit(1 if lines else 0)


if __name__ == "__main__":
    main()
