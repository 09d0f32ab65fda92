#!/usr/bin/env python3
"""Holds the reading list of README.md to the crates: its files and single definitions are all that the exported calls'
contracts and the claims about every list of calls, every job's needs, lanes, reasons and the ascending profile are made
of, and its last column counts their lines. With --write the counts are put right instead, and with --list everything
that must be read is printed, with where it stands."""
import pathlib
import re
import sys

sys.path.insert(0, str(pathlib.Path(__file__).resolve().parent.parent / "tools"))
import sources

ROW = re.compile(r"^(\| [^|]+ \| )((?:[a-z_]+/[A-Z]\w*(?:\.[\w-]+)?(?:, )?)+)( \| )([\d,]+)( \|)$")
# What a user is promised: the contracts of the exported functions and of what the programs answer, and these records.
PROMISED = re.compile(r'^pub extern "C" fn \w+\(.*?\n\{', re.S | re.M)
ANSWER = re.compile(r"^pub fn answer\(.*?\n\{", re.S | re.M)
ANSWERING = ["job_reply", "job_reason"]
CLAIMS = [
    ("laws", "Demand", "Demand"),
    ("laws", "Needs", "Needed"),
    ("laws", "Reason", "Holds"),
    ("ascending", "Claims", "Ascends"),
    ("lanes", "Claims", "SameLists"),
    ("lanes", "Claims", "SameRuns"),
    ("lanes", "Claims", "SameJobs"),
]


class Words:
    """What the words of a file mean: the definitions that it has, and those that it brings from elsewhere."""

    def __init__(self, root, path):
        text = sources.read(path)
        self.lines = text.split("\n")
        self.path, self.brought, self.modules, self.own = path, {}, {}, {}
        for line in self.lines:
            module, pairs = sources.imports(line) or ("", [])
            file = sources.module_file(root, module)
            for there, here in pairs if file else []:
                for part in sources.parts_of(here):
                    self.brought[part] = (file, there)
                if there is None:
                    self.modules[here] = file
        if path.suffix == ".antt":
            for one in sources.declarations(sources.uncommented(text, "--")):
                for name in [one.name, *one.constructors]:
                    self.own[name] = one

    def meant(self, words):
        """(file, name) of each definition that one of the words may mean."""
        for word in words:
            head, _, field = word.partition(".")
            if head in self.modules and field:
                yield self.modules[head], field.split(".")[0]
            for part in {head, *sources.parts_of(head)}:
                if part in self.own:
                    yield self.path, self.own[part].name
                elif part in self.brought and self.brought[part][1]:
                    yield self.brought[part]

    def count(self, name):
        """The lines of a definition, with the comment above it."""
        first = last = self.own[name].line - 1
        while self.lines[first - 1].lstrip().startswith("--"):
            first -= 1
        while self.lines[last].strip():
            last += 1
        return last - first


class Reading:
    """All that must be read: for each file the names of definitions that are reached."""

    def __init__(self, root):
        self.root, self.files, self.reached = root, {}, {}
        todo = [(self.spec(crate, module), name) for crate, module, name in CLAIMS]
        for path in sorted((root / "crates").glob("*/src/lib.rt")):
            todo += self.contracts(path, PROMISED)
        for crate in ANSWERING:
            todo += self.contracts(root / "crates" / crate / "src" / "lib.rt", ANSWER)
        while todo:
            path, name = todo.pop()
            file = self.file(path)
            if name in file.own and file.own[name].name not in self.reached.setdefault(path, set()):
                self.reached[path].add(file.own[name].name)
                todo += file.meant(file.own[name].words)

    def spec(self, crate, module):
        return self.root / "crates" / crate / "specs" / f"{module}.antt"

    def file(self, path):
        if path not in self.files:
            self.files[path] = Words(self.root, path)
        return self.files[path]

    def contracts(self, path, function):
        """What the functions' signatures and contracts name."""
        return [meant for text in function.findall(sources.read(path)) for meant in self.file(path).meant(sources.WORD.findall(text))]

    def lines(self, item):
        """The lines of a listed file or definition, which is then no longer missing."""
        crate, _, rest = item.partition("/")
        module, _, name = rest.partition(".")
        path = self.spec(crate, module)
        if not path.is_file() or (name and name not in self.file(path).own):
            sys.exit(f"reading: README.md names {item}, and there is none")
        if not self.reached.get(path) or (name and name not in self.reached[path]):
            sys.exit(f"reading: README.md names {item}, and no promise needs it, or it is listed twice")
        self.reached[path] -= {name} if name else self.reached[path]
        return self.file(path).count(name) if name else len(self.file(path).lines) - 1

    def left(self):
        return sorted(f"{path.parts[-3]}/{path.stem}.{name}" for path, names in self.reached.items() for name in names)


def main():
    root = sources.own_repository()
    reading = Reading(root)
    if sys.argv[1:] == ["--list"]:
        print("\n".join(reading.left()))
        return
    readme = root / "README.md"
    lines = sources.read(readme).split("\n")
    wrong, rows = [], 0
    for number, line in enumerate(lines):
        match = ROW.match(line)
        if match:
            rows += 1
            count = f"{sum(map(reading.lines, match[2].split(', '))):,}"
            if count != match[4]:
                lines[number] = match[1] + match[2] + match[3] + count + match[5]
                wrong.append(f"README.md:{number + 1}: {match[4]} lines are said, {count} there are")
    missing = [f"README.md leaves out {name}, which a promise is made of" for name in reading.left()]
    if sys.argv[1:] == ["--write"]:
        readme.write_text("\n".join(lines), encoding="utf-8")
        wrong = []
    if wrong or missing or not rows:
        print("\n".join(wrong + missing))
        sys.exit("reading: the reading list of README.md is not true (.ci/reading.py --write mends the counts)")
    print(f"reading list: {rows} rows, and every definition that a promise is made of stands in one")


main()
