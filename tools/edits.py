#!/usr/bin/env python3
"""Host code, not proved: whether the wrong programs of the crates can be made.

    tools/edits.py     of each crates/NAME/must-fail/*.edit: the text that it replaces stands once in the file that it names;
                       ends with status 1 where it does not

rt says the same, but after all crates are proved."""

import pathlib
import sys

ROOT = pathlib.Path(__file__).resolve().parent.parent


def replaced(edit):
    """The file and the text of each replacement."""
    file = None
    for line in edit.read_text(encoding="utf-8").split("\n"):
        if line.startswith("file: "):
            file = line.removeprefix("file: ")
        elif line.startswith("old: "):
            yield file, line.removeprefix("old: ")


def wrong(edit):
    """What is wrong with an edit, a sentence for each."""
    crate, name = edit.parent.parent, edit.relative_to(ROOT)
    found = list(replaced(edit))
    if not found:
        yield f"{name}: it replaces nothing"
    for file, old in found:
        if file is None or not (crate / file).is_file():
            yield f"{name}: crate {crate.name} has no file {file}"
            continue
        times = (crate / file).read_text(encoding="utf-8").count(old)
        if times != 1:
            yield f"{name}: '{old}' stands {times} times in {file}, not once"


def main():
    if sys.argv[1:] == ["--help"]:
        print(__doc__)
        return
    if sys.argv[1:]:
        sys.exit("usage: tools/edits.py")
    edits = sorted(ROOT.glob("crates/*/must-fail/*.edit"))
    sentences = [sentence for edit in edits for sentence in wrong(edit)]
    for sentence in sentences:
        print(f"edits: {sentence}", file=sys.stderr)
    print(f"wrong programs: {len(edits)}, of which {len({s.split(':')[0] for s in sentences})} cannot be made")
    sys.exit(1 if sentences else 0)


if __name__ == "__main__":
    main()
