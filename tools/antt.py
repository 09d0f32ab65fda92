"""Host code, not proved: the text of specs and proofs as tokens, for tools/lines.py."""

import collections
import pathlib
import re
import subprocess
import sys

ROOT = pathlib.Path(__file__).resolve().parent.parent
TOKEN = re.compile(r'--[^\n]*|"(?:[^"\\]|\\.)*"|«[^»]*»|\.[^\s(){}.;,@"«»]+|[^\s(){}.;,@"«»]+|[(){}.;,@]')
OPEN, CLOSE = set("({["), set(")}]")

Token = collections.namedtuple("Token", "text start end")


def tokens_of(text, start=0, end=None):
    """The tokens between two positions, without comments."""
    found = (Token(m[0], m.start(), m.end()) for m in TOKEN.finditer(text, start, len(text) if end is None else end))
    return [token for token in found if not token.text.startswith("--")]


def depths(tokens):
    """How many brackets are open before each token, and after the last."""
    found = [0]
    for token in tokens:
        found.append(found[-1] + (token.text in OPEN) - (token.text in CLOSE))
    return found


def crates_named(command, words):
    """The crates that a command's words name; with none, or where a word is no crate, the command ends."""
    known = {path.name for path in (ROOT / "crates").iterdir()}
    wrong = [f"unknown option {word}" if word.startswith("-") else f"there is no crate {word}" for word in words if word not in known]
    if wrong or not words:
        print(f"{command}: {wrong[0] if wrong else 'a crate is needed'} (see --help)", file=sys.stderr)
        sys.exit(2)
    return words


def files_of(crate="*"):
    """The specs and proofs of a crate, or of all."""
    return sorted(path for path in (ROOT / "crates").glob(f"{crate}/**/*.antt") if "out" not in path.parts)


def write(path, text):
    """Writes a file in the formatter's layout; a text that does not parse is not written, and gives what is wrong."""
    old = path.read_text(encoding="utf-8")
    path.write_text(text, encoding="utf-8")
    done = subprocess.run(["rattle", "fmt", "--write", path], capture_output=True, text=True, check=False)
    if done.returncode:
        path.write_text(old, encoding="utf-8")
        return (done.stderr or done.stdout).strip()
    return None
