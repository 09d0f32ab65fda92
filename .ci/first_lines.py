#!/usr/bin/env python3
"""Checks that every file of host code says in its first line, or in the second after `#!`, that it is not proved. Prints
the count, or each file that does not."""

import subprocess
import sys

WORDS = "Host code, not proved"
HOST_CODE = ["hosts", "tools", "bench", "tests/python/test.py"]
DATA = (".md", ".txt", ".in", "Cargo.lock")


def says_so(path):
    with open(path, encoding="utf-8") as file:
        line = file.readline()
        return WORDS in (file.readline() if line.startswith("#!") else line)


def main():
    listed = subprocess.run(["git", "ls-files", "-z", *HOST_CODE], capture_output=True, check=True, text=True).stdout
    paths = [path for path in listed.split("\0") if path and not path.endswith(DATA)]
    silent = [path for path in paths if not says_so(path)]
    for path in silent:
        print(f"{path}: its first line does not say '{WORDS}'")
    print(f"{len(paths)} files of host code, {len(silent)} do not say that they are not proved")
    sys.exit(1 if silent or not paths else 0)


main()
