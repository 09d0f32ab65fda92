#!/usr/bin/env python3
"""Runs the commands quoted in a document again and compares what they print with what is quoted.

    transcripts.py DOCUMENT..

A transcript is a fenced block marked `console`: lines that begin with `$ ` are commands (a line that
ends in a backslash goes on in the next), run by bash from the repository's root; the lines after a
command are its output and errors."""

import re
import subprocess
import sys

BLOCK = re.compile(r"^```console\n(.*?)^```$", re.MULTILINE | re.DOTALL)


def transcripts(path):
    """(command, output) of each command in a document."""
    with open(path, encoding="utf-8") as file:
        text = file.read()
    for block in BLOCK.findall(text):
        for part in re.split(r"^\$ ", block, flags=re.MULTILINE)[1:]:
            command, end, output = "", False, part
            while not end:
                line, _, output = output.partition("\n")
                command += line + "\n"
                end = not line.endswith("\\")
            yield command, output


def main():
    count = failed = 0
    for path in sys.argv[1:]:
        for command, quoted in transcripts(path):
            done = subprocess.run(
                ["bash", "-c", command],
                stdout=subprocess.PIPE, stderr=subprocess.STDOUT, check=False, text=True,
            )
            count += 1
            if done.stdout != quoted:
                failed += 1
                print(f"{path}: $ {command}  quoted:\n{quoted}  printed:\n{done.stdout}")
    print(f"{count} quoted commands, {failed} print something else")
    sys.exit(1 if failed or not count else 0)


main()
