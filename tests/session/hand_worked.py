#!/usr/bin/env python3
"""Prints the hand-worked sessions of tests/reference/cases.py as runs with the refusals expected."""

import os
import sys

sys.dont_write_bytecode = True  # a test leaves nothing beside the sources
sys.path.insert(0, os.path.join(os.path.dirname(os.path.abspath(__file__)), "..", "reference"))

import cases as worked

for sentence, run, codes in worked.RUNS:
    refused = " ".join(["= refused"] + [f"{call},{code}" for call, code in codes.items()])
    print(f"# {sentence}")
    print(run.replace("\nend\n", f"\n{refused}\nend\n"), end="")
