#!/usr/bin/env python3
"""Prints the hand-worked jobs of tests/reference/cases.py, each as a line `job TEXT` (tests/reference/jobs.rs)."""

import os
import sys

sys.dont_write_bytecode = True  # a test leaves nothing beside the sources
sys.path.insert(0, os.path.join(os.path.dirname(os.path.abspath(__file__)), "..", "reference"))

import cases as worked


def escaped(job):
    text = job.decode("latin-1").replace("\\", "\\\\").replace("\n", "\\n")
    return "".join(c if " " <= c <= "~" else f"\\x{ord(c):02x}" for c in text)


for _, job, _ in worked.JOBS:
    print(f"job {escaped(job)}")
