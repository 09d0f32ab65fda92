#!/usr/bin/env python3
"""Checks that every relative link in the repository's documents leads to a file that is there, and
that its anchor, if it has one, is a heading of that file. Prints the count, or each broken link."""

import os
import re
import sys

LINK = re.compile(r"\[[^\]]*\]\(([^)\s]+)\)")
HEADING = re.compile(r"^#+\s+(.*?)\s*$", re.MULTILINE)
FENCE = re.compile(r"^(```|~~~).*?^\1", re.MULTILINE | re.DOTALL)


def documents():
    for folder, folders, files in os.walk("."):
        folders[:] = sorted(name for name in folders if name not in (".git", "target", "out"))
        for name in sorted(files):
            if name.endswith(".md"):
                yield os.path.join(folder, name)


def text_of(path):
    with open(path, encoding="utf-8") as file:
        return FENCE.sub("", file.read())


def anchors(path):
    """The anchors of a document's headings: lower case, words divided by dashes."""
    titles = HEADING.findall(text_of(path))
    return {re.sub(r"[^\w\- ]", "", title.lower()).replace(" ", "-") for title in titles}


def problem(document, link):
    """What is wrong with a link of the document, or None."""
    path, _, anchor = link.partition("#")
    target = os.path.normpath(os.path.join(os.path.dirname(document), path)) if path else document
    if target.startswith(".."):
        return "leads out of the repository"
    if not os.path.exists(target):
        return "no such file"
    if anchor and target.endswith(".md") and anchor not in anchors(target):
        return "no such heading"
    return None


def main():
    links, broken = 0, []
    for document in documents():
        for link in LINK.findall(text_of(document)):
            if re.match(r"[a-z]+:", link):
                continue
            links += 1
            wrong = problem(document, link)
            if wrong:
                broken.append(f"{document}: {link}: {wrong}")
    for line in broken:
        print(line)
    print(f"{links} relative links, {len(broken)} broken")
    sys.exit(1 if broken else 0)


main()
