#!/usr/bin/env python3
"""Host code, not proved: chains of `.before` in specifications and proofs.

    tools/places.py --check     names each chain of `.before` that is longer than 5; on one the status is 1

What is known at a place of a function's code has a name of its own in an answer, `c.push.ensures` what the call of `push`
gave, so that no proof has to count steps back from where it stands.
"""

import re
import sys

from antt import ROOT, files_of

MOST = 5        # no chain is longer
CHAIN = re.compile(r"(?:\s?\.before\b){%d,}" % (MOST + 1))


def main(arguments):
    if arguments == ["--help"]:
        print(__doc__.strip())
        return 0
    if arguments != ["--check"]:
        print("tools/places.py takes --check alone (see --help)", file=sys.stderr)
        return 2
    found = 0
    for crate in sorted(path.name for path in (ROOT / "crates").iterdir() if path.is_dir()):
        for path in files_of(crate):
            for number, line in enumerate(path.read_text(encoding="utf-8").split("\n"), 1):
                for chain in CHAIN.findall(line):
                    print(f"{path.relative_to(ROOT)}:{number}: a chain of {chain.count('.before')} .before")
                    found += 1
    print(f"chains of .before over {MOST}: {found}" if found else f"no chain of .before over {MOST}")
    return 1 if found else 0


if __name__ == "__main__":
    sys.exit(main(sys.argv[1:]))
