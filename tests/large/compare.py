#!/usr/bin/env python3
"""Host code, not proved: holds the program order-large to the proved program order, and writes its
listings down for a comparison with the Rust.

    compare.py order LARGE ORDER [FILE.cases..]   on the hand-worked jobs, on the jobs (*.job) of the
                                  repository, and on those of files that `reference jobs` or
                                  `reference floors` wrote
    compare.py cases LARGE FILE.job..    prints the jobs with order-large's answers, as `reference jobs`
                                  would, for tests/reference/listings.py
    compare.py terminal LARGE FILE.job   progress is shown on a terminal, and only there
"""

import os
import pty
import subprocess
import sys

sys.dont_write_bytecode = True  # a test leaves nothing beside the sources
sys.path.insert(0, os.path.join(os.path.dirname(__file__), "../reference"))

import cases


def ask(command, job):
    done = subprocess.run(command, input=job, capture_output=True, check=False)
    return done.returncode, done.stdout, done.stderr


def status_of(answer):
    return int(answer.partition(b"\n")[0].partition(b"=")[2])


def kept_jobs():
    """(name, job) of the jobs that stand in the repository."""
    listed = subprocess.run(["git", "ls-files", "*.job", "crates/order/stdin"], capture_output=True, check=True, text=True)
    for name in listed.stdout.split():
        with open(name, "rb") as file:
            yield name, file.read()


def reference_jobs(paths):
    for path in paths:
        with open(path, encoding="ascii") as file:
            for i, line in enumerate(file):
                if line.startswith("job "):
                    text = line[4:].rstrip("\n").encode("ascii").decode("unicode_escape")
                    yield f"{path}:{i + 1}", text.encode("latin-1")


def difference(large, order, job):
    """What is wrong with order-large's answer, or None; and order's status."""
    _, wanted, _ = ask([order], job)
    status = status_of(wanted)
    code, found, said = ask([large], job)
    if code != (0 if status_of(found) == 0 else 1) or said:
        return f"exit status {code}, and said {said!r:.200}", status
    if status == 10:
        _, found, _ = ask([large, "--pool", "4096"], job)
    # Its own smaller storage: P over 64 or V over 512, job or listing over 65,536 bytes.
    if status in (2, 16, 17):
        return None if found != wanted else "refused by order's own bounds, and here too", status
    return None if found == wanted else f"order {wanted!r:.200}, order-large {found!r:.200}", status


def compare_with_order(large, order, paths):
    jobs = [(name, job) for name, job, _ in cases.JOBS] + list(kept_jobs()) + list(reference_jobs(paths))
    seen, wrong = {}, 0
    for name, job in jobs:
        message, status = difference(large, order, job)
        seen[status] = seen.get(status, 0) + 1
        if message:
            wrong += 1
            print(f"large: {name}: {message}")
    shown = ", ".join(f"{count} with {status}" for status, count in sorted(seen.items()))
    print(f"large: order-large beside order: {len(jobs)} jobs, status {shown}: {wrong} differ")
    return wrong == 0 and len(jobs) > 0


def print_cases(large, paths):
    for path in paths:
        with open(path, "rb") as file:
            job = file.read()
        code, out, _ = ask([large], job)
        if code != 0:
            print(f"large: {path} is refused: {out!r:.100}", file=sys.stderr)
            return False
        for word, text in (("job", job), ("out", out)):
            print(word, text.decode("ascii").replace("\n", "\\n"))
        print("host 0 0")
    return True


def check_terminal(large, path):
    """The same job with standard error on a terminal and elsewhere."""
    primary, secondary = pty.openpty()
    with subprocess.Popen([large, path], stdout=subprocess.DEVNULL, stderr=secondary) as child:
        os.close(secondary)
        shown = b""
        try:
            while part := os.read(primary, 4096):
                shown += part
        except OSError:
            pass  # the other end is closed
    os.close(primary)
    code, _, said = ask([large, path], b"")
    right = b"placing" in shown and shown.endswith(b"\r\x1b[K") and child.returncode == code == 0 and not said
    print(f"large: progress on a terminal, and only there: {'yes' if right else f'NO: {shown!r} {said!r}'}")
    return right


def main():
    match sys.argv[1:]:
        case ["order", large, order, *paths]:
            right = compare_with_order(large, order, paths)
        case ["cases", large, *paths] if paths:
            right = print_cases(large, paths)
        case ["terminal", large, path]:
            right = check_terminal(large, path)
        case _:
            sys.exit(__doc__)
    sys.exit(0 if right else 1)


main()
