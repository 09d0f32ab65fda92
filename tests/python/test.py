"""Host code, not proved: the Python module against the proved libraries: J1, lists of calls beside jobs, line ends,
reasons, refusals, bad arguments."""
import os
import random
import shutil
import subprocess
import sys
import tempfile
import unittest

ROOT = os.path.dirname(os.path.dirname(os.path.dirname(os.path.abspath(__file__))))
sys.path.insert(0, os.path.join(ROOT, "hosts", "python"))

import witness_order as order  # noqa: E402


def read(*path):
    with open(os.path.join(ROOT, *path), encoding="ascii") as text:
        return text.read()


def random_list(seed):
    """A random list of calls as the lines of a job and as Calls, with P and V; some of it is refused."""
    source = random.Random(seed)
    parallelism, places = source.choice([1, 2, 3, 8, 64]), source.randrange(1, 40)
    calls, lines = order.Calls(), []
    for _ in range(source.randrange(1, 60)):
        if source.random() < 0.3:
            place = source.randrange(places + 1)
            calls.set(place)
            lines.append([f"set={place}"])
        elif source.random() < 0.1:
            calls.flush()
            lines.append(["flush=1"])
        else:
            outs = [source.randrange(places) for _ in range(source.randrange(3))]
            # Inputs below the outputs, so that no two registrations wait for each other.
            ins = [source.randrange(min(outs, default=places)) for _ in range(source.randrange(4)) if 0 not in outs]
            lane = source.choice([None, 0, source.randrange(256), source.randrange(258)])
            calls.add(ins, outs, lane)
            label = [] if lane is None else [f"lane={lane}"]
            lines.append([*label, "in=" + ",".join(map(str, ins)), "out=" + ",".join(map(str, outs))])
    # Whatever is still waited for is set; the others are refused.
    for place in range(places if source.random() < 0.9 else 0):
        calls.set(place)
        lines.append([f"set={place}"])
    calls.final()
    lines.append(["final=1"])
    return parallelism, places, calls, lines


def random_ascending(seed):
    """P, V and a random list of calls, as names of methods with their arguments: in the profile but for some."""
    source = random.Random(seed)
    parallelism, places = source.choice([1, 2, 3, 8]), source.randrange(1, 40)
    lowest, made = 0, []
    for _ in range(source.randrange(1, 60)):
        kind, off = source.random(), source.choice([0, 0, 0, 1, -1])
        if kind < 0.3:
            made.append(("set", max(lowest + off, 0)))
            lowest += off == 0 and lowest < places
        elif kind < 0.35:
            made.append(("flush",))
        else:
            first, count = max(lowest + off, 0), source.randrange(3)
            ins = [source.randrange(lowest + (source.random() < 0.1)) for _ in range(source.randrange(4)) if lowest]
            made.append(("add", ins, list(range(first, first + count)), source.randrange(256)))
            lowest += count if first == lowest and lowest + count <= places and all(place < lowest for place in ins) else 0
    return parallelism, places, made + [("final",)] * (source.random() < 0.7)


def left(result, places):
    """What a list of calls left, but for each call's number."""
    entries, rows = list(result.entries()), [result.row(place) for place in range(places)]
    return result.length, entries, rows, [result.mark(place) for place in range(places)], result.tally(), result.summary()


class Jobs(unittest.TestCase):
    def test_j1(self):
        listing = order.run_job(read("crates", "order", "stdin"))
        self.assertEqual(str(listing), read("crates", "order", "stdout"))
        self.assertEqual([entry.added for entry in listing.entries], [0, 2, 1, 3])
        self.assertEqual([entry.lane for entry in listing.entries], [0, 0, 0, 0])
        self.assertEqual(listing.head["median"], 2)
        self.assertEqual(order.run_job(read("crates", "order", "stdin").encode()).text, listing.text)

    def test_lanes(self):
        listing = order.run_job(read("examples", "lanes.job"))
        self.assertEqual(str(listing), read("examples", "lanes.listing"))
        self.assertEqual({entry.lane for entry in listing.entries}, {0, 1})

    def test_refused(self):
        for name in sorted(os.listdir(os.path.join(ROOT, "examples", "refused"))):
            if name.endswith(".job"):
                expected = dict(line.split("=") for line in read("examples", "refused", name[:-4] + ".listing").split())
                with self.assertRaises(order.Rejected) as refused:
                    order.run_job(read("examples", "refused", name))
                self.assertEqual(refused.exception.refusal, int(expected["status"]), name)
                self.assertEqual(refused.exception.line, int(expected["line"]), name)
                self.assertIn(str(refused.exception.refusal), str(refused.exception))
                self.assertTrue(str(refused.exception).endswith(f" (number {expected['status']})"), refused.exception)

    def test_room(self):
        text = read("crates", "order", "stdout")
        self.assertEqual(order.run_job(read("crates", "order", "stdin"), len(text)).text, text)
        with self.assertRaises(order.Rejected) as refused:
            order.run_job(read("crates", "order", "stdin"), len(text) - 1)
        self.assertEqual((refused.exception.refusal, refused.exception.line), (order.Refusal.LONG_LISTING, 1))
        with self.assertRaises(order.Rejected) as refused:
            order.run_job(b"#" * 65_537)
        self.assertEqual(refused.exception.refusal, order.Refusal.LONG_JOB)

    def test_bad_arguments(self):
        self.assertEqual(order.run_job(bytearray(read("crates", "order", "stdin").encode())).head["median"], 2)
        for bad in (5, None, [1, 2], 10**12, memoryview(b"x")):
            self.assertRaisesRegex(TypeError, "a job is text or bytes", order.run_job, bad)
        for bad in (-1, 1.5, 2**64):
            self.assertRaisesRegex(ValueError, "is no 64-bit number", order.run_job, "", bad)
        self.assertRaisesRegex(MemoryError, "no memory for", order.run_job, "", 2**63)


def counted(text):
    """What a well-formed job needs, by its lines."""
    lines = text.splitlines()
    lists = [line.partition("=")[2] for line in lines if line.startswith(("in=", "out="))]
    flushes = lines.count("flush=1")
    return len(lists) // 2, sum(len(one.split(",")) for one in lists if one), flushes, len(lists) + 32 * (flushes + 1)


class Needs(unittest.TestCase):
    def test_j1(self):
        text = read("crates", "order", "stdin")
        needs = order.job_needs(text)
        self.assertEqual((needs.registrations, needs.pool, needs.flushes, needs.most_spans), (4, 7, 0, 40))
        self.assertEqual(order.job_needs(text.encode()), needs)
        self.assertEqual(order.job_needs("parallelism=0\nplaces=0\nfinal=1\n"), (0, 0, 0, 32))

    def test_examples(self):
        """An accepted job has as many entries as it needs registrations."""
        names = [name for name in sorted(os.listdir(os.path.join(ROOT, "examples"))) if name.endswith(".job")]
        self.assertTrue(names)
        for name in names:
            text = read("examples", name)
            self.assertEqual(order.job_needs(text), counted(text), name)
            self.assertEqual(order.job_needs(text).registrations, len(order.run_job(text).entries), name)

    def test_refused(self):
        """What is refused for its text is refused alike; what is refused for its head or a call has needs."""
        jobs = {"long": "#" * 65_537}
        for name in sorted(os.listdir(os.path.join(ROOT, "examples", "refused"))):
            if name.endswith(".job"):
                jobs[name] = read("examples", "refused", name)
        numbers = set()
        for name, text in jobs.items():
            with self.assertRaises(order.Rejected) as run:
                order.run_job(text)
            numbers.add(run.exception.refusal)
            if run.exception.refusal in (order.Refusal.MALFORMED, order.Refusal.LONG_JOB):
                with self.assertRaises(order.Rejected) as refused:
                    order.job_needs(text)
                self.assertEqual(str(refused.exception), str(run.exception), name)
            else:
                self.assertEqual(order.job_needs(text), counted(text), name)
        self.assertEqual(numbers, {1, 2, 4, 5, 6, 8, 9, 10, 12, 15, 16, 18})

    def test_random(self):
        """Lists with refused calls among them: the pool holds all list numbers."""
        for seed in range(400):
            parallelism, places, calls, lines = random_list(seed)
            text = "\n".join([f"parallelism={parallelism}", f"places={places}", *sum(lines, []), ""])
            needs = order.job_needs(text)
            self.assertEqual(needs, counted(text), seed)
            self.assertEqual(needs.pool, calls.pooled, seed)
            with self.assertRaises(order.Rejected) as refused:
                order.job_needs(text + "final=1\n")
            self.assertEqual((refused.exception.refusal, refused.exception.line), (order.Refusal.MALFORMED, text.count("\n") + 1))

    def test_bad_arguments(self):
        for bad in (5, None, [1, 2], memoryview(b"x")):
            self.assertRaisesRegex(TypeError, "a job is text or bytes", order.job_needs, bad)


def ends_of(job):
    """The ends of a job's lines, one after another; no more than it has bytes, so that wrong answers come to an end too."""
    ends, end = [], order.line_end(job)
    while end is not None and len(ends) <= len(job):
        ends.append(end)
        end = order.line_end(job, end + 1)
    return ends


class LineEnds(unittest.TestCase):
    def test_j1(self):
        text = read("crates", "order", "stdin")
        for job in (text, text.encode(), bytearray(text.encode())):
            self.assertEqual(ends_of(job), [13, 22, 28, 33, 39, 44, 50, 55, 61, 65, 71, 79])

    def test_random(self):
        """Beside Python's own search, from every start and past the bytes: texts of byte 10, its neighbours and some others."""
        source = random.Random(1)
        found = 0
        for length in range(60):
            job = bytes(source.choice(b"\n\t\v0\x8a\xff") for _ in range(length))
            for start in [*range(length + 3), 2**63, 2**64 - 1]:
                place = job.find(b"\n", start)
                self.assertEqual(order.line_end(job, start), place if place >= 0 else None, (job, start))
                found += place >= 0
        self.assertGreater(found, 1000)

    def test_start_past_64_bits(self):
        """Their lower 64 bits are 0 and 4, where a line end would be found."""
        for start in (2**64, 2**64 + 4, 2**200):
            self.assertIsNone(order.line_end(b"in=\nout=\n", start))

    def test_text(self):
        """Places of a text are those of its bytes in UTF-8; the bytes of no other character are 10."""
        self.assertEqual(ends_of("\u00e9\u010a\u0a0a\n\u0a0a\n"), [7, 11])
        self.assertEqual(order.line_end(b"\0\n"), 1)

    def test_none(self):
        for job in ("", b"", "final=1", b"\r\0\x0b"):
            self.assertIsNone(order.line_end(job))
        self.assertEqual(ends_of("set=0\nfinal=1"), [5])

    def test_bad_arguments(self):
        for bad in (5, None, [10], memoryview(b"\n")):
            self.assertRaisesRegex(TypeError, "a job is text or bytes", order.line_end, bad)
        for bad in (-1, -(2**64), 1.5, "1", None):
            self.assertRaisesRegex(ValueError, "is no place in a job", order.line_end, b"\n", bad)


class Lists(unittest.TestCase):
    def test_beside_jobs(self):
        """The calls that are accepted, as a job, give the order that the whole list gives."""
        finished, lanes, numbers = 0, set(), set()
        for seed in range(400):
            parallelism, places, calls, lines = random_list(seed)
            result = order.replay(parallelism, places, calls)
            self.assertEqual(len(result.numbers), len(lines))
            numbers.update(result.numbers)
            if result.numbers[-1]:
                continue
            finished += 1
            lanes.update(entry.lane for entry in result.entries())
            accepted = [line for number, call in zip(result.numbers, lines) if number == 0 for line in call]
            listing = order.run_job("\n".join([f"parallelism={parallelism}", f"places={places}", *accepted, ""]))
            self.assertEqual(
                [(entry.added, entry.accepted, entry.parallelism, result.row(entry.added).written, entry.lane) for entry in result.entries()],
                [(entry.added, entry.accepted, entry.parallelism, entry.written, entry.lane) for entry in listing.entries],
            )
            for index, entry in enumerate(result.entries()):
                row = result.row(entry.added)
                self.assertEqual((row.index, row.parallelism, row.lane), (index, entry.parallelism, entry.lane))
                self.assertEqual(entry.value, entry.added)
            tally = [0] * (parallelism + 1)
            for entry in result.entries():
                tally[entry.parallelism] += 1
            self.assertEqual(result.tally(), tally)
            summary = result.summary()
            self.assertEqual(summary.median, listing.head["median"])
            self.assertEqual(sum(summary.counts), sum(summary.thousands))
            self.assertEqual(sum(summary.counts), result.length)
            self.assertAlmostEqual(summary.average, result.length / 65_000, places=7)
        self.assertGreater(finished, 200)
        self.assertTrue({0, 255} <= lanes <= set(range(256)), lanes)
        self.assertIn(order.Refusal.UNKNOWN_LANE, numbers)

    def test_marks(self):
        result = order.replay(2, 4, order.Calls().set(0).add([0], [1]).add([3], [2]))
        self.assertEqual([result.mark(place) for place in range(4)], [49_152, 32_768, 0, 0])

    def test_numbers(self):
        calls = order.Calls().set(0).set(0).add([0], [9]).final().flush()
        self.assertEqual(order.replay(2, 4, calls).numbers, [0, 8, 5, 0, 7])
        self.assertEqual(order.replay(2, 4, order.Calls().add([], [0, 1]), pool=1).numbers, [10])
        calls = order.Calls().add([], [9], 256).add([], [9], lane=255).add([], [], lane=2**64 - 1).final().add([], [], 256)
        self.assertEqual(order.replay(2, 4, calls).numbers, [18, 5, 18, 0, 7])

    def test_lanes(self):
        """A row's lane is 0 until its entry is in the order; the first registration waits, and keeps its own."""
        calls = order.Calls().add([0], [1], lane=7).add([], [2], lane=255).add([], [3])
        result = order.replay(2, 4, calls)
        self.assertEqual([result.row(r).lane for r in range(4)], [0, 0, 0, 0])
        result = order.replay(2, 4, calls.set(0).final())
        self.assertEqual({entry.added: entry.lane for entry in result.entries()}, {0: 7, 1: 255, 2: 0})
        self.assertEqual([result.row(r).lane for r in range(4)], [7, 255, 0, 0])

    def test_held(self):
        """The accepted adds are in the order, in the window or waiting; J1 by its beginnings, and two that wait."""
        steps = [("set", 0), ("add", [0], [1]), ("add", [1], [2]), ("add", [0], [3]), ("add", [], [4]), ("final",)]
        calls, found = order.Calls(), [order.held(2, 6, order.Calls())]
        for name, *places in steps:
            getattr(calls, name)(*places)
            found.append(order.held(2, 6, calls))
            accepted = order.replay(2, 6, calls).length + found[-1]
            self.assertEqual(accepted, sum(step[0] == "add" for step in steps[: calls.count]))
        self.assertEqual(found, [0, 0, 1, 2, 3, 2, 0])
        self.assertEqual(order.held(2, 6, order.Calls().add([5], [1]).add([5], [2]).add([], [0]).set(0)), 1)
        self.assertEqual(order.held(2, 6, order.Calls().add([], [0, 1]).add([], [0]), pool=1), 1)

    def test_ascending(self):
        """J1, and breaches of the profile; the list numbers of accepted adds are counted."""
        calls = order.Calls().set(0).add([0], [1]).add([1], [2], lane=7).add([0], [3]).add([], [4], lane=255).final()
        result, ordinary = order.replay_ascending(2, 6, calls), order.replay(2, 6, calls)
        self.assertEqual(result.numbers, [0] * 6)
        self.assertEqual([entry.added for entry in result.entries()], [0, 2, 1, 3])
        self.assertEqual(left(result, 6), left(ordinary, 6))
        calls = order.Calls().set(1).set(0).set(0).add([], [2]).add([], [2, 1]).add([], [1, 1]).add([1], [1]).add([0, 0], [1, 2])
        self.assertEqual(order.replay_ascending(2, 9, calls.add([3], []).add([2], [])).numbers, [21, 0, 21, 21, 21, 6, 21, 0, 21, 0])
        calls = order.Calls().add([], [0, 1]).add([1], [2]).add([], [])
        for most, numbers in ((4, [0, 0, 0]), (3, [0, 10, 0]), (1, [10, 21, 0]), (2**64 - 1, [0, 0, 0]), (None, [0, 0, 0])):
            self.assertEqual(order.replay_ascending(2, 4, calls, list_numbers=most).numbers, numbers, most)

    def test_ascending_lists(self):
        """Random lists, most of them with breaches: what is accepted leaves the same on an ordinary session."""
        breaches = 0
        for seed in range(200):
            parallelism, places, made = random_ascending(seed)
            calls = order.Calls()
            for name, *words in made:
                getattr(calls, name)(*words)
            result, accepted = order.replay_ascending(parallelism, places, calls), order.Calls()
            for (name, *words), number in zip(made, result.numbers):
                if number == 0:
                    getattr(accepted, name)(*words)
            ordinary = order.replay(parallelism, places, accepted)
            self.assertEqual(set(ordinary.numbers) | {0}, {0}, seed)
            self.assertEqual(left(result, places), left(ordinary, places), seed)
            breaches += result.numbers.count(order.Refusal.PROFILE_BREACH)
        self.assertGreater(breaches, 100)

    def test_refused(self):
        for parallelism, places in [(0, 1), (65_000, 1), (1, 0), (1, 16_777_217), (2**32 + 1, 1), (1, 2**64 - 1)]:
            for call in (order.replay, order.held, order.replay_ascending):
                with self.assertRaises(order.Rejected) as refused:
                    call(parallelism, places, order.Calls())
                self.assertEqual(refused.exception.refusal, order.Refusal.OUT_OF_RANGE)
                self.assertTrue(str(refused.exception).endswith(" (number 1)"), refused.exception)

    def test_bad_arguments(self):
        for bad in (-1, 2**64, 1.5, "1", None):
            for call in (lambda: order.Calls().set(bad), lambda: order.Calls().add([bad], []), lambda: order.Calls().add([], [bad])):
                self.assertRaises(ValueError, call)
            if bad is not None:
                self.assertRaises(ValueError, order.Calls().add, [], [], bad)
                self.assertRaises(ValueError, order.replay, 1, 1, order.Calls(), pool=bad)
                self.assertRaises(ValueError, order.replay_ascending, 1, 1, order.Calls(), list_numbers=bad)
            self.assertRaises(ValueError, order.replay, bad, 1, order.Calls())
        self.assertRaisesRegex(ValueError, "'x' is no 64-bit number", order.replay, 1, "x", order.Calls())
        for bad in (None, [1, 0], "set=0", b"", 7):
            for call in (order.replay, order.held, order.replay_ascending):
                self.assertRaisesRegex(TypeError, "a list of calls is a Calls, not ", call, 2, 6, bad)
        for pool in (2**62, 2**63, 2**64 - 1):
            self.assertRaisesRegex(MemoryError, f"no memory for {pool} numbers of 4 bytes", order.replay, 1, 1, order.Calls(), pool=pool)
        result = order.replay(1, 1, order.Calls())
        for bad in (-1, 1):
            self.assertRaises(IndexError, result.row, bad)
            self.assertRaises(IndexError, result.mark, bad)

    def test_large(self):
        """A chain of 100,000: every width is 1."""
        calls = order.Calls().set(0)
        for place in range(1, 100_000):
            calls.add([place - 1], [place])
        result = order.replay(4, 100_000, calls.final())
        self.assertEqual(result.length, 99_999)
        self.assertTrue(all(entry.parallelism == 1 for entry in result.entries()))


def told(call, *words):
    """The reason, or the number of a refusal and the line."""
    try:
        return tuple(call(*words))
    except order.Rejected as refused:
        return refused.refusal, refused.line


class Reasons(unittest.TestCase):
    def test_jobs(self):
        head = "parallelism=4\nplaces=6\n"
        for lines, registration, expected in [
            ("set=2 in=2 out= final=1", 0, (2, 0)),
            ("set=0 set=2 in=2 out= final=1", 0, (2, 1)),
            ("set=0 set=1 set=2 in=2 out= final=1", 0, (20, None)),
            ("set=2 in=2 out= final=1", 1, (19, None)),
            ("set=2 in=2 out= final=1", 2**64 - 1, (19, None)),
            ("set=0 in=5,1,5 out=1 final=1", 0, (5, 1)),
            ("in=0 out=1 final=1 set=0", 0, (0, 0)),
            ("set=9 final=1", 0, (5, 3)),
        ]:
            text = head + lines.replace(" ", "\n") + "\n"
            self.assertEqual(told(order.job_reason, text, registration), expected, lines)
            self.assertEqual(told(order.job_reason, text.encode(), registration), expected, lines)
        self.assertEqual(told(order.job_reason, "", 0), (15, 1))
        text = read("crates", "order", "stdin")
        self.assertEqual([told(order.job_reason, text, r) for r in range(5)], [(20, None)] * 4 + [(19, None)])
        with self.assertRaises(order.Rejected) as refused:
            order.job_reason(text, 4)
        self.assertEqual(str(refused.exception), "no registration of this number was accepted (number 19)")

    def test_lists(self):
        """A reason after a list is that of the job of its accepted calls and final; a set of the place is accepted, or it is taken."""
        reasons = settable = 0
        for seed in range(200):
            parallelism, places, calls, lines = random_list(seed)
            cut = random.Random(seed).randrange(len(lines))
            calls, text = self.beginning(parallelism, places, lines[:cut])
            count = text.count("in=")
            for r in range(count + 2):
                found = told(order.reason, parallelism, places, calls, r)
                self.assertEqual(found, told(order.job_reason, text, r), (seed, r))
                if found[1] is not None:
                    reasons += 1
                    number = order.replay(parallelism, places, calls.set(found[1])).numbers[-1]
                    settable += number == 0
                    self.assertIn(number, (0, order.Refusal.TAKEN_PLACE))
                    break
        self.assertGreater(reasons, 50)
        self.assertGreater(settable, 50)

    def beginning(self, parallelism, places, lines):
        """The accepted ones of some calls, as Calls and as a job that ends with final."""
        calls, text = order.Calls(), [f"parallelism={parallelism}", f"places={places}"]
        for call in lines:
            longer = self.with_call(calls, call)
            if order.replay(parallelism, places, longer).numbers[-1] == 0:
                calls, text = longer, text + call
        return calls, "\n".join([*text, "final=1", ""])

    def with_call(self, calls, lines):
        longer = order.Calls()
        longer.encoded, longer.count, longer.pooled = list(calls.encoded), calls.count, calls.pooled
        words = dict(line.split("=") for line in lines)
        if "set" in words:
            return longer.set(int(words["set"]))
        if "in" not in words:
            return longer.flush()
        ins, outs = ([int(place) for place in words[key].split(",") if place] for key in ("in", "out"))
        return longer.add(ins, outs, int(words["lane"]) if "lane" in words else None)

    def test_bad_arguments(self):
        for bad in (-1, 2**64, 1.5, "1", None):
            self.assertRaisesRegex(ValueError, "is no 64-bit number", order.job_reason, "", bad)
            self.assertRaisesRegex(ValueError, "is no 64-bit number", order.reason, 1, 1, order.Calls(), bad)
        self.assertRaisesRegex(TypeError, "a job is text or bytes", order.job_reason, 5, 0)
        self.assertRaisesRegex(TypeError, "a list of calls is a Calls, not ", order.reason, 2, 6, [1, 0], 0)
        with self.assertRaises(order.Rejected) as refused:
            order.reason(0, 1, order.Calls(), 0)
        self.assertEqual(refused.exception.refusal, order.Refusal.OUT_OF_RANGE)


class Libraries(unittest.TestCase):
    def test_missing(self):
        self.assertIn("missing: no liborder.so in /nonexistent", self.said(os.path.join(ROOT, "hosts", "python"), "/nonexistent"))

    def said(self, folder, libraries=""):
        """What the module in the folder says of its library."""
        script = "import witness_order as w\ntry: w.run_job('')\nexcept w.LibraryMissing as e: print('missing:', e)"
        environment = dict(os.environ, ORDER_LIBS=libraries, PYTHONPATH=folder)
        return subprocess.run([sys.executable, "-c", script], env=environment, capture_output=True, text=True, check=True).stdout

    def test_repository_first(self):
        """A repository in a folder with a lib/ beside it, without archives and with one that does not link."""
        with tempfile.TemporaryDirectory() as above:
            repository = os.path.join(above, "repository")
            module = os.path.join(repository, "hosts", "python")
            shutil.copytree(os.path.join(ROOT, "hosts", "python"), module, ignore=shutil.ignore_patterns("__pycache__"))
            archives = os.path.join(repository, "target", "staticlib")
            for name in (os.path.join(above, "lib", "liborder.so"), os.path.join(repository, "crates.txt")):
                os.makedirs(os.path.dirname(name), exist_ok=True)
                with open(name, "w", encoding="ascii") as file:
                    file.write("no library\n")
            self.assertIn(f"missing: no archives in {archives}: run tools/archives first", self.said(module))
            os.makedirs(archives)
            with open(os.path.join(archives, "libhost.a"), "w", encoding="ascii") as file:
                file.write("no archive\n")
            self.assertRegex(self.said(module), "missing: .*liborder.so cannot be linked from the archives: .")


if __name__ == "__main__":
    unittest.main()
