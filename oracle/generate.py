#!/usr/bin/env python3
"""Writes the runs of the kept sample, without answers (FORMAT.md), into the folder that is named.

    oracle/build.sh
    python3 oracle/generate.py target/oracle/runs
    for f in target/oracle/runs/*.txt; do target/oracle/oracle <$f >oracle/sample/${f##*/}; done

    python3 oracle/generate.py --check      compares the kept sample's runs with those that would be written; on a
                                            difference it says what differs, and the status is 1

Nothing is left to chance: the numbers come from a generator of its own with fixed seeds, so the same
files come out everywhere. Every call is one that document 01 accepts. For that the generator keeps
account of which places are taken, which registrations wait, and where the guide puts a value; a
mistake in that account would show as a panic of the Rust or a refusal of the reference model.
"""

import difflib
import os
import sys

SAMPLE = os.path.join(os.path.dirname(os.path.abspath(__file__)), "sample")
TOP = """\
# Part of the kept sample: runs and the answers of the Rust to them, as oracle/FORMAT.md describes.
# The runs were written by oracle/generate.py, the answers by the oracle that oracle/build.sh builds.
# oracle/replay.sh builds it again and compares.
"""


class Numbers:
    """Deterministic numbers (the generator known as splitmix64)."""

    MASK = (1 << 64) - 1

    def __init__(self, seed):
        self.state = seed

    def next(self):
        self.state = (self.state + 0x9E3779B97F4A7C15) & self.MASK
        mixed = self.state
        mixed = ((mixed ^ (mixed >> 30)) * 0xBF58476D1CE4E5B9) & self.MASK
        mixed = ((mixed ^ (mixed >> 27)) * 0x94D049BB133111EB) & self.MASK
        return mixed ^ (mixed >> 31)

    def below(self, bound):
        return self.next() % bound

    def chance(self, percent):
        return self.below(100) < percent

    def choice(self, items):
        return items[self.below(len(items))]

    def shuffled(self, items):
        items = list(items)
        for i in range(len(items) - 1, 0, -1):
            j = self.below(i + 1)
            items[i], items[j] = items[j], items[i]
        return items


def list_text(places):
    return ",".join(str(place) for place in places) or "-"


class Session:
    """A session's lines, with the account of what is tracked and who waits."""

    def __init__(self, parallelism, places, comment, traced):
        self.lines = [f"# {comment}", f"session {parallelism} {places}"]
        if traced:
            self.lines.append("trace")
        self.tracked = [False] * places
        self.taken = [False] * places
        self.registrations = 0
        self.leading = 0  # the mark + 1
        self.waiting = []  # (greatest input, outputs)

    def track(self, places):
        for place in places:
            self.tracked[place] = True
        while self.leading < len(self.tracked) and self.tracked[self.leading]:
            self.leading += 1

    def settle(self):
        """Tracks the outputs of everything that no longer waits."""
        ready = True
        while ready:
            ready = [outputs for greatest, outputs in self.waiting if greatest < self.leading]
            self.waiting = [pair for pair in self.waiting if pair[0] >= self.leading]
            for outputs in ready:
                self.track(outputs)

    def set(self, place):
        assert not self.taken[place]
        self.lines.append(f"set {place}")
        self.taken[place] = True
        self.track([place])
        self.settle()

    def add(self, inputs, outputs):
        assert not any(self.taken[place] for place in outputs)
        assert self.registrations < len(self.tracked)
        self.registrations += 1
        self.lines.append(f"add {list_text(inputs)} {list_text(outputs)}")
        for place in outputs:
            self.taken[place] = True
        if not inputs or max(inputs) < self.leading:
            self.track(outputs)
        else:
            self.waiting.append((max(inputs), outputs))
        self.settle()

    def flush(self):
        self.lines.append("flush")

    def fill(self, numbers, below):
        """Sets what is left free below a place, in some order."""
        free = [place for place in range(below) if not self.taken[place]]
        for place in numbers.shuffled(free):
            self.set(place)

    def end(self):
        """Closes the session unless something waits for ever."""
        if not self.waiting:
            self.lines.append("final")
        self.lines.append("end")
        return self.lines


def chain(numbers, parallelism, length, traced):
    """Each registration reads what the one before wrote: opens two spans from the 32nd on."""
    run = Session(parallelism, length + 1, "a chain", traced)
    run.set(0)
    for place in range(1, length + 1):
        run.add([place - 1], [place])
        if numbers.chance(3):
            run.flush()
    return run.end()


def broad_chain(numbers, parallelism, steps, breadth, traced):
    """Layers of several registrations, each reading some of the layer before."""
    run = Session(parallelism, (steps + 1) * breadth, "layers", traced)
    for place in range(breadth):
        run.set(place)
    for step in range(1, steps + 1):
        for place in range(step * breadth, (step + 1) * breadth):
            before = range((step - 1) * breadth, step * breadth)
            run.add([numbers.choice(before) for _ in range(1 + numbers.below(3))], [place])
    return run.end()


def ascending(numbers, parallelism, count, traced, flushes=5, absent=25):
    """Places in the order in which they are made; inputs near the end or anywhere before."""
    run = Session(parallelism, 4 * count + 4, "ascending places", traced)
    next_place = 0
    for _ in range(count):
        if next_place == 0 or numbers.chance(15):
            run.set(next_place)
            next_place += 1
        if numbers.chance(flushes):
            run.flush()
        inputs = []
        if not numbers.chance(absent):
            for _ in range(1 + numbers.below(3)):
                near = numbers.below(min(4, next_place))
                anywhere = numbers.below(next_place)
                inputs.append(next_place - 1 - (near if numbers.chance(70) else anywhere))
        outputs = list(range(next_place, next_place + numbers.below(4)))
        next_place += len(outputs)
        run.add(inputs, outputs)
    return run.end()


def scattered(numbers, parallelism, places, traced, flushes=5):
    """Places in no order, so that many registrations wait; at the end the gaps are set."""
    run = Session(parallelism, 2 * places, "scattered places", traced)
    order = numbers.shuffled(range(places))
    while order:
        if numbers.chance(flushes):
            run.flush()
        if numbers.chance(30):
            run.set(order.pop())
            continue
        outputs = [order.pop() for _ in range(min(len(order), numbers.below(3)))]
        least = min(outputs, default=places)
        inputs = [numbers.below(max(least, 1)) for _ in range(numbers.below(4))]
        if least == 0:
            inputs = []
        run.add(numbers.shuffled(inputs), numbers.shuffled(outputs))
        if numbers.chance(3):
            break
    run.fill(numbers, places)
    return run.end()


def deep_cascade(numbers, parallelism, depth, breadth, traced):
    """A chain registered backwards, several readers at each place: one set sets off everything."""
    run = Session(parallelism, depth * breadth + 1, "a deep cascade", traced)
    for place in range(depth, 0, -1):
        for _ in range(numbers.below(breadth)):
            run.add([numbers.below(place), place - 1], [])
        run.add([place - 1], [place])
        if numbers.chance(5):
            run.flush()
    if numbers.chance(50):
        run.set(0)
    else:
        run.add([], [0])
    return run.end()


def gaps(numbers, parallelism, places, traced):
    """Every other place is set; then the holes are filled by sets and adds, some far ahead."""
    run = Session(parallelism, 2 * places, "gaps filled late", traced)
    for place in numbers.shuffled(range(1, places, 2)):
        run.set(place)
        if numbers.chance(60):
            run.add([place], [])
    for place in numbers.shuffled(range(0, places, 2)):
        if numbers.chance(50):
            run.set(place)
        else:
            run.add([] if place == 0 else [numbers.below(place)], [place])
        if numbers.chance(15):
            run.add([numbers.below(places)], [])
    return run.end()


def for_ever(numbers, parallelism, places, traced):
    """Something waits to the end: a hole that nobody fills, or a circle."""
    run = Session(parallelism, places, "waits for ever", traced)
    hole = numbers.below(places)
    for place in range(places):
        if place == hole:
            if numbers.chance(50):
                run.add([place], [place])
            continue
        if numbers.chance(50):
            run.set(place)
        else:
            run.add([numbers.below(places) for _ in range(numbers.below(3))], [place])
        if numbers.chance(10):
            run.flush()
    return run.end()


def sessions(numbers):
    """A few hundred sessions of every shape, half of them traced."""
    for i in range(216):
        parallelism = 1 + i % 8
        traced = i % 2 == 0
        size = 6 + numbers.below(34)
        shape = (i // 8) % 9
        if shape == 0:
            yield chain(numbers, parallelism, 25 + numbers.below(20), traced)
        elif shape == 1:
            steps, breadth = 6 + numbers.below(12), 1 + numbers.below(5)
            yield broad_chain(numbers, parallelism, steps, breadth, traced)
        elif shape == 2:
            yield ascending(numbers, parallelism, size, traced)
        elif shape == 3:
            yield ascending(numbers, parallelism, size, traced, flushes=35)
        elif shape == 4:
            yield scattered(numbers, parallelism, size, traced)
        elif shape == 5:
            yield deep_cascade(numbers, parallelism, 4 + numbers.below(30), 3, traced)
        elif shape == 6:
            yield gaps(numbers, parallelism, size, traced)
        elif shape == 7:
            yield for_ever(numbers, parallelism, size, traced)
        else:
            yield ascending(numbers, parallelism, size + 20, traced, absent=60)
    for parallelism in (16, 40, 64, 100, 127, 128, 1000, 4096, 32768, 40000, 64999):
        yield ascending(numbers, parallelism, 60, False)
        yield scattered(numbers, parallelism, 80, False)
        yield deep_cascade(numbers, parallelism, 40, 4, True)
    for parallelism, count in ((1, 200), (2, 300), (3, 400), (5, 500), (16, 500), (64, 600)):
        yield ascending(numbers, parallelism, count, False, flushes=1)
        yield scattered(numbers, parallelism, count, False, flushes=1)
        yield broad_chain(numbers, parallelism, count // 8, 8, False)
    yield Session(1, 1, "nothing but final", True).end()
    empty = Session(7, 3, "flush without a registration", True)
    empty.flush()
    empty.set(0)
    empty.flush()
    yield empty.end()


class Guide:
    """A guide's lines, with the account of where values go."""

    def __init__(self, parallelism, places, comment, traced):
        self.lines = [f"# {comment}", f"guide {parallelism} {places}"]
        if traced:
            self.lines.append("trace")
        self.parallelism = parallelism
        self.first = 0
        self.lengths = [0] * 32
        self.given = []

    def release(self, count):
        self.first += count
        self.lengths = self.lengths[count:] + [0] * count

    def place(self, after):
        """Where a value goes: an index into the window, or minus the count of spans to open."""
        if after is None or after[0] < self.first:
            return 1
        distance = after[0] - self.first
        if distance == 31:
            return -2
        close = after[1] > self.lengths[distance + 1]
        for i in range(distance + (2 if close else 1), 32):
            if self.lengths[i] < self.parallelism:
                return i
        return -1

    def push(self, after, value=None, added=None, accepted=None):
        count = len(self.given)
        numbers = [count if n is None else n for n in (value, added, accepted)]
        text = "-" if after is None else f"{after[0]},{after[1]}"
        self.lines.append("push {} {} {} ".format(*numbers) + text)
        span = self.place(after)
        if span < 0:
            self.release(-span)
            location = (self.first + 31, 0)
            self.lengths[31] = 1
        else:
            location = (self.first + span, self.lengths[span])
            self.lengths[span] += 1
            if self.lengths[span] >= self.parallelism:
                self.release(1)
        self.given.append(location)
        return location

    def flush(self):
        self.lines.append("flush")
        self.release(32)

    def end(self):
        self.lines.append("end")
        return self.lines


def guides(numbers):
    """Pushes after nothing, after recent values, after old ones and after set places."""
    for i in range(120):
        parallelism = 1 + i % 8 if i < 104 else numbers.choice((12, 30, 64, 500, 64999))
        run = Guide(parallelism, 512, "pushes", i % 2 == 0)
        absent, recent, flushes = (
            (30, 60, 3), (5, 90, 0), (60, 30, 2), (15, 80, 20), (2, 98, 0),
        )[i % 5]
        reach = 1 if i % 10 == 4 else 1 + parallelism
        for _ in range(20 + numbers.below(70)):
            if numbers.chance(flushes):
                run.flush()
            kind = numbers.below(100)
            if not run.given or kind < absent:
                after = None
            elif kind < absent + recent:
                after = run.given[-1 - numbers.below(min(len(run.given), reach))]
            elif numbers.chance(50):
                after = numbers.choice(run.given)
            elif run.first > 0 and numbers.chance(50):
                after = (numbers.below(run.first), numbers.below(1 << 32))
            else:
                after = (0, 0)
            bound = 1 << 32 if i % 8 == 0 else 100
            run.push(after, *(numbers.below(bound) for _ in range(3)))
        if numbers.chance(60):
            run.flush()
        yield run.end()


class Spans:
    """The older guide's lines, with the account of the positions handed out."""

    def __init__(self, parallelism, traced):
        self.lines = ["# acquisitions", f"spans {parallelism}"] + (["trace"] if traced else [])
        self.parallelism = parallelism
        self.spans = [[i * parallelism, i * parallelism] for i in range(32)]  # origin, next
        self.given = []

    def shift(self, index):
        del self.spans[index]
        origin = self.spans[-1][0] if index < 31 else self.last
        self.spans.append([origin + self.parallelism] * 2)

    def acquire(self, after):
        self.lines.append("acquire " + ("-" if after is None else str(after)))
        self.last = self.spans[31][0]
        index = 0
        if after is not None:
            found = (i for i in range(32) if self.spans[i][1] - after >= self.parallelism)
            index = next(found, 32)
        if index == 32:
            self.shift(0)
            self.last, index = self.spans[31][0], 31
        position = self.spans[index][1]
        self.spans[index][1] += 1
        if self.spans[index][1] - self.spans[index][0] >= self.parallelism:
            self.shift(index)
        self.given.append(position)

    def end(self):
        self.lines += ["finalize", "end"]
        return self.lines


def spans(numbers):
    """The older guide: each acquisition after nothing or after a position handed out before."""
    for i in range(40):
        parallelism = 1 + i % 8 if i < 32 else numbers.choice((20, 64, 1000, 64999))
        run = Spans(parallelism, i % 2 == 0)
        absent = (5, 20, 50, 0)[i // 2 % 4]
        for _ in range(25 + numbers.below(70)):
            if not run.given or numbers.chance(absent):
                run.acquire(None)
            elif numbers.chance(93):
                run.acquire(run.given[-1 - numbers.below(min(len(run.given), 2))])
            else:
                run.acquire(numbers.choice(run.given))
        yield run.end()


def placements():
    """The placements that document 01 works through."""
    def run(comment, parallelism, pushes, flush):
        guide = Guide(parallelism, 64, comment, True)
        for after in pushes:
            guide.push(after)
        if flush:
            guide.flush()
        return guide.end()

    one_chain = [None] + [(i, 0) for i in range(1, 31)]
    yield run("G1", 1, [None], False)
    yield run("G2", 3, [None, (1, 0)], False)
    yield run("G3", 3, [None, None, (1, 1)], False)
    yield run("G4", 3, [None, None, (1, 0), (1, 1)], False)
    yield run("G5", 2, one_chain + [(31, 0)], True)
    overfull = [None] + [(1, 0)] * 4 + [None]
    yield run("W1: (5,2) in spans 2 and 3 at the flush", 4, overfull + [(2, 0)] * 2, True)
    yield run("W2: (5,0)", 4, overfull, True)
    yield run("W3: (3,4)", 4, [None] * 3 + [(1, 0)] * 4, True)
    yield run("W4: (3,1)", 4, [None] * 3 + [(1, 0)], True)
    yield run("W5: (4,4)", 4, [None] * 4 + [(1, 0)] * 4, True)
    yield run("W6: span 31 with 3", 4, one_chain + [(30, 0)] * 2, True)

    r1 = Session(2, 3, "R1", True)
    r1.set(1), r1.set(2), r1.add([2], []), r1.add([1], []), r1.set(0)
    yield r1.end()
    r2 = Session(2, 3, "R2", True)
    r2.set(1), r2.set(2), r2.add([2], []), r2.add([1], []), r2.add([], [0])
    yield r2.end()
    r3 = Session(2, 3, "R3", True)
    r3.set(2), r3.add([2], []), r3.set(0), r3.set(1)
    yield r3.end()
    j1 = Session(2, 6, "J1", True)
    j1.set(0), j1.add([0], [1]), j1.add([1], [2]), j1.add([0], [3]), j1.add([], [4])
    yield j1.end()


def written():
    """The files by name."""
    files = {
        "placements": placements(),
        "sessions": sessions(Numbers(1)),
        "guides": guides(Numbers(2)),
        "spans": spans(Numbers(3)),
    }
    return {name + ".txt": TOP + "".join("\n" + "\n".join(lines) + "\n" for lines in runs) for name, runs in files.items()}


def kept(name):
    """The runs of a file of the sample, without the answers."""
    try:
        with open(os.path.join(SAMPLE, name), encoding="ascii") as file:
            return "".join(line for line in file if not line.startswith("="))
    except OSError as error:
        sys.exit(f"generate.py: the sample has no {name}: {error}")


def check(files):
    different = 0
    for name, text in files.items():
        lines = list(difflib.unified_diff(kept(name).splitlines(), text.splitlines(), "oracle/sample/" + name, "as oracle/generate.py writes it", n=1, lineterm=""))
        different += bool(lines)
        for line in lines[:20]:
            print(line[:300])
    if different:
        sys.exit(f"generate.py: {different} files of the sample have other runs than oracle/generate.py writes")
    print(f"{sum(text.count(chr(10) + 'end' + chr(10)) for text in files.values())} runs in {len(files)} files, as kept")


def main():
    if len(sys.argv) != 2 or (sys.argv[1].startswith("-") and sys.argv[1] not in ("--check", "--help")):
        sys.exit("generate.py FOLDER: where to write the runs; generate.py --check; generate.py --help")
    if sys.argv[1] == "--help":
        print(__doc__)
    elif sys.argv[1] == "--check":
        check(written())
    else:
        try:
            os.makedirs(sys.argv[1], exist_ok=True)
            for name, text in written().items():
                with open(os.path.join(sys.argv[1], name), "w", encoding="ascii") as file:
                    file.write(text)
        except OSError as error:
            sys.exit(f"generate.py: {error}")


main()
