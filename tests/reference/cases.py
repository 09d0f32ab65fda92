"""Cases worked out by hand from document 01, and of document 02 from M-103, M-104 and M-106, with the points that
they leave open read as docs/DECISIONS.md settles them. Each has a sentence, what is fed, and what must come.

RUNS are call lists in the format of oracle/FORMAT.md with the refusals expected: the number of each
call that is refused, calls counted from 0; the key "open" stands for the opening. LANES are call lists
with the lanes of the order's entries, of the rows and of the entries held at their end. JOBS are jobs with
the program's output. FLOORS are jobs with the floor of their listing. HOSTS are jobs with the lent
listing length and the number returned. PLACEMENTS are the figures of document 01 ("Placements worked
through") for the runs of that name in the kept sample oracle/sample/placements.txt: the answer line,
its first tuples to skip, and what follows.
"""

FLAGGED = 1 << 62
PLACEHOLDER = 1 << 63
LARGEST = (1 << 64) - 1


def many(word, count):
    return ",".join([str(word)] * count)


def run(opening, *calls):
    return "\n".join((opening,) + calls + ("end",)) + "\n"


RUNS = [
    # Opening.
    ("P below its range", run("session 0 1"), {"open": 1}),
    ("P above its range", run("session 65000 1"), {"open": 1}),
    ("V below its range", run("session 1 0"), {"open": 1}),
    ("V above its range", run("session 1 16777217"), {"open": 1}),
    ("the greatest P", run("session 64999 1", "final"), {}),
    ("the guide alone has the same ranges", run("guide 0 1"), {"open": 1}),
    ("V of the guide alone", run("guide 1 16777217"), {"open": 1}),
    # 7: closed, before everything else.
    (
        "after final every call is refused, whatever it says",
        run("session 1 2", "final", "set 0", f"set {FLAGGED}", "add - -", "add 9 9,9",
            f"add {many(0, 65536)} -", "flush", "final"),
        {1: 7, 2: 7, 3: 7, 4: 7, 5: 7, 6: 7, 7: 7},
    ),
    ("a refused final closes nothing", run("session 1 2", "add 0 -", "final", "set 0", "final"), {1: 12}),
    # 3: inputs and outputs are counted apart, duplicates included.
    ("65,536 inputs", run("session 1 1", "set 0", f"add {many(0, 65536)} -"), {1: 3}),
    ("65,535 inputs", run("session 1 1", "set 0", f"add {many(0, 65535)} -"), {}),
    ("65,536 outputs", run("session 1 1", f"add - {many(0, 65536)}"), {0: 3}),
    ("65,535 outputs are not too many, but one twice", run("session 1 1", f"add - {many(0, 65535)}"), {0: 6}),
    ("3 before 4", run("session 1 1", f"add {many(FLAGGED, 65536)} -"), {0: 3}),
    (
        "65,535 outputs that differ",
        run("session 1 65535", "add - " + ",".join(map(str, range(65535))), "final"),
        {},
    ),
    # 4 and 5.
    ("the witness bit in a set", run("session 1 1", f"set {FLAGGED}"), {0: 4}),
    ("the placeholder bit in a set", run("session 1 1", f"set {PLACEHOLDER}"), {0: 4}),
    ("both bits", run("session 1 1", f"set {LARGEST}"), {0: 4}),
    ("the greatest place without those bits is only too large", run("session 1 1", f"set {FLAGGED - 1}"), {0: 5}),
    ("the bits in an input", run("session 1 1", f"add {FLAGGED} -"), {0: 4}),
    ("the bits in an output", run("session 1 1", f"add - {PLACEHOLDER}"), {0: 4}),
    ("4 in an output goes before 5 in an input", run("session 1 1", f"add 7 {FLAGGED}"), {0: 4}),
    ("place V", run("session 1 3", "set 3", "add 3 -", "add - 3"), {0: 5, 1: 5, 2: 5}),
    ("5 before 6", run("session 1 3", "add 3 1,1"), {0: 5}),
    # 6 and 8.
    ("an output twice", run("session 1 3", "add - 1,2,1"), {0: 6}),
    ("6 before 8, over all outputs", run("session 1 3", "set 0", "add - 0,1,1"), {1: 6}),
    ("an input may stand twice", run("session 1 3", "set 0", "add 0,0 1"), {}),
    ("set twice", run("session 1 3", "set 1", "set 1"), {1: 8}),
    ("set and written", run("session 1 3", "set 1", "add - 1"), {1: 8}),
    ("written and set", run("session 1 3", "add - 1", "set 1"), {1: 8}),
    ("written twice", run("session 1 3", "add - 1", "add - 1"), {1: 8}),
    ("promised and set", run("session 1 3", "add 0 1", "set 1"), {1: 8}),
    ("promised and written", run("session 1 3", "add 0 1", "add - 1"), {1: 8}),
    ("promised and promised", run("session 1 3", "add 0 1", "add 2 1"), {1: 8}),
    ("a refused add promises nothing", run("session 1 3", "set 0", "add 2 1,0", "set 1"), {1: 8}),
    ("its own output as input: it waits for ever", run("session 1 3", "add 0 0", "set 0", "final"), {1: 8, 2: 12}),
    # 9: V registrations.
    ("the registration after the V-th", run("session 1 2", "add - -", "add - -", "add - -"), {2: 9}),
    ("waiting ones count, refused ones don't", run("session 1 2", "add 1 -", "add - 5", "add 1 -", "add - -"), {1: 5, 3: 9}),
    ("8 before 9", run("session 1 1", "add - 0", "add - 0"), {1: 8}),
    ("sets are not counted", run("session 1 2", "set 0", "set 1", "add - -", "add - -"), {}),
    # 10: the pool.
    ("the pool is full", run("session 1 4 3", "add 0 1", "add 0,0 -", "add - 2", "add - 3", "add - -"), {1: 10, 3: 10}),
    ("an empty pool takes empty lists", run("session 1 4 0", "add - -", "add 0 -", "add - 0"), {1: 10, 2: 10}),
    ("9 before 10", run("session 1 1 0", "add - -", "add 0 -"), {1: 9}),
    ("8 before 10", run("session 1 2 0", "set 0", "add - 0"), {1: 8}),
    # 18: a lane over 255, after 7 and before all else.
    ("lanes 0 and 255", run("session 1 2", "add - - 0", "add - - 255"), {}),
    ("lane 256", run("session 1 2", "add - - 256"), {0: 18}),
    ("lanes whose lower 8, 16 and 32 bits are small", run("session 1 2", "add - - 511", "add - - 65536", "add - - 4294967296"), {0: 18, 1: 18, 2: 18}),
    ("the greatest lanes", run("session 1 2", f"add - - {PLACEHOLDER}", f"add - - {LARGEST}"), {0: 18, 1: 18}),
    ("7 before 18", run("session 1 2", "final", "add - - 256", f"add {many(0, 65536)} - {LARGEST}"), {1: 7, 2: 7}),
    (
        "18 before 3, and 255 leaves it to 3",
        run("session 1 1", "set 0", f"add {many(0, 65536)} - 256", f"add {many(0, 65536)} - 255",
            f"add - {many(0, 65536)} 256", f"add - {many(0, 65536)} 255"),
        {1: 18, 2: 3, 3: 18, 4: 3},
    ),
    ("18 before 4", run("session 1 1", f"add {FLAGGED} - 256", f"add {FLAGGED} - 255"), {0: 18, 1: 4}),
    ("18 before 5", run("session 1 1", "add 1 - 256", "add 1 - 255"), {0: 18, 1: 5}),
    ("18 before 6", run("session 1 1", "add - 0,0 256", "add - 0,0 255"), {0: 18, 1: 6}),
    ("18 before 8", run("session 1 1", "set 0", "add - 0 256", "add - 0 255"), {1: 18, 2: 8}),
    ("18 before 9", run("session 1 1", "add - -", "add - - 256", "add - - 255"), {1: 18, 2: 9}),
    ("18 before 10", run("session 1 1 0", "add 0 - 256", "add 0 - 255"), {0: 18, 1: 10}),
    ("a refused lane promises nothing and counts nowhere", run("session 1 1 1", "add - 0 256", "add - 0 255", "add - - 0"), {0: 18, 2: 9}),
    # 11: plain flushes.
    (
        "65,535 plain flushes, then only final",
        run("session 1 1", *["flush"] * 65536, "flush", "final", "flush"),
        {65535: 11, 65536: 11, 65538: 7},
    ),
    # 12.
    ("final while one waits", run("session 1 2", "set 1", "add 1 -", "final", "set 0", "final"), {2: 12}),
    ("final again", run("session 1 1", "final", "final"), {1: 7}),
    # 13 and 14, the guide alone.
    ("after a location that is not held", run("guide 3 9", "push 0 0 0 1,0", "push 0 0 0 -", "push 0 0 0 1,0", "push 0 0 0 1,1"), {0: 13, 3: 13}),
    ("after (0,0) is always right", run("guide 3 9", "push 0 0 0 0,0", "push 0 0 0 0,1"), {1: 13}),
    ("beyond the window", run("guide 3 9", "push 0 0 0 32,0", "push 0 0 0 4294967295,0"), {0: 13, 1: 13}),
    ("below span 0's number anything goes", run("guide 3 9", "flush", "push 0 0 0 31,7", "push 0 0 0 32,0"), {2: 13}),
    ("V pushes", run("guide 3 2", "push 0 0 0 -", "push 0 0 0 -", "push 0 0 0 -", "flush", "push 0 0 0 -"), {2: 14, 4: 14}),
    ("14 before 13", run("guide 3 1", "push 0 0 0 -", "push 0 0 0 9,9"), {1: 14}),
    ("refused pushes are not counted", run("guide 3 1", "push 0 0 0 9,9", "push 0 0 0 -"), {0: 13}),
    # 21, the ascending profile.
    (
        "at and beside the lowest place, one call after another",
        run("ascending 2 9", "set 1", "set 0", "set 0", "add - 2", "add - 2,1", "add - 1,1", "add - 3,2,3", "add - 0", "add 1 1", "add 2 1,2",
            "add 0,0 1,2", "add 3 -", "add 2 -"),
        {0: 21, 2: 21, 3: 21, 4: 21, 5: 6, 6: 6, 7: 21, 8: 21, 9: 21, 11: 21},
    ),
    ("a set above the lowest place, and below it", run("ascending 2 9", "set 1", "set 0", "set 0"), {0: 21, 2: 21}),
    (
        "outputs that do not ascend by one from the lowest place",
        run("ascending 2 9", "set 0", "add - 2", "add - 2,1", "add - 1,3", "add - 0", "add - 0,1", "add - 1,2"),
        {1: 21, 2: 21, 3: 21, 4: 21, 5: 21},
    ),
    ("6 before 21", run("ascending 2 9", "set 0", "add - 1,1", "add - 3,2,3", "add 8 0,0"), {1: 6, 2: 6, 3: 6}),
    (
        "inputs below the first output, which may be the lowest place or not",
        run("ascending 2 9", "set 0", "add 1 1", "add 2 1,2", "add 1 1,2", "add 0,8 1", "add 8,0 1", "add 0,0 1,2"),
        {1: 21, 2: 21, 3: 21, 4: 21, 5: 21},
    ),
    ("with no outputs, inputs below the lowest place", run("ascending 2 9", "add 0 -", "set 0", "add 1 -", "add 0 -", "add - -"), {0: 21, 2: 21}),
    ("21 before 8: a place that is set, or written", run("ascending 2 3", "set 0", "add - 0", "add 0 1", "set 1", "add - 1"), {1: 21, 3: 21, 4: 21}),
    ("V registrations, of no list number", run("ascending 2 2 0", "add - -", "add - -", "add - -"), {2: 9}),
    (
        "all places set",
        run("ascending 2 2", "set 0", "set 1", "set 0", "set 2", "add 1 -", "add - 1", "add - 0", "final"),
        {2: 21, 3: 5, 5: 21, 6: 21},
    ),
    (
        "each check before the next, and what a refused add takes of W",
        run("ascending 2 3 2", f"add {FLAGGED} - 256", f"add {FLAGGED} 3", "add 3 1,1", "add 1 0,0", "add 2 2", "add - 0,1,2", "add - 0,1 255",
            "add 0 -", "add - -"),
        {0: 18, 1: 4, 2: 5, 3: 6, 4: 21, 5: 10, 7: 10},
    ),
    ("21 before 9 and 10", run("ascending 2 1 0", "add 0 -", "add - -", "add 0 -", "add - 0", "set 0"), {0: 21, 2: 21, 3: 9}),
    ("5 before 21, in sets, inputs and outputs", run("ascending 2 2", "set 2", "add 2 1", "add 0 1,2"), {0: 5, 1: 5, 2: 5}),
    ("18 before 21", run("ascending 2 2", "add - 1 256", "add - 1 255"), {0: 18, 1: 21}),
    ("7 before 21", run("ascending 2 2", "final", "set 1", "add - 1"), {1: 7, 2: 7}),
    ("outputs count for W as inputs do", run("ascending 2 4 3", "add - 0,1", "add 0 2", "add 0 -"), {1: 10}),
    ("closed", run("ascending 2 2", "set 0", "flush", "final", "final", "flush", "set 0", "set 1", "add 9 9 256"), {3: 7, 4: 7, 5: 7, 6: 7, 7: 7}),
    ("65,536 outputs that ascend, and inputs", run("ascending 2 65536", "add - " + ",".join(map(str, range(65536))), "set 0", f"add {many(0, 65536)} 1"), {0: 3, 2: 3}),
    ("65,535 outputs that ascend", run("ascending 2 65535", "add - " + ",".join(map(str, range(65535))), "final"), {}),
    ("the last of 65,535 outputs is one of the others", run("ascending 2 65535", "add - " + ",".join(map(str, [*range(65534), 7]))), {0: 6}),
    ("the opening's ranges are those of every session", run("ascending 0 1"), {"open": 1}),
    ("the places' range too", run("ascending 1 16777217"), {"open": 1}),
]


# Of J1 document 01 tells the order 0 2 1 3, and of R2 the order 2 0 1.
LANES = [
    ("J1 under the ascending profile", run("ascending 2 6 7", "set 0", "add 0 1 10", "add 1 2 20", "add 0 3 30", "add - 4 40", "final"),
     "10 30 20 40", "10 20 30 40", ""),
    ("J1", run("session 2 6", "set 0", "add 0 1 10", "add 1 2 20", "add 0 3 30", "add - 4 40", "final"),
     "10 30 20 40", "10 20 30 40", ""),
    ("two held, and a row's lane is 0 until its entry is appended", run("session 2 6", "set 0", "add 0 1 10", "add 1 2 20"),
     "", "0 0", "10 20"),
    ("J1 before final: two appended, two held", run("session 2 6", "set 0", "add 0 1 10", "add 1 2 20", "add 0 3 30", "add - 4 40"),
     "10 30", "10 0 30 0", "20 40"),
    ("the same after a flush", run("session 2 6", "set 0", "add 0 1 10", "add 1 2 20", "add 0 3 30", "add - 4 40", "flush"),
     "10 30 20 40", "10 20 30 40", ""),
    ("one that waits has its lane in no row", run("session 1 3", "add 0 1 7"), "", "0", ""),
    ("one that waited: the other is placed before it", run("session 1 3", "add 0 1 7", "add - - 9", "set 0", "final"), "9 7", "7 9", ""),
    ("R2: those who come off a stack", run("session 2 6", "set 1", "set 2", "add 2 - 5", "add 1 - 6", "add - 0 7", "final"),
     "7 5 6", "5 6 7", ""),
    ("a refused add's lane goes nowhere", run("session 2 2", "add - - 3", "add - 9 200", "add - - 256", "add - - 4", "final"),
     "3 4", "3 4", ""),
    ("without a lane it is 0", run("session 2 3", "add - -", "add - - 255", "add - -", "final"), "0 255 0", "0 255 0", ""),
]


def lines(*text):
    return "".join(line + "\n" for line in text).encode()


def refused(code, line):
    return lines(f"status={code}", f"line={line}")


HEAD = ("parallelism=2", "places=6")
EMPTY = lines("status=0", "entries=0", "places=0", "floor=0", "median=0")
J1 = lines(*HEAD, "set=0", "in=0", "out=1", "in=1", "out=2", "in=0", "out=3", "in=", "out=4", "final=1")
J1_LISTING = lines(
    "status=0", "entries=4", "places=5", "floor=2", "median=2",
    "order=0 added=0 accepted=0 parallelism=2 written=0 lane=0",
    "order=1 added=2 accepted=2 parallelism=2 written=0 lane=0",
    "order=2 added=1 accepted=1 parallelism=2 written=0 lane=0",
    "order=3 added=3 accepted=3 parallelism=1 written=4 lane=0",
)
# The same registrations in lanes 3, 255, 0 (without a line) and 0.
J1_LANES = lines(*HEAD, "set=0", "lane=3", "in=0", "out=1", "lane=255", "in=1", "out=2", "in=0", "out=3", "lane=0", "in=", "out=4", "final=1")
J1_LANES_LISTING = lines(
    "status=0", "entries=4", "places=5", "floor=2", "median=2",
    "order=0 added=0 accepted=0 parallelism=2 written=0 lane=3",
    "order=1 added=2 accepted=2 parallelism=2 written=0 lane=0",
    "order=2 added=1 accepted=1 parallelism=2 written=0 lane=255",
    "order=3 added=3 accepted=3 parallelism=1 written=4 lane=0",
)
# Exactly 65,536 bytes: 24 for the head, 8,188 flushes and final of 8 bytes each.
FULL = lines("parallelism=1", "places=10", *["flush=1"] * 8188, "final=1")
assert len(FULL) == 65536


def body(*text):
    return lines(*HEAD, *text)


def malformed(line):
    """A job whose third line is the one given."""
    return (f"malformed: {line!r}", body(line, "final=1"), refused(15, 3))


def in_lane(lane, *outcome):
    """A job of one registration, with its lane line on line 3 and its out line on line 5: listed with that lane, or refused."""
    listed = lines("status=0", "entries=1", "places=1", "floor=0", "median=1",
                   f"order=0 added=0 accepted=0 parallelism=1 written=1 lane={lane}")
    return (f"lane {lane!r}", body(f"lane={lane}", "in=", "out=0", "final=1"), refused(*outcome) if outcome else listed)


def after_lane(what, *text):
    """A job whose third line is a lane line, with what must not follow it: line 4 is refused."""
    return (f"after a lane line: {what}", body("lane=1", *text), refused(15, 4))


JOBS = [
    ("J1", J1, J1_LISTING),
    ("nothing but final", body("final=1"), EMPTY),
    ("sets alone", body("set=1", "set=0", "final=1"), lines("status=0", "entries=0", "places=2", "floor=0", "median=0")),
    ("fewer entries than P: no floor", lines("parallelism=3", "places=6", *["in=", "out="] * 2, "final=1"),
     lines("status=0", "entries=2", "places=0", "floor=0", "median=1",
           "order=0 added=0 accepted=0 parallelism=2 written=0 lane=0",
           "order=1 added=1 accepted=1 parallelism=1 written=2 lane=0")),
    ("as many entries as P: the floor is the first one's", lines("parallelism=3", "places=6", *["in=", "out="] * 3, "final=1"),
     lines("status=0", "entries=3", "places=0", "floor=3", "median=2",
           "order=0 added=0 accepted=0 parallelism=3 written=0 lane=0",
           "order=1 added=1 accepted=1 parallelism=2 written=0 lane=0",
           "order=2 added=2 accepted=2 parallelism=1 written=3 lane=0")),
    ("no bytes at all", b"", refused(15, 1)),
    ("an empty line", b"\n", refused(15, 1)),
    ("a last line without byte 10 is no line", b"parallelism=2", refused(15, 1)),
    ("the same for the second", b"parallelism=2\nplaces=6", refused(15, 2)),
    ("the same for final", lines(*HEAD) + b"final=1", refused(15, 3)),
    ("no second line", lines("parallelism=2"), refused(15, 2)),
    ("no final", lines(*HEAD), refused(15, 3)),
    ("no final after calls", body("set=0", "flush=1"), refused(15, 5)),
    ("the head's lines exchanged", lines("places=6", "parallelism=2", "final=1"), refused(15, 1)),
    ("a head line twice", lines("parallelism=2", *HEAD, "final=1"), refused(15, 2)),
    # Opening: 15 before 1, 1 before 2, all at line 2.
    ("P of 0", lines("parallelism=0", "places=6", "final=1"), refused(1, 2)),
    ("P of 65,000", lines("parallelism=65000", "places=6", "final=1"), refused(1, 2)),
    ("P of 64,999: more than is lent", lines("parallelism=64999", "places=6", "final=1"), refused(2, 2)),
    ("P of 65", lines("parallelism=65", "places=6", "final=1"), refused(2, 2)),
    ("P of 64", lines("parallelism=64", "places=6", "final=1"), EMPTY),
    ("V of 0", lines("parallelism=2", "places=0", "final=1"), refused(1, 2)),
    ("V of 16,777,217", lines("parallelism=2", "places=16777217", "final=1"), refused(1, 2)),
    ("V of 16,777,216", lines("parallelism=2", "places=16777216", "final=1"), refused(2, 2)),
    ("V of 513", lines("parallelism=2", "places=513", "final=1"), refused(2, 2)),
    ("V of 512", lines("parallelism=2", "places=512", "final=1"), EMPTY),
    ("1 before 2", lines("parallelism=0", "places=513", "final=1"), refused(1, 2)),
    ("2 for P, 1 for V: 1", lines("parallelism=65", "places=0", "final=1"), refused(1, 2)),
    ("the greatest number is only out of range", lines("parallelism=18446744073709551615", "places=6"), refused(1, 2)),
    ("one more is malformed", lines("parallelism=18446744073709551616", "places=6"), refused(15, 1)),
    ("15 in line 2 before 1 for line 1", lines("parallelism=0", "places=x"), refused(15, 2)),
    ("a missing line 2 before 1 for line 1", lines("parallelism=0"), refused(15, 2)),
    ("opening before line 3", lines("parallelism=0", "places=6", "nonsense"), refused(1, 2)),
    # Malformed lines.
    *map(malformed, [
        "", " ", "set", "set=", "set=00", "set=01", "set=+1", "set=-1", "set= 1", "set=1 ", "set=1\r", "set=1,2",
        "set=x", "set=0x1", "Set=1", " set=1", "set =1", "set=1=1", "set=18446744073709551616",
        "set=99999999999999999999", "set=100000000000000000000", "set=000000000000000000001",
        "flush", "flush=", "flush=0", "flush=01", "flush=1 ", "flush=11", "flush=2",
        "final", "final=", "final=0", "final=01", "final=11",
        "in", "in=,", "in=1,", "in=,1", "in=1,,2", "in=1, 2", "in=1 2", "in=01", "in=18446744073709551616",
        "out=", "out=1", "parallelism=2", "places=6", "set=1\0",
        "lane", "lane=", "lane=00", "lane=01", "lane=0255", "lane=+1", "lane=-1", "lane= 1", "lane=1 ", "lane=1\r", "lane=1,2",
        "lane=x", "lane=0x1", "Lane=1", " lane=1", "lane =1", "lane=1=1", "lanes=1", "lane=1\0",
    ]),
    # An add is its two lines.
    ("no out line", body("in=0"), refused(15, 4)),
    ("another line for the out line", body("in=0", "set=0", "final=1"), refused(15, 4)),
    ("two in lines", body("in=0", "in=0", "out=1", "final=1"), refused(15, 4)),
    ("a malformed out line wins over its in line's place", body("in=99", "out=x", "final=1"), refused(15, 4)),
    ("a malformed in line comes first", body("in=x", "out=y", "final=1"), refused(15, 3)),
    ("a refused add counts at its out line", body("in=6", "out=", "final=1"), refused(5, 4)),
    # Refusals by the calls.
    ("place V", body("set=6", "final=1"), refused(5, 3)),
    ("bit 62", body("set=4611686018427387904", "final=1"), refused(4, 3)),
    ("bits 62 and 63", body("set=18446744073709551615", "final=1"), refused(4, 3)),
    ("below bit 62", body("set=4611686018427387903", "final=1"), refused(5, 3)),
    ("4 before 5 in an add", body("in=6", "out=9223372036854775808", "final=1"), refused(4, 4)),
    ("5 before 6", body("in=6", "out=1,1", "final=1"), refused(5, 4)),
    ("6", body("in=", "out=1,1", "final=1"), refused(6, 4)),
    ("6 before 8", body("set=1", "in=", "out=1,1", "final=1"), refused(6, 5)),
    ("8 for a set", body("set=1", "set=1", "final=1"), refused(8, 4)),
    ("8 for a promised place", body("in=0", "out=1", "set=1", "final=1"), refused(8, 5)),
    ("9", lines("parallelism=1", "places=1", "in=", "out=", "in=", "out=", "final=1"), refused(9, 6)),
    ("8 before 9", lines("parallelism=1", "places=1", "in=", "out=0", "in=", "out=0", "final=1"), refused(8, 6)),
    ("the pool just full", body("set=0", "in=" + many(0, 4096), "out=", "in=", "out=", "final=1"),
     lines("status=0", "entries=2", "places=1", "floor=2", "median=1",
           "order=0 added=0 accepted=0 parallelism=2 written=0 lane=0",
           "order=1 added=1 accepted=1 parallelism=1 written=2 lane=0")),
    ("10", body("set=0", "in=" + many(0, 4097), "out=", "final=1"), refused(10, 5)),
    ("10 by the second add", body("set=0", "in=" + many(0, 4096), "out=", "in=", "out=1", "final=1"), refused(10, 7)),
    ("12", body("in=0", "out=", "final=1"), refused(12, 5)),
    ("12 before what follows final", body("in=0", "out=", "final=1", "set=0"), refused(12, 5)),
    ("an earlier refusal before a later malformed line", body("set=6", "nonsense"), refused(5, 3)),
    ("an earlier malformed line before a later refusal", body("nonsense", "set=6"), refused(15, 3)),
    # Lanes: the numbers of a lane line.
    ("J1 with lanes", J1_LANES, J1_LANES_LISTING),
    in_lane(0),
    in_lane(1),
    in_lane(255),
    in_lane(256, 18, 5),
    in_lane(257, 18, 5),
    in_lane(65536, 18, 5),
    in_lane(4294967296, 18, 5),
    in_lane(18446744073709551615, 18, 5),
    in_lane(18446744073709551616, 15, 3),
    in_lane(99999999999999999999, 15, 3),
    in_lane(100000000000000000000, 15, 3),
    in_lane("000000000000000000000", 15, 3),
    in_lane("01", 15, 3),
    in_lane("", 15, 3),
    ("a lane line is for the one registration after it", body("lane=9", "in=", "out=0", "in=", "out=1", "final=1"),
     lines("status=0", "entries=2", "places=2", "floor=2", "median=1",
           "order=0 added=0 accepted=0 parallelism=2 written=0 lane=9",
           "order=1 added=1 accepted=1 parallelism=1 written=2 lane=0")),
    # Registration 0 waits for place 0; registration 1 writes it, and is placed before.
    ("the lane of one that waits", body("lane=7", "in=0", "out=1", "in=", "out=0", "final=1"),
     lines("status=0", "entries=2", "places=2", "floor=1", "median=1",
           "order=0 added=1 accepted=1 parallelism=1 written=2 lane=0",
           "order=1 added=0 accepted=1 parallelism=1 written=0 lane=7")),
    # What must not follow a lane line, and where a lane line must not stand.
    after_lane("another", "lane=2", "in=", "out=0", "final=1"),
    after_lane("a malformed one", "lane=x", "in=", "out=0", "final=1"),
    after_lane("a set", "set=0", "final=1"),
    after_lane("a malformed set", "set=x", "final=1"),
    after_lane("an out line", "out=0", "final=1"),
    after_lane("a flush", "flush=1", "in=", "out=0", "final=1"),
    after_lane("final", "final=1"),
    after_lane("a head line", "places=6", "final=1"),
    after_lane("a malformed in line", "in=x", "out=0", "final=1"),
    after_lane("an in line with a comma more", "in=0,", "out=0", "final=1"),
    after_lane("an empty line", "", "in=", "out=0", "final=1"),
    after_lane("no line at all"),
    ("after a lane line: an in line without byte 10", body("lane=1") + b"in=", refused(15, 4)),
    ("after a lane line of 256: no line at all", body("lane=256"), refused(15, 4)),
    ("after a lane line of 256: a set", body("lane=256", "set=0", "final=1"), refused(15, 4)),
    ("a lane line without byte 10 is no line", body() + b"lane=1", refused(15, 3)),
    ("a lane line before the head", lines("lane=1", *HEAD, "in=", "out=0", "final=1"), refused(15, 1)),
    ("a lane line in the head", lines("parallelism=2", "lane=1", "places=6", "in=", "out=0", "final=1"), refused(15, 2)),
    ("15 in the head before 1", lines("parallelism=0", "lane=1"), refused(15, 2)),
    ("a lane line between in and out", body("in=", "lane=1", "out=0", "final=1"), refused(15, 4)),
    ("a malformed one there", body("in=", "lane=", "out=0", "final=1"), refused(15, 4)),
    ("one there, after another", body("lane=1", "in=", "lane=1", "out=0", "final=1"), refused(15, 5)),
    ("a lane line between out and final", body("in=", "out=0", "lane=1", "final=1"), refused(15, 6)),
    ("a lane line after final", body("final=1", "lane=1"), refused(15, 4)),
    # 18, on the out line.
    ("a malformed out line before 18", body("lane=256", "in=", "out=x", "final=1"), refused(15, 5)),
    ("another line for the out line before 18", body("lane=256", "in=", "set=0", "final=1"), refused(15, 5)),
    ("no out line before 18", body("lane=256", "in="), refused(15, 5)),
    ("a malformed in line before 18", body("lane=256", "in=x", "out=0", "final=1"), refused(15, 4)),
    ("18 before 4", body("lane=256", "in=4611686018427387904", "out=", "final=1"), refused(18, 5)),
    ("4 with lane 255", body("lane=255", "in=4611686018427387904", "out=", "final=1"), refused(4, 5)),
    ("18 before 5", body("lane=256", "in=6", "out=", "final=1"), refused(18, 5)),
    ("5 with lane 255", body("lane=255", "in=6", "out=", "final=1"), refused(5, 5)),
    ("18 before 6", body("lane=256", "in=", "out=1,1", "final=1"), refused(18, 5)),
    ("6 with lane 255", body("lane=255", "in=", "out=1,1", "final=1"), refused(6, 5)),
    ("18 before 8", body("set=1", "lane=256", "in=", "out=1", "final=1"), refused(18, 6)),
    ("8 with lane 255", body("set=1", "lane=255", "in=", "out=1", "final=1"), refused(8, 6)),
    ("18 before 9", lines("parallelism=1", "places=1", "in=", "out=", "lane=256", "in=", "out=", "final=1"), refused(18, 7)),
    ("9 with lane 255", lines("parallelism=1", "places=1", "in=", "out=", "lane=255", "in=", "out=", "final=1"), refused(9, 7)),
    ("18 before 10", body("set=0", "lane=256", "in=" + many(0, 4097), "out=", "final=1"), refused(18, 6)),
    ("10 with lane 255", body("set=0", "lane=255", "in=" + many(0, 4097), "out=", "final=1"), refused(10, 6)),
    ("18 before a later malformed line", body("lane=256", "in=", "out=", "nonsense"), refused(18, 5)),
    ("18 while one waits", body("in=0", "out=", "lane=256", "in=", "out=", "final=1"), refused(18, 7)),
    ("12 after a lane that is accepted", body("lane=255", "in=0", "out=", "final=1"), refused(12, 6)),
    ("an earlier refusal before 18", body("set=6", "lane=256", "in=", "out=", "final=1"), refused(5, 3)),
    # After final.
    ("a call after final", body("final=1", "set=0"), refused(15, 4)),
    ("final twice", body("final=1", "final=1"), refused(15, 4)),
    ("an empty line after final", body("final=1", ""), refused(15, 4)),
    ("a byte after final", body("final=1") + b"x", refused(15, 4)),
    # 16.
    ("65,536 bytes", FULL, EMPTY),
    ("65,537 bytes", FULL + b"x", refused(16, 1)),
    ("16 before all else", b"x" * 65537, refused(16, 1)),
    ("65,536 bytes without a line", b"x" * 65536, refused(15, 1)),
]


def opened(p, *calls):
    """A job with P = p and room for 512 places."""
    return lines(f"parallelism={p}", "places=512", *calls, "final=1")


def free(count, first=0):
    """Registrations that read nothing, each with a place of its own."""
    return [line for place in range(first, first + count) for line in ("in=", f"out={place}")]


def chain(count):
    """Each registration but the first reads what the one before it wrote."""
    return [line for place in range(count) for line in (f"in={place - 1 if place else ''}", f"out={place}")]


# Document 02, M-103: the floor is taken over those entries whose index plus P is at most the order's length.
FLOORS = [
    ("an empty order", opened(3), 0),
    ("an empty order with P = 1", opened(1, "set=0", "flush=1"), 0),
    ("P = 1, one entry: it counts", opened(1, *free(1)), 1),
    ("P = 1, five entries", opened(1, *free(5)), 1),
    ("P = 2, one entry: fewer than P", opened(2, *free(1)), 0),
    ("P = 3, two entries: fewer than P", opened(3, *free(2)), 0),
    ("P = 3, as long as P: 3 2 1, of which the first counts", opened(3, *free(3)), 3),
    ("P = 3, one more: 3 3 2 1, of which two count", opened(3, *free(4)), 3),
    ("P = 64, 63 entries", opened(64, *free(63)), 0),
    ("P = 64, 64 entries", opened(64, *free(64)), 64),
    ("P = 64, 200 entries", opened(64, *free(200)), 64),
    ("P = 2, a chain of 40", opened(2, *chain(40)), 1),
    ("P = 3, a chain of 2", opened(3, *chain(2)), 0),
    ("P = 4, six, a flush, six: 4 4 4 3 2 1 4 4 4 3 2 1, of which nine count", opened(4, *free(6), "flush=1", *free(6, 6)), 1),
    ("P = 4, six, a flush, three: 4 4 4 3 2 1 3 2 1, of which six count", opened(4, *free(6), "flush=1", *free(3, 6)), 1),
    ("P = 4, six, a flush, two: 4 4 4 3 2 1 2 1, of which five count", opened(4, *free(6), "flush=1", *free(2, 6)), 2),
    ("P = 4, six, a flush, one: 4 4 4 3 2 1 1, of which four count", opened(4, *free(6), "flush=1", *free(1, 6)), 3),
]

HOSTS = [
    ("just enough listing bytes", J1, len(J1_LISTING), 64 * len(J1_LISTING)),
    ("more than enough", J1, 65536, 64 * len(J1_LISTING)),
    ("one byte short", J1, len(J1_LISTING) - 1, 64 * 1 + 17),
    ("no listing bytes", J1, 0, 64 * 1 + 17),
    ("the digits of lane 255 take two bytes more", J1_LANES, len(J1_LISTING) + 1, 64 * 1 + 17),
    ("18 on line 5", body("lane=256", "in=", "out=0", "final=1"), 65536, 64 * 5 + 18),
    ("a refusal needs none", b"", 0, 64 * 1 + 15),
    ("17 comes last", J1 + b"x", 0, 64 * 13 + 15),
    ("16", b"x" * 65537, 65536, 64 * 1 + 16),
    ("12 at line 5", body("in=0", "out=", "final=1"), 65536, 64 * 5 + 12),
]

# Of an order the last number of each tuple is the parallelism; for R1 to R3 the registrations count.
PLACEMENTS = [
    ("G1", "locations", 0, "1,0"),
    ("G1", "window", 0, "1 1"),
    ("G2", "locations", 1, "2,0"),
    ("G3", "locations", 2, "3,0"),
    ("G4", "locations", 3, "2,1"),
    ("G5", "locations", 30, "31,0 33,0"),
    ("G5", "parallelism", 0, " ".join(["1"] * 32)),
    ("W1", "parallelism", 1, "4 4 4 3 2 2 1"),
    ("W2", "parallelism", 1, "4 3 2 1 1"),
    ("W3", "parallelism", 0, "3 3 3 4 3 2 1"),
    ("W4", "parallelism", 0, "3 3 2 1"),
    ("W5", "parallelism", 0, "4 4 4 4 4 3 2 1"),
    ("W6", "parallelism", 30, "3 2 1"),
    ("R1", "registrations", 0, "1 0"),
    ("R2", "registrations", 0, "2 0 1"),
    ("R3", "registrations", 0, "0"),
    ("J1", "registrations", 0, "0 2 1 3"),
    ("J1", "parallelism", 0, "2 2 2 1"),
]
