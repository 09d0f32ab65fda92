#!/usr/bin/env python3
"""Host code, not proved: counts the places in src/ that are written in an older form than Rattle has.

    tools/forms.py               a line for each form of docs/DESIGN-PASS.md's points
    tools/forms.py --names       and below it the places
    --root FOLDER                of another repository than the one that this tool stands in

It goes by words, so what it counts is to be looked at: a place that stays has its reason in a comment beside it,
which docs/DESIGN-PASS.md lists."""

import collections
import difflib
import pathlib
import re
import sys

import sources

HEAD = re.compile(r'(?m)^ *(?:pub )?(?:extern "C" )?fn (\w+)')
REFUSALS = "OUT_OF_RANGE TOO_SHORT TOO_MANY_NUMBERS FLAGGED_PLACE UNKNOWN_PLACE REPEATED_OUTPUT CLOSED TAKEN_PLACE TOO_MANY_REGISTRATIONS FULL_POOL TOO_MANY_FLUSHES STILL_WAITING NOT_HELD GUIDE_EXHAUSTED MALFORMED LONG_JOB LONG_LISTING UNKNOWN_LANE NEVER_ACCEPTED NOT_WAITING PROFILE_BREACH".split()
FAILING = r"Malformed|Refused|Rejected|Unread|Failed|Absent|Missing"
SLICES = "spans order tally rows marks locations waiting pool".split()
COMMON = 3  # a clause that stands in so many contracts is a fact of a value
ALIKE = 0.86  # how alike two bodies are that differ in types, sizes and constants alone
TWIN_WORDS = 24  # and the least words of such a body


class Function:
    """A function: crate, name, line, parameters, clauses and body, comments aside."""

    def __init__(self, crate, name, line, head, clauses, body):
        self.crate, self.name, self.line = crate, name, line
        self.head, self.clauses, self.body = head, clauses, body

    def place(self):
        return f"{self.crate}::{self.name}:{self.line}"


def closing(text, at, opens, closes):
    depth = 0
    for i in range(at, len(text)):
        if text[i] == opens:
            depth += 1
        elif text[i] == closes:
            depth -= 1
            if depth == 0:
                return i
    raise sources.Wrong("a bracket is not closed")


def quiet(text):
    """The text without comments, and with no bracket in a quoted text or a character."""
    text = re.sub(r"//[^\n]*", lambda m: " " * len(m[0]), text)
    text = re.sub(r"b?'(?:\\.|[^'\\\n])'", lambda m: "0" * len(m[0]), text)
    return re.sub(r'"(?:\\.|[^"\\\n])*"', lambda m: '"' + "_" * (len(m[0]) - 2) + '"', text)


def functions_of(crate, text):
    found = []
    for m in HEAD.finditer(text):
        at = text.index("(", m.end())
        end = closing(text, at, "(", ")")
        clauses = []
        i = end + 1
        while text[i] not in "{;":
            clause = re.compile(r"\s*(?:requires|ensures\*?)\b[^{;]*").match(text, i)
            if clause:
                stop = closing(text, clause.end(), "{", "}")
                clauses.append(" ".join(text[i : stop + 1].split()))
                i = stop + 1
            else:
                i += 1
        if text[i] == ";":
            continue
        stop = closing(text, i, "{", "}")
        head = " ".join(text[m.start() : end + 1].split()) + text[end + 1 : i].split("requires")[0].split("ensures")[0]
        found.append(Function(crate, m[1], text[: m.start()].count("\n") + 1, head, clauses, text[i : stop + 1]))
    return found


def items_of(text, kind):
    """The structs or enums of a source: name, line, text."""
    for m in re.finditer(rf"(?m)^pub {kind} (\w+)[^;{{(]*\{{", text):
        yield m[1], text[: m.start()].count("\n") + 1, text[m.end() : closing(text, m.end() - 1, "{", "}")]


def result_shapes(sources_):
    for crate, text, _ in sources_:
        for name, line, body in items_of(text, "enum"):
            if re.search(rf"\b(?:{FAILING})\b", body):
                yield f"{crate}::{name}:{line}"


def flags_with_values(sources_):
    for crate, text, functions in sources_:
        for name, line, body in items_of(text, "struct"):
            if re.search(r"\bpub (?:number|code|well|has|adds): (?:u32|u64|bool)", body):
                yield f"{crate}::{name}:{line}"
        for f in functions:
            if re.search(r"\b(?:has|adds): bool", f.head):
                yield f.place()


def refusal_numbers(sources_):
    number = re.compile(rf"\brules::(?:{'|'.join(REFUSALS)})\b")
    for crate, text, functions in sources_:
        if crate == "rules":
            for m in re.finditer(rf"(?m)^pub const ({'|'.join(REFUSALS)}): u64", text):
                yield f"rules::{m[1]}:{text[: m.start()].count(chr(10)) + 1}"
        for f in functions:
            tested = re.search(r"\b(?:number|code) [!=]= 0\b|\bn != 0\b|\.number [!=]= 0\b", f.body)
            if number.search(f.body) or tested or re.search(r"\bn: u64\b|let n = \w*check_", f.head + f.body) and " n == 0" in f.body:
                yield f.place()


def zero_for_none(sources_):
    for crate, text, functions in sources_:
        if crate == "encoding":
            for f in functions:
                if f.head.rstrip().endswith("-> usize") and re.search(r"return 0;|^\s*0\s*$|_end\(", f.body, re.M):
                    yield f.place()


def kinds(sources_):
    for crate, text, _ in sources_:
        for m in re.finditer(r"(?m)^(?:pub )?const (SET|ADD|FLUSH|FINAL|LANE_ADD|PUSH|PUSH_AFTER): u(?:32|64)", text):
            yield f"{crate}::{m[1]}:{text[: m.start()].count(chr(10)) + 1}"


def words_of(f):
    body = re.sub(r"\b(?:u8|u16|u32|u64|usize|Session|Ascending|Storage)\b", "T", f.body)
    body = re.sub(r"\b(\w*?)(?:8|16|32|64)\b", r"\1", body)
    body = re.sub(r"\b(?:ascending_)?(session|opening|calls|checks|adding)\b", r"\1", body)
    body = re.sub(r"\b\d+\b|\b[A-Z][A-Z_]+\b", "0", body)
    return re.findall(r"\w+|[^\w\s]", body)


def twins(sources_):
    """Groups of functions whose bodies differ in types, sizes, constants and little else."""
    all_ = [f for crate, _, functions in sources_ if not crate.endswith("_c") for f in functions]
    bodies = [(f, words_of(f)) for f in all_]
    bodies = [(f, w) for f, w in bodies if len(w) >= TWIN_WORDS]
    group = {f: f for f, _ in bodies}

    def root(f):
        while group[f] is not f:
            f = group[f]
        return f

    for i, (f, a) in enumerate(bodies):
        for g, b in bodies[i + 1 :]:
            if min(len(a), len(b)) < 0.75 * max(len(a), len(b)):
                continue
            matcher = difflib.SequenceMatcher(None, a, b, autojunk=False)
            if matcher.quick_ratio() >= ALIKE and matcher.ratio() >= ALIKE:
                group[root(g)] = root(f)
    groups = collections.defaultdict(list)
    for f, _ in bodies:
        groups[root(f)].append(f)
    for fs in groups.values():
        if len(fs) > 1:
            yield " ~ ".join(f.place() for f in fs)


def counted_loops(sources_):
    for _, _, functions in sources_:
        for f in functions:
            for m in re.finditer(r"while (\w+) (?:<|<=|>|>=) ", f.body):
                block = f.body[m.end() :]
                block = block[: closing(block, block.index("{"), "{", "}")]
                if re.search(rf"\b{m[1]} [+-]= 1;", block):
                    yield f.place()


def index_loops(sources_):
    for _, _, functions in sources_:
        for f in functions:
            for m in re.finditer(r"for (\w+) in 0\.\.(\w+)\.len\(\)", f.body):
                block = f.body[m.end() :]
                block = block[: closing(block, block.index("{"), "{", "}")]
                uses = len(re.findall(rf"\b{m[1]}\b", block))
                if uses and uses == len(re.findall(rf"\b{m[2]}\[{m[1]}\]", block)):
                    yield f.place()


def conversions(sources_):
    for _, _, functions in sources_:
        for f in functions:
            if re.fullmatch(r"\{\s*\w+ as \w+\s*\}", f.body):
                yield f.place()


def spelled_copies(sources_):
    for _, _, functions in sources_:
        for f in functions:
            for m in re.finditer(r"\b([A-Z]\w+) \{", f.body):
                block = f.body[m.end() - 1 : closing(f.body, m.end() - 1, "{", "}")]
                same = collections.Counter(o for n, o in re.findall(r"\b(\w+): (\w+)\.\1\b", block) for o in [o])
                same = max([len(re.findall(rf"\b(\w+): {o}\.\1,", block)) for _, o in re.findall(r"\b(\w+): (\w+)\.\1\b", block)] or [0])
                if same >= 2:
                    yield f"{f.place()} {m[1]}"
                elif re.search(r"\b(\w+): \1,", block):
                    yield f"{f.place()} {m[1]}"


def copying_loops(sources_):
    for _, _, functions in sources_:
        for f in functions:
            for m in re.finditer(r"for (\w+) in [^{]*\{\s*\w+\[[^\]]*\b\1\] = \w+\[[^\]]*\1\]( as \w+)?;\s*\}|\bs\[(\w+)\] = 0;|if s\[i\] != key\[i\]", f.body):
                yield f.place()


def printing(sources_):
    for _, _, functions in sources_:
        for f in functions:
            if re.search(r"\bout: &mut \[u8\]", f.head) and re.match(r"put_|copy", f.name):
                yield f.place()


def travelling(sources_):
    for _, _, functions in sources_:
        for f in functions:
            held = [s for s in SLICES if re.search(rf"\b{s}: (?:&|usize)", f.head)]
            if "extern" in f.head:
                continue
            if len(held) >= 5:
                yield f"{f.place()} {len(held)} slices"
            elif re.search(r"\bins: &\[u64\], outs: &\[u64\]", f.head):
                yield f"{f.place()} lists"
            elif re.search(r"\bspan: u32, pos: u32", f.head):
                yield f"{f.place()} location"
            if re.search(r"closed: bool", f.head) and re.search(r"used: usize", f.head):
                yield f"{f.place()} state"


def common_facts(sources_):
    where = collections.defaultdict(list)
    for crate, _, functions in sources_:
        if crate.endswith("_c"):
            continue
        for f in functions:
            for clause in f.clauses:
                if clause.startswith("requires"):
                    inner = clause[clause.index("{") + 1 : -1].strip()
                    inner = re.sub(r"\b(\w+)\.(?:now|old)\b", r"\1", inner)
                    for part in re.split(r" × ", inner):
                        where[part.strip("() ")].append(f.place())
    for part, places in sorted(where.items()):
        if len(places) >= COMMON:
            yield f"{part}: {len(places)} ({', '.join(places)})"


def parallel_arrays(sources_):
    for crate, text, _ in sources_:
        for name, line, body in items_of(text, "struct"):
            lengths = re.findall(r"\[\w+; ([\w:]+)\]", body)
            if any(lengths.count(n) > 1 for n in lengths):
                yield f"{crate}::{name}:{line}"


def text_and_place(sources_):
    for _, _, functions in sources_:
        for f in functions:
            if re.search(r"\bout: &mut \[u8\], at: usize", f.head):
                yield f.place()


def switches(sources_):
    for _, _, functions in sources_:
        for f in functions:
            if re.search(r"\b(?:kind|tag|calls\[at\]) == (?:encoding::)?[A-Z_]+", f.body):
                yield f.place()


FORMS = (
    ("1 enums of the shape of Option or Result", result_shapes),
    ("1 flags and numbers with a value beside them", flags_with_values),
    ("1 numbers for refusals", refusal_numbers),
    ("1 0 for none", zero_for_none),
    ("1 numbers for kinds", kinds),
    ("2 twins", twins),
    ("3 loops that count an index", counted_loops),
    ("3 loops over all indices of one slice", index_loops),
    ("4 conversions as functions", conversions),
    ("4 structs spelled field by field", spelled_copies),
    ("4 copying, clearing, comparing by hand", copying_loops),
    ("4 printing by hand", printing),
    ("5 parameters that travel together", travelling),
    ("5 facts that three contracts ask for", common_facts),
    ("6 parallel arrays", parallel_arrays),
    ("6 text with a place beside it", text_and_place),
    ("7 switches on the step to run", switches),
)


def main():
    words, root, names = sys.argv[1:], sources.own_repository(), False
    while words:
        word = words.pop(0)
        if word == "--help":
            print(__doc__)
            return
        if word == "--names":
            names = True
        elif word == "--root" and words:
            root = pathlib.Path(words.pop(0))
        else:
            sys.exit("usage: tools/forms.py [--names] [--root FOLDER]")
    try:
        read = []
        for folder in sorted((root / "crates").iterdir()):
            for path in sorted((folder / "src").glob("*.rt")):
                text = quiet(sources.read(path))
                read.append((folder.name, text, functions_of(folder.name, text)))
    except (sources.Wrong, OSError) as error:
        sys.exit(f"tools/forms.py: {error}")
    for name, form in FORMS:
        places = list(dict.fromkeys(form(read)))
        print(f"{len(places):4} {name}")
        for place in places if names else []:
            print(f"       {place}")


if __name__ == "__main__":
    main()
