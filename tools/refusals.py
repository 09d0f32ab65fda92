#!/usr/bin/env python3
"""Host code, not proved: the lists of refusals and of limits, each written from one source.

    tools/refusals.py           writes the lists again from hosts/refusals.txt and crates/rules/specs/Limits.antt
    tools/refusals.py --check   compares them with the sources; the names and numbers of refusals with those of
                                crates/rules, for definitions (specs/Refusals.antt) and for code
                                (the enum in src/lib.rt); and the limits with those for code. On a
                                difference it says what differs, and the status is 1

The lists: the enum in C with order_code_text (hosts/refusals.h), the enum in Rust
(hosts/rust/src/refusal.rs), the one in Python (hosts/python/witness_order/refusals.py) and the table of docs/JOB.md,
between two lines that say so; and the limits in C (hosts/order_limits.h), Rust (hosts/rust/src/limits.rs) and Python
(hosts/python/witness_order/limits.py). One more refusal is one more line of its source, one more limit a definition."""

import difflib
import pathlib
import re
import sys

ROOT = pathlib.Path(__file__).resolve().parent.parent
SOURCE = "hosts/refusals.txt"
DEFINED = "crates/rules/specs/Refusals.antt"
LIMITS = "crates/rules/specs/Limits.antt"
CODE = "crates/rules/src/lib.rt"
DOCUMENT = "docs/JOB.md"
BEGIN = "<!-- the refusals, written by tools/refusals.py -->\n"
END = "<!-- end of the refusals -->\n"
NOTICE = "Host code, not proved. Written by tools/refusals.py from hosts/refusals.txt"
LIMITS_NOTICE = "Host code, not proved. Written by tools/refusals.py from crates/rules/specs/Limits.antt"


class Wrong(Exception):
    """What is wrong with a file, in a sentence."""


def read(name):
    try:
        return (ROOT / name).read_text(encoding="utf-8")
    except (OSError, UnicodeDecodeError) as error:
        raise Wrong(f"{name} cannot be read: {error}") from error


def refusals():
    """(number, name, when, what to do) of each line of the source, ascending."""
    found = []
    for index, line in enumerate(read(SOURCE).splitlines(), 1):
        if line.startswith("#") or not line.strip():
            continue
        fields = [field.strip() for field in line.split("|")]
        if len(fields) != 4 or not all(fields):
            raise Wrong(f"{SOURCE}:{index}: not `number | name | when | what to do`")
        number, name, when, advice = fields
        if not re.fullmatch(r"[1-9][0-9]*", number) or not int(number) < 64:
            raise Wrong(f"{SOURCE}:{index}: {number} is no number from 1 to 63")
        if not re.fullmatch(r"[a-z]+(_[a-z]+)*", name):
            raise Wrong(f"{SOURCE}:{index}: {name} is no name of lower-case words and underscores")
        if re.search(r'["\\]', when + advice) or not (when + advice).isascii():
            raise Wrong(f"{SOURCE}:{index}: a quotation mark, a backslash or a letter beyond ASCII")
        if found and int(number) <= found[-1][0]:
            raise Wrong(f"{SOURCE}:{index}: {number} does not ascend")
        if name in [known[1] for known in found]:
            raise Wrong(f"{SOURCE}:{index}: {name} stands there twice")
        found.append((int(number), name, when, advice))
    if not found:
        raise Wrong(f"{SOURCE} has no refusal")
    return found


def in_c(rows):
    codes = "".join(f",\n    ORDER_{name.upper()} = {number}" for number, name, _, _ in rows)
    cases = "".join(
        f"    case ORDER_{name.upper()}:\n        return \"{when}\";\n" for _, name, when, _ in rows
    )
    return f"""/* {NOTICE}.
   The numbers of refusals, and what they mean in words; docs/JOB.md says what to do about each. */
#ifndef ORDER_REFUSALS_H
#define ORDER_REFUSALS_H

#include <stdint.h>

enum order_code {{
    ORDER_ACCEPTED = 0{codes}
}};

/* A number in words: when it is given. Never null; a number that is none of the above is said to be so. */
static inline const char *order_code_text(uint64_t number) {{
    switch (number) {{
    case ORDER_ACCEPTED:
        return "accepted";
{cases}    default:
        return "no number of a refusal";
    }}
}}

#endif
"""


def camel(name):
    return "".join(word.capitalize() for word in name.split("_"))


def in_rust(rows):
    cases = "".join(f"    /// {when}\n    {camel(name)} = {number},\n" for number, name, when, _ in rows)
    all_of = "".join(f"        Refusal::{camel(name)},\n" for _, name, _, _ in rows)
    names = "".join(f'            Refusal::{camel(name)} => "{name}",\n' for _, name, _, _ in rows)
    whens = arms((camel(name), when) for _, name, when, _ in rows)
    advices = arms((camel(name), advice) for _, name, _, advice in rows)
    return f"""//! {NOTICE}.
//! The numbers of refusals as an enum, with what they mean in words.

/// Why a call, a list of calls or a job was refused, or no reason given.
#[derive(Clone, Copy, Debug, PartialEq, Eq, Hash, PartialOrd, Ord)]
#[repr(u64)]
pub enum Refusal {{
{cases}}}

impl Refusal {{
    /// Every refusal, by ascending number.
    pub const ALL: [Refusal; {len(rows)}] = [
{all_of}    ];

    /// The refusal's number.
    pub fn number(self) -> u64 {{
        self as u64
    }}

    /// The refusal with a number; none for 0, which is "accepted", and for a number that is no refusal's.
    pub fn from_number(number: u64) -> Option<Refusal> {{
        Refusal::ALL
            .iter()
            .copied()
            .find(|refusal| refusal.number() == number)
    }}

    /// The refusal's name, as docs/JOB.md has it.
    pub fn name(self) -> &'static str {{
        match self {{
{names}        }}
    }}

    /// When it is given.
    pub fn when(self) -> &'static str {{
        match self {{
{whens}        }}
    }}

    /// What to do about it.
    pub fn advice(self) -> &'static str {{
        match self {{
{advices}        }}
    }}
}}

impl std::fmt::Display for Refusal {{
    fn fmt(&self, f: &mut std::fmt::Formatter<'_>) -> std::fmt::Result {{
        f.write_str(self.when())
    }}
}}

impl std::error::Error for Refusal {{}}
"""


def arms(pairs):
    """Arms of a match, laid out as rustfmt has them."""
    text = ""
    for name, words in pairs:
        line = f'            Refusal::{name} => "{words}",\n'
        if len(line) > 101:
            line = f'            Refusal::{name} => {{\n                "{words}"\n            }}\n'
        text += line
    return text


def in_python(rows):
    members = "".join(f"    {name.upper()} = {number}\n" for number, name, _, _ in rows)
    whens = "".join(f'    {number}: "{when}",\n' for number, _, when, _ in rows)
    advices = "".join(f'    {number}: "{advice}",\n' for number, _, _, advice in rows)
    return f'''"""{NOTICE}.

The numbers of refusals as an enum, with what they mean in words."""

import enum


class Refusal(enum.IntEnum):
    """Why a call, a list of calls or a job was refused, or no reason given."""

{members}
    @property
    def when(self):
        """When it is given."""
        return WHEN[self]

    @property
    def advice(self):
        """What to do about it."""
        return ADVICE[self]

    def __str__(self):
        return self.when


WHEN = {{
{whens}}}

ADVICE = {{
{advices}}}


def text(number):
    """A number in words, 0 for accepted; a number that is no refusal's is said to be so."""
    return "accepted" if number == 0 else WHEN.get(number, "no number of a refusal")
'''


def in_document(rows):
    table = "| number | name | when | what to do |\n|---|---|---|---|\n"
    table += "".join(f"| {number} | `{name}` | {when} | {advice} |\n" for number, name, when, advice in rows)
    text = read(DOCUMENT)
    if text.count(BEGIN) != 1 or text.count(END) != 1 or text.index(END) < text.index(BEGIN):
        raise Wrong(f"{DOCUMENT} has not the two lines between which the table stands, once each")
    return text[: text.index(BEGIN)] + BEGIN + "\n" + table + "\n" + text[text.index(END) :]


def limits_in_c(limits):
    def literal(number):
        return str(number) if number < 1 << 31 else f"UINT64_C({number})"

    macros = "".join(f"#define ORDER_{name.upper()} {literal(number)}\n" for name, number in limits.items())
    return f"""/* {LIMITS_NOTICE}.
   The limits of the specification under the names that the definitions have; what each is stands there. */
#ifndef ORDER_LIMITS_H
#define ORDER_LIMITS_H

#include <stdint.h>

{macros}
#endif
"""


def limits_in_rust(limits):
    constants = "".join(f"pub const {name.upper()}: u64 = {number:_};\n" for name, number in limits.items())
    return f"""//! {LIMITS_NOTICE}.
//! The limits of the specification under the names that the definitions have; what each is stands there.

{constants}"""


def limits_in_python(limits):
    constants = "".join(f"{name.upper()} = {number:_}\n" for name, number in limits.items())
    return f'''"""{LIMITS_NOTICE}.

The limits of the specification under the names that the definitions have; what each is stands there."""

{constants}'''


def lists(rows):
    limits = defined(LIMITS)
    return {
        "hosts/order_limits.h": limits_in_c(limits),
        "hosts/rust/src/limits.rs": limits_in_rust(limits),
        "hosts/python/witness_order/limits.py": limits_in_python(limits),
        "hosts/refusals.h": in_c(rows),
        "hosts/rust/src/refusal.rs": in_rust(rows),
        "hosts/python/witness_order/refusals.py": in_python(rows),
        DOCUMENT: in_document(rows),
    }


def value(text, place):
    """A number as it is written: decimal digits, or a power of two numbers; a float has .0 behind it."""
    match = re.fullmatch(r"([0-9_]+)(?: \^ ([0-9]+)|\.0)?", text)
    if not match:
        raise Wrong(f"{place}: {text} is neither a number nor a power")
    return int(match[1]) ** int(match[2] or 1)


def defined(path):
    """The numbers that a specification gives names to, by name, with underscores for the dashes."""
    text = re.sub(r"--.*", "", read(path))
    names = re.findall(r"^abbrev pub ([a-z_]+) : ℕ$", text, re.M)
    values = dict(re.findall(r"^([a-z_]+) = (.+)$", text, re.M))
    if not names or set(names) != set(values):
        raise Wrong(f"{path}: not `abbrev pub NAME : ℕ` and `NAME = NUMBER` for each name")
    return {name: value(values[name], path) for name in names}


def constants():
    """The limits for code, constants, by name in lower case."""
    found = re.findall(r"^pub const ([A-Z_]+): \w+ = (.+);$", read(CODE), re.M)
    return {name.lower(): value(number, CODE) for name, number in found}


def variants():
    """The refusals for code, an enum's variants, by name in lower case with underscores."""
    enum = re.search(r"^pub enum Refusal \{\n((?:    .*\n)+)\}$", read(CODE), re.M)
    rows = re.findall(r"^    (.*)$", enum[1], re.M) if enum else []
    found = [re.fullmatch(r"([A-Z][a-z]+(?:[A-Z][a-z]+)*) = (.+),", row) for row in rows]
    if not found or not all(found):
        raise Wrong(f"{CODE}: not `pub enum Refusal` with `NAME = NUMBER,` for each refusal")
    return {re.sub(r"(?<=[a-z])([A-Z])", r"_\1", row[1]).lower(): value(row[2], CODE) for row in found}


def unlike(here, named, there, other):
    """Sentences: what one place has under a name and the other has not, or under another number."""
    for name in sorted(named.keys() | other.keys(), key=lambda name: (named.get(name, other.get(name)), name)):
        if name not in other:
            yield f"{here} has {name} ({named[name]}), which {there} has not"
        elif name not in named:
            yield f"{there} has {name} ({other[name]}), which {here} has not"
        elif named[name] != other[name]:
            yield f"{name} is {named[name]} in {here} and {other[name]} in {there}"


def given():
    """The names of refusals that some definition of crates/rules gives, with underscores."""
    names = set()
    for path in sorted((ROOT / "crates/rules/specs").glob("*.antt")):
        text = re.sub(r"--.*", "", read(path))
        names |= set(re.findall(r"\brefusal\.([a-z_]+)", text))
    return names


def difference(name, kept, written):
    """The lines in which a kept list is not what the source gives, a few of them."""
    lines = list(difflib.unified_diff(kept.splitlines(), written.splitlines(), name, "from its source", n=0, lineterm=""))
    return "\n".join(lines[:20] + (["..."] if len(lines) > 20 else []))


def check(rows):
    """What is wrong, in sentences."""
    wrong = []
    for name, text in lists(rows).items():
        kept = read(name)
        if kept != text:
            wrong.append(f"{name} is not what its source gives: run tools/refusals.py\n{difference(name, kept, text)}")
    source = {name: number for number, name, _, _ in rows}
    numbers, limits = defined(DEFINED), defined(LIMITS)
    wrong += unlike(SOURCE, source, DEFINED, numbers)
    wrong += unlike(DEFINED, numbers, CODE, variants())
    wrong += unlike(LIMITS, limits, CODE, constants())
    wrong += [f"no definition of crates/rules/specs gives refusal.{name}" for name in numbers if name not in given()]
    return wrong, len(limits)


def main():
    if sys.argv[1:] == ["--help"]:
        print(__doc__)
        return
    if sys.argv[1:] not in ([], ["--check"]):
        sys.exit("usage: tools/refusals.py [--check]")
    try:
        rows = refusals()
        if sys.argv[1:]:
            wrong, limits = check(rows)
            if wrong:
                raise Wrong("\n".join(wrong))
            print(f"refusals: {len(rows)} names and numbers, the same in C, Rust, Python, docs/JOB.md and crates/rules; {limits} limits")
        else:
            for name, text in lists(rows).items():
                (ROOT / name).parent.mkdir(parents=True, exist_ok=True)
                (ROOT / name).write_text(text, encoding="utf-8")
    except Wrong as error:
        sys.exit(f"tools/refusals.py: {error}")


main()
