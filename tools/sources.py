"""Host code, not proved: what the other tools read of a repository's crates.

No command of its own; crates.py, exported.py, rooms.py, unused.py and metrics.py import it, and oracle/vectors.py. It reads
crates.txt, and of sources (.rt) and specifications (.antt) their words, their imports and what they
declare. It knows the layout that `rt fmt` gives the files, and no types: a word is a word. Below that stands
what tools need that write specifications and proofs: long lines broken, the layout of `rt fmt`, differences told."""

import difflib
import pathlib
import re
import subprocess
import tempfile

KIT = ()  # the toolchain's libraries that a crate may list; std is always there and never listed
MODIFIERS = ("pub", "abbrev", "unfoldable", "axiom", "opaque", "private", "instance")
# A word of a specification, with the dots in it: `tie.close`, `r.number`, `x.` after a λ.
WORD = re.compile(r'[^\s(){};,@"«»]+')
# A clause of a contract, which may take several lines: up to a bracket at the end of one.
CLAUSE = re.compile(r"^ *(?:requires|ensures|decreases)\b.*?\}$", re.M | re.S)
IMPORT = re.compile(r"^\s*(?:ghost )?use (\S+?)(?:\.\{(.*)\}| as (\S+?))?;?$")


class Wrong(Exception):
    """What is wrong with a file or a command, in a sentence."""


def own_repository():
    return pathlib.Path(__file__).resolve().parent.parent


def read(path):
    try:
        return path.read_text(encoding="utf-8")
    except (OSError, UnicodeDecodeError) as error:
        raise Wrong(f"{path} cannot be read: {error}") from error


def uncommented(text, mark):
    """The text with its comments gone and its lines kept; a mark in a quoted text begins none."""
    if mark == "--":
        text = re.sub(r"\{-.*?-\}", lambda found: "\n" * found[0].count("\n"), text, flags=re.S)
        comment = re.compile(r'("(?:\\.|[^"\\\n])*")|(?:^|(?<=\s))--.*', re.M)
    else:
        comment = re.compile(r'("(?:\\.|[^"\\\n])*")|//.*')
    return comment.sub(lambda found: found[1] or "", text)


class Crate:
    """A crate: its line of crates.txt, with the kind where it is no library and no program (`staticlib`), and its files."""

    def __init__(self, root, name, kind, uses, comment):
        self.name, self.kind, self.uses, self.comment = name, kind, uses, comment
        self.folder = root / "crates" / name
        self.root = root
        self.texts = {}

    def files(self, part):
        """The files of a part, src, specs or proofs, by path."""
        ending = "*.rt" if part == "src" else "*.antt"
        return sorted((self.folder / part).rglob(ending))

    def plain(self, path):
        """A file's text without comments."""
        if path not in self.texts:
            self.texts[path] = uncommented(read(path), "//" if path.suffix == ".rt" else "--")
        return self.texts[path]

    def source_as_it_is(self):
        """The text of all its files, comments too."""
        return "\n".join(read(path) for path in self.files("src"))

    def source(self):
        """The code and contracts of all its files; what one line brings of a crate stands there one by one."""
        def apart(found):
            return " ".join(f"use {found[1]}::{name.strip()};" for name in found[2].split(",") if name.strip())

        return re.sub(r"(?m)^use ([\w:]+)::\{([^}]*)\};", apart, "\n".join(self.plain(path) for path in self.files("src")))


def crates(root):
    """The crates that crates.txt lists, by name, in its order; each has a folder, and each folder a line."""
    path = root / "crates.txt"
    found = {}
    for number, line in enumerate(read(path).splitlines(), 1):
        body, _, comment = line.partition("#")
        if not body.strip():
            continue
        head, colon, uses = body.partition(":")
        named = re.fullmatch(r"([a-z][a-z0-9_]*)( staticlib)?", head.strip())
        if not colon or not named:
            raise Wrong(f"crates.txt:{number}: not `name: uses  # comment` or `name staticlib: uses  # comment`")
        name, kind = named[1], (named[2] or "").strip()
        if name in found:
            raise Wrong(f"crates.txt:{number}: {name} stands there twice")
        found[name] = Crate(root, name, kind, uses.split(), comment.strip())
    folders = {folder.name for folder in (root / "crates").iterdir() if folder.is_dir()}
    for name in sorted(found.keys() - folders):
        raise Wrong(f"crates.txt lists {name}, and there is no crates/{name}")
    for name in sorted(folders - found.keys()):
        raise Wrong(f"crates/{name} has no line in crates.txt: write `{name}:    # what it holds`, where it belongs")
    return found


def imports(line):
    """A `use` line of a specification or of a contract's part: its module, and what it brings as pairs of a
    name there and the word here; for a module brought by another name the pair's first is None. None of
    another line."""
    found = IMPORT.match(line)
    if not found:
        return None
    module = found[1]
    if found[3]:
        return module, [(None, found[3])]
    if found[2] is None:
        return module, []
    pairs = []
    for item in found[2].split(","):
        words = item.split()
        if words:
            pairs.append((words[0], words[-1]))
    return module, pairs


def module_file(root, module):
    """The file of the repository that a module's path names, `Rattle.rules.specs.Guide`, or None."""
    found = re.match(r"Rattle\.([a-z][a-z0-9_]*)\.(specs|proofs)\.(.+)$", module)
    if not found:
        return None
    path = root / "crates" / found[1] / found[2] / (found[3].replace(".", "/") + ".antt")
    return path if path.is_file() else None


def parts_of(name):
    """The words by which a name is used: itself, or an operator's parts (`◌++◌` is written `++`)."""
    return [part for part in name.split("◌") if part] if "◌" in name else [name]


def first_words(text):
    """What the words of a text name: of `tie.close` the module `tie`, of `.before`, a field, nothing."""
    found = set()
    for word in WORD.findall(text):
        name = word.split(".")[0]
        if name:
            found.add(name)
            found |= set(parts_of(name))
    return found


def idle(line, words):
    """The names that a `use` line brings and that are none of the words."""
    brought = imports(line)
    return [here for _, here in brought[1] if not all(part in words for part in parts_of(here))] if brought else []


def line_without(line, names):
    """A `use` line without some of the names that it brings; None where none is left."""
    if "{" not in line:
        return None
    begin, end = line.index("{") + 1, line.rindex("}")
    kept = [item.strip() for item in line[begin:end].split(",") if item.split() and item.split()[-1] not in names]
    return line[:begin] + ", ".join(kept) + line[end:] if kept else None


def line_of_used(line, words):
    """A `use` line with those of its names that are among the words; None where there is none."""
    names = idle(line, words)
    return line_without(line, names) if names else line


def outside(text):
    """The text with what stands in round or curly brackets blanked out."""
    kept, depth = [], 0
    for letter in text:
        depth += letter in "({"
        kept.append(" " if depth else letter)
        depth -= letter in ")}" and depth > 0
    return "".join(kept)


class Declaration:
    """Something that a specification or a proof declares: its name, its first line, whether it is public, its
    kind (record, data or the empty text) and the words that its statement, clauses and fields have."""

    def __init__(self, name, line, public, kind):
        self.name, self.line, self.public, self.kind = name, line, public, kind
        self.words = []
        self.constructors = []


def declared(lines):
    """The names that a group of lines declares, with the kind; none of a clause."""
    first = lines[0].split()
    count = 0
    while count < len(first) and first[count] in MODIFIERS:
        count += 1
    public = "pub" in first[:count]
    kind = first[count] if count < len(first) and first[count] in ("record", "data") else ""
    head = " ".join(" ".join(lines).split()[count + bool(kind) :])
    before, colon, _ = outside(head).partition(" : ")
    if not colon or re.search(r"(?:^|\s)[=↦|](?:\s|$)", before):
        return [], public, kind
    names = before.split()
    return (names[:1] if kind else names), public, kind


def groups(lines, indent):
    """(number, lines) for each line at this indent, with those that are indented below it."""
    number, group = 0, []
    for index, line in lines:
        if not line.strip():
            continue
        at = len(line) - len(line.lstrip())
        if at == indent and line.lstrip()[0] not in ")]}":
            if group:
                yield number, group
            number, group = index, []
        group.append((index, line))
    if group:
        yield number, group


def declarations(text):
    """What a specification or a proof declares; `text` is without comments."""
    found = []
    gather(list(enumerate(text.split("\n"), 1)), 0, [], found)
    return found


def gather(lines, indent, shared, found):
    """Adds the declarations of these lines; what stands in a module has its parameters' words too."""
    last = None
    for number, group in groups(lines, indent):
        texts = [line for _, line in group]
        word = texts[0].split()[0]
        if word in ("use", "infix", "infixl", "infixr", "open", "package") or re.match(r"\s*(pub )?mod ", texts[0]):
            continue
        if word == "module":
            gather(group[1:], indent + 2, shared + WORD.findall(texts[0]), found)
            continue
        if word == "unfolding":
            continue
        names, public, kind = declared(texts)
        words = [word for text in texts if not text.lstrip().startswith("unfolding ") for word in WORD.findall(text)]
        if names:
            made = [Declaration(name, number, public, kind) for name in names]
            found += made
            last = made
            if kind == "data":
                for text in texts[1:]:
                    made[0].constructors += declared([text.strip()])[0]
        for one in last or []:
            one.words += words + shared


# ---- writing

WIDTH = 180


def groups_of(line):
    """(begin, end, whether it is a tuple or in curly brackets) of each group of brackets in a line."""
    found, open_ones = [], []
    for at, letter in enumerate(line):
        if letter in "({":
            open_ones.append([at, letter == "{"])
        elif letter == "," and open_ones:
            open_ones[-1][1] = True
        elif letter in ")}" and open_ones:
            begin, whole = open_ones.pop()
            found.append((begin, at, whole))
    return found + [(begin, len(line), whole) for begin, whole in open_ones]


# A line goes on with one of the first, or ends in one of the second.
BEGINNING, ENDING = {"→", "∙", "⊎", "×", "≡", "∷", "++", "|", "⊛"}, {"$", "∵", "=", "in"}


def break_at(line, least):
    """Where to break a line that is too long: at a blank in few brackets and in no tuple, before or after an
    operator, as far right as can be; in a tuple only where there is no other, since `rt fmt` then gives each part a
    line. None: nowhere."""
    groups = groups_of(line)
    blanks = []
    for at in range(least, min(WIDTH, len(line))):
        if line[at] == " ":
            around = [whole for begin, end, whole in groups if begin < at < end]
            before, after = line[:at].split()[-1], (line[at:].split() or [""])[0]
            odd = 0 if after in BEGINNING or before in ENDING else 1 if after.startswith("(") else 2
            blanks.append((any(around), at <= WIDTH // 2, len(around), odd, -at))
    return -min(blanks)[4] if blanks else None


def folded(text, limit=WIDTH, kept=()):
    """The text of a specification or proof with the lines broken that are longer than the limit, but for those that
    have one of the texts to be kept; a long `use` line becomes two."""
    lines = []
    for line in text.split("\n"):
        indent = len(line) - len(line.lstrip())
        first = True
        whole = len(line) <= limit or line.lstrip().startswith("--") or any(old in line for old in kept)
        while len(line) > WIDTH and not whole:
            if line.startswith("use "):
                at = line.rindex(", ", 0, WIDTH)
                lines.append(line[:at] + "}")
                line = line[: line.index("{") + 1] + line[at + 2 :]
                continue
            at = break_at(line, indent + 20)
            if at is None:
                break
            lines.append(line[:at].rstrip())
            indent += 4 * first
            first = False
            line = " " * indent + line[at:].lstrip()
        lines.append(line)
    return "\n".join(lines)


def formatted(texts):
    """Files by their paths below crates/, as `rt fmt` lays them out."""
    with tempfile.TemporaryDirectory() as folder:
        root = pathlib.Path(folder)
        for name, text in texts.items():
            (root / name).parent.mkdir(parents=True, exist_ok=True)
            (root / name).write_text(text, encoding="utf-8")
        for crate in {name.split("/")[0] for name in texts}:
            try:
                done = subprocess.run(["rt", "fmt"], cwd=root / crate, capture_output=True, text=True, check=False)
            except OSError as error:
                raise Wrong(f"the toolchain (rt), which lays the files out, cannot be run: {error}") from error
            if done.returncode:
                raise Wrong(f"rt fmt: {done.stdout}{done.stderr}")
        return {name: read(root / name) for name in texts}


def differences(kept, written, source):
    """Sentences, each with the first lines that differ: files by path, as they are kept and as they are written."""
    for name, text in written.items():
        if kept.get(name) != text:
            lines = list(difflib.unified_diff((kept.get(name) or "").splitlines(), text.splitlines(), name, f"as {source} writes it", n=0, lineterm=""))
            shown = [line if len(line) <= 300 else line[:300] + " .." for line in lines[:20]]
            yield "\n".join([f"{name} is not what {source} writes:"] + shown + (["..."] if len(lines) > 20 else []))
