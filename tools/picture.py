#!/usr/bin/env python3
"""Host code, not proved: draws an order and its widths from a listing on standard input.

    order <JOB | picture.py                 the entries as text, a bar for each
    order <JOB | picture.py --svg [JOB]     the same as SVG; with the job, what each entry reads
    order <JOB | picture.py --histogram     how many entries have each width; SVG with --svg
    ... | picture.py --entries 400-450      only these entries, by order index

An entry's bar covers the entries that may run together from it on: itself and its parallelism - 1
successors, stopping where the order stops. With the job, a dot in an entry's row stands under each
entry that writes one of its inputs. Lanes are told beside the bars unless all are 0. An order of more than
200 entries is drawn as a curve instead: along the order the least and the greatest width of neighbouring
entries, scaled; --entries draws a part of it as bars. The job goes with bars only.

The exit status is 1 where the job was refused and 2 where there is no listing, an option is wrong or the
drawing cannot be written.
"""
import argparse
import collections
import os
import sys

MOST_BARS = 200
COLUMNS = 1000
MARGIN = 100  # of a curve and of a histogram, for the marks' words
LIGHT, DARK, DOT, GRID, MARK = "#9ecae1", "#3182bd", "#b3541e", "#dddddd", "#555555"

Entry = collections.namedtuple("Entry", "index added width lane")
Listing = collections.namedtuple("Listing", "head entries")


class Unreadable(Exception):
    """What is given can't be drawn."""


class Refused(Exception):
    """It is the answer to a refused job."""


def is_number(word):
    return word.isascii() and word.isdigit() and len(word) <= 20


def fields(line):
    """The numbers of a line of key=number pairs, by key."""
    found = {}
    for word in line.split(" "):
        key, equals, number = word.partition("=")
        if not equals or not is_number(number):
            raise Unreadable(f"no line of a listing: {line[:60]!r}")
        found[key] = int(number)
    return found


def listing_of(text):
    """The numbers of the head, and the entries; a field that is not needed here may stand beside them."""
    lines = [fields(line) for line in text.splitlines()]
    if not lines or "status" not in lines[0] or "order" in lines[0]:
        raise Unreadable("no listing on standard input")
    head = {}
    while lines and "order" not in lines[0]:
        head.update(lines.pop(0))
    if head["status"] != 0:
        raise Refused(f"the job is refused: status={head['status']}, line={head.get('line', '?')}; docs/JOB.md says why")
    try:
        entries = [Entry(line["order"], line["added"], line["parallelism"], line.get("lane", 0)) for line in lines]
    except KeyError as missing:
        raise Unreadable(f"an entry's line has no {missing}") from None
    for index, entry in enumerate(entries):
        if entry.index != index:
            raise Unreadable(f"entry {entry.index} stands where entry {index} is expected")
    return Listing(head, entries)


def writers_read(entries, job):
    """(reader, writer): the order indexes of each entry and of those that write one of its inputs."""
    lists = {"in": [], "out": []}
    for line in job.splitlines():
        key, _, numbers = line.partition("=")
        if key in lists:
            lists[key].append(numbers.split(",") if numbers else [])
    writer, pairs = {}, []
    for entry in entries:
        if entry.added >= min(len(lists["in"]), len(lists["out"])):
            raise Unreadable("the listing is not of this job: it has fewer registrations")
        writer.update((place, entry.index) for place in lists["out"][entry.added])
    for entry in entries:
        pairs += [(entry.index, writer[place]) for place in sorted(set(lists["in"][entry.added])) if place in writer]
    return pairs


def covered(entry, count):
    """Where the run of entries that starts at this one stops."""
    return min(entry.index + entry.width, count)


def in_lanes(entries):
    """Whether the lanes are told: not where all are 0."""
    return any(entry.lane for entry in entries)


def bars_as_text(entries, count):
    first = entries[0].index if entries else 0
    last = entries[-1].index + 1 if entries else 0
    told = in_lanes(entries)
    out = ["entry  reg  width" + ("  lane" if told else "")]
    for entry in entries:
        end = min(covered(entry, count), last)
        bar = "." * (entry.index - first) + "#" * (end - entry.index) + "." * (last - end)
        lane = f" {entry.lane:5}" if told else ""
        out.append(f"{entry.index:5} {entry.added:4} {entry.width:6}{lane}  {bar}")
    return out


def profile(entries, columns):
    """The entries cut into so many parts: each part's first index, least and greatest width."""
    parts = min(columns, len(entries))
    edges = [len(entries) * part // parts for part in range(parts + 1)]
    for start, end in zip(edges, edges[1:]):
        widths = [entry.width for entry in entries[start:end]]
        yield entries[start].index, min(widths), max(widths)


def curve_as_text(entries):
    most = max(1, max(entry.width for entry in entries))
    out = [f"from entry   widths (# to the least, + to the greatest; a full bar is {most})"]
    for index, least, greatest in profile(entries, 40):
        low, high = 60 * least // most, 60 * greatest // most
        out.append(f"{index:10}   {'#' * low}{'+' * (high - low)}".rstrip() + f" {least}..{greatest}")
    return out


def histogram_as_text(entries, head):
    counts = collections.Counter(entry.width for entry in entries)
    most = max(counts.values(), default=1)
    out = ["width  entries"]
    for width in sorted(counts):
        marks = [word for word in ("floor", "median") if head.get(word) == width]
        bar = "#" * max(1, 50 * counts[width] // most)
        out.append(f"{width:5} {counts[width]:8}  {bar}{'  <- ' + ', '.join(marks) if marks else ''}")
    return out


def svg(width, height, parts):
    start = f'<svg xmlns="http://www.w3.org/2000/svg" width="{width}" height="{height}" font-family="sans-serif" font-size="12">'
    return [start, f'<rect width="{width}" height="{height}" fill="#fff"/>', *parts, "</svg>"]


def box(x, y, width, height, colour):
    return f'<rect x="{x:g}" y="{y:g}" width="{width:g}" height="{height:g}" fill="{colour}"/>'


def label(x, y, words, anchor="start"):
    placed = "" if anchor == "start" else f' text-anchor="{anchor}"'
    return f'<text x="{x:g}" y="{y:g}"{placed}>{words}</text>'


def rule(x1, y1, x2, y2, colour=GRID):
    return f'<line x1="{x1:g}" y1="{y1:g}" x2="{x2:g}" y2="{y2:g}" stroke="{colour}"/>'


def bars_as_svg(entries, count, reads):
    told = in_lanes(entries)
    first, rows, cell, left, top = entries[0].index if entries else 0, len(entries), 22, 250 if told else 190, 30
    shown = range(first, first + rows)
    out = [label(8, top - 10, "entry: registration, width" + (", lane" if told else ""))]
    for row, entry in enumerate(entries):
        x, y = left + row * cell, top + row * cell
        end = min(covered(entry, count), first + rows)
        lane = f", lane {entry.lane}" if told else ""
        out.append(label(8, y + 15, f"{entry.index}: registration {entry.added}, {entry.width}{lane}"))
        out.append(label(x + cell / 2, top - 10, entry.index, "middle"))
        out.append(box(x, y + 3, (end - entry.index) * cell, cell - 6, LIGHT))
        out.append(box(x, y + 3, cell, cell - 6, DARK))
    for column in range(rows + 1):
        out.append(rule(left + column * cell, top, left + column * cell, top + rows * cell))
    for reader, writer in reads:
        if reader in shown and writer in shown:
            x, y = left + (writer - first + 0.5) * cell, top + (reader - first + 0.5) * cell
            out.append(f'<circle cx="{x:g}" cy="{y:g}" r="4" fill="{DOT}"/>')
    return svg(left + rows * cell + 10, top + rows * cell + 10, out)


def marks_up_to(most, head):
    """The words of the head that mark a width within the drawing."""
    return [word for word in ("floor", "median") if word in head and head[word] <= most]


def curve_as_svg(entries, head):
    left, top, width, height = MARGIN, 30, 1000, 220
    most = max(1, max(entry.width for entry in entries))
    parts = list(profile(entries, COLUMNS))
    step, scale = width / len(parts), height / most
    out = [label(left, top - 12, f"{len(entries)} entries: the least (dark) and the greatest width along the order")]
    for at, (_, least, greatest) in enumerate(parts):
        x = left + at * step
        out.append(box(x, top + height - greatest * scale, step + 0.3, greatest * scale, LIGHT))
        out.append(box(x, top + height - least * scale, step + 0.3, least * scale, DARK))
    for tenth in range(0, 11, 2):
        out.append(label(left + width * tenth / 10, top + height + 16, entries[(len(entries) - 1) * tenth // 10].index, "middle"))
    for word in marks_up_to(most, head):
        y = top + height - head[word] * scale
        out += [rule(left, y, left + width, y, MARK), label(left - 6, y + 4, f"{word} {head[word]}", "end")]
    out.append(label(left - 6, top + 4, most, "end"))
    return svg(left + width + 30, top + height + 30, out)


def histogram_as_svg(entries, head):
    left, top, width, height = MARGIN, 30, 1000, 220
    counts = collections.Counter(entry.width for entry in entries)
    widest, most = max(counts, default=1), max(counts.values(), default=1)
    step = width / (widest + 1)
    out = [label(left, top - 12, f"{len(entries)} entries by width; the highest bar has {most}")]
    for value, number in sorted(counts.items()):
        tall = height * number / most
        out.append(box(left + value * step, top + height - tall, max(step - 1, 0.5), tall, DARK))
    for value in sorted({0, widest} | {widest * fourth // 4 for fourth in (1, 2, 3)}):
        out.append(label(left + (value + 0.5) * step, top + height + 16, value, "middle"))
    for row, word in enumerate(marks_up_to(widest, head)):
        x = left + (head[word] + 0.5) * step
        out += [rule(x, top, x, top + height, DOT), label(x + 4, top + 12 + 14 * row, f"{word} {head[word]}")]
    return svg(left + width + 30, top + height + 30, out)


def drawing(listing, options, job):
    entries, count = listing.entries, len(listing.entries)
    if options.entries:
        first, last = options.entries
        entries = entries[first : last + 1]
        if not entries:
            raise Unreadable(f"no entry is from {first} to {last}: the order has {count}")
    if options.histogram:
        return (histogram_as_svg if options.svg else histogram_as_text)(entries, listing.head)
    if len(entries) > MOST_BARS:
        if job is not None:
            raise Unreadable(f"the job's file goes with at most {MOST_BARS} entries, and these are {len(entries)}: choose some by --entries")
        return curve_as_svg(entries, listing.head) if options.svg else curve_as_text(entries)
    if options.svg:
        return bars_as_svg(entries, count, writers_read(listing.entries, job) if job is not None else [])
    return bars_as_text(entries, count)


def part(words):
    first, dash, last = words.partition("-")
    if not (is_number(first) and dash and is_number(last) and int(first) <= int(last)):
        raise argparse.ArgumentTypeError("two order indexes, the lower first, as 400-450")
    return int(first), int(last)


def write(drawn):
    """Prints the drawing; the exit status. A reader that has closed is no failure."""
    try:
        print("\n".join(drawn), flush=True)
    except OSError as error:
        # Python would try again at its end.
        os.dup2(os.open(os.devnull, os.O_WRONLY), sys.stdout.fileno())
        if not isinstance(error, BrokenPipeError):
            raise
    return 0


def main():
    name = os.path.basename(sys.argv[0])  # as it was called: an installation has it as order-picture
    parser = argparse.ArgumentParser(prog=name, description=__doc__.replace("picture.py", name),
                                     formatter_class=argparse.RawDescriptionHelpFormatter)
    parser.add_argument("--svg", action="store_true", help="draw SVG in place of text")
    parser.add_argument("--histogram", action="store_true", help="draw how many entries have each width")
    parser.add_argument("--entries", type=part, metavar="A-B", help="only the entries A to B, by order index")
    parser.add_argument("job", nargs="?", metavar="JOB", help="the job's file, for what each entry reads (with --svg)")
    options = parser.parse_args()
    if options.job is not None and (options.histogram or not options.svg):
        parser.error("the job's file goes with --svg and without --histogram")
    try:
        job = None
        if options.job is not None:
            with open(options.job, encoding="utf-8") as text:
                job = text.read()
        if sys.stdin is None or sys.stdout is None:
            raise Unreadable(f"standard {'input' if sys.stdin is None else 'output'} is closed")
        return write(drawing(listing_of(sys.stdin.read()), options, job))
    except Refused as refused:
        print(f"{name}: {refused}", file=sys.stderr)
        return 1
    except (Unreadable, OSError, UnicodeDecodeError) as error:
        print(f"{name}: {error}", file=sys.stderr)
        return 2


if __name__ == "__main__":
    sys.exit(main())
