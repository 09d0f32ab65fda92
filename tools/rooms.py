#!/usr/bin/env python3
"""Host code, not proved: draws the crates as rooms into docs/rooms.svg, a row for each layer.

    tools/rooms.py           draws it anew
    tools/rooms.py --check   compares it with what would be drawn; on a difference the status is 1
    --root FOLDER            of another repository than the one that this tool stands in

The layers are those of the table `| layer | crates |` in docs/ARCHITECTURE.md, which has each crate once; an
arrow leads from a crate to one that it uses (crates.txt). Left out are those where other arrows' way leads there too,
and those that lead up to the first layer, on which nearly all stand. A crate that uses one of a layer further down
is an error. Where the rooms stand in their row is found by trying: what makes the arrows shorter, or lets
fewer of them cross or pass behind rooms, is kept."""

import pathlib
import re
import sys

import sources
from sources import Wrong

DOCUMENT = "docs/ARCHITECTURE.md"
PICTURE = "docs/rooms.svg"
HEADER = re.compile(r"^\| *layer *\| *crates *\|.*\n\|[-| :]+\|\n((?:\|.*\n)+)", re.M)

WIDE, HIGH = 130, 34  # a room
STEP_X, STEP_Y = 152, 84  # from room to room
LEFT, TOP = 170, 60
COLUMNS = 8
COLOURS = ["#f3e9d2", "#d7e8f7", "#dff0d8", "#e3f1ee", "#fbe3d6", "#fdf3c9", "#f6d5e5", "#e6ddf5", "#dcdcf7", "#e9ead7"]
# Points of a curve between two rooms: the parts of the way across and of the way down.
CURVE = [(3 * t * t - 2 * t**3, 1.5 * t * (1 - t) + t**3) for t in (n / 24 for n in range(1, 24))]


def layers(root, crates):
    """The layers of the document: their names, each with its crates."""
    table = HEADER.search(sources.read(root / DOCUMENT))
    if not table:
        raise Wrong(f"{DOCUMENT} has no table that begins `| layer | crates |`")
    found, seen = [], set()
    for line in table[1].splitlines():
        name, names = [cell.strip() for cell in line.strip("|").split("|")][:2]
        rooms = [room.strip(" `*") for room in names.split(",")]
        for room in rooms:
            if room not in crates:
                raise Wrong(f"{DOCUMENT}: the layer `{name}` has {room}, and crates.txt has none of that name")
            if room in seen:
                raise Wrong(f"{DOCUMENT}: the layers have {room} twice")
            seen.add(room)
        found.append((name, rooms))
    for room in crates:
        if room not in seen:
            raise Wrong(f"{DOCUMENT}: the layers have no crate {room}")
    return found


def arrows(crates, levels):
    """(crate, crate that it uses) for each use that is drawn; and the crates that do not stand on the first layer."""
    uses = {name: [other for other in crate.uses if other in crates] for name, crate in crates.items()}
    below = {}

    def reached(name):
        if name not in below:
            below[name] = set()
            below[name] = set(uses[name]).union(*[reached(other) for other in uses[name]])
        return below[name]

    for name, others in uses.items():
        for other in others:
            if levels[other] > levels[name]:
                raise Wrong(f"{name} uses {other}, which the table of {DOCUMENT} has in a layer further down")
    links = [(name, other) for name, others in uses.items() for other in others if not any(other in reached(third) for third in others)]
    apart = [name for name in crates if levels[name] and not any(levels[other] == 0 for other in reached(name))]
    return [(user, used) for user, used in links if levels[used] or not levels[user]], apart


class Plan:
    """Where each room stands: its row and column."""

    def __init__(self, rows, links):
        self.links = links
        self.row, self.column = {}, {}
        for row, rooms in enumerate(rows):
            first = (COLUMNS - len(rooms)) // 2
            for index, room in enumerate(rooms):
                self.row[room], self.column[room] = row, first + index
        self.taken = {}

    def behind(self, upper, lower):
        """How many rooms an arrow between two rows passes behind."""
        count, rows = 0, self.row[lower] - self.row[upper]
        if rows < 2:
            return 0
        x0, x1 = self.column[upper], self.column[lower]
        for row in range(1, rows):
            for across, down in CURVE:
                if abs(down * rows - row) * STEP_Y < HIGH / 2 + 6:
                    x = x0 + (x1 - x0) * across
                    column = round(x)
                    if abs(x - column) * STEP_X < WIDE / 2 + 4 and self.taken.get((self.row[upper] + row, column)):
                        count += 1
                        break
        return count

    def cost(self):
        """The arrows' lengths, with a fine for each room that one passes behind or over."""
        self.taken = {(self.row[room], self.column[room]): room for room in self.row}
        total = 0
        for user, used in self.links:
            apart = self.column[user] - self.column[used]
            if self.row[user] == self.row[used]:
                between = sum((self.row[user], column) in self.taken for column in range(min(self.column[user], self.column[used]) + 1, max(self.column[user], self.column[used])))
                total += 3 * abs(apart) + 4 * between + (3 if apart < 0 else 0)
            else:
                total += apart * apart * 0.5 + 12 * self.behind(used, user)
        return total + 4 * self.crossings()

    def crossings(self):
        """How often two arrows between the same two rows cross."""
        pairs = [(self.row[used], self.row[user], self.column[used], self.column[user]) for user, used in self.links if self.row[user] != self.row[used]]
        return sum(a[:2] == b[:2] and (a[2] - b[2]) * (a[3] - b[3]) < 0 for i, a in enumerate(pairs) for b in pairs[:i])

    def improve(self):
        """Moves and swaps rooms of a row as long as that helps."""
        best, better = self.cost(), True
        while better:
            better = False
            for room in self.row:
                for column in range(COLUMNS):
                    old, other = self.column[room], self.taken.get((self.row[room], column))
                    if column == old:
                        continue
                    self.column[room] = column
                    if other:
                        self.column[other] = old
                    before, now = self.taken, self.cost()
                    if now < best - 1e-9:
                        best, better = now, True
                    else:
                        self.taken = before
                        self.column[room] = old
                        if other:
                            self.column[other] = column


def best_plan(rows, links):
    """The best of what comes of several beginnings: each row as the table has it, reversed, and turned by some."""
    plans = []
    for turn in range(6):
        plan = Plan([rooms[::-1] if turn % 2 else rooms[turn // 2 :] + rooms[: turn // 2] for rooms in rows], links)
        plan.improve()
        plans.append((plan.cost(), turn, plan))
    return min(plans)[2]


def rows_of(found, order):
    """The rows: a layer with more crates than columns has several, those that are used in the upper ones."""
    rows, names = [], []
    for name, rooms in found:
        count = -(-len(rooms) // COLUMNS)
        size = -(-len(rooms) // count)
        if count > 1:
            rooms = sorted(rooms, key=order.index)
        for part in range(count):
            rows.append(rooms[part * size : (part + 1) * size])
            names.append(name if part == 0 else "")
    return rows, names


def escaped(text):
    return text.replace("&", "&amp;").replace("<", "&lt;").replace(">", "&gt;")


def way(plan, user, used):
    """An arrow's path: straight or over the rooms between in a row, else a curve from row to row."""
    x0, y0 = LEFT + plan.column[user] * STEP_X + WIDE / 2, TOP + plan.row[user] * STEP_Y
    x1, y1 = LEFT + plan.column[used] * STEP_X + WIDE / 2, TOP + plan.row[used] * STEP_Y
    if y0 == y1:
        side = 1 if x0 > x1 else -1
        if abs(plan.column[user] - plan.column[used]) == 1:
            return f"M{x0 - side * WIDE / 2:g},{y0 + HIGH / 2:g} H{x1 + side * (WIDE / 2 + 3):g}"
        over = 6 + 7 * abs(plan.column[user] - plan.column[used])
        return f"M{x0 - side * 20:g},{y0:g} C{x0 - side * 50:g},{y0 - over:g} {x1 + side * 50:g},{y1 - over:g} {x1 + side * 20:g},{y1 - 3:g}"
    middle = (y0 + y1 + HIGH) / 2
    return f"M{x0:g},{y0:g} C{x0:g},{middle:g} {x1:g},{middle:g} {x1:g},{y1 + HIGH + 3:g}"


def drawn(root):
    crates = sources.crates(root)
    found = layers(root, crates)
    rows, names = rows_of(found, list(crates))
    links, apart = arrows(crates, {room: level for level, (_, rooms) in enumerate(found) for room in rooms})
    plan = best_plan(rows, links)
    but = ", but for " + " and ".join(apart) if apart else ""
    wide, high = LEFT + COLUMNS * STEP_X, TOP + len(rows) * STEP_Y
    out = [
        f'<svg xmlns="http://www.w3.org/2000/svg" viewBox="0 0 {wide} {high}" width="{wide}" height="{high}" font-family="Helvetica,Arial,sans-serif">',
        f"<!-- drawn by tools/rooms.py from crates.txt and {DOCUMENT} -->",
        '<defs><marker id="tip" viewBox="0 0 8 8" refX="6" refY="4" markerWidth="7" markerHeight="7" orient="auto"><path d="M0,0 L8,4 L0,8 z" fill="#555"/></marker></defs>',
        f'<rect width="{wide}" height="{high}" fill="white"/>',
        f'<text x="16" y="28" font-size="16"><tspan font-weight="bold">{len(crates)} crates: each stands on those that its arrows lead to</tspan>, and on the first row{but}</text>',
    ]
    level = -1
    colour = {}
    for row, rooms in enumerate(rows):
        level += bool(names[row])
        y = TOP + row * STEP_Y
        out.append(f'<rect x="8" y="{y - 14}" width="{wide - 16}" height="{HIGH + 28}" rx="8" fill="{COLOURS[level % len(COLOURS)]}" fill-opacity="0.45"/>')
        out.append(f'<text x="18" y="{y + HIGH / 2 + 5:g}" font-size="14" fill="#444">{escaped(names[row])}</text>')
        colour.update({room: COLOURS[level % len(COLOURS)] for room in rooms})
    for user, used in links:
        out.append(f'<path d="{way(plan, user, used)}" fill="none" stroke="#555" stroke-width="1.2" marker-end="url(#tip)"/>')
    for room in crates:
        x, y = LEFT + plan.column[room] * STEP_X, TOP + plan.row[room] * STEP_Y
        out.append(f'<g><title>{escaped(room + ": " + crates[room].comment)}</title><rect x="{x}" y="{y}" width="{WIDE}" height="{HIGH}" rx="5" fill="{colour[room]}" stroke="#444"/>')
        out.append(f'<text x="{x + WIDE / 2:g}" y="{y + HIGH / 2 + 5:g}" font-size="14" text-anchor="middle">{escaped(room)}</text></g>')
    return "\n".join(out + ["</svg>", ""]), len(links)


def main():
    words, root, check = sys.argv[1:], sources.own_repository(), False
    while words:
        word = words.pop(0)
        if word == "--help":
            print(__doc__)
            return
        if word == "--check":
            check = True
        elif word == "--root" and words:
            root = pathlib.Path(words.pop(0))
        else:
            sys.exit("usage: tools/rooms.py [--check] [--root FOLDER]")
    try:
        text, links = drawn(root)
        path = root / PICTURE
        if not check:
            path.write_text(text, encoding="utf-8")
        elif not path.exists() or sources.read(path) != text:
            kept = {PICTURE: sources.read(path) if path.exists() else ""}
            raise Wrong("\n".join(sources.differences(kept, {PICTURE: text}, "tools/rooms.py")) + "\nrun tools/rooms.py")
    except (Wrong, OSError) as error:
        sys.exit(f"tools/rooms.py: {error}")
    print(f"{PICTURE}, arrows: {links}")


if __name__ == "__main__":
    main()
