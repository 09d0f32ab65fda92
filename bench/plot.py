#!/usr/bin/env python3
"""Host code, not proved: draws the benchmark's plots from what bench/run.sh measured: how the cost of a registration grows
with V, and with the count of places waited on. Both axes are logarithmic.

    plot.py TIMES FOLDER        writes FOLDER/growth.svg and FOLDER/waiting.svg
"""

import math
import sys

from report import SIDES, marginal, times

LABELS = {"published": "Rust, published", "ordered": "Rust, ordered", "ours": "ours", "ascending": "ascending"}
COLOURS = {"published": "#b3541e", "ordered": "#d9a441", "ours": "#1f6f8b", "ascending": "#4a8f3c"}
WIDTH, HEIGHT, LEFT, RIGHT, TOP, BOTTOM = 720, 400, 95, 205, 40, 55


class Axis:
    """A logarithmic axis from the least to the greatest of the values, widened to whole powers."""

    def __init__(self, values, start, end, base):
        self.base = base
        self.low = math.floor(math.log(min(values), base))
        self.high = max(math.ceil(math.log(max(values), base)), self.low + 1)
        self.start, self.end = start, end

    def at(self, value):
        share = (math.log(value, self.base) - self.low) / (self.high - self.low)
        return self.start + share * (self.end - self.start)

    def ticks(self):
        step = max(1, (self.high - self.low) // 8)
        return [self.base ** i for i in range(self.low, self.high + 1, step)]


def text(x, y, words, anchor="middle", size=12):
    return f'<text x="{x:.1f}" y="{y:.1f}" text-anchor="{anchor}" font-size="{size}">{words}</text>'


def plot(path, title, below, beside, lines, base):
    """Writes a plot of lines {label: (colour, dashes, [(x, y)])}."""
    points = [point for _, _, line in lines.values() for point in line]
    if not points:
        return
    x = Axis([p[0] for p in points], LEFT, WIDTH - RIGHT, base)
    y = Axis([p[1] for p in points], HEIGHT - BOTTOM, TOP, 10)
    parts = [
        f'<svg xmlns="http://www.w3.org/2000/svg" viewBox="0 0 {WIDTH} {HEIGHT}" font-family="sans-serif">',
        f'<rect width="{WIDTH}" height="{HEIGHT}" fill="white"/>',
        text((LEFT + WIDTH - RIGHT) / 2, 22, title, size=14),
        text((LEFT + WIDTH - RIGHT) / 2, HEIGHT - 12, below),
        f'<g transform="translate(16,{(TOP + HEIGHT - BOTTOM) / 2:.0f}) rotate(-90)">{text(0, 0, beside)}</g>',
    ]
    for value in x.ticks():
        words = f"{value:,}" if base == 10 else f"2^{round(math.log2(value))}"
        parts.append(f'<path d="M{x.at(value):.1f} {TOP}V{HEIGHT - BOTTOM}" stroke="#ddd"/>')
        parts.append(text(x.at(value), HEIGHT - BOTTOM + 18, words))
    for value in y.ticks():
        parts.append(f'<path d="M{LEFT} {y.at(value):.1f}H{WIDTH - RIGHT}" stroke="#ddd"/>')
        parts.append(text(LEFT - 6, y.at(value) + 4, f"{value:,}", anchor="end"))
    for i, (label, (colour, dashes, line)) in enumerate(lines.items()):
        drawn = " ".join(f"{x.at(a):.1f},{y.at(b):.1f}" for a, b in line)
        parts.append(
            f'<polyline points="{drawn}" fill="none" stroke="{colour}" stroke-width="2" stroke-dasharray="{dashes}"/>')
        parts += [f'<circle cx="{x.at(a):.1f}" cy="{y.at(b):.1f}" r="3" fill="{colour}"/>' for a, b in line]
        row = TOP + 14 + 20 * i
        parts.append(
            f'<path d="M{WIDTH - RIGHT + 10} {row - 4}h22" stroke="{colour}" stroke-width="2" stroke-dasharray="{dashes}"/>')
        parts.append(text(WIDTH - RIGHT + 36, row, label, anchor="start", size=11))
    parts.append("</svg>\n")
    with open(path, "w", encoding="utf-8") as file:
        file.write("\n".join(parts))
    print(f"bench/plot.py: wrote {path}")


def growth(cases):
    """Nanoseconds a registration over V, of forward and Poseidon-like circuits at P = 1,024."""
    lines = {}
    for name, dashes in (("forward", "none"), ("poseidon", "6 4")):
        for side in SIDES:
            points = [
                (f[side]["v"], f[side]["run"] / f[side]["registrations"])
                for (n, p, _, _), f in cases.items() if n == name and p == 1024 and side in f
            ]
            if points:
                lines[f"{LABELS[side]}, {name}"] = (COLOURS[side], dashes, sorted(points))
    return lines


def waiting(cases):
    """Nanoseconds to place one registration, over the count of those that wait meanwhile."""
    lines = {}
    for side in SIDES:
        points = []
        for (name, p, size, k), sides in cases.items():
            base = cases.get((name, p, 0, k))
            cost = marginal(sides, base, side, size) if name == "delayed" and size and base else None
            if cost is not None:
                points.append((k, cost))
        if points:
            lines[LABELS[side]] = (COLOURS[side], "none", sorted(points))
    return lines


def main():
    cases, folder = times(sys.argv[1]), sys.argv[2]
    plot(f"{folder}/growth.svg", "Cost of a registration as V grows (P = 1,024)", "V, places",
         "nanoseconds a registration", growth(cases), 2)
    plot(f"{folder}/waiting.svg", "Cost of placing one registration while others wait (P = 1,024)",
         "registrations waiting, each under a place of its own", "nanoseconds", waiting(cases), 10)


if __name__ == "__main__":
    main()
