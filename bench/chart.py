#!/usr/bin/env python3
"""Draws the tables of bench/README.md as pictures: bars with what they are compared with, and the targets and limits.

  bench/chart.py               draws every picture from the tables of bench/README.md
  bench/chart.py --check       fails where a picture that stands here is another one than its numbers give
  bench/chart.py NAME <TABLES  prints one, packets, device or gadgets, from the tables that a program printed

`bench/run` draws `packets` of what it printed, and `bench/device/run` draws `device`. The standard library is all it needs."""

import os
import re
import sys
from html import escape

HERE = os.path.dirname(os.path.abspath(__file__))
WIDTH, LABELS, RIGHT, ROW, BAR = 1000, 420, 190, 25, 14

STYLE = """
  text { font: 13px system-ui, "Segoe UI", "DejaVu Sans", sans-serif; fill: #1f2933 }
  .title { font-size: 17px; font-weight: 600 } .head { font-weight: 600 } .small { font-size: 12px; fill: #52606d }
  .number { font-variant-numeric: tabular-nums } .paper { fill: #fbfaf7 } .axis { stroke: #cbd2d9 }
  .ours { fill: #1d6fa5 } .slow { fill: #8fb8d4 } .peer { fill: url(#peer) ; stroke: #7b6a4f } .stripe { stroke: #7b6a4f } .ground { fill: #efe6d5 }
  .target { stroke: #b3261e; stroke-width: 3 } .limit { stroke: #b3261e; stroke-dasharray: 5 4 } .red { fill: #b3261e }
  @media (prefers-color-scheme: dark) {
    text { fill: #e4e7eb } .small { fill: #a9b4c0 } .paper { fill: #14181d } .axis { stroke: #3e4c59 }
    .ours { fill: #57a9dd } .slow { fill: #33617f } .peer { stroke: #cdb98f } .stripe { stroke: #cdb98f } .ground { fill: #3a3325 }
    .target, .limit { stroke: #ff8a80 } .red { fill: #ff8a80 }
  }"""

MARKS = {"ours": "this disk", "slow": "this disk, a command for each sector", "peer": "what it is compared with", "target": "the target"}


def tables(text):
    """The tables of a text in Markdown: a list of the cells of each row, the header first."""
    found = []
    for line in [*text.split("\n"), ""]:
        if not line.startswith("|"):
            found.append([])
        elif not set(line) <= set("|- "):
            found[-1:] = [[*(found[-1] if found else []), [it.strip() for it in line.strip().strip("|").split("|")]]]
    return [it for it in found if it]


def table(text, *begin):
    """The rows of the first table whose header begins with these words."""
    for it in tables(text):
        if all(cell.startswith(word) for cell, word in zip(it[0], begin)):
            return it[1:]
    sys.exit(f"bench/chart.py: no table that begins with {' | '.join(begin)}")


def number(cell):
    return float(cell.replace(",", "")) if cell.strip() else None


def plain(cell):
    """A cell as a label: without backticks, and without the words that join it to its header."""
    return re.sub(r"^of (?:an?|the)? ?", "", cell.replace("`", ""))


class Bar:
    """A bar of a row: its mark, its length, and what stands behind it."""

    def __init__(self, mark, size, text=""):
        self.mark, self.size, self.text = mark, size, text


class Section:
    """Bars over one scale. A row is a label, its bars, and a target where there is one."""

    def __init__(self, head, rows, limit=None):
        self.head, self.rows, self.limit = head, rows, limit
        sizes = [it.size for _, bars, target in rows for it in [*bars, *([Bar("", target)] if target else [])]]
        self.most = max([*sizes, *([limit[0]] if limit else [])])

    def height(self):
        return 34 + sum(max(ROW, 8 + (BAR + 2) * len(bars)) for _, bars, _ in self.rows)

    def at(self, size):
        return LABELS + (WIDTH - LABELS - RIGHT) * size / self.most

    def drawn(self, top):
        yield f'<text class="head" x="16" y="{top + 18}">{escape(self.head)}</text>'
        y = top + 28
        for label, bars, target in self.rows:
            high = max(ROW, 8 + (BAR + 2) * len(bars))
            yield f'<text x="{LABELS - 10}" y="{y + high / 2 + 4.5:g}" text-anchor="end">{escape(label)}</text>'
            yield from self.bars(y + (high - (BAR + 2) * len(bars)) / 2, bars, target or 0)
            if target is not None:
                x = self.at(target)
                yield f'<path class="target" d="M{x:.1f} {y + 1:g}V{y + high - 1:g}"/>'
            y += high
        yield f'<path class="axis" d="M{LABELS} {top + 28}V{y}"/>'
        if self.limit:
            x = self.at(self.limit[0])
            yield f'<path class="limit" d="M{x:.1f} {top + 22}V{y}"/>'
            yield f'<text class="small red" x="{x:.1f}" y="{top + 17}" text-anchor="middle">{escape(self.limit[1])}</text>'

    def bars(self, y, bars, target):
        for it in bars:
            long = max(self.at(it.size) - LABELS, 1)
            behind = max(long, self.at(target) - LABELS)
            if self.limit and behind < self.at(self.limit[0]) - LABELS < behind + 40:
                behind = self.at(self.limit[0]) - LABELS
            yield f'<rect class="{it.mark}" x="{LABELS}" y="{y:g}" width="{long:.1f}" height="{BAR}" rx="2"/>'
            yield f'<text class="small number" x="{LABELS + behind + 8:.1f}" y="{y + 11.5:g}">{escape(it.text)}</text>'
            y += BAR + 2


def picture(title, told, names, sections):
    """A picture of these sections, with a legend of the marks that it has."""
    marks = [it for it in MARKS if any(it in (bar.mark, "target" * (target is not None)) for s in sections for _, bars, target in s.rows for bar in bars)]
    high = 66 + sum(it.height() + 10 for it in sections)
    lines = [
        f'<svg xmlns="http://www.w3.org/2000/svg" viewBox="0 0 {WIDTH} {high:g}" role="img" aria-labelledby="t d">',
        f'<title id="t">{escape(title)}</title><desc id="d">{escape(told)}</desc><style>{STYLE}\n</style>',
        '<pattern id="peer" width="6" height="6" patternUnits="userSpaceOnUse"><path class="ground" d="M0 0H6V6H0z"/>'
        '<path class="stripe" d="M0 6L6 0"/></pattern>',
        f'<rect class="paper" width="{WIDTH}" height="{high:g}" rx="8"/><text class="title" x="16" y="28">{escape(title)}</text>',
    ]
    x = 16
    for it in marks:
        drawn = f'<path class="target" d="M{x + 8} 38V54"/>' if it == "target" else f'<rect class="{it}" x="{x}" y="40" width="16" height="12" rx="2"/>'
        name = names.get(it, MARKS[it])
        lines.append(f'{drawn}<text class="small" x="{x + 22}" y="50.5">{escape(name)}</text>')
        x += 44 + 6.2 * len(name)
    top = 62
    for it in sections:
        lines += it.drawn(top)
        top += it.height() + 10
    return "\n".join([*lines, "</svg>", ""])


def over_copy(rows):
    """The rows of a table over a copy: bars, with the target and whether it was reached."""
    for what, _, times, target, how in rows:
        is_copy = what.startswith("a copy")
        yield plain(what), [Bar("peer" if is_copy else "ours", number(times), f"{times} {how}".strip())], number(target)


def packets(text):
    sections = []
    for form in "12":
        limit = "48" if form == "1" else "240"
        rows = table(text, f"A packet of 512 bytes, format {form}")
        sections.append(Section(f"A packet of 512 bytes, format {form}: times a copy of 512 bytes", [*over_copy(rows)]))
        rows = table(text, f"A block in a batch of {limit}")
        sections.append(Section(f"A block in a batch of {limit}, put and frozen: times a copy", [*over_copy(rows)]))
    told = "Bars of the instructions of a packet, in copies of 512 bytes, each with its target where there is one."
    return picture("What exchanges cost, in copies", told, {"peer": "a copy by the C library"}, sections)


def traffics(text):
    """The speed over a link, of each device, beside a plain disk."""
    rows = table(text, "Device", "Traffic")
    for name in dict.fromkeys(it[0] for it in rows):
        mine = [it for it in rows if it[0] == name]
        bars = [(plain(it[1]), [Bar(mark, number(cell), cell) for mark, cell in zip(("slow", "ours", "peer"), (it[4], it[2], it[5]))], None) for it in mine]
        yield Section(f"MB a second over a link of 35, while the device works: {name}", bars)


def device(text):
    sections = []
    rows = table(text, "Format", "Slots", "Workload")
    for form in "12":
        mine = [it for it in rows if it[:2] == [form, "6"]]
        bars = [
            (plain(it[2]), [Bar(mark, number(cell), cell) for mark, cell in zip(("slow", "ours", "peer"), it[3:6])], None) for it in mine
        ]
        sections.append(Section(f"MB a second, format {form}, 6 slots", bars, (40, "the device moves 40")))
    sections += traffics(text)
    rows = table(text, "A packet through the library for C", "Format", "Slots")
    bars = [
        (f"{plain(it[0]).partition(', its')[0]}, format {it[1]}, K {it[2]}", [Bar("ours", number(it[3]), f"{it[3]} {it[5]}")], number(it[4]))
        for it in rows
    ]
    sections.append(Section("Instructions of a packet through the library for C", bars))
    told = "Bars of the speed of each workload on a model of a device, beside a disk that writes through and promises nothing; then instructions."
    names = {"ours": "this disk, in runs of neighbours", "peer": "the floor: writes through, promises nothing"}
    return picture("What a device feels", told, names, sections)


def gadgets(text):
    rows = table(text, "", "Written, KiB/s")
    sections = []
    for head, at in (("Written", 1), ("Read", 5), ("Forced pages of 4 KiB", 9)):
        bars = []
        for it in rows:
            mark = "peer" if it[0].startswith("the kernel") else "ours"
            size, times, target, how = it[at : at + 4]
            bars.append((plain(it[0]), [Bar(mark, number(times), f"{times}, {size} KiB/s {how}".rstrip())], number(target)))
        sections.append(Section(f"{head}: times the kernel's", bars))
    told = "Bars of the speed of both gadgets over that of the kernel's own, with the targets."
    return picture("The gadgets beside the kernel's own", told, {"ours": "a gadget of ours", "peer": "the kernel's f_mass_storage"}, sections)


PICTURES = {"packets": packets, "device": device, "gadgets": gadgets}


def main(words):
    if words and words[0] in PICTURES:
        print(PICTURES[words[0]](sys.stdin.read()), end="")
        return 0
    with open(f"{HERE}/README.md", encoding="utf-8") as file:
        text = file.read()
    others = 0
    for name, drawn in PICTURES.items():
        path = f"{HERE}/{name}.svg"
        if words == ["--check"]:
            there = os.path.exists(path) and open(path, encoding="utf-8").read()
            if there != drawn(text):
                print(f"bench/{name}.svg is not what the tables of bench/README.md give: run bench/chart.py")
                others += 1
        else:
            with open(path, "w", encoding="utf-8") as file:
                file.write(drawn(text))
    return others


if __name__ == "__main__":
    sys.exit(main(sys.argv[1:]))
