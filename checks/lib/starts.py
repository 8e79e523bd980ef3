"""Compares what each start of the judge `starting` takes with what it has to take, to the byte: held, at most while it runs, and in all, so that what
is taken and given back is seen too. Given are what the judge wrote and what checks/counts.c told of each of its lines.

A store has its log, two batches and, for each slot or each record that it keeps, what a record takes; a disk has a transfer besides. A script of the
page gives back all."""

import collections
import sys

from standing import MOST_BLOCKS

# In bytes, by the format: what a store takes whatever its log, for each slot, for each record that it keeps, and what a disk takes besides.
FIXED, SLOT, KEPT, TRANSFER = {1: 51456, 2: 257280}, {1: 2312, 2: 5776}, {1: 26952, 2: 128720}, {kind: 512 * most for kind, most in MOST_BLOCKS.items()}
# What a script of the page takes at most, and in all: whatever its sizes, for each slot, and for each block.
PAGE = {1: ((188704, 105512, 2576), (189728, 131112, 4112)), 2: ((394528, 519712, 2576), (395552, 647200, 4112))}
# How many starts there are of each kind.
STARTS = {"store keeping": 4416, "page": 512, **dict.fromkeys(("store", "store ahead", "unit", "unit by", "disk", "disk with", "disk by"), 128)}

Counted = collections.namedtuple("Counted", "now most taken requests")


def wanted(line):
    """The kind of a start, and how many bytes it has to hold, to take at most, and to take in all. Before the format and the slots stand the number
    of records that are to be kept, or the policy and the number of blocks of the page."""
    *words, _, kind, slots = (int(it) if it.isdigit() else it for it in line.split(" "))
    numbers = [it for it in words if isinstance(it, int)]
    name = " ".join(it for it in words if isinstance(it, str))
    if name == "page":
        return name, (0, *(fixed + slot * slots + block * numbers[1] for fixed, slot, block in PAGE[kind]))
    records = KEPT[kind] * max(1, min(numbers[0], slots)) if numbers else SLOT[kind] * slots
    return name, (FIXED[kind] + records + TRANSFER[kind] * name.startswith("disk"),) * 3


def starts(lines, counts):
    """Each start with what it took: the lines before and behind it, and those of the next start, where what it held is given back."""
    for at, line in enumerate(lines):
        if at + 1 < len(lines) and lines[at + 1] == "started":
            before, behind = counts[at], counts[at + 1]
            yield line, Counted(behind.now - before.now, behind.most - before.now, behind.taken, behind.requests)


def main(told, counted):
    with open(told, encoding="utf-8") as file:
        lines = file.read().splitlines()
    with open(counted, encoding="utf-8") as file:
        counts = [Counted(*map(int, it.split())) for it in file]
    found, wrong = collections.Counter(), []
    for line, took in starts(lines, counts):
        name, sizes = wanted(line)
        found[name] += 1
        if took[:3] != sizes:
            wrong.append(f"{line} slots: {took.now} bytes, at most {took.most}, taken {took.taken}, not {', '.join(map(str, sizes))}")
    wrong += [f"{it}: {found[it]} starts, not {STARTS[it]}" for it in STARTS if found[it] != STARTS[it]]
    print("\n".join(wrong[:20]) or f"starts: {found.total()}, each of which takes what it has to, to the byte")
    return bool(wrong)


if __name__ == "__main__":
    sys.exit(main(*sys.argv[1:]))
