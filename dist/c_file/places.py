"""The blocks of a function, and where it has what lies on its stack: one array, in which places that are never alive together share bytes."""

import itertools
import re

import forms


class Blocks:
    """The blocks of a function by their labels, each behind those that it is behind on every way to it."""

    def __init__(self, function):
        self.steps, at = {}, None
        if function.body[0].kind != "label":
            at = self.steps[f"%{sum(it.name[1:].isdigit() for it in function.parameters)}"] = []
        for it in function.body:
            if it.kind == "label":
                at = self.steps[it.parts["to"]] = []
            else:
                at.append(it)
        self.after = {label: forms.labels_of(steps[-1]) for label, steps in self.steps.items()}
        self.order = self.ordered(next(iter(self.steps)))
        self.before = {label: [it for it in self.order if label in self.after[it]] for label in self.order}

    def ordered(self, first):
        """The labels that are ever reached, the last that is done with first (in reverse postorder)."""
        done, seen, way = [], {first}, [(first, iter(self.after[first]))]
        while way:
            for it in way[-1][1]:
                if it not in seen:
                    seen.add(it)
                    way.append((it, iter(self.after[it])))
                    break
            else:
                done.append(way.pop()[0])
        return done[::-1]


def size_of(step):
    """How many bytes a place has, and how it is aligned."""
    array = re.fullmatch(r"\[(\d+) x i8\]", step.parts["type"])
    size, align = int(array[1]) if array else bytes_of(step.parts["type"]), int(step.parts["align"])
    return (size, align) if align <= 8 else forms.refuse(step.text)


def bytes_of(kind):
    return 8 if kind == "ptr" else (int(kind[1:]) + 7) // 8


def walk(steps, alive):
    """What is alive behind each step of a block, of what is alive before it."""
    for it in steps:
        if it.kind == "lifetime":
            alive = alive | {it.parts["at"]} if it.parts["what"] == "start" else alive - {it.parts["at"]}
        yield alive


def alive_before(blocks, always):
    """What may be alive where each block begins."""
    ends, found = {label: frozenset() for label in blocks.order}, None
    while found != ends:
        found, begins = dict(ends), {}
        for label in blocks.order:
            begins[label] = always.union(*(ends[it] for it in blocks.before[label]))
            ends[label] = ([begins[label], *walk(blocks.steps[label], begins[label])])[-1]
    return begins


def places_of(blocks):
    """The distance of each place in the array, and how many bytes that has."""
    first, *others = ([it for it in blocks.steps[label] if it.kind == "alloca"] for label in blocks.order)
    for it in (it for steps in others for it in steps):
        forms.refuse(it.text)
    steps = [it for label in blocks.order for it in blocks.steps[label]]
    sizes = {it.parts["to"]: size_of(it) for it in first}
    marked = {it.parts["at"] for it in steps if it.kind == "lifetime"}
    begins = alive_before(blocks, frozenset(set(sizes) - marked))
    together = set()
    for label in blocks.order:
        for alive in {begins[label], *walk(blocks.steps[label], begins[label])}:
            together.update(itertools.permutations(alive, 2))
    placed = {}
    for name in sorted(sizes, key=lambda it: -sizes[it][0]):
        size, align = sizes[name]
        held = sorted((placed[it], placed[it] + sizes[it][0]) for it in placed if (name, it) in together)
        at = 0
        for begin, end in held:
            if at + size <= begin:
                break
            at = max(at, -(-end // align) * align)
        placed[name] = at
    return placed, max((placed[it] + sizes[it][0] for it in placed), default=0)
