"""What is known of the alignment of each place that the module moves memory from or to: its moves tell none, and a processor that reads no word at
any address would move byte by byte.

A place is a base and a distance from it. What the base is aligned to is known of an alloca; of a parameter of an inner function, as the least that
any of its callers hands over; and of what a function reads or writes by a larger alignment in its first block, which each call of it runs through."""

import collections

import forms

MOST = 16
ROWS = {it.kind: it for it in forms.FORMS}


class Places:
    """The places of a function."""

    def __init__(self, function):
        self.function, self.steps = function, [it for it in function.body if it.kind != "label"]
        self.made = {it.parts["to"]: it for it in self.steps if it.parts.get("to")}
        self.held = self.held_once()
        self.base = {}
        self.told = collections.defaultdict(lambda: 1)
        for step in first_block(function):
            if step.kind in ("load", "store"):
                base, distance = self.place(step.parts["at"])
                if distance % int(step.parts["align"]) == 0:
                    self.told[base] = max(self.told[base], int(step.parts["align"]))

    def held_once(self):
        """The variables for an address that are written once, and otherwise read alone: each with what it holds."""
        found = {name: [] for name, it in self.made.items() if it.kind == "alloca" and it.parts["type"] == "ptr"}
        for step in self.steps:
            at = step.parts.get("at") if step.kind in ("load", "store") and step.parts["type"] == "ptr" else None
            for _, value in forms.used_by(step, ROWS):
                if value in found and (value != at or step.parts.get("value") == value):
                    del found[value]
            if step.kind == "store" and at in found:
                found[at].append(step.parts["value"])
        return {name: values[0] for name, values in found.items() if len(values) == 1}

    def place(self, value):
        """The base of an address, and its distance from there."""
        if value not in self.base:
            step, self.base[value] = self.made.get(value), (value, 0)
            if step and step.kind == "getelementptr" and not step.parts["distance"].startswith("%"):
                base, distance = self.place(step.parts["at"])
                self.base[value] = base, distance + int(step.parts["distance"])
            elif step and step.kind == "load" and step.parts["at"] in self.held:
                self.base[value] = self.place(self.held[step.parts["at"]])
        return self.base[value]


def first_block(function):
    """The instructions up to the first branch."""
    for step in function.body:
        if step.kind != "label":
            yield step
        if forms.labels_of(step):
            return


class Alignments:
    """What is known in a module, by the names of its functions and values."""

    def __init__(self, module):
        self.module, self.places = module, {name: Places(it) for name, it in module.functions.items()}
        # (what no caller hands over is as good as all)
        self.given = {(name, it.name): MOST if function.is_inner else 1 for name, function in module.functions.items() for it in function.parameters}
        while self.lower():
            pass

    def of(self, name, value):
        """The alignment of an address in a function."""
        places = self.places[name]
        base, distance = places.place(value)
        step = places.made.get(base)
        known = int(step.parts["align"]) if step and step.kind == "alloca" else self.given.get((name, base), 1)
        if base in self.module.statics:
            known = self.module.statics[base].align
        known = max(known, places.told[base])
        return min(known, distance & -distance) if distance else known

    def lower(self):
        """Takes from each parameter what a caller does not hand over. Returns whether that was anything."""
        is_lower = False
        for name, places in self.places.items():
            for step in places.steps:
                to = self.module.functions.get(step.parts["name"]) if step.kind == "call" else None
                for parameter, (kind, value) in zip(to.parameters if to else (), forms.arguments_of(step) if to else ()):
                    known = self.of(name, value) if kind == "ptr" else MOST
                    if known < self.given[to.name, parameter.name]:
                        self.given[to.name, parameter.name], is_lower = known, True
        return is_lower
