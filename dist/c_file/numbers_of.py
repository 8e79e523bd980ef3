"""The module with each address in memory as the number that it is: read as a number, of which an address is made, and written as one. So no pass
moves other bytes by way of an address, which has four bytes in a register of 32 bits: what a place holds is not known to who copies it."""

import itertools
import re

import forms

PAIR = r"\{ \w+, \w+ \}"
# What reads, writes or holds an address, by itself or in a pair.
TOUCHES = re.compile(rf"  (?:%\S+ = load (?:ptr|{PAIR}), |store (?:ptr|{PAIR}) |%\S+ = alloca ptr, )")


class Numbers:
    """The lines in the place of one. Names of values that are new have an n before their number."""

    def __init__(self, names):
        self.made, self.names = [], names

    def new(self, text, to=None):
        to = to or f"%n{next(self.names)}"
        self.made.append(f"  {to} = {text}")
        return to

    def load(self, kind, at, align, to=None):
        if kind == "ptr":
            return self.new(f"inttoptr i64 {self.load('i64', at, align)} to ptr", to)
        return self.new(f"load {kind}, ptr {at}, align {align}", to)

    def store(self, kind, value, at, align):
        if kind == "ptr":
            kind, value = "i64", self.new(f"ptrtoint ptr {value} to i64")
        self.made.append(f"  store {kind} {value}, ptr {at}, align {align}")

    def touch(self, step):
        """A read or a write of one address, or of a pair by its parts."""
        p, kind, align = step.parts, step.parts["type"], int(step.parts["align"])
        pair = forms.pair_of(kind)
        places = [(kind, p.get("at"), align)]
        if pair:
            second = self.new(f"getelementptr i8, ptr {p['at']}, i64 {pair.second_at}")
            places = [(pair.first, p["at"], align), (pair.second, second, min(align, forms.BYTES_OF[pair.second]))]
        if step.kind == "load" and pair:
            one, two = (self.load(*it) for it in places)
            half = self.new(f"insertvalue {kind} poison, {pair.first} {one}, 0")
            self.new(f"insertvalue {kind} {half}, {pair.second} {two}, 1", p["to"])
        elif step.kind == "load":
            self.load(*places[0], p["to"])
        else:
            for n, (of, at, align) in enumerate(places):
                self.store(of, self.new(f"extractvalue {kind} {p['value']}, {n}") if pair else p["value"], at, align)


def numbered(text):
    """The text of the module."""
    names, made = itertools.count(), []
    for line in text.split("\n"):
        if TOUCHES.match(line):
            it, step = Numbers(names), forms.step_of(line)
            if step.kind == "alloca":
                it.made.append(line.replace("alloca ptr", "alloca i64"))
            else:
                it.touch(step)
            made += it.made
        else:
            made.append(line)
    return "\n".join(made)
