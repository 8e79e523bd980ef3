"""Every order: all interleavings of WRITEs, of batches and of calls that the rules allow, on a tiny store, breadth first, up to a number of WRITEs
and of cuts. Each promise counts as told at the first moment at which it may be. Calls are of single sectors: a run in flight leaves what its single
writes leave that are not flushed."""

import collections
import itertools
import typing

from lib.model.image import Sizes, recover, sectors_of
from lib.model.log import AWAY, HOME, WRITTEN

# The most blocks of a batch.
MOST = 2
Record = collections.namedtuple("Record", "stamp items where")
Under = collections.namedtuple("Under", "stamp items left unflushed")
# How many of the accepted WRITEs are in the durable records, in the frozen batch and before, and in the active one and before.
Marks = collections.namedtuple("Marks", "durable frozen active")
# The head with which a life began, the WRITEs before it, and the cuts so far.
Life = collections.namedtuple("Life", "head writes cuts")
# What was found: the states, the sets of images, the longest way, and the shortest way to a wrong image, or None.
Result = collections.namedtuple("Result", "states sets longest wrong")


class State(typing.NamedTuple):
    """The device's sectors: what stays, what else a cut may leave, what a read gives; then the store."""

    durable: tuple
    others: tuple
    contents: tuple
    head: int
    passed: int
    ring: tuple
    under: typing.Optional[Under]
    active: tuple
    frozen: tuple
    # The blocks after each accepted WRITE, from the promised ones on, and the number of WRITEs.
    arrays: tuple
    writes: int
    marks: Marks
    life: Life


def changed(row, at, value):
    return row[:at] + (value,) + row[at + 1 :]


class Tiny:
    """A tiny store of these sizes, so many WRITEs and cuts, and the rule that is left out."""

    def __init__(self, sizes, writes, cuts=0, without=""):
        self.sizes, self.writes, self.cuts, self.without = Sizes(*sizes), writes, cuts, without
        parts = (("descriptor", 0), *(("data", it) for it in range(MOST)), ("commit", 0))
        homes = [("home", it) for it in range(self.sizes.blocks)]
        self.places = ["head", *((slot, *part) for slot in range(self.sizes.slots) for part in parts), *homes]
        self.at = {place: number for number, place in enumerate(self.places)}
        self.known = {}

    def first(self):
        """Behind a start of a fresh image."""
        zeros = ((0, 0),) * self.sizes.blocks
        row = (2, *(None,) * (len(self.places) - 1 - self.sizes.blocks), *zeros)
        return State(row, ((),) * len(row), row, 2, 0, (), None, (), (), (zeros,), 0, Marks(0, 0, 0), Life(2, 0, 0))

    # What a cut may leave.

    def images(self, state):
        places = [it for it, others in enumerate(state.others) if others]
        for values in itertools.product(*((state.durable[it], *state.others[it]) for it in places)):
            row = list(state.durable)
            for at, value in zip(places, values):
                row[at] = value
            yield row

    def found(self, row):
        return recover(self.sizes, {place: value for place, value in zip(self.places, row) if value is not None})

    def is_good(self, state):
        """Whether each image has the blocks after some accepted WRITE, not before the last one that was promised, and no stamp beyond."""
        key = (state.durable, state.others, state.arrays, state.writes, state.life[:2])
        if key not in self.known:
            most = state.life.head + state.writes - state.life.writes + 1
            every = map(self.found, self.images(state))
            self.known[key] = all(it.array in state.arrays and it.is_ours and it.following <= most for it in every)
        return self.known[key]

    def cut(self, state):
        """Each image that a cut leaves, recovered: the next life."""
        for row in self.images(state) if state.life.cuts < self.cuts else ():
            found = self.found(row)
            row[0] = found.following - (self.without == "recovery")
            for block, value in enumerate(found.array):
                row[self.at["home", block]] = value
            life = Life(row[0], state.writes, state.life.cuts + 1)
            nothing, row = ((),) * len(row), tuple(row)
            yield "cut", State(row, nothing, row, row[0], 0, (), None, (), (), (found.array,), state.writes, Marks(*[state.writes] * 3), life)

    # What may come next.

    def moves(self, state):
        """Each next state, with a name."""
        for part in (self.accept, self.freeze, self.begin, self.write_log, self.flush, self.bring_home, self.write_head, self.cut):
            yield from part(state)

    def write(self, state, place, value, **more):
        """A sector is written, and not flushed."""
        at = self.at[place]
        others = state.others[at]
        if value != state.durable[at] and value not in others:
            others += (value,)
        return state._replace(others=changed(state.others, at, others), contents=changed(state.contents, at, value), **more)

    def accept(self, state):
        for block in range(self.sizes.blocks) if state.writes < self.writes else ():
            batch = {**dict(state.active), block: state.writes + 1}
            if len(batch) <= MOST:
                array = changed(state.arrays[-1], block, (state.writes + 1,) * 2)
                marks = state.marks._replace(active=state.writes + 1)
                more = {"arrays": (*state.arrays, array), "writes": state.writes + 1, "marks": marks}
                yield f"WRITE of {block}", state._replace(active=tuple(sorted(batch.items())), **more)

    def freeze(self, state):
        if state.active and not state.frozen:
            marks = state.marks._replace(frozen=state.marks.active)
            yield "freeze", state._replace(active=(), frozen=state.active, marks=marks)

    def free(self, state):
        passed = 0 if self.without == "slot" else state.passed
        return self.sizes.slots - len(state.ring) - passed - (state.under is not None)

    def begin(self, state):
        """The frozen batch begins. (wrong) The active one, where the record before is written and not flushed."""
        stamp = state.head + state.passed + len(state.ring) + (state.under is not None)
        if self.free(state) < 1:
            return
        if state.frozen and state.under is None:
            yield "begin", state._replace(under=self.record(stamp, state.frozen))
        if self.without == "record" and state.under and not state.under.left and state.active:
            marks = state.marks._replace(frozen=state.marks.active)
            ring = (*state.ring, self.home_of(state.under))
            yield "begin the next", state._replace(under=self.record(stamp, state.active), ring=ring, active=(), marks=marks)

    def record(self, stamp, items):
        places = tuple(place for place, _ in sectors_of(self.sizes, stamp, items))
        return Under(stamp, items, places, places)

    def home_of(self, under):
        return Record(under.stamp, under.items, (AWAY,) * len(under.items))

    def write_log(self, state):
        under = state.under
        sectors = dict(sectors_of(self.sizes, under.stamp, under.items)) if under else {}
        for place in under.left if under else ():
            waits = self.sizes.format == 1 and place[1] == "commit" and len(under.unflushed) > 1
            if not waits or self.without == "commit":
                left = tuple(it for it in under.left if it != place)
                told = self.promised(state) if self.without == "promise" and not left else {}
                yield f"{place[1]} of {under.stamp}", self.write(state, place, sectors[place], under=under._replace(left=left), **told)

    def promised(self, state):
        """The WRITEs of the frozen batch are promised."""
        marks = state.marks
        return {"arrays": state.arrays[marks.frozen - marks.durable :], "marks": marks._replace(durable=marks.frozen)}

    def flush(self, state):
        is_idle = not any(state.others) and not state.passed and state.under is None
        if is_idle and not any(WRITTEN in it.where for it in state.ring):
            return
        ring = tuple(it._replace(where=tuple(HOME if at == WRITTEN else at for at in it.where)) for it in state.ring)
        under, more = state.under, {}
        if under and not under.left:
            ring, more, under = (*ring, self.home_of(under)), {**self.promised(state), "frozen": ()}, None
        elif under:
            under = under._replace(unflushed=under.left)
        device = {"durable": state.contents, "others": ((),) * len(state.others)}
        yield "flush", state._replace(head=state.head + state.passed, passed=0, ring=ring, under=under, **device, **more)

    def bring_home(self, state):
        for number, record in enumerate(state.ring):
            older = {block for it in state.ring[:number] for (block, _), at in zip(it.items, it.where) if at == AWAY}
            for place, (block, value) in enumerate(record.items):
                if record.where[place] == AWAY and (block not in older or self.without == "order"):
                    ring = changed(state.ring, number, record._replace(where=changed(record.where, place, WRITTEN)))
                    yield f"{block} of {record.stamp} home", self.write(state, ("home", block), (value, value), ring=ring)
        under = state.under
        for block, value in under.items if under and not under.left and self.without == "home" else ():
            yield f"{block} of {under.stamp} home, not durable", self.write(state, ("home", block), (value, value))

    def write_head(self, state):
        passes = {HOME, WRITTEN} if self.without == "head" else {HOME}
        for count in range(1, len(state.ring) + 1):
            if all(passes.issuperset(it.where) for it in state.ring[:count]):
                head = state.head + state.passed + count
                yield f"head {head}", self.write(state, "head", head, passed=state.passed + count, ring=state.ring[count:])

    # All of them.

    def tried(self):
        """Goes every way, the shortest ones first."""
        seen, level, longest = {self.first(): None}, [self.first()], -1
        while level:
            longest, following = longest + 1, []
            for state in level:
                for name, to in self.moves(state):
                    if to in seen:
                        continue
                    seen[to] = state, name
                    if not self.is_good(to):
                        return Result(len(seen), len(self.known), longest, self.way(seen, to))
                    following.append(to)
            level = following
        return Result(len(seen), len(self.known), longest, None)

    def way(self, seen, state):
        """The moves that lead to a state."""
        names = []
        while seen[state]:
            state, name = seen[state]
            names.append(name)
        return ", ".join(reversed(names))
