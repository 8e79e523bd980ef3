"""Every order of a tiny disk on which a packet may be pending: what a host sends, when its device begins and ends a call or refuses it, class resets,
and cuts into the next life, breadth first. The disks of the definitions that may be meant are followed beside it: where none is left, the way there is
found wrong."""

import collections
import typing

from lib.model.lag_disk import Disk, Machine, fresh, images, recovered, started
from lib.model.lag_rules import NAK, Command, Judge, first

# What a host may do: how many blocks there are, the commands that it sends and how many, class resets, refusals and cuts.
World = collections.namedtuple("World", "blocks kinds commands resets refusals cuts")
Result = collections.namedtuple("Result", "states longest wrong")
KINDS = ("WRITE", "FORCED", "SYNC", "CACHE_OFF", "READ", "SENSE")
# The worlds that are tried, and how many states each has.
WORLDS = {
    "kinds": (World(2, KINDS, 2, 1, 1, 0), 11795),
    "three": (World(1, KINDS, 3, 1, 1, 0), 27512),
    "reads": (World(2, ("WRITE", "READ"), 3, 1, 0, 0), 12130),
    "room": (World(1, ("WRITE", "READ"), 5, 1, 0, 0), 22115),
    "halts": (World(1, ("WRITE", "SYNC_IN", "SENSE"), 3, 1, 1, 0), 7803),
    "cuts": (World(2, ("WRITE", "SYNC", "READ"), 3, 0, 0, 1), 10707),
}
MORE_WORLDS = {
    "all of three": (World(2, KINDS, 3, 1, 1, 0), 111027),
    "four": (World(1, KINDS, 4, 1, 1, 0), 122036),
    "all with cuts": (World(2, KINDS, 2, 1, 1, 1), 26525),
}


class Left(typing.NamedTuple):
    """How many events of each kind may still come, and how many WRITEs there were."""

    commands: int
    resets: int
    refusals: int
    cuts: int
    writes: int = 0


class State(typing.NamedTuple):
    disk: Disk
    meant: frozenset
    left: Left


class EveryLag:
    """A world, and the fault that is planted in the disk."""

    def __init__(self, world, fault=""):
        self.world, self.machine, self.fault = world, Machine(fault), fault

    def first(self):
        world = self.world
        left = Left(world.commands, world.resets, world.refusals, world.cuts)
        return State(fresh(world.blocks), frozenset([first((0,) * world.blocks)]), left)

    def moves(self, state):
        """Each next state, with a name."""
        for part in (self.packets, self.tokens, self.requests, self.resets, self.calls, self.ends, self.refusals, self.background, self.cut):
            yield from part(state)

    # The host.

    def commands(self, state):
        for kind in self.world.kinds if state.left.commands else ():
            if kind in ("WRITE", "FORCED"):
                value = state.left.writes + 1
                yield from (Command(kind, block, value) for block in range(self.world.blocks))
            else:
                yield Command(kind)

    def packets(self, state):
        for command in self.commands(state):
            answer, disk = self.machine.packet(state.disk, command)
            if answer == NAK and (state.disk.answer is not None or all(it.pending for it in state.meant)):
                continue
            writes = state.left.writes + (command.value is not None)
            left = state.left._replace(commands=state.left.commands - 1, writes=writes)
            yield f"{command.kind} {'' if command.block is None else command.block}: {answer}", State(
                disk, Judge.packet(state.meant, command, answer), left
            )

    def tokens(self, state):
        answer, disk = self.machine.token(state.disk)
        meant = Judge.token(state.meant, answer)
        if meant != state.meant or disk != state.disk:
            yield f"token: {answer}", State(disk, meant, state.left)

    def requests(self, state):
        """GET_STATUS of the endpoint, and CLEAR_FEATURE where it is halted."""
        meant = Judge.status(state.meant, state.disk.is_halted) if "SYNC_IN" in self.world.kinds else state.meant
        if meant != state.meant:
            yield f"halted: {state.disk.is_halted}", state._replace(meant=meant)
        if state.disk.is_halted:
            yield "clears the halt", state._replace(disk=state.disk._replace(is_halted=False), meant=Judge.clear(state.meant))

    def resets(self, state):
        if state.left.resets:
            left = state.left._replace(resets=state.left.resets - 1)
            yield "reset", State(self.machine.reset(state.disk), Judge.reset(state.meant), left)

    # The device.

    def calls(self, state):
        for call in self.machine.calls(state.disk):
            yield f"begins {call}", state._replace(disk=self.machine.begin(state.disk, call))

    def ends(self, state):
        if state.disk.call:
            disk = self.machine.end(state.disk)
            yield f"ends {state.disk.call[0]}", state._replace(disk=disk)

    def refusals(self, state):
        if state.disk.call and state.left.refusals:
            meant = Judge.unread(state.meant) if state.disk.call[0] == "read" else Judge.refused(state.meant)
            left = state.left._replace(refusals=state.left.refusals - 1)
            for disk in self.machine.refuse(state.disk):
                yield f"refuses {state.disk.call[0]}", State(disk, meant, left)

    def background(self, state):
        """The record of the batch begins; or nothing is left to do, and no command may be pending."""
        disk = self.machine.gone_on(self.machine.begun(state.disk)) if not state.disk.is_dead else state.disk
        if disk != state.disk:
            yield "begins a record", state._replace(disk=disk)
        elif self.machine.may_rest(state.disk):
            meant = Judge.rested(state.meant)
            if meant != state.meant:
                yield "rests", state._replace(meant=meant)

    def cut(self, state):
        for image in images(state.disk) if state.left.cuts else ():
            left = state.left._replace(cuts=state.left.cuts - 1)
            yield "cut", State(started(image, self.fault), frozenset([first(recovered(image))]), left)

    # All of them.

    def is_good(self, state, known):
        """Whether a disk is left that may be meant, and each image that a cut may leave is one of it."""
        if not state.meant:
            return False
        key = (state.disk.durable, state.disk.others, state.meant)
        if key not in known:
            known[key] = all(Judge.may_leave(state.meant, recovered(it)) for it in images(state.disk))
        return known[key]

    def tried(self):
        """Goes every way, the shortest ones first."""
        seen, known, level, longest = {self.first(): None}, {}, [self.first()], -1
        while level:
            longest, following = longest + 1, []
            for state in level:
                for name, to in self.moves(state):
                    if to in seen:
                        continue
                    seen[to] = state, name
                    if not self.is_good(to, known):
                        return Result(len(seen), longest, self.way(seen, to))
                    following.append(to)
            level = following
        return Result(len(seen), longest, None)

    @staticmethod
    def way(seen, state):
        names = []
        while seen[state]:
            state, name = seen[state]
            names.append(name)
        return "; ".join(reversed(names))
