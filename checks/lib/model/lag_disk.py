"""A tiny disk that carries one command out in steps: a packet is acknowledged and pending until its command is done. Below it lies a log of one slot
on a device with a cache, which carries out one call at a time. Each fault that can be planted in it has a name."""

import itertools
import typing

from lib.model.lag_rules import ACK, INTERNAL, NAK, READ_ERROR, STALL, WRITE_ERROR, Command

# What goes wrong where a fault is planted, by its name, and the world of lag_every.py in which it has to be found.
FAULTS = {
    "early status": ("kinds", "a status is laid out when its record is written, before the flush"),
    "wrong call": ("cuts", "any flush that is told done completes the command that waits for its own"),
    "refused is done": ("kinds", "a flush that was refused counts as done"),
    "pending stays": ("kinds", "a class reset forgets to drop the pending command: the endpoint stays busy, and its answer comes"),
    "write stays": ("room", "a class reset forgets the WRITE that waits for room, which is taken later"),
    "promise stays": ("kinds", "answers of later commands wait for a promise that a class reset dropped"),
    "blind read": ("kinds", "a READ does not see the writes that wait in the batches"),
    "home under READ": ("cuts", "a READ misses a block that came home after its sector was read, as its record is let go"),
    "late read": ("reads", "what a read brings that was in flight at a reset goes to the next READ"),
    "taken back": ("kinds", "a refused call turns a good status that is laid out into a failed one"),
    "cache off": ("three", "a MODE SELECT that failed has turned the write cache off"),
    "early halt": ("halts", "an endpoint is halted before its command is done, and answers NAK until it is"),
    "comes again": ("kinds", "a packet that asks its device for something has to come again until that is done"),
    "no recovery": ("cuts", "a start looks at the blocks at home, and not at the record in the log"),
}
AWAY, WRITTEN, HOME = "away", "written", "home"
SLOT, HEAD, BLOCKS = 0, 1, 2


class Pending(typing.NamedTuple):
    """A command that is not done: whether its write is in the batch, and the blocks that a READ was shown."""

    command: Command
    is_put: bool = False
    shown: tuple = ()


class Disk(typing.NamedTuple):
    """The device: what stays, what else a cut may leave, what a read gives, and the call in flight; then the store, the unit and the transport."""

    durable: tuple
    others: tuple
    contents: tuple
    call: typing.Optional[tuple]
    # The record under way, and whether it is written; the durable one, with where each block is; whether the head past it is written.
    under: typing.Optional[tuple] = None
    is_written: bool = False
    record: typing.Optional[tuple] = None
    where: tuple = ()
    is_passed: bool = False
    stamp: int = 1
    batch: tuple = ()
    is_cached: bool = True
    is_dead: bool = False
    answer: typing.Optional[tuple] = None
    pending: typing.Optional[Pending] = None
    is_halted: bool = False
    # (wrong) A write, or a promise, that a reset dropped.
    dropped: typing.Optional[Command] = None
    is_late: bool = False


def fresh(blocks):
    return started((None, 0, *(0,) * blocks))


def recovered(image):
    """The blocks that a recovery finds."""
    found = list(image[BLOCKS:])
    if image[SLOT] and image[SLOT][0] > image[HEAD]:
        for block, value in image[SLOT][1]:
            found[block] = value
    return tuple(found)


def started(image, fault=""):
    """A disk on an image that a cut left. Its recovery has written the blocks home, and the head past the record."""
    top = max(image[HEAD], image[SLOT][0] if image[SLOT] else 0)
    home = image[BLOCKS:] if fault == "no recovery" else recovered(image)
    row = (image[SLOT], top, *home)
    return Disk(row, ((),) * len(row), row, None, stamp=top + 1)


def images(disk):
    """Each image that a cut may leave."""
    return itertools.product(*((kept, *others) for kept, others in zip(disk.durable, disk.others)))


def changed(row, at, value):
    return row[:at] + (value,) + row[at + 1 :]


class Machine:
    """What such a disk does, with a fault or none."""

    def __init__(self, fault=""):
        self.fault = fault

    # The host's events. Each gives the answer and the disk behind it.

    def packet(self, disk, command):
        if disk.answer is not None or disk.pending:
            return NAK, disk
        if self.fault == "comes again" and command.kind == "SYNC" and (disk.batch or disk.under) and not disk.is_dead:
            return NAK, self.begun(disk)
        is_early = self.fault == "early halt" and command.kind == "SYNC_IN"
        return ACK, self.gone_on(disk._replace(pending=Pending(command), is_halted=disk.is_halted or is_early))

    def token(self, disk):
        waits = disk.pending is not None and self.fault == "early halt"
        if disk.is_halted and not waits:
            return STALL, disk
        if disk.answer is None or disk.is_late:
            return NAK, disk
        return disk.answer, disk._replace(answer=None)

    def reset(self, disk):
        pending, disk = disk.pending, disk._replace(answer=None)
        if self.fault == "pending stays":
            return disk
        if pending and self.fault == "write stays" and pending.command.kind in ("WRITE", "FORCED") and not pending.is_put:
            disk = disk._replace(dropped=pending.command)
        if pending and self.fault == "promise stays" and not disk.is_dead:
            disk = disk._replace(is_late=self.owes(disk))
        call = disk.call
        if call and call[0] == "read" and self.fault != "late read":
            call = ("read", None)
        return disk._replace(pending=None, call=call)

    # A command goes on until it is done, or wants its device.

    def gone_on(self, disk):
        disk = disk._replace(is_late=disk.is_late and self.owes(disk))
        if disk.dropped and self.has_room(disk):
            disk = self.put(disk, disk.dropped)._replace(dropped=None)
        if not disk.pending:
            return disk
        command = disk.pending.command
        if command.kind == "SENSE":
            return self.done(disk, ("good", disk.is_cached))
        if disk.is_dead:
            return self.done(disk, INTERNAL)
        if command.kind == "READ":
            return self.read_on(disk)
        if command.kind in ("WRITE", "FORCED") and not disk.pending.is_put:
            if not self.has_room(disk):
                return disk
            disk = self.put(disk, command)
            disk = disk._replace(pending=disk.pending._replace(is_put=True))
        is_promise = command.kind in ("FORCED", "SYNC", "SYNC_IN") or disk.is_cached == (command.kind == "CACHE_OFF")
        if is_promise and self.owes(disk):
            return disk
        return self.done(disk._replace(is_cached=disk.is_cached and command.kind != "CACHE_OFF"), ("good", None))

    def read_on(self, disk):
        shown = disk.pending.shown
        if len(shown) < len(disk.durable) - BLOCKS:
            return disk
        found = dict(enumerate(shown))
        for items in (disk.record, disk.under) if self.fault != "blind read" else (disk.record,):
            found.update(items[1] if items else ())
        found.update(disk.batch if self.fault != "blind read" else ())
        return self.done(disk, ("good", tuple(found[it] for it in sorted(found))))

    def done(self, disk, answer):
        is_halted = disk.is_halted or disk.pending.command.kind == "SYNC_IN"
        return disk._replace(answer=answer, pending=None, is_halted=is_halted)

    def owes(self, disk):
        """Whether something that was accepted is not durable."""
        is_early = self.fault == "early status" and disk.is_written
        return bool(disk.batch) or disk.under is not None and not is_early

    def has_room(self, disk):
        return not disk.batch or disk.under is None and disk.record is None

    def put(self, disk, command):
        """A WRITE goes into the batch, behind what was there, which is begun."""
        disk = self.begun(disk) if disk.batch else disk
        return disk._replace(batch=((command.block, command.value),))

    def begun(self, disk):
        """The record of the batch is under way, where there is a slot."""
        if not disk.batch or disk.under or disk.record:
            return disk
        return disk._replace(under=(disk.stamp, disk.batch), batch=(), stamp=disk.stamp + 1, is_written=False)

    # The device's calls.

    def calls(self, disk):
        """Each call that may be asked for next."""
        if disk.call or disk.is_dead:
            return
        if disk.under:
            yield ("flush",) if disk.is_written else ("write", SLOT, disk.under)
        elif disk.record:
            yield from self.calls_home(disk)
        if disk.pending and disk.pending.command.kind == "READ" and len(disk.pending.shown) < len(disk.durable) - BLOCKS:
            yield "read", len(disk.pending.shown)

    def calls_home(self, disk):
        away = [it for it, where in zip(disk.record[1], disk.where) if where == AWAY]
        if away:
            yield "write", BLOCKS + away[0][0], away[0][1]
        elif WRITTEN in disk.where or disk.is_passed:
            yield ("flush",)
        else:
            yield "write", HEAD, disk.record[0]

    def begin(self, disk, call):
        if call[0] == "write":
            at, value = call[1:]
            others = disk.others[at]
            if value != disk.durable[at] and value not in others:
                disk = disk._replace(others=changed(disk.others, at, (*others, value)))
        return disk._replace(call=call)

    def end(self, disk):
        """The call in flight is carried out."""
        call, disk = disk.call, disk._replace(call=None)
        if call[0] == "read":
            return self.has_read(disk, call[1])
        if call[0] == "write":
            return self.gone_on(self.has_written(disk, call[1], call[2]))
        disk = disk._replace(durable=disk.contents, others=((),) * len(disk.others))
        if self.fault == "wrong call" and disk.pending and disk.pending.command.kind == "SYNC":
            disk = self.done(disk, ("good", None))
        return self.gone_on(self.has_flushed(disk))

    def has_read(self, disk, block):
        pending = disk.pending
        if block is None or not pending or pending.command.kind != "READ":
            return disk
        return self.gone_on(disk._replace(pending=pending._replace(shown=(*pending.shown, disk.contents[BLOCKS + block]))))

    def has_written(self, disk, at, value):
        disk = disk._replace(contents=changed(disk.contents, at, value))
        if at == SLOT:
            return disk._replace(is_written=True)
        if at == HEAD:
            return disk._replace(is_passed=True)
        return disk._replace(where=tuple(WRITTEN if BLOCKS + it[0] == at else old for it, old in zip(disk.record[1], disk.where)))

    def has_flushed(self, disk):
        if disk.under and disk.is_written:
            return disk._replace(record=disk.under, where=(AWAY,) * len(disk.under[1]), under=None, is_written=False)
        if disk.is_passed:
            return self.let_go(disk)._replace(record=None, where=(), is_passed=False)
        return disk._replace(where=tuple(HOME if it == WRITTEN else it for it in disk.where))

    def let_go(self, disk):
        """The record is let go of: what a READ was shown before its blocks came home is laid over."""
        pending = disk.pending
        if not pending or not pending.shown or self.fault == "home under READ":
            return disk
        shown = list(pending.shown)
        for block, value in disk.record[1]:
            if block < len(shown):
                shown[block] = value
        return disk._replace(pending=pending._replace(shown=tuple(shown)))

    def refuse(self, disk):
        """The call in flight is refused; a write may have been carried out or not."""
        call, disk = disk.call, disk._replace(call=None)
        if call[0] == "read":
            is_own = disk.pending and disk.pending.command.kind == "READ" and call[1] is not None
            return [self.done(disk, READ_ERROR) if is_own else disk]
        if call[0] == "flush" and self.fault == "refused is done":
            return [self.gone_on(self.has_flushed(disk))]
        ends = [disk] if call[0] == "flush" else [disk, disk._replace(contents=changed(disk.contents, call[1], call[2]))]
        return [self.failed(it._replace(is_dead=True, is_late=False)) for it in ends]

    def failed(self, disk):
        """The store is dead, and the pending command fails by it."""
        if disk.answer and disk.answer[0] == "good" and self.fault == "taken back":
            disk = disk._replace(answer=WRITE_ERROR)
        if not disk.pending:
            return disk
        if disk.pending.command.kind == "CACHE_OFF" and self.fault == "cache off":
            disk = disk._replace(is_cached=False)
        is_plain = disk.pending.command.kind == "READ"
        return self.gone_on(disk) if is_plain else self.done(disk, WRITE_ERROR)

    def may_rest(self, disk):
        """Whether the device is told nothing."""
        return disk.call is None and not any(self.calls(disk))
