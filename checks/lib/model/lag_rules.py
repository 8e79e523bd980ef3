"""A disk of the definitions whose packet may be pending, over a few blocks: what it may answer, and what a cut may leave of it. A packet is a whole
command, and its answer one packet to the host. When a pending packet is acted on is not seen, so a judge follows every disk that may be meant."""

import collections
import typing

# A command: WRITE, FORCED (a WRITE with FUA), SYNC, SYNC_IN (which the host expects to send data, so that the endpoint is halted), CACHE_OFF (a MODE
# SELECT), READ (of all blocks) or SENSE (a MODE SENSE, which needs no device).
Command = collections.namedtuple("Command", "kind block value", defaults=(None, None))
# What the table says where no call was refused; and what a refused call may do to a command that writes, or to one that reads.
GOOD, FAULTS, FAULTS_ACCEPTING, UNREAD = "good", "faults", "faults, accepting", "unread"
WRITE_ERROR, READ_ERROR, INTERNAL = ("failed", "write error"), ("failed", "read error"), ("failed", "internal failure")
ACK, NAK, STALL = "ACK", "NAK", "STALL"


class Unit(typing.NamedTuple):
    """The blocks after each accepted WRITE, of which the first so many are promised; whether writes are cached; whether a call was refused."""

    arrays: tuple
    promised: int = 0
    is_cached: bool = True
    is_faulted: bool = False


class Lagging(typing.NamedTuple):
    """A unit, the answer that is to be sent, the command that was acknowledged and is not yet acted on, and whether the endpoint is halted."""

    unit: Unit
    answer: typing.Optional[tuple] = None
    pending: typing.Optional[Command] = None
    is_halted: bool = False


def first(array):
    return Lagging(Unit((array,)))


def with_write(unit, command):
    array = list(unit.arrays[-1])
    array[command.block] = command.value
    return unit._replace(arrays=(*unit.arrays, tuple(array)))


def promised(unit):
    return unit._replace(promised=len(unit.arrays) - 1)


def writes(command):
    return command.kind in ("WRITE", "FORCED")


def promises(unit, command):
    return command.kind in ("FORCED", "SYNC", "SYNC_IN", "CACHE_OFF" if unit.is_cached else "WRITE")


def asks(unit, command):
    """Whether a command may ask its device for something, and so may be pending."""
    return not unit.is_faulted and (command.kind == "READ" or writes(command) or promises(unit, command))


def by_table(unit, command):
    """The unit and the answer behind a command of which no call was refused."""
    if command.kind == "SENSE":
        return unit, ("good", unit.is_cached)
    if unit.is_faulted:
        return unit, INTERNAL
    if command.kind == "READ":
        return unit, ("good", unit.arrays[-1])
    is_promise, unit = promises(unit, command), with_write(unit, command) if writes(command) else unit
    unit = promised(unit) if is_promise else unit
    return unit._replace(is_cached=unit.is_cached and command.kind != "CACHE_OFF"), ("good", None)


def carried_out(unit, command, luck):
    """The same by this luck, or None where it cannot befall the command."""
    if luck == GOOD:
        return by_table(unit, command)
    if unit.is_faulted:
        return None
    if luck == UNREAD:
        return (unit, READ_ERROR) if command.kind == "READ" else None
    if not (writes(command) or promises(unit, command)) or luck == FAULTS_ACCEPTING and not writes(command):
        return None
    unit = with_write(unit, command) if luck == FAULTS_ACCEPTING else unit
    return unit._replace(is_faulted=True), WRITE_ERROR


def completed(it, luck=GOOD):
    """The disks whose pending command is done, by this luck: one or none."""
    done = carried_out(it.unit, it.pending, luck) if it.pending else None
    return [answering(it, it.pending, *done)] if done else []


def answering(it, command, unit, answer):
    """The answer of a command is laid out, with the halt behind it."""
    return Lagging(unit, answer, None, it.is_halted or command.kind == "SYNC_IN")


def taken(it, command):
    """A packet to Bulk-Out comes that is acknowledged: it is acted on, or is pending."""
    if it.answer is not None:
        return []
    acted = answering(it, command, *carried_out(it.unit, command, GOOD))
    return [acted, it._replace(pending=command)] if asks(it.unit, command) else [acted]


def dropped(it):
    """A class reset: the answer goes, and a pending command, whose write may stay."""
    left = it._replace(answer=None, pending=None)
    return [left, left._replace(unit=with_write(it.unit, it.pending))] if it.pending and writes(it.pending) and not it.unit.is_faulted else [left]


def with_pending_done(disks):
    """Each disk, and where a command is pending, the one in which it is done."""
    return [each for it in disks for each in (it, *completed(it))]


class Judge:
    """What each event, each step of the device and each cut leaves of the disks that may be meant: none where it cannot be."""

    @staticmethod
    def packet(disks, command, answer):
        if answer == NAK:
            return frozenset(it for it in disks if it.pending or it.answer is not None)
        return frozenset(to for it in with_pending_done(disks) if not it.pending for to in taken(it, command))

    @staticmethod
    def token(disks, answer):
        if answer == NAK:
            return frozenset(it for it in disks if not it.is_halted and (it.pending or it.answer is None))
        if answer == STALL:
            return frozenset(it for it in with_pending_done(disks) if it.is_halted)
        return frozenset(it._replace(answer=None) for it in with_pending_done(disks) if not it.is_halted and it.answer == answer)

    @staticmethod
    def status(disks, is_halted):
        """GET_STATUS tells whether the endpoint is halted."""
        return frozenset(it for it in with_pending_done(disks) if it.is_halted == is_halted)

    @staticmethod
    def clear(disks):
        return frozenset(it._replace(is_halted=False) for it in with_pending_done(disks))

    @staticmethod
    def reset(disks):
        return frozenset(to for it in with_pending_done(disks) for to in dropped(it))

    @staticmethod
    def refused(disks):
        """A write or a flush was refused: the pending command fails by it, or the unit is faulted behind it or before it."""
        failed = [to for it in disks for luck in (FAULTS, FAULTS_ACCEPTING) for to in completed(it, luck)]
        return frozenset(failed + [it._replace(unit=it.unit._replace(is_faulted=True)) for it in with_pending_done(disks)])

    @staticmethod
    def unread(disks):
        return frozenset([*disks, *(to for it in disks for to in completed(it, UNREAD))])

    @staticmethod
    def rested(disks):
        """The device has nothing to do: no command is pending any more."""
        return frozenset(it for it in with_pending_done(disks) if not it.pending)

    @staticmethod
    def may_leave(disks, array):
        """Whether a cut may leave these blocks: those of a promised WRITE or a later one, or of the pending one, which is whole."""
        return any(array in (*it.unit.arrays[it.unit.promised :], *Judge.pending_array(it)) for it in disks)

    @staticmethod
    def pending_array(it):
        return with_write(it.unit, it.pending).arrays[-1:] if it.pending and writes(it.pending) and not it.unit.is_faulted else ()
