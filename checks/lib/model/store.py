"""A store that says its next call: what it accepted and what it told, its two batches, its log, and what it does at each event and at each end of a
call. A cut may leave nothing else than it told, whatever the order of calls that the rules allow."""

import collections

from lib.model.image import MOST, recover
from lib.model.log import AWAY, Log
from lib.model.rules import Wrong

# A call: its kind, and what it is of: the places of a record's sectors, pairs of a record and a block, a head, or the blocks of a read with their
# places, its record where it reads the log, and the READ that asked for it.
Call = collections.namedtuple("Call", "kind of")
# A WRITE: its blocks, its value, and whether it is promised.
Write = collections.namedtuple("Write", "blocks value is_forced")
FLUSH = Call("flush", None)


class Read:
    """A READ: its blocks, what of them has come, and what they have to be."""

    def __init__(self, blocks, array):
        self.blocks, self.array, self.come = blocks, array, {}

    def lacks(self):
        return [it for it in self.blocks if it not in self.come]


class Store:
    def __init__(self, world, device, head, array):
        self.world, self.device, self.log = world, device, Log(world, head)
        # The blocks after each WRITE that was accepted, from the promised ones on, and how many are promised.
        self.arrays, self.promised, self.first = [array], 0, head
        self.active, self.frozen = {}, {}
        self.active_mark = self.frozen_mark = self.durable_mark = 0
        self.wants, self.waits, self.dropped, self.read = [], None, None, None
        self.asked, self.is_dead, self.is_idle = None, False, False
        self.flushes = self.durables = 0
        self.since = None

    def judge(self):
        """Each image that a cut may leave now has the blocks after some accepted WRITE, not before the last one that was promised."""
        allowed = set(self.arrays[self.promised :])
        for image in self.device.images():
            found = recover(self.world.sizes, image)
            self.world.counts["images"] += 1
            if found.array not in allowed:
                raise Wrong(f"a cut leaves {found.array}, with {self.promised} of {len(self.arrays) - 1} WRITEs promised")
            if not found.is_ours:
                raise Wrong("a cut leaves a stamp beyond the head that recovery writes")
            if found.following > self.first + len(self.arrays):
                raise Wrong("a cut leaves more records than WRITEs")

    def owes(self):
        """Whether an answer waits."""
        return bool(self.wants) or self.waits is not None or self.read is not None

    # Batches.

    def freeze(self):
        self.frozen, self.active, self.frozen_mark = self.active, {}, self.active_mark

    def begin(self):
        self.log.begin(self.frozen, self.frozen_mark)
        if self.world.without == "record":
            self.frozen = {}

    def fits(self, blocks):
        return len({*self.active, *blocks}) <= MOST

    def takes(self, blocks):
        """Whether a WRITE of these blocks needs no call."""
        return self.fits(blocks) or not self.frozen

    def after(self, blocks, value):
        array = list(self.arrays[-1])
        for it in blocks:
            array[it] = (value, value)
        return tuple(array)

    def accept(self, blocks, value):
        """A WRITE goes into the active batch."""
        self.arrays.append(self.after(blocks, value))
        if self.world.without == "frozen" and self.frozen and set(blocks) <= set(self.frozen):
            return self.change_frozen(blocks, value)
        if self.world.without == "whole" and len(blocks) > 1 and not self.fits(blocks) and self.active and not self.frozen:
            self.active = self.cropped({**self.active, blocks[0]: value})
            self.freeze()
            blocks = blocks[1:]
        self.active.update(dict.fromkeys(blocks, value))
        self.active_mark = len(self.arrays) - 1

    def cropped(self, batch):
        return dict([*batch.items()][-MOST:])

    def change_frozen(self, blocks, value):
        """(wrong) The frozen batch takes the WRITE, and the record under way changes with it."""
        self.frozen.update(dict.fromkeys(blocks, value))
        under = self.log.under
        if under is not None:
            self.log.under = type(under)(self.world.sizes, under.stamp, self.frozen, under.mark)
            self.log.under.left, self.log.under.unflushed = under.left, under.unflushed

    # Events.

    def write(self, it):
        """A WRITE: at once where it needs no call, else it waits for the frozen batch to be gone."""
        if not self.takes(it.blocks):
            self.waits = it
            return
        if not self.fits(it.blocks) and self.world.without != "whole":
            self.freeze()
        self.accept(it.blocks, it.value)
        self.world.counts["WRITEs while a call was asked"] += self.asked is not None
        if it.is_forced:
            self.synchronize()

    def synchronize(self):
        """All that was accepted is to be promised."""
        mark = len(self.arrays) - 1
        if self.world.without == "frozen":
            mark = min(mark, max(self.active_mark, self.frozen_mark, self.durable_mark)) or mark
        self.wants.append(mark)
        if len(self.wants) == 1:
            under = self.log.under
            is_asked = self.asked == FLUSH and not (under and under.is_written())
            self.since = self.flushes + is_asked - self.durables
        self.tell()

    def start_read(self, blocks):
        self.read = Read(blocks, self.arrays[-1])
        self.serve_read()

    def reset(self):
        """The host begins anew: nothing that waits is answered."""
        self.world.counts["resets"] += 1
        if self.world.without == "reset promise" and self.wants:
            self.promised = max(self.promised, self.wants[-1])
            self.judge()
        if self.world.without == "reset write" and self.waits:
            self.dropped = self.waits
        if self.world.without == "reset mark":
            self.durable_mark = self.frozen_mark
        self.waits, self.wants, self.read = None, [], None

    # Answers.

    def is_good_for(self, mark):
        under = self.log.under
        is_early = self.world.without == "promise" and under and under.is_written() and mark <= under.mark
        return mark <= self.durable_mark or is_early

    def tell(self):
        """Promises that hold now are told."""
        while self.wants and self.is_good_for(self.wants[0]):
            self.promised = max(self.promised, self.wants.pop(0))
            self.world.counts["promises"] += 1
            self.judge()
            if not self.wants and self.world.is_roll and self.flushes - self.durables > self.since:
                raise Wrong("a promise took more flushes than records")

    def serve_read(self):
        """What is in memory goes to the READ that waits, which is answered where it lacks nothing."""
        for block in self.read.lacks():
            value = self.active.get(block, self.frozen.get(block))
            record = self.log.holder(block)
            if value is not None:
                self.read.come[block] = (value, value)
            elif record is not None and record.kept is not None and not (self.world.reads_home and record.where[block] != AWAY):
                self.read.come[block] = self.log.value(record, block)
        if not self.read.lacks():
            self.world.counts["READs"] += 1
            wrong = [it for it in self.read.blocks if self.read.come[it] != self.read.array[it]]
            if wrong:
                raise Wrong(f"a READ answers {self.read.come} for {self.read.array}")
            self.read = None

    def take_waiting(self):
        """A WRITE that waits is accepted once the frozen batch is gone."""
        if self.dropped and not self.frozen:
            self.active = self.cropped({**self.active, **dict.fromkeys(self.dropped.blocks, -self.dropped.value)})
            self.dropped = None
        if self.waits and self.takes(self.waits.blocks):
            it, self.waits = self.waits, None
            if not self.fits(it.blocks):
                self.freeze()
            self.accept(it.blocks, it.value)
            if it.is_forced:
                self.synchronize()
