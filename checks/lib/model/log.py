"""The log of a store that says its next call: its records, the rules that each call has to keep, and what the end of a call changes."""

from lib.model.image import MOST, sectors_of

# Where a block of a record is: in the log alone, written home, at home behind a flush.
AWAY, WRITTEN, HOME = "away", "written", "home"
# What a kept record holds that was let go and taken by another one.
NOTHING = (-1, -1)


class Record:
    """A record: its stamp, its blocks, its sectors and those that are not written, or not behind a flush, and where its blocks are."""

    def __init__(self, sizes, stamp, items, mark):
        self.stamp, self.items, self.mark = stamp, dict(items), mark
        self.blocks = sorted(items)
        self.sectors = dict(sectors_of(sizes, stamp, [(it, items[it]) for it in self.blocks]))
        self.left, self.unflushed = list(self.sectors), set(self.sectors)
        self.where = {it: AWAY for it in self.blocks}
        self.is_durable, self.kept = False, None

    def is_written(self):
        return not self.left

    def is_away(self):
        return AWAY in self.where.values()

    def behind_flush(self):
        """A flush was told done."""
        self.unflushed = set(self.left)
        self.where = {block: HOME if at == WRITTEN else at for block, at in self.where.items()}


class Log:
    """The records from the head on, the one under way, the heads that were written and not flushed, and the records that are kept in memory."""

    def __init__(self, world, head):
        self.world, self.head = world, head
        self.passed, self.ring, self.under = 0, [], None
        self.newest, self.buffers = {}, {}

    # The rules.

    def free(self):
        """The slots that a record may be begun in."""
        passed = 0 if self.world.without == "slot" else self.passed
        return self.world.sizes.slots - len(self.ring) - passed - (self.under is not None)

    def may_begin(self):
        return self.free() >= 1 and (self.under is None or self.world.without == "record" and self.under.is_written())

    def may_write(self, place):
        under = self.under
        if under is None or place not in under.left:
            return False
        if place[1] != "commit" or self.world.sizes.format == 2 or self.world.without == "commit":
            return True
        return under.unflushed == {place}

    def may_bring(self, record, block):
        if not record.is_durable and self.world.without != "home" or record.where[block] != AWAY:
            return False
        older = (it for it in self.ring if it.stamp < record.stamp)
        is_last = self.newest.get(block, 0) <= record.stamp and all(it.where.get(block) != AWAY for it in older)
        return is_last or self.world.without == "order"

    def may_pass(self, count):
        passes = {HOME, WRITTEN} if self.world.without == "head" else {HOME}
        records = self.ring[:count]
        return 0 < count <= len(self.ring) and all(it.is_durable and passes.issuperset(it.where.values()) for it in records)

    def may_keep(self):
        return sum(it.kept is not None for it in self.ring) < self.world.kept or self.world.without == "kept"

    # What calls change.

    def begin(self, items, mark):
        """The next record is under way."""
        if self.under is not None:
            self.ring.append(self.under)
        self.under = Record(self.world.sizes, self.head + self.passed + len(self.ring), items, mark)

    def wrote(self, places):
        self.under.left = [it for it in self.under.left if it not in places]

    def brought(self, pairs):
        """Blocks were written home; a record that has them all there is kept no longer."""
        for record, block in pairs:
            record.where[block], self.newest[block] = WRITTEN, record.stamp
        for record, _ in pairs:
            if record.kept is not None and not record.is_away() and self.world.without != "kept":
                self.buffers.pop(record.kept, None)
                record.kept = None

    def moved(self, head):
        """A head was written that passes records."""
        count = head - self.head - self.passed
        del self.ring[:count]
        self.passed += count

    def flushed(self):
        """A flush was told done. Gives the record that it made durable, or None."""
        for record in self.ring:
            record.behind_flush()
            record.is_durable = True
        self.head, self.passed = self.head + self.passed, 0
        record = self.under
        if record is not None:
            record.behind_flush()
        if record is None or record.left:
            return None
        record.is_durable, self.under = True, None
        self.ring.append(record)
        self.keep(record)
        return record

    def keep(self, record):
        """The record stays in memory, where there is room."""
        taken = set() if self.world.without == "kept" else {it.kept for it in self.ring}
        free = [it for it in range(self.world.kept) if it not in taken]
        if free:
            record.kept = free[record.stamp % len(free)]
            self.buffers[record.kept] = [(record.items[it],) * 2 for it in record.blocks]

    # What it knows.

    def holder(self, block):
        """The newest record that holds a block, or None."""
        return next((it for it in reversed(self.ring) if block in it.items), None)

    def value(self, record, block):
        """The bytes of a block of a record, out of memory where it is kept."""
        if record.kept is None:
            return (record.items[block],) * 2
        return (self.buffers.get(record.kept, []) + [NOTHING] * MOST)[record.blocks.index(block)]

    def away(self):
        """The oldest record that is not at home, or None."""
        return next((it for it in self.ring if it.is_away()), None)

    def at_home(self):
        """How many records from the oldest on the head may pass."""
        return next((it for it in range(len(self.ring)) if not self.may_pass(it + 1)), len(self.ring))
