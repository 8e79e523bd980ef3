"""The calls of a store: what is asked, what it writes or reads, and what its end changes."""

from lib.model.log import AWAY
from lib.model.rules import Wrong
from lib.model.store import FLUSH, Call, Store

# The kinds of calls behind whose refusal nothing is asked, with the rule that says so.
CHANGES = {"flush": "refused flush", "log": "refused write", "home": "refused write", "head": "refused write"}


class Machine(Store):
    """A store, and the call that it asks for."""

    def ask(self, call):
        """Each asked call is held against the rules."""
        log = self.log
        allowed = {
            "log": lambda places: all(map(log.may_write, places)),
            "home": lambda pairs: all(log.may_bring(*it) for it in pairs),
            "head": lambda head: self.world.without == "count" or log.may_pass(head - log.head - log.passed),
        }
        if not allowed.get(call.kind, lambda _: True)(call.of):
            raise Wrong(f"the rules do not allow {call.kind} {call.of}")
        self.asked = call

    def pass_records(self, count):
        return Call("head", self.log.head + self.log.passed + count)

    def writes_of(self, call):
        """The sectors that a call writes."""
        if call.kind == "log":
            return [(it, self.log.under.sectors[it]) for it in call.of]
        if call.kind == "home":
            return [(("home", block), self.log.value(record, block)) for record, block in call.of]
        return [("head", call.of)] if call.kind == "head" else []

    # Reads.

    def in_log(self, block):
        """The record in whose slot a block is read, or None where it is read at home."""
        record = self.log.holder(block)
        if record is None or self.world.reads_home and record.where[block] != AWAY:
            return None
        if self.world.is_roll:
            raise Wrong("a READ needs the log")
        return record

    def read_call(self):
        """The next read of the READ that waits: one block in the log, or the first ones at home."""
        lacks = self.read.lacks()
        record = self.in_log(lacks[0])
        if record is not None:
            place = (record.stamp % self.world.sizes.slots, "data", record.blocks.index(lacks[0]))
            return Call("read", (lacks[:1], [place], record, self.read))
        run = [it for it in lacks if self.in_log(it) is None][: None if self.world.has_runs else 1]
        return Call("read", (run, [("home", it) for it in run], None, self.read))

    def brought_by(self, call):
        """What a read gives."""
        blocks, places, record, _ = call.of
        found = [self.device.contents[it] for it in places]
        if record is None or self.world.sizes.format == 1:
            return found
        return [(record.items[block], it[1]) for block, it in zip(blocks, found)]

    def has_read(self, call, is_good, brought):
        """A read was told done: what it brings goes to the READ that asked for it."""
        blocks, _, _, reader = call.of
        is_late = self.world.without == "reset read"
        if self.read is None or self.read is not reader and not is_late:
            return
        if not is_good:
            self.read = None
            return
        for block, value in zip(blocks, brought):
            self.read.come.setdefault(block, value)
        if is_late:
            self.read.come.update(dict.fromkeys(self.read.lacks(), brought[0]))
        self.serve_read()

    # The ends of calls.

    def done(self, is_good, brought):
        """The call was carried out, or refused."""
        call, self.asked = self.asked, None
        if not is_good and call.kind != "read":
            self.world.counts["refusals"] += 1
            if self.world.without != CHANGES[call.kind]:
                self.is_dead, self.wants, self.waits, self.read = True, [], None, None
                return
        ends = {"log": self.has_logged, "home": self.log.brought, "head": self.log.moved, "flush": self.has_flushed}
        if call.kind == "read":
            self.has_read(call, is_good, brought)
        else:
            ends[call.kind](call.of)
        self.take_waiting()

    def has_logged(self, places):
        self.log.wrote(places)
        if self.log.under.is_written():
            self.tell()

    def has_flushed(self, _):
        self.flushes += 1
        record = self.log.flushed()
        if record is None:
            return
        self.durables += 1
        if self.world.without != "record":
            self.frozen = {}
        self.durable_mark = len(self.arrays) - 1 if self.world.without == "mark" else record.mark
        self.take_waiting()
        self.tell()

    # Which call is next.

    def choose(self):
        """The next call, where none is asked."""
        if self.world.without == "asked":
            self.asked = None
        if self.is_dead or self.asked is not None:
            return
        if self.world.is_roll:
            self.roll()
        else:
            self.ask_any()
        if self.asked is None and self.owes():
            raise Wrong("an answer waits, and no call is asked")

    def ask_any(self):
        """Any call that the rules allow."""
        chance = self.world.chance
        if self.active and not self.frozen and chance.random() < 0.3:
            self.freeze()
        if self.frozen and self.log.may_begin() and chance.random() < 0.6:
            self.begin()
        calls = [*self.any_of_record(), *self.any_home(), *self.any_head()]
        if not calls or chance.random() < 0.15:
            calls.append(FLUSH)
        if self.read:
            calls += [self.read_call()] * 3
        self.ask(chance.choice(calls))

    def any_of_record(self):
        """Sectors of the record under way, in any order, or the flush."""
        under = self.log.under
        if not under:
            return []
        places = [it for it in under.left if self.log.may_write(it)]
        self.world.chance.shuffle(places)
        writes = [Call("log", places[: self.world.chance.choice([1, 2, 9])])] if places else []
        return writes * 2 + [FLUSH] * (2 * (not under.left)) + [FLUSH] * (2 * bool(under.left and self.world.sizes.format == 1))

    def any_home(self):
        """Blocks of any records, in any order, each block once."""
        log, chance = self.log, self.world.chance
        records = [*log.ring, log.under] if self.world.without == "home" and log.under else log.ring
        pairs = [(record, block) for record in records for block in record.blocks if log.may_bring(record, block)]
        chance.shuffle(pairs)
        run = {block: (record, block) for record, block in reversed(pairs[: chance.choice([1, 2, 4])])}
        return [Call("home", list(run.values()))] * 2 if run else []

    def any_head(self):
        counts = [it for it in range(1, len(self.log.ring) + 1) if self.log.may_pass(it)]
        calls = [self.pass_records(self.world.chance.choice(counts))] * 2 if counts else []
        return calls + [self.pass_records(2)] * (self.world.without == "count" and 1 in counts and len(self.log.ring) > 1)

    # The plan `Roll`: nothing is flushed but records and idleness, and nothing is read back from the log.

    def roll(self):
        if self.read:
            return self.ask(self.read_call())
        if self.log.under is None and self.wants and not self.frozen and self.active:
            self.freeze()
        if any(it.is_durable and it.is_away() and it.kept is None for it in self.log.ring):
            raise Wrong("a record is away and not kept")
        while self.asked is None and self.moves():
            pass
        return None

    def moves(self):
        """One step of the plan: asks for a call, or begins a record, and then says so."""
        if self.log.under:
            self.ask(self.next_of_record())
        elif self.frozen:
            return self.makes_room()
        elif self.is_idle and self.active and self.log.free() >= 3 and self.log.may_keep():
            self.freeze()
            self.begin()
            return True
        else:
            self.retire()
        return False

    def next_of_record(self):
        """The next run of the record under way, or its flush."""
        left = self.log.under.left
        return Call("log", left if self.world.has_runs else left[:1]) if left else FLUSH

    def makes_room(self):
        """The frozen batch begins where there is room for it; else a call makes room."""
        log = self.log
        if log.free() < 1:
            raise Wrong("a batch waits, and the ring is full")
        is_full = not log.may_keep()
        away = log.away()
        if is_full or log.free() + log.passed < 3:
            if log.at_home():
                self.ask(self.pass_records(log.at_home()))
                return False
            if away and (is_full or log.ring[0].is_away()):
                self.ask(self.bring(away))
                return False
        self.begin()
        return True

    def bring(self, record):
        """The next run home of a record."""
        pairs = [(record, it) for it in record.blocks if record.where[it] == AWAY]
        return Call("home", pairs if self.world.has_runs else pairs[:1])

    def retire(self):
        """Nothing waits: records go home, and the head past them; told idle, with a flush."""
        log, at_home = self.log, self.log.at_home()
        if log.away():
            self.ask(self.bring(log.away()))
        elif at_home and (log.free() >= 1 or self.is_idle) and (not self.is_idle or at_home == len(log.ring)):
            self.ask(self.pass_records(at_home))
        elif self.is_idle and (log.ring or log.passed):
            self.ask(FLUSH)
