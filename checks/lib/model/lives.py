"""Random lives of a store: events at any time before, while and behind its calls, calls that are refused, ends that are told late, and a cut behind
each life, after which the next one begins with a recovery that is itself cut at each of its calls."""

import collections
import random

from lib.model.calls import Machine
from lib.model.device import Device
from lib.model.image import Sizes, fresh, recover
from lib.model.rules import Wrong
from lib.model.store import Write

# The lives on one image, and the steps of each. One call in so many is refused.
LIVES, STEPS, REFUSED = 3, 110, 60


class World:
    """What a store is tried with: its sizes, how many records are kept in memory, and the rule that is left out."""

    def __init__(self, seed, is_roll, without, counts):
        self.chance, self.is_roll, self.without, self.counts = random.Random(seed), is_roll, without, counts
        draw = self.chance.choice
        slots = draw([3, 3, 4, 5]) if is_roll else draw([1, 2, 3, 3, 4, 5])
        self.sizes = Sizes(2 if is_roll else draw([1, 2, 2]), slots, draw([2, 3, 4]))
        self.kept = draw([1, 2, 2, slots]) if is_roll else min(draw([0, 0, 1, 2, slots]), slots)
        # Whether a block is read at home where it was written there; whether neighbouring sectors are one call; whether plain WRITEs go on while a
        # promise waits.
        self.reads_home = is_roll or draw([True, False])
        self.has_runs, self.lags = draw([True, True, False]), draw([True, False])

    def __str__(self):
        return f"{self.sizes}, {self.kept} kept, {'runs' if self.has_runs else 'single sectors'}{', lags' * self.lags}"


class Life:
    """One life of a store on a device."""

    def __init__(self, world, image):
        self.world, self.chance = world, world.chance
        self.device = Device(image, world.chance)
        array, head = self.recovered(image)
        self.store = Machine(world, self.device, head, array)
        # The call in flight, whether the device takes it, what it brings, and whether it has ended and the store was not told yet.
        self.flight = None
        self.is_good, self.brought, self.has_ended = True, [], False
        self.value = world.chance.randrange(10**6) * 1000

    def recovered(self, image):
        """The blocks that a recovery finds, and the head that it leaves. A cut at each of its calls leaves the same."""
        found = recover(self.world.sizes, image)
        head = found.following - (self.world.without == "recovery")
        for record in found.records:
            self.write_whole([(("home", block), value) for block, value in record], found)
        self.device.flush()
        self.write_whole([("head", head)], found)
        self.device.flush()
        return found.array, head

    def write_whole(self, writes, wanted):
        self.device.begin(writes)
        for image in self.device.images():
            found = recover(self.world.sizes, image)
            self.world.counts["images"] += 1
            if found.array != wanted.array or not found.is_ours or found.following not in (wanted.following, wanted.following + 1):
                raise Wrong(f"a cut in a recovery leaves {found} for {wanted}")
        self.device.end(writes, True)

    def lived(self):
        """The image that a cut leaves behind this life."""
        for _ in range(STEPS):
            if self.store.asked is None:
                self.store.choose()
            if self.store.is_dead and self.chance.random() < 0.1:
                break
            if not self.moves_call() and not self.store.is_dead:
                self.event()
        self.store.judge()
        return self.chance.choice(list(self.device.images()))

    def moves_call(self):
        """Perhaps the asked call begins, or the one in flight ends, or the store is told."""
        luck = self.chance.random()
        if self.flight is None:
            is_so = self.store.asked is not None and luck < 0.55
            step = self.begin_call
        elif not self.has_ended:
            is_so, step = luck < 0.4, self.end_call
        else:
            is_so, step = luck < 0.6, self.tell_end
        if is_so:
            step()
        return is_so

    def begin_call(self):
        self.flight, self.has_ended = self.store.asked, False
        self.is_good = self.chance.randrange(REFUSED) > 0
        self.world.counts["calls"] += 1
        self.writes = self.store.writes_of(self.flight)
        self.device.begin(self.writes)
        if self.writes:
            self.store.judge()

    def end_call(self):
        if self.flight.kind == "flush" and self.is_good:
            self.device.flush()
        self.device.end(self.writes, self.is_good)
        self.brought = self.store.brought_by(self.flight) if self.flight.kind == "read" else []
        self.has_ended = True

    def tell_end(self):
        self.flight = None
        self.store.done(self.is_good, self.brought)
        if self.store.is_dead:
            self.store.judge()

    # Events.

    def event(self):
        """What the host does next: where an answer waits, nothing but a reset; or a plain WRITE, where the transport lets it go on."""
        store, luck = self.store, self.chance.random()
        is_only_promised = store.wants and store.waits is None and store.read is None
        if luck < 0.04 and (store.owes() or self.chance.random() < 0.1):
            store.reset()
        elif store.owes() and not (self.world.lags and is_only_promised):
            self.world.counts["busy"] += 1
        elif luck < 0.45:
            self.write()
        elif not store.owes():
            self.ask_or_rest(luck)
        store.is_idle = store.is_idle and not store.owes()
        if self.world.without == "asked":
            store.choose()

    def write(self):
        count = min(self.world.sizes.blocks, self.chance.choice([1, 1, 2, 3]))
        blocks = sorted(self.chance.sample(range(self.world.sizes.blocks), count))
        is_forced = self.chance.random() < (0.2 if self.store.owes() else 0.5)
        self.value += 1
        if not self.store.owes() or self.store.takes(blocks):
            self.world.counts["WRITEs while a promise waited"] += bool(self.store.wants)
            self.store.write(Write(blocks, self.value, is_forced))

    def ask_or_rest(self, luck):
        if luck < 0.6:
            self.store.synchronize()
        elif luck < 0.8:
            first = self.chance.randrange(self.world.sizes.blocks)
            self.store.start_read(list(range(first, min(self.world.sizes.blocks, first + self.chance.choice([1, 2, 3])))))
        else:
            self.store.is_idle = True


def lives_of(seed, is_roll, without, counts):
    """Plays the lives of a seed on one image. Gives what was wrong, or None."""
    world = World(seed, is_roll, without, counts)
    image = fresh(world.sizes)
    try:
        for _ in range(LIVES):
            image = Life(world, image).lived()
    except Wrong as it:
        return f"seed {seed}, {world}: {it}"
    return None


def play(seeds, is_roll, without=""):
    """Plays the lives of these seeds, up to the first that is wrong. Gives what was counted, and what was wrong, or None."""
    counts = collections.Counter()
    for seed in seeds:
        counts["seeds"] += 1
        wrong = lives_of(seed, is_roll, without, counts)
        if wrong:
            return counts, wrong
    return counts, None
