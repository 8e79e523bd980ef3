"""A device with a cache that tells no order: what it holds, and each image that a loss of power may leave."""

import itertools

# The most images of one moment that are looked at all; of more, as many are drawn.
MOST_IMAGES = 160


def put_in(image, places, values):
    """An image with other values in these places; None stands for a sector that was never written."""
    made = dict(image)
    for place, value in zip(places, values):
        if value is None:
            made.pop(place, None)
        else:
            made[place] = value
    return made


class Device:
    """What stays, what a read gives, and for each sector that is not behind a flush all that a cut may leave in it."""

    def __init__(self, image, chance):
        self.durable, self.contents, self.others, self.chance = dict(image), dict(image), {}, chance

    def begin(self, writes):
        """Writes are in flight."""
        for place, value in writes:
            known = self.others.setdefault(place, [self.durable.get(place)])
            if value not in known:
                known.append(value)

    def end(self, writes, is_good):
        """They are told done, or refused, with any part of them carried out."""
        for place, value in writes:
            if is_good or self.chance.random() < 0.5:
                self.contents[place] = value

    def flush(self):
        self.durable, self.others = dict(self.contents), {}

    def images(self):
        """Each image that a cut may leave now; where there are too many, those with all old, all new, one other, and some drawn."""
        places, values = list(self.others), list(self.others.values())
        count = 1
        for it in values:
            count *= len(it)
        choices = itertools.product(*values) if count <= MOST_IMAGES else self.drawn(values)
        return (put_in(self.durable, places, it) for it in choices)

    def drawn(self, values):
        old, new = [it[0] for it in values], [it[-1] for it in values]
        yield from (old, new)
        for at in range(len(values)):
            yield [*old[:at], new[at], *old[at + 1 :]]
            yield [*new[:at], old[at], *new[at + 1 :]]
        for _ in range(MOST_IMAGES):
            yield [self.chance.choice(it) for it in values]
