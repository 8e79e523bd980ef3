"""The image of a medium, and what a recovery finds in it.

An image is a dictionary. It has the `head`, the blocks at `("home", block)`, and the sectors of each slot's record at `(slot, "descriptor", place)`,
`(slot, "data", place)` and `(slot, "commit", 0)`. What a sector holds is a tuple that begins with the stamp of its record, but for the data of format
1, where it is the block's own two halves. Of format 2 a descriptor holds the first bytes of each of its blocks, and so one half."""

import collections

# The most blocks of a batch, and the blocks that a descriptor of format 2 has room for.
MOST, IN_DESCRIPTOR = 3, 2

Sizes = collections.namedtuple("Sizes", "format slots blocks")
# What a recovery finds: the blocks, the stamp of the next record, whether each other stamp is at most that of the head that recovery leaves, and the
# records.
Found = collections.namedtuple("Found", "array following is_ours records")


def fresh(sizes):
    return {"head": 1, **{("home", it): (0, 0) for it in range(sizes.blocks)}}


def sectors_of(sizes, stamp, items):
    """The sectors of a record, in order of writing, the commit last: pairs of a place and what it holds. ITEMS are pairs of a block and a value."""
    slot, count = stamp % sizes.slots, len(items)
    if sizes.format == 1:
        found = [((slot, "descriptor", 0), (stamp, count, tuple(block for block, _ in items)))]
        found += [((slot, "data", place), (value, value)) for place, (_, value) in enumerate(items)]
    else:
        parts = range(0, count, IN_DESCRIPTOR)
        found = [((slot, "descriptor", at // IN_DESCRIPTOR), (stamp, count, tuple(items[at : at + IN_DESCRIPTOR]))) for at in parts]
        found += [((slot, "data", place), (stamp, value)) for place, (_, value) in enumerate(items)]
    return [*found, ((slot, "commit", 0), (stamp, count))]


def record_in(sizes, image, stamp):
    """The blocks of the record with this stamp, each with its two halves, or None where it is not whole."""
    slot = stamp % sizes.slots
    commit = image.get((slot, "commit", 0))
    if not commit or commit[0] != stamp:
        return None
    count = commit[1]
    parts = 1 if sizes.format == 1 else -(-count // IN_DESCRIPTOR)
    descriptors = [image.get((slot, "descriptor", it)) for it in range(parts)]
    if any(not it or it[0] != stamp or it[1] != count for it in descriptors):
        return None
    items = [it for descriptor in descriptors for it in descriptor[2]]
    data = [image.get((slot, "data", it)) for it in range(count)]
    if sizes.format == 1:
        return list(zip(items, data))
    if len(items) != count or any(not it or it[0] != stamp for it in data):
        return None
    return [(block, (first, rest[1])) for (block, first), rest in zip(items, data)]


def recover(sizes, image):
    """What a recovery finds in an image."""
    array, records = [image["home", it] for it in range(sizes.blocks)], []
    while len(records) < sizes.slots:
        record = record_in(sizes, image, image["head"] + len(records))
        if record is None:
            break
        records.append(record)
        for block, value in record:
            array[block] = value
    top = image["head"] + len(records)
    stamped = (value for place, value in image.items() if is_stamped(sizes, place))
    return Found(tuple(array), top + 1, all(it[0] <= top for it in stamped), records)


def is_stamped(sizes, place):
    return place != "head" and place[0] != "home" and (sizes.format == 2 or place[1] != "data")
