"""What an image stands for, read from its bytes as docs/FORMAT.md has them."""

import dataclasses

SECTOR = 512
# How many sectors a slot has, and how many blocks a record of it, by the format.
SLOT_SECTORS, MOST_BLOCKS = {1: 50, 2: 249}, {1: 48, 2: 240}
SUPER, HEAD = b"RDSUPER1", b"RDHEAD01"


def end_of_log(kind, slots):
    """The first sector behind a log, where home begins if nothing else is asked for."""
    return 2 + SLOT_SECTORS[kind] * slots


def numbers_in(sector, count):
    """So many numbers behind the mark of a sector."""
    return [int.from_bytes(sector[8 + 8 * it : 16 + 8 * it], "little") for it in range(count)]


@dataclasses.dataclass
class Standing:
    """The sizes of an image, the stamp of its head, and the records that wait: pairs of a stamp and the blocks by their numbers."""

    format: int
    blocks: int
    slots: int
    home: int
    head: int
    records: list

    def shown(self):
        """What `usbdisk_image show` tells of it."""
        lines = [f"format {self.format}", f"blocks {self.blocks}", f"slots {self.slots}", f"home {self.home}", f"head {self.head}"]
        lines += [f"record {stamp} {len(blocks)}" for stamp, blocks in self.records]
        return "".join(f"{it}\n" for it in lines).encode()

    def waiting(self):
        """The blocks of the records that wait, the newest of each."""
        return {number: block for _, blocks in self.records for number, block in blocks.items()}


def sector_of(slot, place):
    return slot[SECTOR * place : SECTOR * (place + 1)]


def record_one(slot, stamp):
    """The blocks of a record of format 1, or None where it is not whole."""
    descriptor, commit = sector_of(slot, 0), sector_of(slot, 49)
    found, count = numbers_in(descriptor, 2)
    if descriptor[:8] != b"RDDESCR1" or commit[:8] != b"RDCOMMIT" or numbers_in(commit, 2) != [stamp, count] or found != stamp:
        return None
    return {number: sector_of(slot, 1 + it) for it, number in enumerate(numbers_in(descriptor, 2 + count)[2:])}


def record_two(slot, stamp):
    """The same of format 2."""
    commit = sector_of(slot, 248)
    found, count = numbers_in(commit, 2)
    blocks = {}
    for part in range(-(-count // 30)):
        descriptor = sector_of(slot, part)
        if descriptor[:8] != b"RDDESCR2" or numbers_in(descriptor, 3) != [stamp, count, part]:
            return None
        for it in range(30 * part, min(30 * part + 30, count)):
            entry = descriptor[32 + 16 * (it % 30) : 48 + 16 * (it % 30)]
            data = sector_of(slot, 8 + it)
            if data[:8] != stamp.to_bytes(8, "little"):
                return None
            blocks[int.from_bytes(entry[:8], "little")] = entry[8:] + data[8:]
    return blocks if commit[:8] == b"RDCOMMT2" and found == stamp and count else None


def standing(path):
    """What the image in this file stands for: it has to be one."""
    with open(path, "rb") as file:
        sizes, head = file.read(SECTOR), file.read(SECTOR)
        version, blocks, slots, _, home = numbers_in(sizes, 5)
        if sizes[:8] != SUPER or head[:8] != HEAD or version not in SLOT_SECTORS:
            return None
        log = file.read(SECTOR * SLOT_SECTORS[version] * slots)
    size, record_of = SECTOR * SLOT_SECTORS[version], {1: record_one, 2: record_two}[version]
    first, records = numbers_in(head, 1)[0], []
    for stamp in range(first, first + slots):
        record = record_of(log[size * (stamp % slots) : size * (stamp % slots + 1)], stamp)
        if record is None:
            break
        records.append((stamp, record))
    return Standing(version, blocks, slots, home, first, records)
