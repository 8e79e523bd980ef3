"""What an image stands for, by the bytes that docs/FORMAT.md has, and by records that are not whole."""

import os
import tempfile
import unittest

from lib import standing

SECTOR = standing.SECTOR


def sector(mark, *numbers, behind=b""):
    return (mark + b"".join(it.to_bytes(8, "little") for it in numbers) + behind).ljust(SECTOR, b"\0")


def image(kind, slots, head, sectors):
    """An image of 1000 blocks: its super, its head, and these sectors of its log."""
    home = 2 + slots * standing.SLOT_SECTORS[kind]
    text = bytearray(sector(b"RDSUPER1", kind, 1000, slots, 2, home) + sector(b"RDHEAD01", head) + bytes(SECTOR * (home - 2)))
    for place, what in sectors.items():
        text[SECTOR * place : SECTOR * (place + 1)] = what
    return bytes(text)


def stands(text):
    with tempfile.TemporaryDirectory() as folder:
        path = os.path.join(folder, "a.img")
        with open(path, "wb") as file:
            file.write(text)
        return standing.standing(path)


# The record with stamp 3 stands in slot 1 of 2, and that with stamp 4 in slot 0.
ONE = {52: sector(b"RDDESCR1", 3, 2, 0, 7), 53: b"a" * SECTOR, 54: b"b" * SECTOR, 101: sector(b"RDCOMMIT", 3, 2)}
NEXT = {2: sector(b"RDDESCR1", 4, 1, 7), 3: b"c" * SECTOR, 51: sector(b"RDCOMMIT", 4, 1)}
FIRSTS = (7).to_bytes(8, "little") + b"12345678"
TWO = {2: sector(b"RDDESCR2", 4, 1, 0, behind=FIRSTS), 10: sector(b"", 4, behind=b"d" * 504), 250: sector(b"RDCOMMT2", 4, 1)}


class OfImages(unittest.TestCase):
    def test_first_bytes(self):
        begins = "5244535550455231 0100000000000000 e803000000000000 0800000000000000 0200000000000000 9201000000000000"
        self.assertTrue(image(1, 8, 2, {}).startswith(bytes.fromhex(begins)))
        self.assertEqual(stands(image(1, 8, 2, {})).shown(), b"format 1\nblocks 1000\nslots 8\nhome 402\nhead 2\n")

    def test_records_of_format_1(self):
        found = stands(image(1, 2, 3, {**ONE, **NEXT}))
        self.assertEqual([stamp for stamp, _ in found.records], [3, 4])
        self.assertEqual(found.waiting(), {0: b"a" * SECTOR, 7: b"c" * SECTOR})

    def test_record_of_format_2(self):
        self.assertEqual(stands(image(2, 1, 4, TWO)).records, [(4, {7: b"12345678" + b"d" * 504})])

    def test_not_whole(self):
        for gone in (*ONE.keys() - {53, 54}, *NEXT.keys() - {3}):
            sectors = {place: what for place, what in {**ONE, **NEXT}.items() if place != gone}
            stamps = [stamp for stamp, _ in stands(image(1, 2, 3, sectors)).records]
            self.assertEqual(stamps, [] if gone in ONE else [3], gone)
        for gone in TWO:
            self.assertEqual(stands(image(2, 1, 4, {place: what for place, what in TWO.items() if place != gone})).records, [], gone)

    def test_none(self):
        self.assertIsNone(stands(bytes(4096)))


if __name__ == "__main__":
    unittest.main()
