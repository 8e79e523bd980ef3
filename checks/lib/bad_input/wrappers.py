"""Packets in place of a wrapper, to one running `usbdisk_live`."""

import re

from lib.programs import Ended, contents, run, write_file

READY = bytes.fromhex("55534243070000000000000000000600000000000000000000000000000000")
# READ(10) of block 0 for 512 bytes.
READ_FIRST = bytes.fromhex("55534243090000000002000080000a28000000000000000100000000000000")
CLEAR_IN, CLEAR_OUT = ("setup 0201000081000000", "ack"), ("setup 0201000002000000", "ack")
STATUS_IN, STATUS_OUT = "setup 8200000081000200", "setup 8200000002000200"
RESET = ("setup 21ff000000000000", "ack")
CLEARS = [CLEAR_IN, CLEAR_OUT]
HALTED = [("in", "stall"), ("out", "stall"), (STATUS_IN, "data 0100"), (STATUS_OUT, "data 0100")]
UNHALTED = [(STATUS_IN, "data 0000"), (STATUS_OUT, "data 0000")]
OPEN = [("in", "nak"), *UNHALTED]
# The next wrapper is taken, and its status comes.
NEXT = [(f"out {READY.hex()}", "ack"), ("in", "data 555342530700000000000000(00|01)"), *OPEN]
# The course of an exchange: which endpoint is halted, whether bytes are due from the host, what comes from the disk. An empty packet where bytes are
# due ends their phase.
HALT = "data 0[01]00"
COURSE = [(STATUS_IN, HALT), (STATUS_OUT, HALT), ("out", "ack|nak|stall"), *[("in", "nak|stall|data ([0-9a-f]{2})+"), *CLEARS] * 3, RESET, *OPEN]


def is_wrapper(packet):
    """The table: the length, the signature, and flags, unit and length of the command block such as are defined. Which of them is wrong shows in no
    answer: judges/worked compares that."""
    return len(packet) == 31 and packet[:4] == b"USBC" and packet[12] in (0, 0x80) and packet[13] == 0 and 1 <= packet[14] <= 16


def packets():
    """Of every length, with each single bit flipped, with each value in the byte of the command block's length."""
    for wrapper in (READY, READ_FIRST):
        for length in range(513):
            yield (wrapper + bytes(512))[:length]
        for bit in range(248):
            yield bytes(byte ^ (1 << bit % 8 if place == bit // 8 else 0) for place, byte in enumerate(wrapper))
        for size in range(256):
            yield wrapper[:14] + bytes([size]) + wrapper[15:]


def steps_of(packet):
    """The lines that follow from a packet where a wrapper is expected, with their answers."""
    sent = (f"out {packet.hex()}".rstrip(), "ack")
    if is_wrapper(packet):
        return [sent, *CLEARS, *UNHALTED, RESET, *NEXT, sent, *COURSE]
    return [sent, *HALTED, *CLEARS, *HALTED, RESET, *HALTED, *CLEARS, *OPEN, *NEXT]


def read_of(block):
    """The status of READ(10) with a bit flipped, or of another length, where 512 bytes are to come of 16 blocks, and how many bytes come."""
    first, count = int.from_bytes(block[2:6], "big"), int.from_bytes(block[7:9], "big")
    if block[0] == 0x2A:
        return 2, 0
    if len(block) < 10 or block[0] != 0x28 or block[1] & 0xE7 or block[9] or first + count > 16:
        return 1, 0
    return (0, 512 * count) if count <= 1 else (2, 0)


def misread(packet, course):
    """In what an exchange shows that its wrapper was read otherwise, or None."""
    length = int.from_bytes(packet[8:12], "little")
    data = [bytes.fromhex(it[5:]) for it in course[3:12:3] if it.startswith("data")]
    statuses = [it for it in data if it[:4] == b"USBS" and len(it) == 13]
    if len(statuses) != 1 or data[-1] != statuses[0]:
        return f"it has {len(statuses)} statuses"
    if statuses[0][4:8] != packet[4:8]:
        return "its status has another tag"
    sent = sum(map(len, data[:-1]))
    if int.from_bytes(statuses[0][8:12], "little") != length - sent:
        return f"its status has another residue, with {sent} bytes sent"
    is_out = length > 0 and packet[12] == 0
    if is_out != (course[1] == "data 0100" or course[2] == "ack") or is_out and (sent or course[0] == "data 0100"):
        return "its data goes the other way"
    if length == 512 and packet[12] and (statuses[0][12], sent) != read_of(packet[15 : 15 + packet[14]]):
        return f"its command block has status {statuses[0][12]}, with {sent} bytes sent"
    return None


def try_wrappers(build):
    """Sends each packet to one disk."""
    tried = [(it, steps_of(it)) for it in packets()]
    lines = [line for _, steps in tried for line, _ in steps]
    write_file("events", "".join(f"{it}\n" for it in lines).encode())
    status, written, told = run([*build.live, "image"], given="events")
    build.judge("wrappers", Ended(status, written, told, contents("image")), Ended(0, len(lines), b"", build.started))
    write_file("image", build.fresh)
    answers = iter(written.decode("latin-1").split("\n"))
    for number, (packet, steps) in enumerate(tried):
        build.counts["good wrappers" if is_wrapper(packet) else "bad wrappers"] += 1
        found = [next(answers, "") for _ in steps]
        wrong = [f"the answer to '{line}' is {it!r}" for it, (line, wanted) in zip(found, steps) if not re.fullmatch(wanted, it)]
        if not wrong and is_wrapper(packet):
            wrong = [it for it in [misread(packet, found[-len(COURSE) :])] if it]
        build.outside += [f"packet {number + 1} of {len(packet)} bytes, {packet[:31].hex()}: {it}" for it in wrong[:1]]
