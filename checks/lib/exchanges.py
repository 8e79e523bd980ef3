"""The lines of exchanges between a host and the disk. ADDRESS is below 2^32; a number of blocks is below 256."""

# What is answered to `request_sense` behind a start, and the status that tells good.
ATTENTION = b"ack\ndata 700006000000000a00000000290000000000\n"
GOOD = b"data 55534253010000000000000000\n"


def wrapper(length, direction, command):
    """The line that sends a command block wrapper: the length, the direction (0 or 80h) and the command block."""
    head = bytes.fromhex("5553424301000000") + length.to_bytes(4, "little") + bytes([direction, 0, len(command)])
    return b"out " + (head + command.ljust(16, b"\0")).hex().encode() + b"\n"


def block(code, flags, address, count):
    """A command block of READ(10) or WRITE(10)."""
    return bytes([code, flags]) + address.to_bytes(4, "big") + b"\0" + count.to_bytes(2, "big") + b"\0"


def request_sense():
    return wrapper(18, 0x80, bytes.fromhex("030000001200")) + b"in\n" * 2


def write_blocks(address, count, byte, is_forced=True):
    """A write of this byte; one that is forced goes to the medium before it is answered."""
    return wrapper(512 * count, 0, block(0x2A, 8 * is_forced, address, count)) + f"fill {byte:02x} {512 * count}\nin\n".encode()


def read_blocks(address, count):
    return wrapper(512 * count, 0x80, block(0x28, 0, address, count)) + b"in\n" * (count + 1)


class Story:
    """The lines of a script, and what is to be answered to them."""

    def __init__(self):
        self.script, self.text = request_sense(), ATTENTION + GOOD

    def write(self, address, byte, is_forced=True):
        self.script += write_blocks(address, 1, byte, is_forced)
        self.text += b"ack\nack\n" + GOOD

    def read(self, address, byte):
        self.script += read_blocks(address, 1)
        self.text += b"ack\ndata " + f"{byte:02x}".encode() * 512 + b"\n" + GOOD
