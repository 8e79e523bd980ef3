#!/usr/bin/env python3
"""Tests of usbdisk-usbip by a host of its own: usbip_test.py PROGRAM FOLDER [MESSAGES [WORD ..]]. Each test is a function `it_..`;
the words pick some by their names. In the folder lies `hostile`, made of the source beside this file, and beside the program
PROGRAM.refusing, with refuse_flush.c in it."""

import fcntl
import os
import random
import resource
import signal
import socket
import struct
import subprocess
import time

from usbip_host import CUT_SHORT, IN, MOST_BLOCKS, OUT, OVERFLOWED, STALLED, UNLINKED, Gone, Host, Server, attached, end_of_log, make_image
from usbip_run import BLOCKS, FOLDER, MESSAGES, PROGRAM, SLOTS, again, ends_well, in_time, pattern, play, refused, served


def it_is_listed():
    server = served()
    reply = Host(server.port).list()
    assert reply[:12] == struct.pack(">HHII", 0x0111, 5, 0, 1)
    assert reply[12 + 256:12 + 260] == b"1-1\0"
    assert struct.unpack(">III", reply[12 + 288:12 + 300]) == (1, 2, 3)
    assert reply[-4:-1] == bytes([8, 6, 0x50])
    status, _ = Host(server.port).attach(b"1-2")
    assert status == 4
    ends_well(server)


def descriptor(host, kind, index=0, size=255):
    status, data = host.control(0x80, 6, kind << 8 | index, 0x0409 if kind == 3 and index else 0, size)
    return None if status == STALLED else data


def it_enumerates(packet):
    server = served(2, "--packet", str(packet))
    host = attached(server.port)
    device = descriptor(host, 1)
    assert len(device) == 18 and device[2:8] == bytes([0, 2, 0, 0, 0, 64]), device
    assert descriptor(host, 1, size=8) == device[:8]
    configuration = descriptor(host, 2)
    assert len(configuration) == configuration[2] == 32 and descriptor(host, 2, size=9) == configuration[:9]
    assert configuration[9 + 5:9 + 8] == bytes([8, 6, 0x50])
    sizes = [struct.unpack_from("<H", configuration, 18 + 7 * i + 4)[0] for i in (0, 1)]
    assert sizes == [packet, packet] and configuration[20] == 0x81 and configuration[27] == 0x02
    qualifier, other = descriptor(host, 6), descriptor(host, 7)
    if packet == 512:
        assert len(qualifier) == 10 and other[22] == 64 and other[1] == 7
    else:
        assert qualifier is None and other is None
    assert descriptor(host, 3) == bytes([4, 3, 9, 4])
    serial = descriptor(host, 3, device[16])[2:].decode("utf-16-le")
    assert len(serial) == 12 and int(serial, 16), serial
    assert descriptor(host, 3, 4) is None and descriptor(host, 2, 1) is None and descriptor(host, 9) is None
    assert host.control(0x80, 8, size=1) == (0, b"\0") and host.control(0x00, 9, 2)[0] == STALLED
    assert host.control(0x00, 9, 1)[0] == 0 and host.control(0x80, 8, size=1) == (0, b"\1")
    assert host.control(0x80, 0, size=2) == (0, b"\0\0") and host.control(0x82, 0, 0, 0x81, 2) == (0, b"\0\0")
    assert host.control(0x81, 10, size=1) == (0, b"\0") and host.control(0x01, 11)[0] == 0
    assert host.control(0xA1, 0xFE, size=1) == (0, b"\0") and host.control(0x40, 1)[0] == STALLED
    ends_well(server)


def it_enumerates_at_high_speed():
    it_enumerates(512)


def it_enumerates_at_full_speed():
    it_enumerates(64)


def it_keeps_blocks(kind, *words):
    server = served(kind, *words)
    host = attached(server.port).set_up()
    status, data = host.command(bytes([0x12, 0, 0, 0, 36, 0]), size=36)
    assert status == 0 and data[8:32] == b"USBDISK POWER SAFE DISK ", data
    status, data = host.command(bytes([0x25]) + bytes(9), size=8)
    assert status == 0 and struct.unpack(">II", data) == (BLOCKS - 1, 512)
    most = MOST_BLOCKS[kind]
    for number, (address, count) in enumerate([(0, 1), (7, most), (BLOCKS - most, most), (0, 3), (100, most)]):
        data = pattern(number, count)
        assert host.write(address, data) == 0
        assert host.read_blocks(address, count) == data
    assert host.synchronize() == 0
    expected = host.read_blocks(100, most)
    ends_well(server)
    with open("disk.img", "rb") as file:
        file.seek((server.home + 100) * 512)
        assert file.read(most * 512) == expected, "what was brought home is at home"


def it_keeps_blocks_in_format_1():
    it_keeps_blocks(1)


def it_keeps_blocks_in_format_2():
    it_keeps_blocks(2)


def it_keeps_blocks_at_full_speed():
    it_keeps_blocks(2, "--packet", "64")


def it_serves_a_terabyte_in_little_memory():
    try:
        make_image("disk.img", 2, 1 << 31, SLOTS)
    except OSError:
        print("no sparse file of a terabyte here: left out")
        return
    server = again()
    places = (0, (1 << 30) + 5, (1 << 31) - 240)
    host = attached(server.port).set_up()
    status, data = host.command(bytes([0x25]) + bytes(9), size=8)
    assert status == 0 and struct.unpack(">II", data) == ((1 << 31) - 1, 512)
    for number, address in enumerate(places):
        assert host.write(address, pattern(number, 240)) == 0
    assert host.synchronize() == 0
    with open(f"/proc/{server.process.pid}/status", encoding="ascii") as file:
        assert int(file.read().split("VmRSS:")[1].split()[0]) < 100000, "it takes 100 MB"
    assert server.end(9) == -9
    server = again()
    host = attached(server.port).set_up()
    for number, address in enumerate(places):
        assert host.read_blocks(address, 240) == pattern(number, 240)
    ends_well(server)
    os.remove("disk.img")


def it_serves_8_gib_in_less_than_4_mib():
    """As far as the program brings its C library with it: else it depends on how much of that the system keeps in memory."""
    make_image("disk.img", 2, 16775720, SLOTS)
    server = again()
    host = attached(server.port).set_up()
    with open(f"/proc/{server.process.pid}/maps", encoding="ascii") as file:
        is_whole = ".so" not in file.read()
    draw = random.Random(8)
    for number in range(1100):
        count = draw.choice([8, 240, 240, 240])
        address = draw.randrange(16775720 - count)
        assert host.write(address, pattern(number, count), forced=number % 4 == 0) == 0
        host.read_blocks(draw.choice([address, draw.randrange(16775720 - count)]), count)
    assert host.synchronize() == 0
    with open(f"/proc/{server.process.pid}/status", encoding="ascii") as file:
        most = int(file.read().split("VmHWM:")[1].split()[0])
    if is_whole:
        print(f"8 GiB are served in {most} KiB of memory")
        assert most <= 4096
    ends_well(server)
    os.remove("disk.img")


def it_keeps_what_was_synchronised_when_it_is_killed():
    server = served()
    for life in range(10):
        host = attached(server.port).set_up()
        synced, forced = pattern(life, 40), pattern(life + 1000, 5)
        assert host.write(10, synced) == 0 and host.synchronize() == 0
        assert host.write(300, forced, forced=True) == 0
        assert host.write(600, pattern(life, 240)) == 0
        host.submit(OUT, host.wrapper(struct.pack(">BBIxHx", 0x2A, 0, 10, 40), 40 * 512, False))
        assert server.end(9) == -9
        server = again()
        host = attached(server.port).set_up()
        assert host.read_blocks(10, 40) == synced and host.read_blocks(300, 5) == forced
        host.close()
    ends_well(server)


def it_lets_transfers_wait_and_unlinks_them():
    server = served()
    host = attached(server.port).set_up()
    early = host.submit(IN, size=13)
    assert host.is_quiet()
    assert host.wait_for(host.unlink(early))[0] == UNLINKED
    assert host.wait_for(host.unlink(early))[0] == 0 and host.wait_for(host.unlink(99999))[0] == 0
    early = host.submit(IN, size=13)
    wrapper = host.submit(OUT, host.wrapper(bytes(6), 0, False))
    assert {host.next_reply()[1:3] for _ in range(2)} == {(wrapper, 0), (early, 0)}
    first = host.submit(OUT, host.wrapper(bytes(6), 0, False))
    second = host.submit(OUT, host.wrapper(bytes(6), 0, False))
    assert host.wait_for(first) == (0, 31) and host.is_quiet()
    third = host.submit(OUT, host.wrapper(bytes(6), 0, False))
    assert host.wait_for(host.unlink(third))[0] == UNLINKED
    status = host.submit(IN, size=13)
    assert {host.next_reply()[1:3] for _ in range(2)} == {(second, 0), (status, 0)}
    host.tag -= 1
    assert host.status() == 0
    ends_well(server)


def it_answers_a_stall_as_a_status():
    server = served()
    host = attached(server.port).set_up()
    read = struct.pack(">BBIxHx", 0x28, 0, BLOCKS, 1)
    assert host.out(host.wrapper(read, 512, True)) == (0, 31)
    assert host.inward(512)[0] == STALLED and host.inward(13)[0] == STALLED
    assert host.control(0x82, 0, 0, 0x81, 2) == (0, b"\1\0")
    assert host.control(0x02, 1, 0, 0x81)[0] == 0
    assert host.status() == 1 and host.sense() == (5, 0x21, 0)
    for reset in (False, True):
        assert host.out(b"no wrapper")[0] == STALLED or host.out(b"")[0] == STALLED
        assert host.control(0x02, 1, 0, 0x81)[0] == 0 and host.inward(13)[0] == STALLED
        if reset:
            assert host.control(0x00, 9, 1)[0] == 0
        else:
            assert host.control(0x21, 0xFF)[0] == 0
            assert host.control(0x02, 1, 0, 0x81)[0] == 0 and host.control(0x02, 1, 0, 0x02)[0] == 0
        assert host.command(bytes(6))[0] == 0
    ends_well(server)


def it_tells_short_and_long_packets():
    server = served()
    host = attached(server.port).set_up()
    inquiry = bytes([0x12, 0, 0, 0, 36, 0])
    for flags, status in ((0, 0), (1, CUT_SHORT)):
        host.out(host.wrapper(inquiry, 36, True))
        answered, data = host.inward(512, flags)
        assert answered == status and len(data) == 36
        assert host.status() == 0
    host.out(host.wrapper(inquiry, 36, True))
    assert host.inward(20)[0] == OVERFLOWED
    assert host.control(0x00, 9, 1)[0] == 0 and host.command(bytes(6))[0] == 0
    ends_well(server)


def it_serves_one_host_at_a_time():
    server = served()
    host = attached(server.port).set_up()
    other = Host(server.port)
    assert other.attach()[0] == 2
    assert Host(server.port).list()[8:12] == struct.pack(">I", 1)
    old = pattern(1, 8)
    assert host.write(50, old) == 0
    host.submit(OUT, host.wrapper(struct.pack(">BBIxHx", 0x2A, 0, 50, 8), 4096, False) )
    host.submit(OUT, pattern(2, 5))
    host.submit(IN, size=13)
    host.close()
    host = attached(server.port).set_up()
    assert host.read_blocks(50, 8) == old, "a WRITE that was cut off is let go whole"
    ends_well(server)


def it_is_brought_home_while_nothing_happens():
    server = served()
    host = attached(server.port).set_up()
    data = pattern(5, 100)
    assert host.write(0, data) == 0
    until = time.monotonic() + 20
    found = b""
    while found != data and time.monotonic() < until:
        time.sleep(0.05)
        with open("disk.img", "rb") as file:
            file.seek(server.home * 512)
            found = file.read(len(data))
    assert found == data
    assert server.end(9) == -9


def patched(offset, data):
    make_image("disk.img", 2, BLOCKS, SLOTS)
    with open("disk.img", "r+b") as file:
        file.seek(offset)
        file.write(data)


def it_refuses_by_name():
    server = served()
    refused(4, "locked by another program")
    ends_well(server)
    with open("disk.img", "rb") as file:
        fcntl.flock(file, fcntl.LOCK_EX)
        refused(4, "locked by another program")
    refused(4, "No such file", "nothing.img")
    refused(4, "neither a plain file nor a block device", "/")
    refused(4, "neither a plain file nor a block device", "/dev/null")
    patched(0, b"X")
    refused(3, "no image")
    patched(8, b"\3")
    refused(3, "later version")
    patched(16, b"\0\0\0\0")
    refused(3, "sizes")
    patched(40, b"\xff" * 8)
    refused(3, "sizes")
    patched(512, b"X")
    refused(3, "sector 1")
    patched(520, b"\xff" * 7 + b"\x7f")
    refused(3, "stamps")
    for length in (0, 511, 700, 512, 1024, 512 * 300, 512 * (end_of_log(2, SLOTS) + BLOCKS - 1)):
        patched(0, b"R")
        os.truncate("disk.img", length)
        refused(3, "no image" if length % 512 or not length else "the sizes in sector 0 do not fit")
    for words, told in (([], "IMAGE: is left out"), (["a", "b"], "b: a second IMAGE"), (["--port"], "--port: its value is left out"),
                        (["a", "--port", "x"], "--port x: the value does not fit"), (["--port", "65536", "a"], "--port 65536: the value does not fit"),
                        (["a", "--packet", "63"], "--packet 63: the value does not fit"), (["--prt", "1", "a"], "--prt: no such word"),
                        (["-vx", "a"], "-x: no such word"), (["--", "a", "--port"], "--port: a second IMAGE")):
        run = subprocess.run([PROGRAM, *words], stderr=subprocess.PIPE, timeout=120, check=False)
        assert run.returncode == 2 and run.stderr.decode() == f"usbdisk-usbip: {told}; usbdisk-usbip --help tells the words\n", (words, run.stderr)
    for word, begin in (("--help", b"usbdisk-usbip IMAGE"), ("--version", b"usbdisk-usbip ")):
        assert subprocess.run([PROGRAM, word], stdout=subprocess.PIPE, timeout=120, check=True).stdout.startswith(begin), word


def limit_writes(size):
    """Behind `size` bytes of a file no write is taken."""
    signal.signal(signal.SIGXFSZ, signal.SIG_IGN)
    resource.setrlimit(resource.RLIMIT_FSIZE, (size, resource.RLIM_INFINITY))


def faulted(server, host, text):
    """The device refused a call: no block is served, each command is answered, and the program ends at a signal alone."""
    until = time.monotonic() + 60
    while text not in server.text() and time.monotonic() < until:
        time.sleep(0.002)
    assert host.write(0, bytes(5120)) == 1 and host.sense() == (4, 0x44, 0)
    assert host.command(bytes(6)) == (1, b"") and host.sense() == (4, 0x44, 0)
    assert server.end() == 4 and text in server.text() and "the disk has faulted" in server.text(), server.text()


def it_goes_on_where_the_device_refuses_a_write():
    home = make_image("disk.img", 2, BLOCKS, SLOTS)
    forced = pattern(3, 30)
    for sectors, is_promised in ((home, True), (2, False)):
        server = Server(PROGRAM, "disk.img", preexec_fn=lambda most=sectors: limit_writes(512 * most))
        host = attached(server.port).set_up()
        assert host.write(0, forced if is_promised else pattern(4, 30), forced=True) == (0 if is_promised else 1)
        assert is_promised or host.sense() == (3, 0x0C, 0)
        faulted(server, host, "a write was refused")
        server = again()
        host = attached(server.port).set_up()
        assert host.read_blocks(0, 30) == forced
        ends_well(server)


def it_goes_on_where_the_device_refuses_a_flush():
    make_image("disk.img", 2, BLOCKS, SLOTS)
    promised, told = bytes(5120), set()
    for number in range(1, 8):
        server = Server(f"{PROGRAM}.refusing", "disk.img", env=os.environ | {"FLUSHES": str(number)})
        data = pattern(number, 10)
        if server.port:
            host = attached(server.port).set_up()
            status = host.write(0, data, forced=True)
            assert status == 0 or (status == 1 and host.sense() == (3, 0x0C, 0))
            promised = promised if status else data
            told.add(status)
            faulted(server, host, "a flush was refused")
        else:
            assert server.wait() == 4 and "a flush was refused" in server.text(), (number, server.text())
        server = again()
        found = attached(server.port).set_up().read_blocks(0, 10)
        assert found in (promised, data), number
        promised = found
        ends_well(server)
    assert promised != bytes(5120) and told == {0, 1}


def it_ends_at_a_signal_also_while_hosts_ask():
    server = served()
    host = attached(server.port).set_up()
    assert host.write(0, pattern(1, 240)) == 0
    flood = subprocess.Popen([f"{FOLDER}/hostile", str(server.port), "100000000"], stderr=subprocess.DEVNULL)
    host.close()
    time.sleep(0.3)
    ends_well(server)
    flood.wait(timeout=60)


def it_goes_on_where_the_device_refuses_a_read():
    server = served()
    host = attached(server.port).set_up()
    os.truncate("disk.img", 512 * (server.home + 100))
    found = host.read_blocks(0, 100)
    for _ in range(2):
        assert host.command(struct.pack(">BBIxHx", 0x28, 0, 50, 51), size=51 * 512) == (1, b"")
        assert host.sense() == (3, 0x11, 0)
        assert host.read_blocks(0, 100) == found
    ends_well(server)
    assert "51 sectors from" in server.text() and "are not read" in server.text(), server.text()


def it_bounds_what_a_host_leaves_waiting():
    server = served()
    for size, most in ((13, 256), (1 << 20, 16)):
        host = attached(server.port).set_up()
        for _ in range(most):
            host.submit(IN, size=size)
        host.submit(0, size=4, setup=bytes([0x80, 6, 0, 3, 0, 0, 4, 0]))
        try:
            host.next_reply()
            raise AssertionError("more transfers wait than may")
        except Gone:
            pass
    host = attached(server.port).set_up()
    for fields in ((1, 7, 2, 0, 1, 0, 13), (3, 7, 0x10002, 1, 1, 0, 13), (1, 7, 0x10002, 1, 2, 0, 13), (1, 7, 0x10002, 0, 1, 0, 0),
                   (1, 7, 0x10002, 1, 3, 0, 13), (1, 7, 0x10002, 1, 1, 0, (1 << 20) + 1), (1, 7, 0x10002, 1, 1, 0, 13, 0, 1)):
        host.send(struct.pack(f">{len(fields)}I", *fields).ljust(48, b"\0"))
        try:
            host.read(1)
            raise AssertionError("a malformed message is answered")
        except Gone:
            host = attached(server.port).set_up()
    ends_well(server)


def it_lets_go_of_clients_that_ask_nothing():
    server = served()
    silent, begun = [Host(server.port) for _ in range(15)], time.monotonic()
    assert Host(server.port).list()[8:12] == struct.pack(">I", 1)
    for host in silent:
        assert host.socket.recv(1) == b""
    assert time.monotonic() > begun + 4, "who asks nothing yet is let in"
    in_time(begun, 20, "who asks nothing is let go")
    ends_well(server)


def it_listens_where_it_is_told():
    for address, warns in (("127.0.0.2", False), ("0.0.0.0", True)):
        server = served(2, "--listen", address)
        assert ("warning: USB/IP knows no access control" in server.text()) == warns, server.text()
        refused(4, "locked")
        ends_well(server)
    make_image("disk.img", 2, BLOCKS, SLOTS)
    for address, text in (("localhost", "no address in digits"), ("127.0.0.1.1", "no address in digits"), ("", "no address in digits"),
                          ("::1%", "no address in digits"), ("::1%nowhere", "no address in digits"), ("1" * 100, "no address in digits"),
                          ("192.0.2.1", "not to be listened on"), ("2001:db8::1", "not to be listened on")):
        run = subprocess.run([PROGRAM, "disk.img", "--listen", address], stderr=subprocess.PIPE, timeout=120, check=False)
        assert run.returncode == 4 and text in run.stderr.decode(), run


def it_listens_by_the_sixth_version_too():
    try:
        socket.create_server(("::1", 0), family=socket.AF_INET6).close()
    except OSError:
        print("no ::1 here: left out")
        return
    for address, warns in (("::1", False), ("::", True), ("::1%lo", False), ("::1%1", False)):
        server = served(2, "--listen", address)
        assert ("warning: USB/IP knows no access control" in server.text()) == warns, server.text()
        socket.create_connection(("::1", server.port), timeout=60).close()
        ends_well(server)


def it_outlives_hostile_clients():
    server = served()
    host = attached(server.port).set_up()
    data = pattern(9, 240)
    assert host.write(0, data) == 0 and host.synchronize() == 0
    host.close()
    subprocess.run([f"{FOLDER}/hostile", str(server.port), MESSAGES], check=True, timeout=300)
    host = attached(server.port).set_up()
    assert host.read_blocks(0, 240) == data
    assert host.write(5, data[:5120], forced=True) == 0
    ends_well(server)
    assert "Sanitizer" not in server.text() and "runtime error" not in server.text(), server.text()[-3000:]
    server = again()
    host = attached(server.port).set_up()
    assert host.read_blocks(0, 240) == data[:2560] + data[:5120] + data[7680:]
    for address in range(0, BLOCKS, 200):
        host.read_blocks(address, 200)
    ends_well(server)


if __name__ == "__main__":
    play([it for name, it in globals().items() if name.startswith("it_") and it is not it_keeps_blocks])
