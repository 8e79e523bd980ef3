#!/usr/bin/env python3
"""Tests of usbdisk-usbip by a host of its own: usbip_owner_test.py PROGRAM FOLDER [MESSAGES [WORD ..]]. How the program lives with
its owner, with strangers, and with a system that has no room: as usbip_test.py, which has what a host asks day by day. The words
pick tests by their names."""

import os
import resource
import select
import shutil
import signal
import socket
import struct
import subprocess
import sys
import time

from usbip_host import IN, OUT, Gone, Host, Server, attached, end_of_log, make_image
from usbip_run import BLOCKS, PROGRAM, SLOTS, TooLate, again, ends_well, in_time, pattern, play, refused, served

ENDS = (signal.SIGHUP, signal.SIGINT, signal.SIGQUIT, signal.SIGTERM)


def with_usual_signals():
    for number in ENDS:
        signal.signal(number, signal.SIG_DFL)


def it_ends_cleanly_at_each_of_four_signals():
    for number in ENDS:
        server = served(2, preexec_fn=with_usual_signals)
        host = attached(server.port).set_up()
        data = pattern(number, 30)
        assert host.write(7, data) == 0
        ends_well(server, number)
        with open("disk.img", "rb") as file:
            file.seek((server.home + 7) * 512)
            assert file.read(len(data)) == data, number


def it_goes_on_at_a_hang_up_that_is_ignored():
    server = served(2, preexec_fn=lambda: signal.signal(signal.SIGHUP, signal.SIG_IGN))
    server.process.send_signal(signal.SIGHUP)
    assert Host(server.port).list()[8:12] == struct.pack(">I", 1)
    ends_well(server)


class Piped:
    """A server whose messages go to a pipe of 4 KiB that nobody reads."""

    def __init__(self, *words):
        with socket.create_server(("127.0.0.1", 0)) as free:
            self.port = free.getsockname()[1]
        make_image("disk.img", 2, BLOCKS, SLOTS)
        self.process = subprocess.Popen([PROGRAM, "disk.img", "--port", str(self.port), *words], stdin=subprocess.DEVNULL,
                                        stderr=subprocess.PIPE, pipesize=4096)
        Server.all.append(self.process)
        assert select.select([self.process.stderr], [], [], 60)[0]

    def come_and_leave(self, times):
        for _ in range(times):
            host = Host(self.port)
            host.socket.settimeout(5)
            status, _ = host.attach()
            assert status in (0, 2)
            host.close()

    def end(self):
        self.process.send_signal(signal.SIGTERM)
        return self.process.wait(timeout=20)


def it_never_waits_for_its_messages():
    server = Piped()
    server.come_and_leave(300)
    assert server.end() == 0
    assert len(server.process.stderr.read().splitlines()) < 40, "a stranger makes no more messages than a few"


def it_drops_messages_that_have_no_room_and_counts_them():
    server = Piped("-v")
    server.come_and_leave(300)
    os.read(server.process.stderr.fileno(), 4096)
    server.come_and_leave(2)
    assert server.end() == 0
    assert b" messages had no room" in server.process.stderr.read()


def it_gives_a_place_to_the_owner_among_silent_strangers():
    server = served()
    silent = [Host(server.port) for _ in range(40)]
    begun = time.monotonic()
    host = attached(server.port).set_up()
    in_time(begun, 5, "the owner has a place")
    assert host.write(0, pattern(1, 8)) == 0
    more = [Host(server.port) for _ in range(40)]
    assert Host(server.port).list()[8:12] == struct.pack(">I", 1) and host.synchronize() == 0
    assert silent and more
    ends_well(server)


FLOOD = """
import select, socket, sys
def come():
    it = socket.socket()
    it.setblocking(False)
    it.connect_ex(("127.0.0.1", int(sys.argv[1])))
    return it
all = [come() for _ in range(64)]
print(flush=True)
while True:
    for it in select.select(all, [], [])[0]:
        all.remove(it)
        it.close()
        all.append(come())
"""


def it_lets_the_owner_in_among_strangers_that_come_again():
    server = served()
    flood = subprocess.Popen([sys.executable, "-c", FLOOD, str(server.port)], stdout=subprocess.PIPE)
    Server.all.append(flood)
    flood.stdout.readline()
    time.sleep(0.3)
    tries, attachments, begun = 0, 0, time.monotonic()
    while tries < 40 and time.monotonic() < begun + 30:
        tries += 1
        try:
            host = Host(server.port)
            attachments += host.attach()[0] in (0, 2)
            host.close()
        except (Gone, OSError):
            pass
    flood.kill()
    flood.wait()
    if attachments < 20:
        raise TooLate(f"{attachments} of {tries} imports are answered")
    ends_well(server)


def it_serves_others_while_a_host_reads_nothing():
    server = served()
    host = attached(server.port).set_up()
    host.socket.setsockopt(socket.SOL_SOCKET, socket.SO_RCVBUF, 4096)
    data = pattern(3, 100)
    assert host.write(500, data) == 0
    host.socket.setblocking(False)
    try:
        # (more answers than the system keeps, and fewer transfers than may wait while the device is read)
        for _ in range(80):
            host.submit(OUT, host.wrapper(struct.pack(">BBIxHx", 0x28, 0, 0, 240), 240 * 512, True))
            host.submit(IN, size=240 * 512)
            host.submit(IN, size=13)
    except BlockingIOError:
        pass
    time.sleep(0.2)
    begun = time.monotonic()
    assert Host(server.port).list()[8:12] == struct.pack(">I", 1)
    in_time(begun, 5, "others are served")
    found = b""
    while found != data and time.monotonic() < begun + 5:
        time.sleep(0.05)
        with open("disk.img", "rb") as file:
            file.seek((server.home + 500) * 512)
            found = file.read(len(data))
    if found != data:
        raise TooLate("steps in the background are made")
    other = attached(server.port).set_up()
    assert time.monotonic() > begun + 5, server.text()
    in_time(begun, 20, "who takes no answers is let go")
    assert other.read_blocks(500, 100) == data
    ends_well(server)


def it_answers_a_host_that_reads_late():
    server = served()
    host = attached(server.port).set_up()
    host.socket.setsockopt(socket.SOL_SOCKET, socket.SO_RCVBUF, 32768)
    data = pattern(4, 240)
    assert host.write(0, data) == 0
    numbers = []
    for _ in range(12):
        host.submit(OUT, host.wrapper(struct.pack(">BBIxHx", 0x28, 0, 0, 240), 240 * 512, True))
        numbers.append(host.submit(IN, size=240 * 512))
        host.submit(IN, size=13)
    time.sleep(1)
    came = {}
    while len(came) < 36:
        _, number, status, found = host.next_reply()
        came[number] = status, found
    assert all(came[number] == (0, data) for number in numbers)
    ends_well(server)


def processor_seconds(server):
    with open(f"/proc/{server.process.pid}/stat", encoding="ascii") as file:
        fields = file.read().rsplit(")", 1)[1].split()
    return (int(fields[11]) + int(fields[12])) / os.sysconf("SC_CLK_TCK")


def it_rests_where_no_descriptor_is_left():
    server = served(2, preexec_fn=lambda: resource.setrlimit(resource.RLIMIT_NOFILE, (8, 8)))
    host = attached(server.port).set_up()
    strangers = [Host(server.port) for _ in range(12)]
    time.sleep(0.3)
    before = processor_seconds(server)
    time.sleep(2)
    assert processor_seconds(server) - before < 0.5, "it takes no processor"
    assert host.write(0, pattern(1, 8)) == 0
    host.close()
    for it in strangers:
        it.close()
    assert attached(server.port).set_up().read_blocks(0, 8) == pattern(1, 8)
    ends_well(server)


def it_joins_what_neighbouring_steps_write():
    server = served()
    host = attached(server.port).set_up()
    data = pattern(5, 240)

    def writes():
        with open(f"/proc/{server.process.pid}/io", encoding="ascii") as file:
            return int(file.read().split("syscw: ")[1].split()[0])

    assert host.write(0, data) == 0 and host.synchronize() == 0
    before, found, until = writes(), b"", time.monotonic() + 20
    while found != data and time.monotonic() < until:
        time.sleep(0.05)
        with open("disk.img", "rb") as file:
            file.seek(server.home * 512)
            found = file.read(len(data))
    assert found == data and writes() - before < 40, writes() - before
    ends_well(server)


def loop_device(*words):
    """A loop device, or None where this machine gives none."""
    if os.geteuid() or not shutil.which("losetup"):
        return None
    run = subprocess.run(["losetup", "--find", "--show", *words], stdout=subprocess.PIPE, stderr=subprocess.DEVNULL, check=False)
    return run.stdout.decode().strip() if run.returncode == 0 else None


def it_sees_locks_through_loop_devices():
    server = served()
    device = loop_device("disk.img")
    if not device:
        print("no loop devices here: left out")
        ends_well(server)
        return
    devices = [device]
    try:
        refused(4, "locked by another program", device)
        ends_well(server)
        refused(4, f"{device} has it open")
        over = Server(PROGRAM, device, "--port", "0")
        assert over.port, over.text()
        refused(4, "in use", device)
        refused(4, f"{device} has it open")
        host = attached(over.port).set_up()
        assert host.write(0, pattern(1, 8), forced=True) == 0
        ends_well(over)
        devices.append(loop_device(device))
        refused(4, f"{devices[1]} has it open", device)
        over = Server(PROGRAM, devices[1], "--port", "0")
        assert over.port, over.text()
        assert attached(over.port).set_up().read_blocks(0, 8) == pattern(1, 8)
        refused(4, "has it open")
        ends_well(over)
    finally:
        for it in reversed(devices):
            subprocess.run(["losetup", "--detach", it], check=True)
    ends_well(again())


def it_makes_an_interrupted_flush_again():
    make_image("disk.img", 2, BLOCKS, SLOTS)
    server = Server(f"{PROGRAM}.refusing", "disk.img", env=os.environ | {"INTERRUPTED": "2"})
    assert server.port, server.text()
    host = attached(server.port).set_up()
    data = pattern(6, 20)
    for number in range(4):
        assert host.write(20 * number, data, forced=True) == 0
    assert host.read_blocks(0, 20) == data
    ends_well(server)


def it_serves_while_the_device_works():
    make_image("disk.img", 2, BLOCKS, SLOTS)
    server = Server(f"{PROGRAM}.refusing", "disk.img", env=os.environ | {"SLOW": "1000"})
    assert server.port, server.text()
    host = attached(server.port).set_up()
    begun = time.monotonic()
    host.out(host.wrapper(struct.pack(">BBIxHx", 0x2A, 8, 0, 8), 4096, False))
    host.out(pattern(1, 8))
    status = host.submit(IN, size=13)
    assert host.control(0x82, 0, 0, 0x81, 2) == (0, b"\0\0"), "a request is answered"
    assert Host(server.port).list()[8:12] == struct.pack(">I", 1), "others are served"
    in_time(begun, 0.8, "none of these waits for a flush")
    assert host.wait_for(status)[1][12] == 0
    assert time.monotonic() - begun > 0.9, "what is promised does"
    begun = time.monotonic()
    assert host.write(300, pattern(2, 240)) == 0
    in_time(begun, 0.8, "a plain WRITE waits for no flush")
    # (until that WRITE is in the log, what promises is put off)
    assert host.command(bytes([0x35]) + bytes(9))[0] == 0
    host.out(host.wrapper(struct.pack(">BBIxHx", 0x2A, 8, 0, 8), 4096, False))
    host.out(pattern(3, 8))
    begun = time.monotonic()
    assert host.control(0x21, 0xFF)[0] == 0, "a class reset is answered"
    assert host.control(0x02, 1, 0, 0x81)[0] == 0 and host.control(0x02, 1, 0, 0x02)[0] == 0
    in_time(begun, 0.8, "a reset waits for no flush")
    assert host.read_blocks(300, 240) == pattern(2, 240)
    ends_well(server)


def it_keeps_its_promises_whichever_write_is_refused():
    make_image("disk.img", 2, BLOCKS, SLOTS)
    may_be, faults = [bytes(30 * 512)], 0
    for number in range(1, 41):
        server = Server(f"{PROGRAM}.refusing", "disk.img", env=os.environ | {"WRITES": str(number), "SHORT": "1"})
        host = attached(server.port).set_up() if server.port else None
        for turn in range(9 if host else 0):
            data, is_forced = pattern(100 * number + turn, 30), turn % 2 == 0
            status = host.write(0, data, forced=is_forced)
            may_be = [data] if is_forced and status == 0 else may_be + [data]
            if status:
                break
            time.sleep(0.05 if turn % 3 == 2 else 0)
        status = server.end() if host else server.wait()
        faults += status == 4
        assert status in (0, 4), server.text()
        server = again()
        found = attached(server.port).set_up().read_blocks(0, 30)
        assert found in may_be and (status or found == may_be[-1]), (number, server.text())
        may_be = [found]
        ends_well(server)
    assert faults > 12, faults


def number_of(path, machine):
    number = 0xCBF29CE484222325
    for byte in machine + path.encode():
        number = (number ^ byte) * 0x100000001B3 % 2**64
    return f"{(number ^ number >> 48) % 2**48:012X}"


def serial_of(host):
    status, data = host.command(bytes([0x12, 1, 0x80, 0, 64, 0]), size=64)
    assert status == 0
    return data[4:16].decode()


def text_of(host, index):
    return host.control(0x80, 6, 3 << 8 | index, 0x0409, 255)[1][2:].decode("utf-16-le")


def it_has_a_number_of_this_machine_and_path():
    machine = b""
    for path in ("/etc/machine-id", "/proc/device-tree/serial-number"):
        if os.path.exists(path):
            with open(path, "rb") as file:
                machine += file.read(64).split(b"\0")[0]
    server = served()
    host = attached(server.port).set_up()
    assert serial_of(host) == text_of(host, 3) == number_of(os.path.realpath("disk.img"), machine), serial_of(host)
    ends_well(server)


def it_is_called_as_it_is_told():
    server = served(2, "--serial", "0123456789AB", "--vendor", "MAKER", "--product", "A DISK OF OURS", "--revision", "7.2")
    host = attached(server.port).set_up()
    status, data = host.command(bytes([0x12, 0, 0, 0, 36, 0]), size=36)
    assert status == 0 and data[8:36] == b"MAKER   A DISK OF OURS  7.2 ", data
    assert serial_of(host) == "0123456789AB"
    assert [text_of(host, it) for it in (1, 2, 3)] == ["MAKER", "A DISK OF OURS", "0123456789AB"]
    ends_well(server)
    for words in (["--serial", "12345"], ["--serial", "0123456789ab"], ["--vendor", "NINE CHAR"], ["--vendor", ""],
                  ["--product", "\u00e4"], ["--revision", "12345"], ["--on-fault", "ends"]):
        run = subprocess.run([PROGRAM, "disk.img", *words], stderr=subprocess.PIPE, timeout=60, check=False)
        assert run.returncode == 2 and f"{words[0]} {words[1]}: the value does not fit" in run.stderr.decode(), words


def it_is_unplugged_where_the_device_has_failed():
    home = make_image("disk.img", 2, BLOCKS, SLOTS)
    for words in ((), ("--on-fault", "serve"), ("--on-fault", "unplug")):
        server = Server(PROGRAM, "disk.img", *words, preexec_fn=lambda: limit_writes(home))
        host = attached(server.port).set_up()
        assert host.write(0, pattern(2, 30), forced=True) == 0
        if "unplug" in words:
            assert server.wait() == 4 and "detached" in server.text(), server.text()
        else:
            until = time.monotonic() + 60
            while "a write was refused" not in server.text() and time.monotonic() < until:
                time.sleep(0.01)
            assert host.command(bytes(6)) == (1, b"") and host.sense() == (4, 0x44, 0)
            assert server.end() == 4
        server = again()
        assert attached(server.port).set_up().read_blocks(0, 30) == pattern(2, 30)
        ends_well(server)


def limit_writes(sectors):
    """Behind so many sectors of a file no write is taken."""
    signal.signal(signal.SIGXFSZ, signal.SIG_IGN)
    resource.setrlimit(resource.RLIMIT_FSIZE, (512 * sectors, resource.RLIM_INFINITY))


def it_tells_the_service_manager_when_it_can_be_attached():
    for name in (os.path.abspath("manager"), f"@usbdisk-{os.getpid()}"):
        manager = socket.socket(socket.AF_UNIX, socket.SOCK_DGRAM)
        manager.bind(name.replace("@", "\0", 1))
        manager.settimeout(60)
        server = served(2, env=os.environ | {"NOTIFY_SOCKET": name})
        assert manager.recv(100) == b"READY=1"
        attached(server.port).close()
        ends_well(server)
        assert manager.recv(100) == b"STOPPING=1"
        manager.close()


def torn_record(stamp):
    """What a device leaves in a slot that loses the data of a record, and keeps the rest."""
    entries = b"".join(struct.pack("<QQ", number, 0) for number in range(3))
    descriptor = (b"RDDESCR2" + struct.pack("<3Q", stamp, 3, 0) + entries).ljust(512, b"\0")
    return descriptor.ljust(248 * 512, b"\0") + (b"RDCOMMT2" + struct.pack("<2Q", stamp, 3)).ljust(512, b"\0")


def it_starts_on_records_that_do_not_fit_each_other():
    # (the head has stamp 1, whose record is lost; a part of each of these is there)
    for stamps in ((2,), (2, 3, 4, 5, 6)):
        home = make_image("disk.img", 2, BLOCKS, SLOTS)
        with open("disk.img", "r+b") as file:
            file.seek(home * 512)
            file.write(pattern(1, BLOCKS))
            for stamp in stamps:
                file.seek(end_of_log(2, stamp % SLOTS) * 512)
                file.write(torn_record(stamp))
        for _turn in (1, 2):
            server = again()
            assert attached(server.port).set_up().read_blocks(0, 100) == pattern(1, BLOCKS)[:51200]
            ends_well(server)


def it_tells_its_counters():
    server = served()
    host = attached(server.port).set_up()
    for number in range(3):
        assert host.write(0, pattern(number, 10), forced=True) == 0
    server.process.send_signal(signal.SIGUSR1)
    until = time.monotonic() + 20
    while " reads of " not in server.text() and time.monotonic() < until:
        time.sleep(0.01)
    assert " 4 commands, " in server.text() and " 3 records" in server.text(), server.text()
    assert host.write(0, pattern(4, 10)) == 0
    ends_well(server)


if __name__ == "__main__":
    play([it for name, it in globals().items() if name.startswith("it_")])
