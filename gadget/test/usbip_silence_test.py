#!/usr/bin/env python3
"""A host whose packets vanish: usbip_silence_test.py PROGRAM FOLDER. Server and host stand in two networks of their own, which two
devices of the kernel (TUN) and this program between them join. When it carries no packet any more the host is silently gone, once
with an answer on its way to it, and once with none. The disk must be free for others within some seconds over a minute.

It needs root, unshare and /dev/net/tun; where they are not there it says so. It takes some 70 seconds, in which it waits."""

import ctypes
import fcntl
import os
import struct
import subprocess
import threading
import time

from usbip_host import IN, OUT, Server, attached, make_image
from usbip_run import BLOCKS, PROGRAM, SLOTS, in_time, play

NEWNET, TUNSETIFF, TUN_WITHOUT_HEAD, MOST = 0x40000000, 0x400454CA, 0x1001, 75
LIBRARY = ctypes.CDLL(None, use_errno=True)


def new_network(address):
    """Takes this thread to a network of its own, with one device. Answers that device's file."""
    if LIBRARY.unshare(NEWNET):
        raise OSError(ctypes.get_errno(), "unshare")
    file = os.open("/dev/net/tun", os.O_RDWR)
    fcntl.ioctl(file, TUNSETIFF, struct.pack("16sH22x", b"tun0", TUN_WITHOUT_HEAD))
    for words in (["addr", "add", f"{address}/24", "dev", "tun0"], ["link", "set", "tun0", "up"], ["link", "set", "lo", "up"]):
        subprocess.run(["ip", *words], check=True)
    return file


class Wire:
    """Carries packets from each device to the other, as long as it is not cut."""

    def __init__(self, server, host):
        self.is_cut = {server: False, host: False}
        for one, other in ((server, host), (host, server)):
            threading.Thread(target=self.carry, args=(one, other), daemon=True).start()

    def carry(self, one, other):
        while True:
            packet = os.read(one, 65536)
            if not self.is_cut[one]:
                os.write(other, packet)


def serve(name, address):
    make_image(name, 2, BLOCKS, SLOTS)
    server = Server(PROGRAM, name, "--listen", address)
    assert server.port, server.text()
    return server


def it_lets_hosts_go_whose_packets_vanish():
    try:
        server_end = new_network("10.77.0.1")
    except (OSError, subprocess.CalledProcessError) as error:
        print(f"no network of one's own here ({error}): left out")
        return
    servers = [serve(name, "10.77.0.1") for name in ("asked.img", "quiet.img")]
    host_end = new_network("10.77.0.2")
    wire = Wire(server_end, host_end)
    asked, quiet = [attached(server.port, "10.77.0.1").set_up() for server in servers]
    wire.is_cut[server_end] = True
    asked.submit(OUT, asked.wrapper(struct.pack(">BBIxHx", 0x28, 0, 0, 240), 240 * 512, True))
    asked.submit(IN, size=240 * 512)
    time.sleep(1)
    wire.is_cut[host_end] = True
    begun = time.monotonic()
    while any("detached" not in server.text() for server in servers):
        in_time(begun, MOST, str([server.text() for server in servers]))
        time.sleep(0.1)
    for server in servers:
        assert server.end() == 0
    assert asked and quiet


if __name__ == "__main__":
    play([it_lets_hosts_go_whose_packets_vanish])
