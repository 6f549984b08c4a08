#!/usr/bin/env python3
"""Times the ticks of a node that wants 100,000 chunks placed, with ten peers. Not a part of the gate.

    tests/bench/ticks.py [PROGRAM]     times crates/psb/out/psb, or the program that is named

Writes the images by the formats of docs/FORMATS.md in memory (/dev/shm): so many Kept of 8 bytes each, a Snapped that
lists them all, and of them none, the first half or all placed with each peer. Opens each by `ledger`; serves one turn, in
which each peer has its first tick; and serves for some seconds more while this script answers as the peers.
"""

import itertools
import os
import select
import socket
import struct
import subprocess
import tempfile
import time

import own
from node import ACCEPTED, MEMORY, STORE, datagram, free_port, program_named, record, settings, sha

CHUNKS, PEERS, SECONDS = 100_000, range(2, 12), 10
FIRST_FREE_SLOT = 10**8


def chose():
    peers = b"".join(struct.pack(">IIII", peer, 1, 1, 1) for peer in PEERS)
    return record(struct.pack(">BI", own.CHOSE, len(PEERS)) + peers, b"")


def placed(peer, deal, name):
    """The chunk is placed on the peer, with a claim in the slot of this number."""
    proposed = record(struct.pack(">BIQB", own.PROPOSED, peer, deal, own.FRESH) + name, b"")
    settled = record(struct.pack(">BIQII", own.SETTLED, peer, deal, 1, deal), bytes(512))
    return proposed + settled


def write_image(path, text, count):
    """A node that placed the first so many of its chunks with each peer."""
    names = sorted(sha(struct.pack(">Q", number)) for number in range(CHUNKS))
    with open(path, "wb") as disk:
        disk.write(b"PSBLOG01" + bytes(8) + record(b"\x01", text))
        for number in range(CHUNKS):
            disk.write(own.kept(number))
        disk.write(own.snapped(1, names))
        disk.write(chose())
        for deal, name in enumerate(names[:count], 1):
            for peer in PEERS:
                disk.write(placed(peer, deal, name))
        disk.write(b"\x00")


def used(program, path, *words):
    """Seconds of the processor that a command takes, and MiB of memory at most."""
    child = subprocess.Popen([program, path, *words], stdout=subprocess.DEVNULL)
    _, status, usage = os.wait4(child.pid, 0)
    if status:
        raise SystemExit(f"{words[0]} ended with {status}")
    return usage.ru_utime + usage.ru_stime, usage.ru_maxrss / 1024


def so_far(child):
    """Seconds of the processor that a process took so far."""
    with open(f"/proc/{child.pid}/stat") as text:
        fields = text.read().rpartition(")")[2].split()
    return (int(fields[11]) + int(fields[12])) / os.sysconf("SC_CLK_TCK")


def answer(links, port, seconds, slot):
    """Takes each Store for so long; answers how many there were."""
    ends = time.monotonic() + seconds
    taken = 0
    while (rest := ends - time.monotonic()) > 0:
        for link in select.select(list(links), [], [], rest)[0]:
            frame = link.recv(65_536)
            if frame[4] == STORE:
                deal = struct.unpack(">Q", frame[16:24])[0]
                text = struct.pack(">HI", 1, slot + taken) + bytes(512)
                link.sendto(datagram(ACCEPTED, links[link], deal, text), ("127.0.0.1", port))
                taken += 1
    return taken


def wait_until_open(child, links, port):
    """Until a second took the process little: it is open, and its first ticks are over."""
    for second in itertools.count(1):
        before = so_far(child)
        answer(links, port, 1, second * FIRST_FREE_SLOT)
        if so_far(child) - before < 0.1:
            return


def later_ticks(program, path, links, port):
    """Seconds of the processor for the ticks of a second, of all peers, with the replies; and how many those were."""
    child = subprocess.Popen([program, path, "serve", "1000000"], stdout=subprocess.DEVNULL)
    try:
        wait_until_open(child, links, port)
        before = so_far(child)
        taken = answer(links, port, SECONDS, 40 * FIRST_FREE_SLOT)
        return (so_far(child) - before) / SECONDS, taken / SECONDS
    finally:
        child.kill()
        child.wait()


def main():
    program = program_named()
    with tempfile.TemporaryDirectory(dir=MEMORY) as folder:
        links = {}
        for peer in PEERS:
            link = socket.socket(socket.AF_INET, socket.SOCK_DGRAM)
            link.bind(("127.0.0.1", 0))
            links[link] = peer
        port, path = free_port(), os.path.join(folder, "node.img")
        text = settings(port, [(peer, link.getsockname()[1]) for link, peer in links.items()])
        text = text.replace(b"[[peer]]", b"buddies = 10\n[[peer]]", 1)
        for what, count in (("none", 0), ("half", CHUNKS // 2), ("all", CHUNKS)):
            write_image(path, text, count)
            opened, memory = used(program, path, "ledger")
            first, _ = used(program, path, "serve", "1")
            each, taken = later_ticks(program, path, links, port)
            print(f"{CHUNKS} wanted, {what} placed, {len(PEERS)} peers: opened in {opened:.2f} s, {memory:.0f} MiB; the first ticks"
                  f" {first - opened:.3f} s; later ones {1000 * each:.1f} ms a second, with {taken:.1f} replies", flush=True)


if __name__ == "__main__":
    main()
