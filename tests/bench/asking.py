#!/usr/bin/env python3
"""Times what a node asks before it chooses its buddies, with 100,000 and 1,000,000 wanted chunks. Not a part of the gate.

    tests/bench/asking.py [PROGRAM]    times crates/psb/out/psb, or the program that is named

Writes the images by the formats of docs/FORMATS.md in memory (/dev/shm): so many Kept of 8 bytes each, and a Snapped that
lists them all; nobody is chosen. Opens each by `ledger`; serves one turn, in which each of ten peers has its first tick,
so that the question is worked out once and sent ten times; and serves for some seconds more, in which no peer answers.
"""

import os
import socket
import struct
import subprocess
import tempfile

import own
import ticks
from node import MEMORY, free_port, program_named, record, settings, sha

ASK = 11
SIZES, PEERS, SECONDS = (100_000, 1_000_000), range(2, 12), 10


def write_image(path, text, count):
    """A node that wants so many chunks placed, and chose nobody."""
    names = sorted(sha(struct.pack(">Q", number)) for number in range(count))
    with open(path, "wb") as disk:
        disk.write(b"PSBLOG01" + bytes(8) + record(b"\x01", text))
        for number in range(count):
            disk.write(own.kept(number))
        disk.write(own.snapped(1, names))
        disk.write(b"\x00")


def asked(links):
    """How many questions came."""
    count = 0
    for link in links:
        link.setblocking(False)
        while True:
            try:
                count += link.recv(65_536)[4] == ASK
            except BlockingIOError:
                break
    return count


def later_ticks(program, path, links, port):
    """Seconds of the processor for the ticks of a second, of all peers; and how many questions they sent."""
    child = subprocess.Popen([program, path, "serve", "1000000"], stdout=subprocess.DEVNULL)
    try:
        ticks.wait_until_open(child, {}, port)
        asked(links)
        before = ticks.so_far(child)
        ticks.answer({}, port, SECONDS, 0)
        return (ticks.so_far(child) - before) / SECONDS, asked(links) / SECONDS
    finally:
        child.kill()
        child.wait()


def main():
    program = program_named()
    with tempfile.TemporaryDirectory(dir=MEMORY) as folder:
        links = {}
        for peer in PEERS:
            link = socket.socket(socket.AF_INET, socket.SOCK_DGRAM)
            link.bind(("127.0.0.1", 0))
            links[link] = peer
        port, path = free_port(), os.path.join(folder, "node.img")
        text = settings(port, [(peer, link.getsockname()[1]) for link, peer in links.items()])
        for count in SIZES:
            write_image(path, text, count)
            opened, memory = ticks.used(program, path, "ledger")
            first, _ = ticks.used(program, path, "serve", "1")
            each, questions = later_ticks(program, path, links, port)
            print(f"{count} wanted, {len(PEERS)} peers: opened in {opened:.2f} s, {memory:.0f} MiB; the first ticks"
                  f" {first - opened:.3f} s; later ones {1000 * each:.1f} ms a second, with {questions:.1f} questions", flush=True)


if __name__ == "__main__":
    main()
