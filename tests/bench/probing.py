#!/usr/bin/env python3
"""Times the node's own probes of one peer: the search for what a probe asks for, and what an answer costs. Not a part of
the gate.

    tests/bench/probing.py [PROGRAM [SHARE]]     times crates/psb/out/psb, or the program that is named

Writes the images of nodes by the formats of docs/FORMATS.md in memory (/dev/shm): so many own chunks that are placed
with the peer, and so many own claims there, in so many runs. SHARE, 1 where none is given, divides all of these numbers.
Serves each node to a peer that answers each probe with a wrong value, for which the node works out the right one, and
reads how much of the processor the turn used that sent a probe, and the one that took the answer. The first answers make
it walk over its claims, as far as it has not done that yet in turns in which nothing came.
"""

import itertools
import os
import select
import socket
import struct
import subprocess
import sys
import tempfile
import time

import own
import ticks
from node import MEMORY, chunk, datagram, free_port, program_named, record, settings, sha, took

PEER, PROBE, PROOF, LET_GO = 2, 9, 10, 7
LONGEST, UNIT = 32_768, 512
SLOTS = LONGEST // UNIT
PROBES = 5
# Chunks there, own claims there, runs of these.
SIZES = ((130_000, 0, 0), (0, 2_000_000, 1), (0, 2_000_000, 100_000), (130_000, 2_000_000, 1), (130_000, 2_000_000, 100_000))


def taken(claims, runs):
    """Chunks of the peer against so many own claims, and some more, of which as many are let go against single slots as
    leave so many runs."""
    gone = runs // SLOTS
    count = claims // SLOTS + gone
    for number in range(count):
        yield took(PEER, number + 1, SLOTS * number, chunk(number, LONGEST))
    step = SLOTS * count // (SLOTS * gone + 1) if gone else 0
    for number in range(gone):
        slots = [step * (SLOTS * number + i + 1) for i in range(SLOTS)]
        head = struct.pack(">BIQ", LET_GO, PEER, count + number + 1) + sha(chunk(number, LONGEST))
        yield record(head + struct.pack(f">I{SLOTS}I", SLOTS, *slots), b"")


def placed(chunks):
    """So many own chunks, each placed with the peer."""
    names = [sha(struct.pack(">Q", number)) for number in range(chunks)]
    for number in range(chunks):
        yield own.kept(number)
    if chunks:
        yield own.snapped(1, sorted(names))
        yield from own.placed(names)


def write_image(path, text, chunks, claims, runs):
    with open(path, "wb") as disk:
        disk.write(b"PSBLOG01" + bytes(8) + record(b"\x01", text))
        for change in itertools.chain(taken(claims, runs), placed(chunks)):
            disk.write(change)
        disk.write(b"\x00")


class Node:
    """A node that serves, and how much of the processor it used."""

    def __init__(self, program, path, port, link):
        self.port, self.link = port, link
        self.child = subprocess.Popen([program, path, "serve", "1000000"], stdout=subprocess.DEVNULL)

    def used(self):
        """Milliseconds."""
        with open(f"/proc/{self.child.pid}/schedstat") as text:
            return int(text.read().split()[0]) / 10**6

    def rested(self):
        """Milliseconds once nothing more is used for a while."""
        while True:
            before = self.used()
            time.sleep(0.05)
            if self.used() - before < 0.1:
                return self.used()

    def next_probe(self):
        """The next probe, and the milliseconds that the turn used which sent it."""
        rest = last = self.used()
        while True:
            if select.select([self.link], [], [], 0.01)[0]:
                frame = self.link.recv(65_536)
                if frame[4] == PROBE:
                    return frame, self.rested() - rest
            now = self.used()
            if now - last < 0.05:
                rest = now
            last = now

    def answer(self, frame):
        """Milliseconds that a wrong answer costs."""
        number, nonce = struct.unpack_from(">Q", frame, 16)[0], frame[28:60]
        before = self.rested()
        self.link.sendto(datagram(PROOF, PEER, number, nonce + bytes(32)), ("127.0.0.1", self.port))
        return self.rested() - before


def measured(program, path, port, link):
    """Milliseconds of the turns that began a probe, and of those that took the answers."""
    node = Node(program, path, port, link)
    try:
        costs = []
        while len(costs) < PROBES:
            frame, tick = node.next_probe()
            costs.append((tick, node.answer(frame)))
        return zip(*costs)
    finally:
        node.child.kill()
        node.child.wait()


def main():
    program = program_named()
    share = int(sys.argv[2]) if len(sys.argv) > 2 else 1
    with tempfile.TemporaryDirectory(dir=MEMORY) as folder, socket.socket(socket.AF_INET, socket.SOCK_DGRAM) as link:
        link.bind(("127.0.0.1", 0))
        port, path = free_port(), os.path.join(folder, "node.img")
        for chunks, claims, runs in ([it // share for it in sizes] for sizes in SIZES):
            write_image(path, settings(port, [(PEER, link.getsockname()[1])]), chunks, claims, runs)
            opened, memory = ticks.used(program, path, "ledger")
            begun, answered = measured(program, path, port, link)
            words = lambda costs: " ".join(f"{it:.1f}" for it in costs)
            print(f"{chunks} chunks and {claims} claims in {runs} runs with the peer: opened in {opened:.1f} s, {memory:.0f} MiB;"
                  f" turns that begin a probe, ms: {words(begun)}; wrong answers to them, ms: {words(answered)}", flush=True)


if __name__ == "__main__":
    main()
