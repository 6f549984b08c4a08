#!/usr/bin/env python3
"""Times the discards of a node whose peer lacks all that it is asked for. Not a part of the gate.

    tests/bench/discards.py [PROGRAM [SHARE]]     times crates/psb/out/psb, or the program that is named

Writes the images of nodes as tests/bench/probing.py does, with so many own chunks that are placed with the peer and so
many own claims there, for which the node holds as many claims of the peer and chunks of 64 units. SHARE, 1 where none is
given, divides these numbers. Serves each node to a peer that declines each probe whole, so that the third failure and
each one behind it makes a discard due, and reads how much of the processor is used until the log has grown by it.
"""

import os
import socket
import struct
import sys
import tempfile
import time

import ticks
from node import MEMORY, datagram, free_port, program_named, settings
from probing import LONGEST, PEER, UNIT, Node, write_image

DECLINED, COUNT_AT, PATIENT, DISCARDS = 6, 60, 3, 4
SIZES = ((130_000, 0), (0, 2_000_000), (130_000, 2_000_000))


def decline(node, frame):
    """Declines all that a probe asks for."""
    number, nonce = struct.unpack_from(">Q", frame, 16)[0], frame[28:60]
    count = struct.unpack_from(">H", frame, COUNT_AT)[0]
    node.rested()
    node.link.sendto(datagram(DECLINED, PEER, number, nonce + struct.pack(f">H{count}H", count, *range(count))), ("127.0.0.1", node.port))
    node.rested()


def discard(node, path):
    """Milliseconds of the processor until the log has grown by the next change."""
    size, before = os.path.getsize(path), node.used()
    while os.path.getsize(path) == size:
        time.sleep(0.005)
    return node.rested() - before


def measured(program, path, port, link):
    node = Node(program, path, port, link)
    try:
        costs = []
        for failure in range(1, PATIENT + DISCARDS):
            decline(node, node.next_probe()[0])
            if failure >= PATIENT:
                costs.append(discard(node, path))
        return costs
    finally:
        node.child.kill()
        node.child.wait()


def main():
    program = program_named()
    share = int(sys.argv[2]) if len(sys.argv) > 2 else 1
    with tempfile.TemporaryDirectory(dir=MEMORY) as folder, socket.socket(socket.AF_INET, socket.SOCK_DGRAM) as link:
        link.bind(("127.0.0.1", 0))
        port, path = free_port(), os.path.join(folder, "node.img")
        for chunks, claims in ([it // share for it in sizes] for sizes in SIZES):
            write_image(path, settings(port, [(PEER, link.getsockname()[1])]), chunks, claims, 1)
            opened, memory = ticks.used(program, path, "ledger")
            costs = " ".join(f"{it:.1f}" for it in measured(program, path, port, link))
            print(f"{chunks} claims and {claims * UNIT // LONGEST} chunks held for the peer: opened in {opened:.1f} s, {memory:.0f} MiB;"
                  f" discards, ms: {costs}", flush=True)


if __name__ == "__main__":
    main()
