#!/usr/bin/env python3
"""Times how a node answers the probes of a peer, and what each costs it for the bytes that it costs the peer. Not a part
of the gate.

    tests/bench/probes.py [PROGRAM]     times crates/psb/out/psb, or the program that is named

Writes the image of a node by the formats of docs/FORMATS.md in memory (/dev/shm), serves it to one peer, and asks it for
proofs of 32 objects, each when the one before was answered.
"""

import os
import socket
import struct
import tempfile
import time

from node import MEMORY, Serving, chunk, datagram, free_port, program_named, record, settings, sha, took

PEER, PROBE, PROOF, DECLINED, LET_GO_BACK, REPLACED = 2, 9, 10, 6, 8, 9
LONGEST, UNIT, OBJECTS, SPACING = 32_768, 512, 32, 256
SLOTS = LONGEST // UNIT
TIMES = 100


def let_go_back(deal, body, first):
    """A chunk of 64 units is let go, and 64 claims come in its place, in the slots from this one on."""
    slots = b"".join(struct.pack(">I", first + i) for i in range(SLOTS))
    claims = b"".join(struct.pack(">Q", first + i) + bytes(UNIT - 8) for i in range(SLOTS))
    return record(struct.pack(">BIQ", LET_GO_BACK, PEER, deal) + sha(body) + struct.pack(">I", SLOTS) + slots, claims)


def replaced(deal, slot, home):
    return record(struct.pack(">BIQIBI", REPLACED, PEER, deal, slot, 1, home), b"")


def write_image(path, text):
    """A node that has for its peer 32 of the longest chunks, as many of one unit, 64 slots of each of 33 records, and in
    the last of these records own claims that came home, each as far as can be from one whose first link is kept."""
    deal, issued = 0, 0
    with open(path, "wb") as disk:
        disk.write(b"PSBLOG01" + bytes(8) + record(b"\x01", text))
        for number in range(2 * OBJECTS + 1):
            deal += 1
            disk.write(took(PEER, deal, issued, chunk(number, LONGEST)))
            issued += SLOTS
        for number in range(OBJECTS):
            deal += 1
            disk.write(took(PEER, deal, issued, chunk(10**6 + number, UNIT)))
            issued += 1
        for number in range(OBJECTS + 1):
            deal += 1
            disk.write(let_go_back(deal, chunk(OBJECTS + number, LONGEST), 10**6 + SLOTS * number))
        for number in range(OBJECTS):
            deal += 1
            home = (SPACING * (number + 1) - 1) % issued
            disk.write(replaced(deal, 10**6 + SLOTS * OBJECTS + number, home))
        disk.write(b"\x00")


def of_chunks(numbers, size):
    return [b"\0" + sha(chunk(number, size)) for number in numbers]


def of_slots(numbers):
    return [b"\1" + struct.pack(">I", number) for number in numbers]


QUESTIONS = (
    ("names of nothing", DECLINED, of_chunks(range(10**9, 10**9 + OBJECTS), UNIT)),
    ("chunks of 512 bytes", PROOF, of_chunks(range(10**6, 10**6 + OBJECTS), UNIT)),
    ("chunks of 32,768 bytes", PROOF, of_chunks(range(OBJECTS), LONGEST)),
    ("slots of one record", PROOF, of_slots(range(10**6, 10**6 + OBJECTS))),
    ("slots of 32 records", PROOF, of_slots(range(10**6, 10**6 + SLOTS * OBJECTS, SLOTS))),
    ("slots that are home", PROOF, of_slots(range(10**6 + SLOTS * OBJECTS, 10**6 + SLOTS * OBJECTS + OBJECTS))),
)


def probe(number, objects):
    return datagram(PROBE, PEER, number, sha(b"%d" % number) + struct.pack(">H", len(objects)) + b"".join(objects))


def processor_seconds(child):
    with open(f"/proc/{child.pid}/stat") as text:
        fields = text.read().rsplit(")", 1)[1].split()
    return (int(fields[11]) + int(fields[12])) / os.sysconf("SC_CLK_TCK")


def main():
    program = program_named()
    with tempfile.TemporaryDirectory(dir=MEMORY) as folder, socket.socket(socket.AF_INET, socket.SOCK_DGRAM) as link:
        link.bind(("127.0.0.1", 0))
        port = free_port()
        path = os.path.join(folder, "node.img")
        write_image(path, settings(port, [(PEER, link.getsockname()[1])]))
        with Serving(program, path, port, link) as serving:
            serving.answer(probe(1, QUESTIONS[0][2]), 1, DECLINED)
            number = 1
            for what, kind, objects in QUESTIONS:
                frames = [probe(number + 1 + i, objects) for i in range(TIMES)]
                before, began = processor_seconds(serving.child), time.monotonic()
                for frame in frames:
                    number += 1
                    serving.answer(frame, number, kind)
                seconds = time.monotonic() - began
                used = (processor_seconds(serving.child) - before) / TIMES
                print(f"32 {what}: {TIMES / seconds:.0f} a second; {1000 * used:.2f} ms of the processor for {len(frames[0])} bytes", flush=True)


if __name__ == "__main__":
    main()
