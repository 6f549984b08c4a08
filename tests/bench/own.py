#!/usr/bin/env python3
"""Times a node that has many own chunks, long snapshots and many deals of its own: how it opens them, and how it gives
a snapshot up. Not a part of the gate.

    tests/bench/own.py [PROGRAM]     times crates/psb/out/psb, or the program that is named

Writes the images by the formats of docs/FORMATS.md in memory (/dev/shm): so many Kept of 8 bytes each, and a Snapped
that lists them all, or two that share half of theirs. Opens each by `snapshots`, and then by `forget`. Then such a node
that placed each chunk on its peer, each in a deal of its own; or to which each was refused for good. Opens it by `ledger`.
"""

import os
import struct
import tempfile

from node import MEMORY, program_named, record, settings, sha, timed

KEPT, SNAPPED, PROPOSED, SETTLED, TURNED, CHOSE = 2, 3, 11, 12, 13, 19
FRESH, CLASH = 1, 4
PEER = 2


def kept(number):
    body = struct.pack(">Q", number)
    return record(struct.pack(">B", KEPT) + sha(body) + struct.pack(">IB", len(body), 1), body)


def snapped(number, names):
    ticket = sha(b"name") + sha(b"handle") + struct.pack(">IB", 1, 0)
    head = struct.pack(">BI", SNAPPED, number) + ticket + struct.pack(">IIQI", 1, 1, 8 * len(names), 0)
    return record(head + struct.pack(">I", len(names)) + b"".join(names), b"")


def chose():
    return record(struct.pack(">BIIIII", CHOSE, 1, PEER, 1, 1, 0), b"")


def proposed(deal, name):
    return record(struct.pack(">BIQB", PROPOSED, PEER, deal, FRESH) + name, b"")


def settled(deal, slot):
    """The peer took the deal, with a claim in this slot."""
    return record(struct.pack(">BIQII", SETTLED, PEER, deal, 1, slot), bytes(512))


def turned(deal):
    """The peer refused the deal, so that its chunk is never proposed again."""
    return record(struct.pack(">BIQBQ", TURNED, PEER, deal, CLASH, 0), b"")


def write_image(path, chunks, lists, deals=lambda names: ()):
    """A node with so many own chunks, a snapshot for each list of their numbers, and these records behind them."""
    names = [sha(struct.pack(">Q", number)) for number in range(chunks)]
    with open(path, "wb") as disk:
        disk.write(b"PSBLOG01" + bytes(8) + record(b"\x01", settings(40001, [(PEER, 40002)])))
        for number in range(chunks):
            disk.write(kept(number))
        for number, listed in enumerate(lists, 1):
            disk.write(snapped(number, sorted(names[i] for i in listed)))
        for one in deals(names):
            disk.write(one)
        disk.write(b"\x00")


def placed(names):
    """Each chunk is placed on the peer."""
    yield chose()
    for deal, name in enumerate(names, 1):
        yield proposed(deal, name)
        yield settled(deal, deal)


def barred(names):
    """Each chunk is refused for good."""
    yield chose()
    for deal, name in enumerate(names, 1):
        yield proposed(deal, name)
        yield turned(deal)


def main():
    program = program_named()
    with tempfile.TemporaryDirectory(dir=MEMORY) as folder:
        path = os.path.join(folder, "node.img")
        for chunks in (250_000, 500_000, 1_000_000):
            half = chunks // 2
            for lists in ([range(chunks)], [range(half), range(half // 2, half + half // 2)]):
                write_image(path, chunks, lists)
                size = os.path.getsize(path) / 2**20
                seconds, memory = timed(program, path, "snapshots")
                print(f"opened {chunks} own chunks, {len(lists)} snapshot(s) of {len(lists[0])} names, {size:.0f} MiB: {seconds:.2f} s, {memory:.0f} MiB", flush=True)
                seconds, memory = timed(program, path, "forget", "1")
                print(f"opened them and forgot one: {seconds:.2f} s, {memory:.0f} MiB", flush=True)
        for chunks in (83_333, 166_666, 333_333):
            for what, deals in (("placed", placed), ("barred", barred)):
                write_image(path, chunks, [range(chunks)], deals)
                size = os.path.getsize(path) / 2**20
                seconds, memory = timed(program, path, "ledger")
                print(f"opened {3 * chunks + 3} changes, {chunks} own chunks {what}, {size:.0f} MiB: {seconds:.2f} s, {memory:.0f} MiB", flush=True)


if __name__ == "__main__":
    main()
