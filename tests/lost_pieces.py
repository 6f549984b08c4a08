#!/usr/bin/env python3
"""Has three real nodes place their pieces; one keeps nothing of what it took, and the others let go of what is its own.

    tests/lost_pieces.py [PROGRAM ..]     tries each program; crates/psb/out/psb where none is named

Nodes 1 and 2 back a folder up each, and place each chunk with one another and with node 3, which has no folder; each
keeps a claim of node 3 for each unit that this one took. Then node 3 goes on with a copy of its disk from before it took
anything. The others find it out by their probes, and book what they lost as its debt. From the third failure in a row on
each failure lets some of node 3's claims go at each of them, an eighth of those that are left, a quarter, a half and all,
and the debt goes with them, until nothing is held for node 3 and nothing is owed. After each failure the ledgers balance,
and say by which change each chunk was lost; what nodes 1 and 2 hold for one another stays as it was. It says what
happens, within about a minute and a half for each program, and ends with status 0 where all is well and 1 where something
is not.
"""

import contextlib
import random
import re
import struct
import sys
import time

import lost_machine
import loopback
from loopback import PROBE_DECLINED, PROBE_FAILED, PROBE_PASSED
from loopback import left, read, same, write
from lost_machine import others_of, records, serve_all, units

DISCARDED = 18
PATIENT = 3
ROUNDS = 8


class Node(lost_machine.Node):
    """A node whose folder is of small files, so that many things are asked for one by one."""

    def __init__(self, program, folder, number):
        super().__init__(program, folder, number)
        chance = random.Random(number)
        self.tree = {f"note {year}": chance.randbytes(700) for year in range(1, 19)}

    def numbers(self, deadline):
        """What the ledger says of each peer: held, back and debt, and each thing that is owed for, with the change that
        noted it; they balance."""
        found, rows = {}, None
        for line in self.said(deadline, ["ledger"]).decode().splitlines():
            if peer := re.fullmatch(r"peer (\d+) held (\d+) back (\d+) debt (\d+)", line):
                number, *sums = map(int, peer.groups())
                rows = []
                found[number] = sums, rows
            else:
                row = re.fullmatch(r"debt (\d+) of (\d+) change (\d+) (failed|declined)", line)
                same(f"whether {line!r} is a row of debt", row is not None, True)
                rows.append((int(row[1]), int(row[3]), row[4]))
        for (held, back, debt), rows in found.values():
            same("what is back and in debt, and the rows of debt", (back + debt, sum(row[0] for row in rows)), (held, debt))
        return found

    def noted(self, peer):
        """The changes of probes and discards of a peer in the log, by number."""
        wanted = PROBE_PASSED, PROBE_FAILED, PROBE_DECLINED, DISCARDED
        found = enumerate(records(read(self.disk)))
        return [(number, head[0]) for number, head in found if head[0] in wanted and struct.unpack_from(">I", head, 1)[0] == peer.number]

    def failures(self, peer):
        return [number for number, kind in self.noted(peer) if kind in (PROBE_FAILED, PROBE_DECLINED)]

    def has_failed(self, peer, times):
        """Whether the peer's probes failed so often, and the discard that this makes due was made."""
        kinds = [kind for _, kind in self.noted(peer)]
        return len(self.failures(peer)) >= times and (times < PATIENT or kinds[-1] == DISCARDED)


def place(deadline, owners, nodes):
    """They serve until each owner has each of its chunks with both others."""
    while not all(node.is_done(others_of(node, nodes)) for node in owners):
        serve_all(deadline, nodes)
    for node in owners:
        size = sum(map(units, node.chunks.values()))
        whom = " and ".join(f"node {other.number}" for other in others_of(node, nodes))
        print(f"node {node.number} placed all {len(node.chunks)} chunks, {size} units, with {whom}", flush=True)


def fail(deadline, owners, faulty, nodes, times):
    """All serve until the probes of the owners have failed so often."""
    with contextlib.ExitStack() as serving:
        for node in nodes:
            serving.enter_context(node.serving(deadline))
        while not all(node.has_failed(faulty, times) for node in owners):
            left(deadline)
            time.sleep(0.1)


def tell(deadline, node, faulty, times, before):
    """What a failure came to at a node; answers what it holds now."""
    (held, back, debt), rows = node.numbers(deadline)[faulty.number]
    same(f"whether what node {faulty.number} still owes for is noted by its failures", {row[1] for row in rows} <= set(node.failures(faulty)), True)
    same(f"what node {node.number} has at node {faulty.number}", back, 0)
    if times < PATIENT:
        same(f"what node {node.number} holds after failure {times}", held, before)
        print(f"node {node.number}, failure {times}: node {faulty.number} lacks all that it took; {debt} units are owed, and {held} are held for it", flush=True)
    else:
        print(f"node {node.number}, failure {times}: it let {before - held} of {before} units go; {debt} are owed, and {held} are held", flush=True)
    return held


def course(program, folder):
    """All of it; each part has its own deadline."""
    nodes = [Node(program, folder, number) for number in (1, 2, 3)]
    *owners, faulty = nodes

    def deadline():
        return time.monotonic() + 2 * loopback.SECONDS

    for node in nodes:
        node.begin(deadline(), others_of(node, nodes))
    for node in owners:
        node.backup(deadline())
    older = read(faulty.disk)
    place(deadline(), owners, nodes)
    before = {node.number: node.numbers(deadline()) for node in owners}
    held = {node.number: sum(map(units, node.chunks.values())) for node in owners}
    for node in owners:
        sums = held[node.number]
        same(f"what node {node.number} has at node {faulty.number}", before[node.number][faulty.number], ([sums, sums, 0], []))

    write(faulty.disk, older)
    print(f"node {faulty.number} goes on with a copy of its disk from before it took anything", flush=True)
    for times in range(1, ROUNDS + 1):
        fail(deadline(), [node for node in owners if held[node.number]], faulty, nodes, times)
        for node in owners:
            if held[node.number]:
                held[node.number] = tell(deadline(), node, faulty, times, held[node.number])
        if not any(held.values()):
            break
    same(f"what is held for node {faulty.number} in the end", held, {node.number: 0 for node in owners})
    for node, other in zip(owners, owners[::-1]):
        same(f"what nodes {node.number} and {other.number} hold for one another", node.numbers(deadline())[other.number], before[node.number][other.number])
    print(f"nothing is held for node {faulty.number}, and nothing is owed; nodes 1 and 2 hold for one another what they held", flush=True)


def main(words):
    return loopback.try_all("lost-pieces", words, __doc__, course,
        "a node that lost all that it took was found out, and what was held for it was let go by degrees, with its debt")


if __name__ == "__main__":
    sys.exit(main(sys.argv[1:]))
