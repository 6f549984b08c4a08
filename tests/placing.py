#!/usr/bin/env python3
"""Has one real node place a snapshot with another one and take it back, over real files and sockets on the loopback.

    tests/placing.py [PROGRAM ..]         tries each program; crates/psb/out/psb where none is named

Node 1 has chosen node 2, which this script writes into its log, and backs a folder up. Node 2 serves, and is killed
in the end; node 1 serves in short calls, until the ledger says that each chunk is placed. Then the ledgers of both
balance, and the disk of node 2 has each chunk once. Both serve for a minute, in which each probes the other, and no debt
arises. Then node 2 goes on with a copy of its disk from before the chunks were placed, and is found out: the ledger of
node 1 says that all units are lost, and by which change of the log. With its own disk it proves what it has, and the debt
goes. A node 1 that lost its disk restores the folder by its ticket, from node 2. Last, node 1 gives the snapshot up, and
serves until neither has anything of the other. It ends within about two minutes for each program, with status 0 where
all is well and 1 where something is not.
"""

import os
import random
import re
import struct
import subprocess
import sys
import time

import loopback
import restoring
from loopback import PROBE_ASKED, PROBE_DECLINED, PROBE_FAILED, PROBE_PASSED
from loopback import Wrong, begun, image, kinds, left, read, record, same, sealed, start, stop, write
from restoring import HERE, counts, new_folder, same_tree

CHOSE = 19
PROBED = 60
TREE = {"letter": random.Random(2).randbytes(1_500), "notes": None, "notes/zeros": bytes(70_000)}
SEEDS = {1: bytes(range(32)).hex(), 2: bytes(range(64, 96)).hex()}
TURNS = "6"


class Node(restoring.Node):
    """A node whose log begins with whom it chose."""

    def begin(self, other, chosen):
        """Begins, with the other one as its peer."""
        text = f'''id = {self.number}
address = "{HERE}:{self.port}"
seed = "{SEEDS[self.number]}"
capacity = 65536
[[peer]]
id = {other.number}
address = "{HERE}:{other.port}"
key = "{loopback.KEY.hex()}"
'''
        write(self.settings, text.encode())
        peers = b"".join(struct.pack(">IIII", peer.number, 1, 1, 1) for peer in chosen)
        records = [record(struct.pack(">BI", CHOSE, len(chosen)) + peers, b"")] if chosen else []
        write(self.disk, image(begun(text.encode()), *records))

    def serve(self, deadline):
        """Serves for some turns, in which nothing is dropped."""
        process = start(self.program, self.disk, "serve", TURNS)
        try:
            said, _ = process.communicate(timeout=left(deadline))
        except subprocess.TimeoutExpired:
            raise Wrong(f"serve {TURNS} had not ended after {loopback.SECONDS} seconds") from None
        finally:
            stop(process)
        last = said.splitlines()[-1:]
        same("the status of serve", process.returncode, 0)
        same(f"whether {last!r} has no drops", bool(last and re.fullmatch(rb"turns 6 taken \d+ dropped 0 lost \d+", last[0])), True)


def balanced(peer, units):
    return b"peer %d held %d back %d debt 0\n" % (peer.number, units, units)


def serve_until(deadline, first, second, units):
    """Both serve until the first has so many units with the second; then their ledgers agree."""
    with second.serving(deadline):
        while first.ledger(deadline) != balanced(second, units):
            first.serve(deadline)
    same("the ledger of the other node", second.ledger(deadline), balanced(first, units))


def made_since(node, count):
    """The kinds of the changes that a node made behind so many."""
    return kinds(read(node.disk))[count:]


def probe(deadline, first, second, units):
    """Both serve for a minute: what they probe of one another is there."""
    nodes = (first, second)
    before = [len(kinds(read(node.disk))) for node in nodes]
    with second.serving(deadline), first.serving(deadline):
        time.sleep(PROBED)
    for node, peer, count in zip(nodes, nodes[::-1], before):
        made = made_since(node, count)
        same(f"whether {made.count(PROBE_PASSED)} probes of node {node.number} that passed are some in a minute", made.count(PROBE_PASSED) >= 4, True)
        same("the kinds of the changes of a minute", set(made), {PROBE_ASKED, PROBE_PASSED})
        same("the ledger after a minute of probes", node.ledger(deadline), balanced(peer, units))


def probe_until(deadline, first, second, outcomes):
    """Both serve until a probe of the first node has one of these outcomes; answers which that was."""
    count = len(kinds(read(first.disk)))
    with second.serving(deadline), first.serving(deadline):
        while not (found := outcomes.keys() & made_since(first, count)):
            left(deadline)
            time.sleep(0.1)
    return {(count + made_since(first, count).index(kind), outcomes[kind]) for kind in found}


def find_out(deadline, first, second, older, units):
    """The second node has an older disk, and the first one finds it out. With its own disk the debt goes."""
    whole = read(second.disk)
    write(second.disk, older)
    found = probe_until(deadline, first, second, {PROBE_FAILED: "failed", PROBE_DECLINED: "declined"})
    same("what is held for a node with an older disk, and which change found that out", first.balance(deadline, second), (units, found))
    same("whether nothing is there any more", first.ledger(deadline).startswith(b"peer %d held %d back 0 " % (second.number, units)), True)
    write(second.disk, whole)
    probe_until(deadline, first, second, {PROBE_PASSED: "passed"})
    same("the ledger once the lost chunks are there again", first.ledger(deadline), balanced(second, units))


def course(program, folder):
    """All of it; each part has its own deadline."""
    first, second = Node(program, folder, 1), Node(program, folder, 2)

    def deadline():
        return time.monotonic() + loopback.SECONDS

    first.begin(second, [second])
    second.begin(first, [])
    home = os.path.join(folder, "home")
    restoring.put(home, TREE, {})
    line, _, kept = loopback.snapshot(1, TREE, 0)
    first.run(deadline(), ["backup", home], 0, line)

    chunks = {sealed(piece)[1][:32]: sealed(piece)[0] for piece in kept}
    units = sum((len(body) + 511) // 512 for body in chunks.values())
    older = read(second.disk)
    serve_until(deadline(), first, second, units)
    found = read(second.disk)
    same("how often the other disk has each chunk", [found.count(body) for body in chunks.values()], [1] * len(chunks))

    probe(deadline() + PROBED, first, second, units)
    find_out(deadline(), first, second, older, units)

    # What node 2 notes of a node that lost all is not kept.
    whole = read(second.disk)
    lost = Node(program, folder, 1)
    lost.disk, lost.port = os.path.join(folder, "lost.img"), first.port
    lost.run(deadline(), ["init", first.settings], 0, b"node 1 peers 1\n")
    ticket = line.split()[-1].decode()
    with second.serving(deadline()):
        out = new_folder(folder, "from the other node")
        lost.restore(deadline(), ticket, out, restoring.TURNS, 0, b"restored %s\n" % counts(TREE))
        same_tree("the tree that was restored from the other node", out, TREE)
    write(second.disk, whole)

    first.run(deadline(), ["forget", "1"], 0, b"forgot 1\n")
    serve_until(deadline(), first, second, 0)


def main(words):
    return loopback.try_all("placing", words, __doc__, course,
        "a snapshot was placed with a peer, which proved for a minute that it had it, was found out with an older disk and then"
        " had no debt again; it came back from there when the node's own disk was lost, and was let go; both ledgers balanced")


if __name__ == "__main__":
    sys.exit(main(sys.argv[1:]))
