#!/usr/bin/env python3
"""Has three real nodes back up to one another; one loses all that it has, and takes its folder back from the others.

    tests/lost_machine.py [PROGRAM ..]    tries each program; crates/psb/out/psb where none is named

Three nodes have a disk, a folder and settings each, and a key for each pair, on the loopback. Each backs its folder up,
and then all serve in short calls. Nobody tells them whom to choose: each asks the others which of its chunks they hold,
chooses both, and places each of its chunks with both. In the end each chunk is once on each disk, also the one that all
three backed up, and for each pair the ledgers agree. Then node 1's disk and folder are removed. With its settings and
its ticket it takes the folder back: from both others, from node 2 alone and from node 3 alone. It says what happens, in
the same lines each time, within about half a minute for each program, and ends with status 0 where all is well and 1
where something is not.
"""

import contextlib
import os
import random
import re
import shutil
import struct
import subprocess
import sys
import time

import loopback
import restoring
from loopback import Wrong, left, read, same, sha, start, stop, write
from restoring import HERE, bodies, counts, new_folder, same_tree

PROPOSED, SETTLED, CHOSE = 11, 12, 19
PLACES = 1, 2
# Six seconds: a node that goes on alone ends before a probe of it is late.
TURNS = "24"

# Less than a chunk at least has, so that it is one chunk of each folder.
COMMON = random.Random(0).randbytes(2_000)


def made_tree(number):
    """The folder of a node, of one chunk for each of its texts and two for the zeros."""
    chance = random.Random(number)
    tree = {"song": COMMON, "letters": None, "empty": b"", "zeros": bytes(32_768 + 1_000 * number)}
    for year in range(1, number + 2):
        tree[f"letters/{year}"] = chance.randbytes(600 * year)
    return tree


def units(body):
    return (len(body) + 511) // 512


def records(data):
    """The head of each change in a log."""
    place = 16
    while data[place]:
        head_size, body_size = struct.unpack_from(">II", data, place + 1)
        yield data[place + 9 : place + 9 + head_size]
        place += 9 + head_size + body_size


class Node(restoring.Node):
    """A node, with its folder."""

    def __init__(self, program, folder, number):
        super().__init__(program, folder, number)
        self.home, self.tree = os.path.join(folder, f"home {number}"), made_tree(number)

    def begin(self, deadline, others):
        """Begins, with the others as its peers."""
        text = f'id = {self.number}\naddress = "{HERE}:{self.port}"\nseed = "{sha(b"seed %d" % self.number).hex()}"\ncapacity = 65536\n'
        for other in others:
            key = sha(b"key %d %d" % tuple(sorted((self.number, other.number)))).hex()
            text += f'[[peer]]\nid = {other.number}\naddress = "{HERE}:{other.port}"\nkey = "{key}"\n'
        write(self.settings, text.encode())
        self.run(deadline, ["init", self.settings], 0, b"node %d peers %d\n" % (self.number, len(others)))

    def said(self, deadline, words):
        """What the program says, where it ends well."""
        process = start(self.program, self.disk, *words)
        try:
            said, _ = process.communicate(timeout=left(deadline))
        except subprocess.TimeoutExpired:
            raise Wrong(f"node {self.number}: {words[0]} had not ended") from None
        finally:
            stop(process)
        same(f"the status of {words[0]} at node {self.number}", process.returncode, 0)
        return said

    def backup(self, deadline):
        """Backs the folder up; answers the ticket."""
        restoring.put(self.home, self.tree, {})
        line = self.said(deadline, ["backup", self.home])
        front = b"snapshot 1 %s left 0 ticket " % counts(self.tree)
        same(f"whether {line!r} is the line of this folder", re.fullmatch(front + b"[0-9a-f]{138}\n", line) is not None, True)
        self.chunks = {name: body for name, (_, body) in bodies(read(self.disk)).items()}
        return line.split()[-1].decode()

    def progress(self):
        """Whom the node chose, as its log says, and the names that it placed with each peer."""
        chosen, deals, placed = [], {}, {}
        for head in records(read(self.disk)):
            if head[0] == CHOSE:
                chosen = [struct.unpack_from(">III", head, at) for at in range(5, len(head), 16)]
            elif head[0] == PROPOSED:
                peer, deal, what = struct.unpack_from(">IQB", head, 1)
                if what in PLACES:
                    deals[peer, deal] = head[14:46]
            elif head[0] == SETTLED:
                peer, deal = struct.unpack_from(">IQ", head, 1)
                placed.setdefault(peer, []).append(deals.pop((peer, deal)))
        return chosen, placed

    def is_done(self, others):
        _, placed = self.progress()
        return all(sorted(placed.get(other.number, [])) == sorted(self.chunks) for other in others)

    def ledger(self, deadline):
        """Held, back and debt for each peer."""
        said = self.said(deadline, ["ledger"]).decode()
        rows = re.findall(r"peer (\d+) held (\d+) back (\d+) debt (\d+)\n", said)
        same("the lines of a ledger", said, "".join("peer %s held %s back %s debt %s\n" % row for row in rows))
        return {int(row[0]): tuple(map(int, row[1:])) for row in rows}


def others_of(node, nodes):
    return [other for other in nodes if other is not node]


def serve_all(deadline, nodes):
    """All serve at once for some turns, in which nothing is dropped."""
    processes = [start(node.program, node.disk, "serve", TURNS) for node in nodes]
    try:
        for process in processes:
            try:
                said, _ = process.communicate(timeout=left(deadline))
            except subprocess.TimeoutExpired:
                raise Wrong(f"serve {TURNS} had not ended") from None
            same("the status of serve", process.returncode, 0)
            last = said.splitlines()[-1:]
            same(f"whether {last!r} has no drops", bool(last and re.fullmatch(rb"turns \d+ taken \d+ dropped 0 lost \d+", last[0])), True)
    finally:
        for process in processes:
            stop(process)


def place_all(deadline, nodes):
    """They serve until each has each chunk with both others, and say what they chose."""
    while not all(node.is_done(others_of(node, nodes)) for node in nodes):
        serve_all(deadline, nodes)
    for node in nodes:
        chosen, _ = node.progress()
        others = others_of(node, nodes)
        held = [len(node.chunks.keys() & other.chunks.keys()) for other in others]
        wanted = [(other.number, got, len(node.chunks)) for other, got in zip(others, held)]
        same(f"whom node {node.number} chose", chosen, wanted)
        told = ", ".join(f"node {other.number} has {got}" for other, got in zip(others, held))
        print(f"node {node.number} asked which of its {len(node.chunks)} chunks the others hold: {told}; it chose both", flush=True)
    for node in nodes:
        for other in others_of(node, nodes):
            found = read(other.disk)
            same(f"how often node {other.number} has each chunk of node {node.number}",
                 [found.count(body) for body in node.chunks.values()], [1] * len(node.chunks))
        size = sum(map(units, node.chunks.values()))
        print(f"node {node.number} placed all {len(node.chunks)} chunks, {size} units, with each of them", flush=True)
    print("each disk has each chunk once, also those that all three nodes backed up", flush=True)


def balance_all(deadline, nodes):
    """For each pair, what the one holds for the other is what that one has there; and nobody lost anything."""
    ledgers = {node.number: node.ledger(deadline) for node in nodes}
    for node in nodes:
        for other in others_of(node, nodes):
            held, back, debt = ledgers[node.number][other.number]
            same(f"what node {node.number} holds for node {other.number}, and its debt", (held, debt), (ledgers[other.number][node.number][1], 0))
            same(f"whether that is all of node {other.number}'s chunks", held >= sum(map(units, other.chunks.values())), True)
            same(f"what node {node.number} has there, less what it holds", back - held, 0)
            if node.number < other.number:
                print(f"nodes {node.number} and {other.number} hold as much for each other as they have there, and nothing is owed", flush=True)


def lose(deadline, node, nodes, ticket, folder):
    """The node loses its disk and its folder, and takes the folder back."""
    os.remove(node.disk)
    shutil.rmtree(node.home)
    print(f"node {node.number} lost its disk and its folder; its settings and its ticket were kept elsewhere", flush=True)
    node.begin(deadline, others_of(node, nodes))
    others = others_of(node, nodes)
    for there in others, others[:1], others[1:]:
        whom = " and ".join(str(other.number) for other in there)
        out = new_folder(folder, f"from {whom}")
        with contextlib.ExitStack() as serving:
            for other in there:
                serving.enter_context(other.serving(deadline))
            node.restore(deadline, ticket, out, restoring.TURNS, 0, b"restored %s\n" % counts(node.tree))
        same_tree(f"the tree that was restored from {whom}", out, node.tree)
        which = f"nodes {whom}" if there is others else f"node {whom} alone"
        print(f"node {node.number} restored its folder from {which}: equal byte for byte", flush=True)


def course(program, folder):
    """All of it."""
    deadline = time.monotonic() + 2 * loopback.SECONDS
    nodes = [Node(program, folder, number) for number in (1, 2, 3)]
    tickets = {}
    for node in nodes:
        node.begin(deadline, others_of(node, nodes))
        tickets[node.number] = node.backup(deadline)
        texts = [text for text in node.tree.values() if text is not None]
        print(f"node {node.number} backed up {len(texts)} files, {sum(map(len, texts))} bytes: {len(node.chunks)} chunks", flush=True)
    place_all(deadline, nodes)
    balance_all(deadline, nodes)
    lose(deadline, nodes[0], nodes, tickets[1], folder)


def main(words):
    return loopback.try_all("lost-machine", words, __doc__, course,
        "three nodes chose and backed up to one another, and one that lost all came back from the others")


if __name__ == "__main__":
    sys.exit(main(sys.argv[1:]))
