#!/usr/bin/env python3
"""Backs a real tree up and restores it, over real files and real sockets on the loopback.

    tests/restoring.py [PROGRAM ..]        tries each program; crates/psb/out/psb where none is named

This script makes a tree of some 360 files: nested and empty folders, empty files, names in other scripts, a file
of 4 MB, equal contents, and links. Node 1 backs it up and restores it by number. Then the script stores all bodies
with node 1, in the name of node 2, and node 2, whose disk has none of them, restores the tree by its ticket. Last, one byte
of a body is changed on the disk of node 1, while the program does not run and while it serves. Trees are compared
byte for byte, and so are the lines said, the exit status, and the files that no restore may change. It works all values
out by itself, from the formats of docs/FORMATS.md. It ends within about 10 seconds for each program, with status 0
where all is well and 1 where something is not.
"""

import contextlib
import math
import os
import random
import re
import socket
import stat
import struct
import subprocess
import sys
import time

import loopback
from loopback import Wrong, frame, free_port, is_bound, left, read, run, same, sealed, sha, start, stop, write

ACCEPTED, ASK, PROBE, STORE = loopback.ACCEPTED, loopback.ASK, loopback.PROBE, loopback.STORE
HERE = "127.0.0.1"
BIG = "\u5199\u771f/\u5927 big.raw"
TURNS = "40"


# The tree: the bytes of each file, and None for a folder.


NAMES = (
    "notes",
    "two words",
    "\u03b1\u03c1\u03c7\u03b5\u03af\u03b1",
    "\u5199\u771f",
    "\u0635\u0648\u0631",
    "\U0001f4c1 \u2764\ufe0f",
    "caf\u00e9",
    "cafe\u0301",
    ".hidden",
    "-x '\"$(*)\\",
)


def made_tree():
    """Some 360 files, in up to four folders one in another."""
    chance = random.Random(1)
    same_bytes = chance.randbytes(20_000)
    tree = {BIG: chance.randbytes(4_000_000), "zeros": bytes(300_000), "empty": b"", "no files": None, "no files/none": None}
    for i in range(360):
        folders = "".join(NAMES[i // 5 * step % len(NAMES)] + "/" for step in (1, 3, 7, 9)[: i % 5])
        path = f"{folders}{NAMES[i // 7 % len(NAMES)]} {i}"
        if i % 10 == 0:
            text = b""
        elif i % 10 < 3:
            text = same_bytes[: i % 4 * 5_000]
        else:
            text = chance.randbytes(chance.randrange(1, 3_000))
        tree[path] = text
        if i % 29 == 0:
            tree[f"{path} nothing"] = None
    for path in list(tree):
        while "/" in path:
            path = path.rpartition("/")[0]
            tree.setdefault(path)
    return {path: tree[path] for path in sorted(tree, key=str.encode)}


# To a file, to a folder, to nothing: no part of the tree.
LINKS = {"notes/to a file": "../zeros", "to a folder": "notes", "to nothing": "nowhere"}


def put(root, tree, links):
    """Makes the tree below a new folder, with the links."""
    os.mkdir(root)
    for path, text in tree.items():
        if text is None:
            os.mkdir(os.path.join(root, path))
        else:
            write(os.path.join(root, path), text)
    for path, target in links.items():
        os.symlink(target, os.path.join(root, path))


def stands(root, below=""):
    """What stands below a folder, with whatever is neither file nor folder as its mode."""
    found = {}
    for item in os.scandir(os.path.join(root, below)):
        path = os.path.join(below, item.name)
        if item.is_dir(follow_symlinks=False):
            found[path] = None
            found.update(stands(root, path))
        elif item.is_file(follow_symlinks=False):
            found[path] = read(item.path)
        else:
            found[path] = item.stat(follow_symlinks=False).st_mode
    return found


def same_tree(what, root, tree):
    """As `same`, but says only the paths, not all bytes."""
    found = stands(root)
    same(f"the paths of {what}", sorted(found), sorted(tree))
    same(f"what differs in {what}", [path for path in tree if found[path] != tree[path]], [])


def counts(tree):
    texts = [text for text in tree.values() if text is not None]
    return b"files %d folders %d bytes %d" % (len(texts), len(tree) - len(texts), sum(map(len, texts)))


# Where a text is cut, by its content.


BASE = 1_099_511_628_211
PRIME = 2**61 - 1
WINDOW, LEAST, ANCHOR = 48, 2_048, (8_192, 4_095)


def is_anchor(text, place):
    mark = 0
    for byte in text[place - WINDOW : place]:
        mark = (mark * BASE + byte + 1) % PRIME
    return mark % ANCHOR[0] == ANCHOR[1]


def cuts(text):
    """The places at which a text is cut, one after another."""
    last = 0
    while last < len(text):
        end = min(last + loopback.LONGEST, len(text))
        last = next((place for place in range(last + LEAST, end) if is_anchor(text, place)), end)
        yield last


# The bodies on a disk.


def bodies(data):
    """The place in the image, and the bytes, of each body that the node keeps for itself, by its name."""
    found = {}
    place = 16
    while data[place]:
        head_size, body_size = struct.unpack_from(">II", data, place + 1)
        head = data[place + 9 : place + 9 + head_size]
        place += 9 + head_size
        if head[0] == 2:
            body = data[place : place + body_size]
            same("the name of a body", sha(body), head[1:33])
            found[head[1:33]] = place, body
        place += body_size
    return found


def change(path, place):
    """Changes the byte at a place of a file; a second time it is what it was."""
    with open(path, "r+b") as file:
        file.seek(place)
        byte = file.read(1)[0]
        file.seek(place)
        file.write(bytes([byte ^ 1]))


# Nodes.


class Node:
    """A node of the program: its disk, and what the other one has to know of it."""

    def __init__(self, program, folder, number):
        self.program, self.number, self.port = program, number, free_port()
        self.disk = os.path.join(folder, f"{number}.img")
        self.settings = os.path.join(folder, f"{number}.toml")

    def begin(self, deadline, other):
        """Begins, with the other one as its peer."""
        text = loopback.settings(f"{HERE}:{self.port}", f"{HERE}:{other.port}")
        for old, new in (
            (b"id = 1\n", b"id = %d\n" % self.number),
            (b"[[peer]]\nid = 2\n", b"[[peer]]\nid = %d\n" % other.number),
            (b"capacity = 64\n", b"capacity = 65536\n"),
        ):
            same(f"how often the settings say {old!r}", text.count(old), 1)
            text = text.replace(old, new)
        write(self.settings, text)
        self.run(deadline, ["init", self.settings], 0, b"node %d peers 1\n" % self.number)

    def run(self, deadline, words, status, said):
        run(deadline, self.program, [self.disk, *words], status, said)

    def restore(self, deadline, which, target, turns, status, said):
        """Restores, which changes nothing on the disk."""
        before = read(self.disk)
        self.run(deadline, ["restore", which, target, turns], status, said)
        same("whether the disk is as it was before a restore", read(self.disk) == before, True)

    def restore_among_peers(self, deadline, which, target, turns, status, said):
        """Restores while a peer serves: meanwhile that one may place a chunk here, which is added behind."""
        before = read(self.disk)
        self.run(deadline, ["restore", which, target, turns], status, said)
        front = before[:-1]
        same("whether the disk has what it had before a restore", read(self.disk)[: len(front)] == front, True)

    def ledger(self, deadline):
        """What the ledger says."""
        process = start(self.program, self.disk, "ledger")
        try:
            said, _ = process.communicate(timeout=left(deadline))
        except subprocess.TimeoutExpired:
            raise Wrong("ledger had not ended") from None
        finally:
            stop(process)
        same("the status of ledger", process.returncode, 0)
        return said

    def balance(self, deadline, peer):
        """The units that it holds for its peer, which has as many of its own or owes them, and the changes by which these
        were lost, each with how that came."""
        said = self.ledger(deadline)
        row, *lines = said.splitlines()
        found = re.fullmatch(rb"peer %d held (\d+) back (\d+) debt (\d+)" % peer.number, row)
        rows = [re.fullmatch(rb"debt (\d+) of \d+ change (\d+) (failed|declined)", line) for line in lines]
        same(f"whether {said!r} is a row of that peer with its debt", bool(found) and all(rows), True)
        held, back, debt = map(int, found.groups())
        same(f"what is back and in debt in {said!r}", (back + debt, sum(int(it[1]) for it in rows)), (held, debt))
        return held, {(int(it[2]), it[3].decode()) for it in rows}

    @contextlib.contextmanager
    def serving(self, deadline):
        """Serves, until it is stopped."""
        process = start(self.program, self.disk, "serve", "1000000")
        try:
            while not is_bound(self.port):
                left(deadline)
                if process.poll() is not None:
                    raise Wrong(f"serve ended with status {process.returncode}")
                time.sleep(0.01)
            yield
            same("the status of a program that serves", process.poll(), None)
        finally:
            stop(process)

    @contextlib.contextmanager
    def posing(self):
        """The node's socket, in the hands of this script."""
        with socket.socket(socket.AF_INET, socket.SOCK_DGRAM) as it:
            it.bind((HERE, self.port))
            yield it


def answered(deadline, link, claims):
    """The next frame that is no question which chunks are held, as a node asks each second before it chooses its buddies,
    and no probe of the claims that it gave: these are proved."""
    while True:
        link.settimeout(left(deadline))
        try:
            answer, where = link.recvfrom(65_536)
        except socket.timeout:
            return None
        if answer[4] == PROBE:
            link.sendto(loopback.proved(answer, claims), where)
        elif answer[4] != ASK:
            return answer


def claims_in(accepted):
    """The claims that an Accepted brings, by their slots."""
    (count,) = struct.unpack_from(">H", accepted, 28)
    return dict(struct.unpack_from(">I512s", accepted, 30 + 516 * i) for i in range(count))


def store_all(deadline, held, at, owner):
    """Stores all bodies with the node that serves at a place, in the name of their owner."""
    claims = {}
    with owner.posing() as link:
        for deal, (name, (_, body)) in enumerate(held.items(), 1):
            text = name + struct.pack(">HI", 0, len(body)) + body
            link.sendto(frame(STORE, owner.number, at.number, deal, text), (HERE, at.port))
            answer = answered(deadline, link, claims)
            if answer is None:
                raise Wrong(f"no answer to Store {deal} came")
            accepted = frame(ACCEPTED, at.number, owner.number, deal, answer[28:-32])
            same(f"whether the answer to Store {deal} is an Accepted", answer == accepted, True)
            claims.update(claims_in(answer))


def new_folder(folder, name):
    path = os.path.join(folder, name)
    os.mkdir(path)
    return path


def alone(folder, deadline, tree, first, second):
    """Node 1 backs the tree up and restores it by number, and asks nobody; answers the ticket."""
    home = os.path.join(folder, "home")
    put(home, tree, LINKS)
    process = start(first.program, first.disk, "backup", home)
    try:
        line, _ = process.communicate(timeout=left(deadline))
    except subprocess.TimeoutExpired:
        raise Wrong(f"a backup had not ended after {loopback.SECONDS} seconds") from None
    finally:
        stop(process)
    front = b"snapshot 1 %s left %d ticket " % (counts(tree), len(LINKS))
    same("the status of the backup, and how its line begins", (process.returncode, line[: len(front)]), (0, front))
    same("whether it ends with a ticket", re.fullmatch(b"[0-9a-f]{138}\n", line[len(front) :]) is not None, True)
    ticket = line[len(front) : -1].decode()
    said = b"restored %s\n" % counts(tree)
    with second.posing() as peer:
        out = new_folder(folder, "by number")
        first.restore(deadline, "1", out, TURNS, 0, said)
        same_tree("the tree that was restored by number", out, tree)

        # What is in the way stays as it was, and so does what is no folder, or is not there.
        full = new_folder(folder, "full")
        write(os.path.join(full, "one"), b"1")
        first.restore(deadline, "1", full, TURNS, 16, b"target not empty\n")
        same_tree("a target with a file", full, {"one": b"1"})
        for other in ("nothing", "full/one"):
            first.restore(deadline, "1", os.path.join(folder, other), TURNS, 5, b"folder fault\n")
        same_tree("a target with a file", full, {"one": b"1"})
        out = new_folder(folder, "second")
        first.restore(deadline, "2", out, TURNS, 10, b"no snapshot 2\n")
        same_tree("the target of a snapshot that is not there", out, {})
        peer.setblocking(False)
        try:
            raise Wrong(f"a peer was asked: {peer.recv(65_536)!r}")
        except BlockingIOError:
            pass
    return ticket


def from_peer(folder, deadline, tree, ticket, first, second):
    """Node 2 restores the tree from what node 1 holds for it."""
    out = new_folder(folder, "missing")
    second.restore(deadline, ticket, out, "2", 12, b"missing %s\n" % ticket[:64].encode())
    same_tree("the target while nobody answers", out, {})
    held = bodies(read(first.disk))
    # What a node keeps for itself it gives to nobody: a Get is answered for what its sender stored there.
    with first.serving(deadline):
        store_all(deadline, held, first, second)
        out = new_folder(folder, "by ticket")
        second.restore_among_peers(deadline, ticket, out, TURNS, 0, b"restored %s\n" % counts(tree))
        same_tree("the tree that was restored by its ticket", out, tree)
    units = sum((len(body) + 511) // 512 for _, body in held.values())
    # Node 2 has none of the claims that this script got for the bodies: where node 1 probed for some, it found that out.
    held, lost = first.balance(deadline, second)
    same(f"whether {held} units are all that was stored", held >= units, True)
    same("how any debt came", {how for _, how in lost} - {"declined"}, set())


def altered(folder, deadline, tree, ticket, first, second):
    """A body is changed on the disk of node 1, and no changed byte is ever restored."""
    text = tree[BIG]
    places = [0]
    for place in cuts(text[:500_000]):
        places.append(place)
        if place > 400_000:
            break
    begins, ends = places[-2:]
    name = sealed(text[begins:ends])[1][:32]
    at, body = bodies(read(first.disk))[name]
    byte = at + len(body) // 2

    # When a node opens, each body that it holds is held against its name: then the disk holds no node at all, and
    # nothing of it is served or restored.
    change(first.disk, byte)
    out = new_folder(folder, "altered by number")
    first.restore(deadline, "1", out, TURNS, 7, b"not a node\n")
    same_tree("the target of what is no node", out, {})
    first.run(deadline, ["serve", "1"], 7, b"not a node\n")
    change(first.disk, byte)

    # Behind that a body is read as it stands, and sent: the receiver holds it against its ref. The entries before the
    # file stand then, and the file as far as the piece that was changed.
    before = {path: tree[path] for path in tree if path.encode() < BIG.encode()}
    with first.serving(deadline):
        change(first.disk, byte)
        out = new_folder(folder, "altered by ticket")
        # Nine turns, so that the node asks again behind the eighth; as many more as this machine is slower.
        turns = str(math.ceil(9 * loopback.SECONDS / 30))
        second.restore_among_peers(deadline, ticket, out, turns, 13, b"altered %s\n" % name.hex().encode())
        same_tree("what was restored before the changed body", out, {**before, BIG: text[:begins]})
    change(first.disk, byte)
    out = new_folder(folder, "again")
    first.restore(deadline, "1", out, TURNS, 0, b"restored %s\n" % counts(tree))
    same_tree("the tree that was restored again", out, tree)


def course(program, folder):
    """All of it; each part has its own deadline."""
    tree = made_tree()
    first, second = Node(program, folder, 1), Node(program, folder, 2)

    def deadline():
        return time.monotonic() + loopback.SECONDS

    first.begin(deadline(), second)
    second.begin(deadline(), first)
    ticket = alone(folder, deadline(), tree, first, second)
    from_peer(folder, deadline(), tree, ticket, first, second)
    altered(folder, deadline(), tree, ticket, first, second)
    links = {path: stat.S_IFLNK | 0o777 for path in LINKS}
    same_tree("the tree that was backed up", os.path.join(folder, "home"), {**tree, **links})


def main(words):
    return loopback.try_all("restoring", words, __doc__, course,
        "a tree was backed up, and came back byte for byte by its number, and from a peer by its ticket; nothing was"
        " written over; of a body that was changed on the disk nothing was restored")


if __name__ == "__main__":
    sys.exit(main(sys.argv[1:]))
