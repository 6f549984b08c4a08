#!/usr/bin/env python3
"""Runs the built program over a real file and real sockets on the loopback.

    tests/loopback.py [PROGRAM ..]        tries each program; crates/psb/out/psb where none is named
    tests/loopback.py --image FILE        writes the image of the program's stored run

This script begins nodes from crates/psb/data/node.toml, and is the node's one peer. It stores 512 bytes
with the node, sends a forged frame and the longest ones, and asks for a proof of what it stored; it proves in its turn
that it has the claim that came for that. It compares the frames byte for byte, the lines said, the exit status and the
file afterwards, and opens the node again. It counts the questions that a node asks in some seconds. It backs up folders with links, empty files, names of other scripts and the
node's own file, and compares tickets, records and the folders. It runs each command with standard descriptors closed,
and where strace is installed it counts the syncs of a backup. It works all values out by itself, from the formats of
docs/FORMATS.md. It ends within about a minute for each program, with status 0 where all is well and 1 where something
is not.
"""

import contextlib
import hashlib
import hmac
import os
import random
import re
import shutil
import signal
import socket
import stat
import struct
import subprocess
import sys
import tempfile
import time

TOP = os.path.dirname(os.path.dirname(os.path.abspath(__file__)))
PROGRAM = os.path.join(TOP, "crates", "psb", "out", "psb")
STORED_IMAGE = os.path.join(TOP, "crates", "psb", "data", "node.img")
STORED_SETTINGS = os.path.join(TOP, "crates", "psb", "data", "node.toml")
# How long a part may take; `try_all` sets it by how fast the program is on this machine.
SECONDS = 30

NODE, PEER = 1, 2
SEED = bytes(range(32))
KEY = bytes(range(32, 64))
LONGEST = 32768
BODY = bytes(i % 251 for i in range(512))
STORE, ACCEPTED, REFUSED, DECLINED, PROBE, PROOF, ASK = 1, 4, 5, 6, 9, 10, 11
# Kinds of changes.
PROBE_ASKED, PROBE_PASSED, PROBE_FAILED, PROBE_DECLINED = 14, 15, 16, 17
NOT_THERE = 5
MASK = 0xFFFFFFFF


class Wrong(Exception):
    """The program did something else than it should."""


def sha(data):
    return hashlib.sha256(data).digest()


# The disk: a magic, records with open gates, and one closed gate.


def record(head, body):
    return b"\x01" + struct.pack(">II", len(head), len(body)) + head + body


def image(*records):
    return b"PSBLOG01" + bytes(8) + b"".join(records) + b"\x00"


def records_in(data):
    """The records of an image, each with its gate and the lengths of its two parts in front."""
    place = len(image()) - 1
    while data[place]:
        end = place + 9 + sum(struct.unpack_from(">II", data, place + 1))
        yield data[place:end]
        place = end


def kinds(data):
    """The kinds of the changes in an image, in their order."""
    return [it[9] for it in records_in(data)]


def settings(own_address="127.0.0.1:0", peer_address="127.0.0.1:47102"):
    """The settings file of the repository, with these addresses in the place of its own."""
    text = read(STORED_SETTINGS).decode()
    same("the addresses of the settings file", (text.count('"127.0.0.1:0"'), text.count('"127.0.0.1:47102"')), (1, 1))
    return text.replace("127.0.0.1:0", own_address).replace("127.0.0.1:47102", peer_address).encode()


def begun(text):
    """The first record of a node: its settings text."""
    return record(b"\x01", text)


def took_fresh(deal, slot):
    """The record of a Store that was taken."""
    head = struct.pack(">BIQ", 5, PEER, deal) + sha(BODY) + struct.pack(">IIB", slot, len(BODY), 1)
    return record(head, BODY)


def stored_image():
    """The image of the stored run: port 0 binds any free one, and nothing is sent to the peer."""
    return image(begun(read(STORED_SETTINGS)))


# Frames: a header, a body and a tag.


def frame(kind, sender, receiver, number, body):
    head = struct.pack(">4sB3xIIQI", b"PSB1", kind, sender, receiver, number, len(body))
    return head + body + hmac.new(KEY, head + body, hashlib.sha256).digest()


def store(deal):
    body = sha(BODY) + struct.pack(">HI", 0, len(BODY)) + BODY
    return frame(STORE, PEER, NODE, deal, body)


def longest_store(deal):
    """The longest frame that there is: a chunk of the most bytes in the place of the most slots."""
    chunk = bytes(LONGEST)
    body = sha(chunk) + struct.pack(">H64II", 64, *range(1, 65), len(chunk)) + chunk
    return frame(STORE, PEER, NODE, deal, body)


def refused(deal, reason, detail):
    return frame(REFUSED, NODE, PEER, deal, struct.pack(">BQ", reason, detail))


def asked(slot):
    """The record of a probe that asks for one slot."""
    return record(struct.pack(">BIIBI", PROBE_ASKED, PEER, 1, 1, slot), b"")


def passed(number, slot):
    """The record that the probe of this number passed."""
    return record(struct.pack(">BIQIBI", PROBE_PASSED, PEER, number, 1, 1, slot), b"")


def noted_refusal(deal, reason, detail):
    """The record of a deal that was refused."""
    return record(struct.pack(">BIQBQ", 10, PEER, deal, reason, detail), b"")


def accepted(deal, slot):
    body = struct.pack(">HI", 1, slot) + claim(slot)
    return frame(ACCEPTED, NODE, PEER, deal, body)


# Probes: what a node and its peers ask of each other, and prove.


def probe(number, nonce, names):
    """Asks for a proof that the node has the chunks of these names."""
    body = nonce + struct.pack(">H", len(names)) + b"".join(b"\0" + name for name in names)
    return frame(PROBE, PEER, NODE, number, body)


def chained(nonce, pieces):
    value = nonce
    for piece in pieces:
        value = sha(value + piece)
    return nonce + value


def proof(number, nonce, pieces):
    return frame(PROOF, NODE, PEER, number, chained(nonce, pieces))


def declined(number, nonce, places):
    return frame(DECLINED, NODE, PEER, number, nonce + struct.pack(f">H{len(places)}H", len(places), *places))


def own_probe(number, slot):
    """The probe that the node makes as the change of this number, of the claim that it has with its peer in a slot."""
    nonce = block(sha(b"psb words" + SEED), number, 0)[:32]
    return frame(PROBE, NODE, PEER, number, nonce + struct.pack(">HBI", 1, 1, slot))


def proved(asked, claims):
    """The right answer to a node's probe, of one who has the claims in these slots."""
    sender, receiver, number = struct.unpack_from(">IIQ", asked, 8)
    nonce, (count,) = asked[28:60], struct.unpack_from(">H", asked, 60)
    objects = [struct.unpack_from(">BI", asked, 62 + 5 * i) for i in range(count)]
    return frame(PROOF, receiver, sender, number, chained(nonce, [claims[slot] for _, slot in objects]))


# Claims: sixteen links of a chain of hashes, under a keystream of ChaCha20.


def rotated(word, by):
    return (word << by | word >> 32 - by) & MASK


def quarter(state, a, b, c, d):
    for x, y, z, by in ((a, b, d, 16), (c, d, b, 12), (a, b, d, 8), (c, d, b, 7)):
        state[x] = (state[x] + state[y]) & MASK
        state[z] = rotated(state[z] ^ state[x], by)


ROUNDS = (
    (0, 4, 8, 12), (1, 5, 9, 13), (2, 6, 10, 14), (3, 7, 11, 15),
    (0, 5, 10, 15), (1, 6, 11, 12), (2, 7, 8, 13), (3, 4, 9, 14),
)


def block(key, stream, place):
    """One block of 64 bytes."""
    first = list(struct.unpack("<16I", b"expand 32-byte k" + key + struct.pack("<QQ", place, stream)))
    state = list(first)
    for _ in range(10):
        for places in ROUNDS:
            quarter(state, *places)
    return struct.pack("<16I", *((a + b) & MASK for a, b in zip(first, state)))


def claim(number):
    secret = sha(b"psb claim secret" + SEED)
    mask = sha(b"psb claim mask" + SEED)
    links = [sha(secret)]
    while len(links) < 16 * (number + 1):
        links.append(sha(secret + links[-1]))
    plain = b"".join(links[16 * number :])
    stream = b"".join(block(mask, number, place) for place in range(8))
    return bytes(a ^ b for a, b in zip(plain, stream))


# A snapshot: pieces sealed under keys made of their own hashes, the text of the tree, and the ticket.


def sealed(piece):
    """The sealed bytes of a piece, and what opens them."""
    handle = sha(piece)
    key = sha(b"psb key" + handle)
    stream = b"".join(block(key, 0, place) for place in range(len(piece) // 64 + 1))
    body = bytes(a ^ b for a, b in zip(piece, stream))
    return body, sha(body) + handle + struct.pack(">I", len(piece))


def pieces(text):
    """The pieces of a text of zeros, which is cut nowhere but at the longest piece, or of one that is too short to be cut."""
    return [text[i : i + LONGEST] for i in range(0, len(text), LONGEST)]


def entry(path, text):
    """A folder where there is no text."""
    path = path.encode()
    if text is None:
        return struct.pack(">BH", 0, len(path)) + path
    refs = [sealed(piece)[1] for piece in pieces(text)]
    return struct.pack(">BH", 1, len(path)) + path + struct.pack(">QI", len(text), len(refs)) + b"".join(refs)


def skeleton(tree):
    return b"PSBSKEL1" + struct.pack(">I", len(tree)) + b"".join(entry(path, tree[path]) for path in sorted(tree, key=str.encode))


def snapshot(number, tree, others):
    """The line of a snapshot, its record, and the pieces in their order."""
    kept = [piece for path in sorted(tree, key=str.encode) for piece in pieces(tree[path] or b"")] + [skeleton(tree)]
    ticket = sealed(skeleton(tree))[1] + b"\x00"
    texts = [text for text in tree.values() if text is not None]
    counts = (len(texts), len(tree) - len(texts), sum(map(len, texts)), others)
    names = sorted({sealed(piece)[1][:32] for piece in kept})
    head = struct.pack(">BI", 3, number) + ticket + struct.pack(">IIQI", *counts) + struct.pack(">I", len(names)) + b"".join(names)
    line = b"snapshot %d files %d folders %d bytes %d left %d ticket " % ((number,) + counts) + ticket.hex().encode() + b"\n"
    return line, record(head, b""), kept


def own(piece):
    """The record of a piece that is kept."""
    body, ref = sealed(piece)
    return record(struct.pack(">B", 2) + ref[:32] + struct.pack(">IB", len(body), 1), body)


# What the program does.


def same(what, found, wanted):
    if found != wanted:
        raise Wrong(f"{what} is {found!r}, and not {wanted!r}")


def left(deadline):
    rest = deadline - time.monotonic()
    if rest <= 0:
        raise Wrong(f"{SECONDS} seconds were not enough")
    return rest


def free_port():
    with socket.socket(socket.AF_INET, socket.SOCK_DGRAM) as it:
        it.bind(("127.0.0.1", 0))
        return it.getsockname()[1]


def is_bound(port):
    """Whether some socket has this port, as the system's table of them says."""
    with open("/proc/net/udp") as table:
        return any(line.split()[1].endswith(f":{port:04X}") for line in table.readlines()[1:])


def start(program, *words, closed=()):
    """Starts the program, with these descriptors closed."""

    def close():
        for descriptor in closed:
            os.close(descriptor)

    streams = {"stdin": subprocess.DEVNULL, "stdout": subprocess.PIPE}
    return subprocess.Popen([program, *words], start_new_session=True, preexec_fn=close if closed else None, **streams)


def end(process, deadline, status, said):
    """Waits for the program to end, and compares how it does."""
    what = b" ".join([b"psb", *map(os.fsencode, process.args[1:])])
    try:
        out, _ = process.communicate(timeout=left(deadline))
    except subprocess.TimeoutExpired:
        raise Wrong(f"{what!r} had not ended after {SECONDS} seconds") from None
    same(f"what {what!r} said", out, said)
    same(f"the status of {what!r}", process.returncode, status)


def stop(process):
    if process.poll() is None:
        os.killpg(process.pid, signal.SIGKILL)
    process.communicate()


def run(deadline, program, words, status, said, closed=()):
    process = start(program, *words, closed=closed)
    try:
        end(process, deadline, status, said)
    finally:
        stop(process)


def read(path):
    with open(path, "rb") as file:
        return file.read()


def write(path, data):
    with open(path, "wb") as file:
        file.write(data)


def beginnings(program, folder, deadline):
    """A node begins with a settings file, once; nothing else is taken for one."""
    disk = os.path.join(folder, "begun.img")
    run(deadline, program, [disk, "init", STORED_SETTINGS], 0, b"node 1 peers 1\n")
    same("the file of a node that began", read(disk), stored_image())
    same("who may read a file that was made", stat.S_IMODE(os.stat(disk).st_mode), 0o600)
    there = os.path.join(folder, "there.img")
    write(there, b"")
    os.chmod(there, 0o644)
    run(deadline, program, [there, "ledger"], 7, b"not a node\n")
    same("who may read an empty file that holds no node", stat.S_IMODE(os.stat(there).st_mode), 0o644)
    run(deadline, program, [there, "init", STORED_SETTINGS], 0, b"node 1 peers 1\n")
    same("who may read a file in which a node began", stat.S_IMODE(os.stat(there).st_mode), 0o600)
    run(deadline, program, [disk, "init", STORED_SETTINGS], 8, b"disk not empty\n")
    same("the file that was refused", read(disk), stored_image())
    third = f'''[[peer]]
id = 3
address = "127.0.0.1:47103"
key = "{bytes(range(64, 96)).hex()}"
hops = 2
'''
    two = os.path.join(folder, "two.toml")
    write(two, settings() + third.encode())
    run(deadline, program, [os.path.join(folder, "two.img"), "init", two], 0, b"node 1 peers 2\n")
    said = b"peer 2 held 0 back 0 debt 0\npeer 3 held 0 back 0 debt 0\nturns 1 taken 0 dropped 0 lost 0\n"
    run(deadline, program, [os.path.join(folder, "two.img"), "serve", "1"], 0, said)
    link = os.path.join(folder, "link.toml")
    os.symlink(two, link)
    bad = os.path.join(folder, "bad.toml")
    write(bad, settings().replace(b"capacity = 64", b"capacity = -1"))
    long = os.path.join(folder, "long.toml")
    write(long, settings() + b"#" * 65_536)
    for file, status, said in (
        (os.path.join(folder, "missing.toml"), 5, b"folder fault\n"),
        (folder, 5, b"folder fault\n"),
        (link, 5, b"folder fault\n"),
        (bad, 9, b"bad settings\n"),
        (long, 9, b"bad settings\n"),
        (folder + "//two.toml", 2, b"usage\n"),
        ("../two.toml", 2, b"usage\n"),
    ):
        other = os.path.join(folder, "other.img")
        run(deadline, program, [other, "init", file], status, said)
        same("the file of a node that did not begin", os.path.exists(other) and read(other), status != 2 and b"")
        if os.path.exists(other):
            os.remove(other)


def refusals(program, folder, deadline):
    """Command lines that are none, and disks that hold no node."""
    made = os.path.join(folder, "made.img")
    for words, status, said in (
        ([], 2, b"usage\n"),
        ([made], 2, b"usage\n"),
        ([made, "serve", "0"], 2, b"usage\n"),
        ([b"\xff.img", "serve", "1"], 2, b"usage\n"),
        ([made, "serve", b"\xff"], 2, b"usage\n"),
        ([os.path.join(folder, "missing", "node.img"), "serve", "1"], 3, b"disk fault\n"),
    ):
        run(deadline, program, words, status, said)
    same("whether a usage made the file", os.path.exists(made), False)
    run(deadline, program, [made, "serve", "1"], 7, b"not a node\n")
    run(deadline, program, [made, "ledger"], 7, b"not a node\n")
    same("the file that was made", read(made), b"")


def backups(program, folder, deadline):
    """Snapshots of real folders: the lines and the file are those that this script works out."""
    path = os.path.join(folder, "backups.img")
    text = settings()
    file = os.path.join(folder, "backups.toml")
    write(file, text)
    run(deadline, program, [path, "init", file], 0, b"node 1 peers 1\n")

    # A link is counted, and is not followed; a folder that is not there is refused, and so is a file.
    linked = os.path.join(folder, "linked")
    os.mkdir(linked)
    os.symlink(file, os.path.join(linked, "link"))
    line, noted, kept = snapshot(1, {}, 1)
    run(deadline, program, [path, "backup", linked], 0, line)
    records = [begun(text)] + [own(piece) for piece in kept] + [noted]
    same("the file after a backup of a link", read(path), image(*records))
    for other in ("nothing", "backups.toml"):
        run(deadline, program, [path, "backup", os.path.join(folder, other)], 5, b"folder fault\n")
    run(deadline, program, [path, "backup", folder + "//linked"], 2, b"usage\n")

    # Equal pieces are kept once, whatever they are called, and a second snapshot of the same tree is one record.
    tree = {"copy": None, "copy/photo.raw": bytes(40000), "empty": b"", "notes \u00e9\u6587.txt": b"some notes", "photo.raw": bytes(40000), "\U0001f4c1": None}
    home = os.path.join(folder, "home")
    os.mkdir(home)
    for below in sorted(tree, key=str.encode):
        if tree[below] is None:
            os.mkdir(os.path.join(home, below))
        else:
            write(os.path.join(home, below), tree[below])
    for number in (2, 3):
        line, noted, kept = snapshot(number, tree, 0)
        run(deadline, program, [path, "backup", home], 0, line)
        records += [one for one in dict.fromkeys(own(piece) for piece in kept) if one not in records] + [noted]
        same("the file after a backup", read(path), image(*records))
    lines = b"".join(snapshot(*which)[0] for which in ((1, {}, 1), (2, tree, 0), (3, tree, 0)))
    run(deadline, program, [path, "snapshots"], 0, lines)
    same("the folder that was backed up", sorted(below for below in tree if tree[below] is None or read(os.path.join(home, below)) == tree[below]), sorted(tree))


def own_file(program, folder, deadline):
    """The node's own file is no part of a folder that is backed up, by whatever path it is reached."""
    home = os.path.join(folder, "own")
    below = os.path.join(home, "below")
    os.makedirs(below)
    path = os.path.join(below, "node.img")
    file = os.path.join(folder, "own.toml")
    write(file, settings())
    run(deadline, program, [path, "init", file], 0, b"node 1 peers 1\n")
    write(os.path.join(home, "kept"), b"kept")
    os.link(path, os.path.join(home, "other name"))
    records = [begun(settings())]
    for number, root, tree, others in ((1, home, {"below": None, "kept": b"kept"}, 2), (2, below, {}, 1)):
        line, noted, kept = snapshot(number, tree, others)
        run(deadline, program, [path, "backup", root], 0, line)
        records += [own(piece) for piece in kept] + [noted]
        same("the node's own file after a backup of its folder", read(path), image(*records))
    out = os.path.join(folder, "own again")
    os.mkdir(out)
    run(deadline, program, [path, "restore", "1", out, "1"], 0, b"restored files 1 folders 1 bytes 4\n")
    same("what came back of a folder with the node's own file", sorted(os.listdir(out)), ["below", "kept"])


def closed_descriptors(program, folder, deadline):
    """Each command with standard descriptors closed leaves the file as it was, or as the command makes it."""
    file = os.path.join(folder, "closed.toml")
    write(file, settings())
    home = os.path.join(folder, "closed")
    os.mkdir(home)
    write(os.path.join(home, "a"), b"a")
    path = os.path.join(folder, "closed.img")
    whole = os.path.join(folder, "whole.img")
    run(deadline, program, [whole, "init", file], 0, b"node 1 peers 1\n")
    run(deadline, program, [whole, "backup", home], 0, snapshot(1, {"a": b"a"}, 0)[0])
    begins = lambda: write(path, b"")
    opens = lambda: write(path, read(whole))
    out = os.path.join(folder, "closed again")

    def emptied():
        shutil.rmtree(out, ignore_errors=True)
        os.mkdir(out)
        opens()

    for before, words, status in (
        (begins, ["init", file], 0),
        (opens, ["init", file], 8),
        (opens, ["ledger"], 0),
        (opens, ["snapshots"], 0),
        (opens, ["serve", "1"], 0),
        (opens, ["backup", home], 0),
        (opens, ["backup", file], 5),
        (emptied, ["restore", "1", out, "1"], 0),
        (opens, ["restore", "9", out, "1"], 10),
        (opens, ["forget", "1"], 0),
        (opens, ["forget", "9"], 10),
        (begins, ["ledger"], 7),
        (opens, ["no command"], 2),
    ):
        before()
        process = start(program, path, *words)
        said, _ = process.communicate(timeout=left(deadline))
        same(f"the status of {words!r}", process.returncode, status)
        made = read(path)
        for closed in ((0,), (1,), (2,), (0, 1, 2)):
            before()
            quiet = 1 in closed
            # A refusal has its own status though its line could not be said.
            wanted = 6 if quiet and status == 0 else status
            run(deadline, program, [path, *words], wanted, b"" if quiet else said, closed=closed)
            same(f"the file after {words!r} with {closed} closed", read(path) == made, True)
        if words[0] == "restore" and status == 0:
            same("what was restored with all closed", read(os.path.join(out, "a")), b"a")


def syncs(program, folder, deadline):
    """A backup syncs the file twice for each record, and once where it opens the node."""
    if shutil.which("strace") is None:
        return
    path = os.path.join(folder, "synced.img")
    file = os.path.join(folder, "synced.toml")
    write(file, settings())
    run(deadline, program, [path, "init", file], 0, b"node 1 peers 1\n")
    home = os.path.join(folder, "synced")
    os.mkdir(home)
    write(os.path.join(home, "a"), b"a")
    line, _, kept = snapshot(1, {"a": b"a"}, 0)
    calls = os.path.join(folder, "calls")
    run(deadline, shutil.which("strace"), ["-f", "-e", "trace=fdatasync", "-o", calls, program, path, "backup", home], 0, line)
    same("how often a backup synced the file", len(re.findall(rb"fdatasync\(\d+\) += 0", read(calls))), 1 + 2 * (len(kept) + 1))


def seconds(program, folder, deadline):
    """A node ticks once a second: each tick sends its question, as long as nobody answers."""
    path = os.path.join(folder, "clock.img")
    home = os.path.join(folder, "clock")
    os.mkdir(home)
    write(os.path.join(home, "a"), b"a")
    with socket.socket(socket.AF_INET, socket.SOCK_DGRAM) as peer:
        peer.bind(("127.0.0.1", 0))
        peer.setblocking(False)
        file = os.path.join(folder, "clock.toml")
        write(file, settings(f"127.0.0.1:{free_port()}", f"127.0.0.1:{peer.getsockname()[1]}"))
        run(deadline, program, [path, "init", file], 0, b"node 1 peers 1\n")
        run(deadline, program, [path, "backup", home], 0, snapshot(1, {"a": b"a"}, 0)[0])
        begin = time.time()
        said = b"peer 2 held 0 back 0 debt 0\nturns 16 taken 0 dropped 0 lost 0\n"
        run(deadline, program, [path, "serve", "16"], 0, said)
        passed = time.time() - begin
        asked = 0
        with contextlib.suppress(BlockingIOError):
            while True:
                asked += peer.recv(65_536)[4] == ASK
    # Sixteen turns, in which nothing comes, wait four seconds.
    same(f"whether {asked} questions in {passed:.1f} seconds are one for each second", 3 <= asked <= passed + 2, True)


class Peer:
    """The peer of a node that serves, at this link: it has the claim in slot 0, and proves it whenever it is asked."""

    def __init__(self, link, node, port):
        self.link, self.node, self.where, self.proofs = link, node, ("127.0.0.1", port), 0
        link.settimeout(0.1)

    def send(self, data):
        self.link.sendto(data, self.where)

    def answer(self, deadline):
        """The next frame that is no probe; none where the node has ended."""
        while True:
            has_ended = self.node.poll() is not None
            try:
                data, where = self.link.recvfrom(65_536)
            except socket.timeout:
                if has_ended:
                    return None
                left(deadline)
                continue
            same("where a frame came from", where, self.where)
            if data[4] != PROBE:
                return data
            same("a probe of the node", data, own_probe(struct.unpack_from(">Q", data, 16)[0], 0))
            self.send(proved(data, {0: claim(0)}))
            self.proofs += 1


def without_probes(log):
    """The records of a log other than those of probes. Each of these was of slot 0 and passed; only the last may be open."""
    wanted = [it for number, change in enumerate(log) if change == asked(0) for it in (change, passed(number, 0))]
    made = [it for it in log if it[9] in (PROBE_ASKED, PROBE_PASSED, PROBE_FAILED, PROBE_DECLINED)]
    same("the records of probes", made, wanted[: max(len(made), len(wanted) - 1)])
    same("whether a probe passed", len(made) > 1, True)
    return [it for it in log if it not in made]


def serving(program, folder, deadline):
    """A Store is taken and a forged frame is not; the node and its peer prove what they have; the node opens again with
    what it took."""
    path = os.path.join(folder, "node.img")
    with socket.socket(socket.AF_INET, socket.SOCK_DGRAM) as link:
        link.bind(("127.0.0.1", 0))
        port = free_port()
        text = settings(f"127.0.0.1:{port}", f"127.0.0.1:{link.getsockname()[1]}")
        first = begun(text)
        file = os.path.join(folder, "node.toml")
        write(file, text)
        run(deadline, program, [path, "init", file], 0, b"node 1 peers 1\n")
        same("the file of the node", read(path), image(first))
        node = start(program, path, "serve", "40")
        try:
            while not is_bound(port):
                left(deadline)
                if node.poll() is not None:
                    end(node, deadline, None, None)
                time.sleep(0.01)
            # A second program over the same file finds it locked, and changes nothing.
            run(deadline, program, [path, "serve", "1"], 3, b"disk fault\n")
            run(deadline, program, [path, "init", file], 3, b"disk fault\n")
            same("the file that two programs wanted", read(path), image(first))
            peer = Peer(link, node, port)
            forged = store(1)
            peer.send(forged[:-1] + bytes([forged[-1] ^ 1]))
            peer.send(store(1))
            same("the answer", peer.answer(deadline), accepted(1, 0))
            # The longest datagram is no frame, and the longest frame is read to its end.
            peer.send(bytes(65_507))
            same("the bytes of the longest frame", len(longest_store(2)), 33_122)
            peer.send(longest_store(2))
            same("the answer to the longest", peer.answer(deadline), refused(2, NOT_THERE, 1))
            # It proves that it has what it took, and tells what it does not have.
            nonce = sha(b"a question")
            peer.send(probe(7, nonce, [sha(BODY)]))
            same("the proof", peer.answer(deadline), proof(7, nonce, [BODY]))
            peer.send(probe(8, nonce, [sha(BODY), sha(nonce)]))
            same("what is missing", peer.answer(deadline), declined(8, nonce, [1]))
            # Until it ends it sends nothing but probes.
            same("a second answer", peer.answer(deadline), None)
            said, _ = node.communicate(timeout=left(deadline))
            same("the status of serve", node.returncode, 0)
        finally:
            stop(node)
    found = read(path)
    log = list(records_in(found))
    same("the file", found, image(*log))
    same("the records that are none of probes", without_probes(log), [first, took_fresh(1, 0), noted_refusal(2, NOT_THERE, 1)])
    row = b"peer 2 held 1 back 1 debt 0\n"
    count = re.fullmatch(row + rb"turns 40 taken (\d+) dropped 2 lost 0\n", said)
    same(f"whether serve said {said!r}", count is not None, True)
    # Four requests and what was dropped are taken, and the proofs, of which the last may have come too late.
    same(f"whether {count[1]} frames were taken", 6 + kinds(found).count(PROBE_PASSED) <= int(count[1]) <= 6 + peer.proofs, True)
    run(deadline, program, [path, "serve", "1"], 0, row + b"turns 1 taken 0 dropped 0 lost 0\n")
    run(deadline, program, [path, "ledger"], 0, row)
    same("the file that was looked at", read(path), found)


# Programs that are tried.


def patience(program):
    """How long a part may take: 30 seconds where a backup of some bytes takes a fifth of a second at most, and as much
    longer as it takes longer, on a slow machine or one that does something else too."""
    with tempfile.TemporaryDirectory(prefix="psb-patience-") as folder:
        disk, home = os.path.join(folder, "node.img"), os.path.join(folder, "home")
        os.mkdir(home)
        write(os.path.join(home, "a"), random.Random(1).randbytes(200_000))
        began = time.monotonic()
        for words in (["init", STORED_SETTINGS], ["backup", home]):
            process = start(program, disk, *words)
            process.communicate()
            same(f"the status of a first {words[0]}", process.returncode, 0)
        return 30 * max(1, (time.monotonic() - began) / 0.2)


def try_all(name, words, doc, course, done):
    """Tries each program that is named, or the one that was built; answers the exit status of the script."""
    global SECONDS
    if words and words[0] in ("-h", "--help"):
        print(doc)
        return 0
    for program in words or [PROGRAM]:
        if not os.path.isfile(program):
            print(f"{name}: there is no program at {program}: build it with `rt run` in crates/psb, or name another one")
            return 1
    try:
        for program in map(os.path.abspath, words or [PROGRAM]):
            SECONDS = patience(program)
            with tempfile.TemporaryDirectory(prefix=f"psb-{name}-") as folder:
                course(program, folder)
    except (Wrong, OSError, subprocess.TimeoutExpired) as error:
        print(f"{name}: FAILED: {error}")
        return 1
    print(f"{name}: {done}")
    return 0


def course(program, folder):
    """All parts; each has its own deadline."""
    same("the image of the stored run", read(STORED_IMAGE), stored_image())
    for part in (beginnings, refusals, backups, own_file, closed_descriptors, syncs, seconds, serving):
        part(program, folder, time.monotonic() + SECONDS)


def main(words):
    if words[:1] == ["--image"]:
        write(words[1], stored_image())
        return 0
    return try_all("loopback", words, __doc__, course,
        "nodes began once each, in files that nobody else may read; folders were backed up, with the tickets and records"
        " that were worked out here, and without the node's own file; no command wrote a line into that, whatever was"
        " closed; a second program was refused; a Store was taken, answered byte for byte, proved and found again; the node"
        " probed for its claim, and noted that it passed; a forged frame and one that is too long were dropped")


if __name__ == "__main__":
    sys.exit(main(sys.argv[1:]))
