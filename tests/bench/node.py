#!/usr/bin/env python3
"""Times a node that has long histories: how it opens them, and how many Stores and Releases it answers, refuses and
drops. Not a part of the gate.

    tests/bench/node.py [PROGRAM]     times crates/psb/out/psb, or the program that is named

Writes the images by the formats of docs/FORMATS.md in memory (/dev/shm), opens each by `ledger`, and then
serves peers that send Stores and Releases one after another, each when the one before it was answered.
"""

import hashlib
import hmac
import os
import socket
import struct
import subprocess
import sys
import tempfile
import time

TOP = os.path.dirname(os.path.dirname(os.path.dirname(os.path.abspath(__file__))))
PROGRAM = os.path.join(TOP, "crates", "psb", "out", "psb")
MEMORY = "/dev/shm"
NODE, STORE, RELEASE, ACCEPTED, REFUSED, TOOK_FRESH, LET_GO = 1, 1, 2, 4, 5, 5, 7
CANCEL, PUT_BACK = 0, 1
BURST = 100


def program_named():
    """The program that is named, or the one that was built; ends the script where it is not there."""
    program = os.path.abspath(sys.argv[1] if len(sys.argv) > 1 else PROGRAM)
    if not os.path.isfile(program):
        sys.exit(f"there is no program at {program}: build it with `rt run` in crates/psb, or name another one")
    return program


def sha(data):
    return hashlib.sha256(data).digest()


def key(peer):
    return sha(b"bench key %d" % peer)


def chunk(number, size):
    """Bytes of which no two numbers have the same."""
    return struct.pack(">Q", number) + bytes(size - 8)


def settings(port, peers):
    text = f'id = {NODE}\naddress = "127.0.0.1:{port}"\nseed = "{bytes(range(32)).hex()}"\ncapacity = 2147483648\n'
    for peer, at in peers:
        text += f'[[peer]]\nid = {peer}\naddress = "127.0.0.1:{at}"\nkey = "{key(peer).hex()}"\n'
    return text.encode()


def record(head, body):
    return b"\x01" + struct.pack(">II", len(head), len(body)) + head + body


def took(peer, deal, slot, body):
    return record(struct.pack(">BIQ", TOOK_FRESH, peer, deal) + sha(body) + struct.pack(">IIB", slot, len(body), 1), body)


def let_go(peer, deal, slot, body):
    return record(struct.pack(">BIQ", LET_GO, peer, deal) + sha(body) + struct.pack(">II", 1, slot), b"")


def write_image(path, text, changes, peers, gone=0):
    """A node that took so many chunks of one unit, in turn of each peer, and let the first of them go again."""
    with open(path, "wb") as disk:
        disk.write(b"PSBLOG01" + bytes(8) + record(b"\x01", text))
        for number in range(changes):
            disk.write(took(peers[number % len(peers)], number // len(peers) + 1, number, chunk(number, 512)))
        for number in range(gone):
            disk.write(let_go(peers[0], changes // len(peers) + number + 1, number, chunk(number, 512)))
        disk.write(b"\x00")


def datagram(kind, peer, deal, text):
    head = struct.pack(">4sB3xIIQI", b"PSB1", kind, peer, NODE, deal, len(text))
    return head + text + hmac.new(key(peer), head + text, hashlib.sha256).digest()


def slot_list(slots):
    return struct.pack(">H", len(slots)) + b"".join(struct.pack(">I", slot) for slot in slots)


def store(peer, deal, body, named=True, slots=()):
    """A Store of these bytes under their name, or under one that is not theirs; with slots it is a swap."""
    name = sha(body if named else body + b"other")
    return datagram(STORE, peer, deal, name + slot_list(slots) + struct.pack(">I", len(body)) + body)


def cancel(peer, deal, body, slot):
    return datagram(RELEASE, peer, deal, sha(body) + bytes([CANCEL]) + slot_list([slot]))


def put_back(peer, deal, body, slot):
    return datagram(RELEASE, peer, deal, sha(body) + bytes([PUT_BACK]) + slot_list([slot]) + bytes(512))


def timed(program, path, *words):
    """Seconds that a command takes, and its memory at most."""
    began = time.monotonic()
    child = subprocess.Popen([program, path, *words], stdout=subprocess.DEVNULL)
    _, status, used = os.wait4(child.pid, 0)
    if status:
        raise SystemExit(f"{words[0]} ended with {status}")
    return time.monotonic() - began, used.ru_maxrss / 1024


def answer_to(link, port, frame, deal):
    """The answer to a Store, which is sent again until it comes. Answers to earlier ones are passed over."""
    link.sendto(frame, ("127.0.0.1", port))
    while True:
        try:
            answer = link.recv(65536)
        except TimeoutError:
            link.sendto(frame, ("127.0.0.1", port))
            continue
        if struct.unpack(">Q", answer[16:24])[0] == deal:
            return answer


class Serving:
    """The program, serving the node of an image until the block ends."""

    def __init__(self, program, path, port, link):
        self.words, self.port, self.link = [program, path, "serve", "1000000"], port, link
        link.settimeout(0.25)

    def __enter__(self):
        self.child = subprocess.Popen(self.words, stdout=subprocess.DEVNULL)
        return self

    def __exit__(self, *_):
        self.child.kill()
        self.child.wait()

    def answer(self, frame, deal, kind):
        """Seconds until the answer to a Store comes, which is of this kind."""
        began = time.monotonic()
        answer = answer_to(self.link, self.port, frame, deal)
        if answer[4] != kind:
            raise SystemExit(f"a Store was answered by kind {answer[4]}")
        return time.monotonic() - began

    def drop(self, frame, count):
        for _ in range(count):
            self.link.sendto(frame, ("127.0.0.1", self.port))


def answered(serving, first, count, size):
    """Seconds for the first Store, and for all that follow it."""
    frames = [store(2, first + i, chunk(10**12 + 10**6 * size + first + i, size)) for i in range(count)]
    times = [serving.answer(frame, deal, ACCEPTED) for deal, frame in enumerate(frames, first)]
    return times[0], sum(times[1:])


def refused(serving, first, count):
    """Seconds for so many Stores of one unit under wrong names, each sent when the one before was answered."""
    frames = [store(2, first + i, chunk(first + i, 512), named=False) for i in range(count)]
    return sum(serving.answer(frame, deal, REFUSED) for deal, frame in enumerate(frames, first))


def released(serving, first, count):
    """Seconds for so many chunks that are let go with their slot, as many that are put back into another slot, and as
    many that are stored in the place of those slots, each sent when the one before was answered."""
    def seconds(deal, frame_of):
        frames = [frame_of(deal + i, i) for i in range(count)]
        return sum(serving.answer(frame, at, ACCEPTED) for at, frame in enumerate(frames, deal))

    return (
        seconds(first, lambda deal, i: cancel(2, deal, chunk(i, 512), i)),
        seconds(first + count, lambda deal, i: put_back(2, deal, chunk(count + i, 512), 10**6 + i)),
        seconds(first + 2 * count, lambda deal, i: store(2, deal, chunk(10**15 + i, 512), slots=[10**6 + i])),
    )


def dropped(serving, first, bursts):
    """Seconds for so many bursts of datagrams that fail a test of their format, each with a refused Store behind it,
    by whose answer it is known that they were taken."""
    broken = store(2, first, chunk(first, 512))[:-1] + b"x"
    frames = [store(2, first + i, chunk(first + i, 512), named=False) for i in range(bursts)]
    began = time.monotonic()
    for deal, frame in enumerate(frames, first):
        serving.drop(broken, BURST)
        serving.answer(frame, deal, REFUSED)
    return time.monotonic() - began


def free_port():
    with socket.socket(socket.AF_INET, socket.SOCK_DGRAM) as it:
        it.bind(("127.0.0.1", 0))
        return it.getsockname()[1]


def main():
    program = program_named()
    with tempfile.TemporaryDirectory(dir=MEMORY) as folder, socket.socket(socket.AF_INET, socket.SOCK_DGRAM) as link:
        link.bind(("127.0.0.1", 0))
        port, there = free_port(), link.getsockname()[1]
        path = os.path.join(folder, "node.img")
        ten = [(peer, 40000 + peer) for peer in range(2, 12)]
        for changes, peers in ((100_000, [(2, there)]), (200_000, [(2, there)]), (300_000, [(2, there)]), (300_000, ten)):
            write_image(path, settings(port, peers), changes, [peer for peer, _ in peers])
            seconds, memory = timed(program, path, "ledger")
            print(f"opened {changes} changes of {len(peers)} peer(s): {seconds:.2f} s, {memory:.0f} MiB", flush=True)
        for changes, gone in ((150_000, 150_000), (150_000, 0)):
            write_image(path, settings(port, [(2, there)]), changes, [2], gone)
            seconds, memory = timed(program, path, "ledger")
            print(f"opened {changes} chunks of which {gone} were let go: {seconds:.2f} s, {memory:.0f} MiB", flush=True)
        for changes in (3_000, 30_000, 300_000):
            write_image(path, settings(port, [(2, there)]), changes, [2])
            with Serving(program, path, port, link) as serving:
                refused(serving, changes + 1, 1)
                rates = [1_000 / seconds for seconds in released(serving, changes + 2, 1_000)]
                print(f"behind {changes} units, cancels, put backs and swaps: {rates[0]:.0f}, {rates[1]:.0f}, {rates[2]:.0f} a second", flush=True)
        for changes in (0, 3_000, 30_000, 300_000):
            for size, count in ((512, 2_000), (32_768, 400)):
                write_image(path, settings(port, [(2, there)]), changes, [2])
                with Serving(program, path, port, link) as serving:
                    alone, seconds = answered(serving, changes + 1, count, size)
                rate = (count - 1) / seconds
                print(f"behind {changes} units, Stores of {size} bytes: {rate:.0f} a second; the first after {alone:.2f} s", flush=True)
        for changes in (0, 300_000):
            write_image(path, settings(port, [(2, there)]), changes, [2])
            with Serving(program, path, port, link) as serving:
                refused(serving, changes + 1, 1)
                seconds = refused(serving, changes + 2, 2_000)
                print(f"behind {changes} units, Stores that are refused: {2_000 / seconds:.0f} a second", flush=True)
                more = dropped(serving, changes + 2_002, 100) - 100 * seconds / 2_000
                print(f"behind {changes} units, datagrams that are dropped: {100 * BURST / more:.0f} a second", flush=True)


if __name__ == "__main__":
    main()
