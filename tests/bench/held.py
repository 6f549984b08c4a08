#!/usr/bin/env python3
"""Times and measures how a node opens that holds 2,097,152 units for four peers in pieces of 8 KiB, and one that has as
much on them besides. Not a part of the gate.

    tests/bench/held.py [PROGRAM]     times crates/psb/out/psb, or the program that is named

Writes the images by the formats of docs/FORMATS.md in memory (/dev/shm), of 1 and of 3 GiB, and opens each by `ledger`.
Then times the SHA-256 of bodies of 8 KiB alone, by a small program over the crate `psb_digest`: with --hashing, since it is
proved and built first in a folder of its own, which takes some minutes; or by the program that --hashing=PROGRAM names.
"""

import os
import shutil
import struct
import subprocess
import sys
import tempfile
import time

import own
from node import MEMORY, program_named, record, settings, sha, took

UNIT, SIZE, PIECES, PEERS = 512, 8_192, 131_072, (2, 3, 4, 5)
UNITS = SIZE // UNIT
CRATES = ("psb_bytes", "psb_digest")

HASHING = """\
//! Hashes so many bodies of 8 KiB, of which no two are equal.
#![tactic(auto)]

use psb_digest::sha;
use std::env;
use std::process::ExitCode;

/// The first bytes of all digests, added up.
fn hash_all(count: u32) -> u64 {
    let mut body = [0; 8192];
    let mut sum = 0_u64;
    for number in 0..count {
        body[..4].copy_from_slice(&number.to_be_bytes());
        sum = sum.wrapping_add(u64::from(sha(&body).0[0]));
    }
    sum
}

fn main(rt: HostRuntime) -> ExitCode {
    let sum = hash_all(131_072);
    let _ = println!(rt; "{sum}");
    ExitCode::from(0)
}
"""


def piece(number, what):
    """A body of which no two numbers have the same."""
    return struct.pack(">BQ", what, number) + bytes(SIZE - 9)


def chose():
    peers = b"".join(struct.pack(">IIII", peer, 1, 1, 0) for peer in PEERS)
    return record(struct.pack(">BI", own.CHOSE, len(PEERS)) + peers, b"")


def kept(body):
    return record(struct.pack(">B", own.KEPT) + sha(body) + struct.pack(">IB", len(body), 1), body)


def snapped(names):
    ticket = sha(b"name") + sha(b"handle") + struct.pack(">IB", 1, 0)
    head = struct.pack(">BI", own.SNAPPED, 1) + ticket + struct.pack(">IIQI", 1, 1, SIZE * len(names), 0)
    return record(head + struct.pack(">I", len(names)) + b"".join(names), b"")


def placed(peer, deal, name):
    """The chunk is placed on the peer, whose claims for it stand here in slots of their own."""
    slots = range(UNITS * deal, UNITS * (deal + 1))
    proposed = record(struct.pack(">BIQB", own.PROPOSED, peer, deal, own.FRESH) + name, b"")
    head = struct.pack(">BIQI", own.SETTLED, peer, deal, UNITS) + b"".join(struct.pack(">I", slot) for slot in slots)
    return proposed + record(head, bytes(UNIT * UNITS))


def write_image(path, pieces, own_pieces):
    """A node that took so many pieces of its peers in turn, and placed so many of its own on them in turn."""
    peers = [(peer, 40_000 + peer) for peer in PEERS]
    with open(path, "wb") as disk:
        text = settings(40_001, peers).replace(b"[[peer]]", b"buddies = 4\n[[peer]]", 1)
        disk.write(b"PSBLOG01" + bytes(8) + record(b"\x01", text))
        for number in range(pieces):
            disk.write(took(PEERS[number % 4], number // 4 + 1, UNITS * number, piece(number, 1)))
        names = []
        for number in range(own_pieces):
            body = piece(number, 2)
            names.append(sha(body))
            disk.write(kept(body))
        if names:
            names.sort()
            disk.write(snapped(names) + chose())
        for number, name in enumerate(names):
            disk.write(placed(PEERS[number % 4], number // 4 + 1, name))
        disk.write(b"\x00")


def opened(program, path):
    """Seconds that opening takes, those of the processor, and MiB of memory at most."""
    began = time.monotonic()
    child = subprocess.Popen([program, path, "ledger"], stdout=subprocess.DEVNULL)
    _, status, used = os.wait4(child.pid, 0)
    if status:
        raise SystemExit(f"ledger ended with {status}")
    return time.monotonic() - began, used.ru_utime + used.ru_stime, used.ru_maxrss / 1024


def built_hashing(folder):
    """Proves and builds the program that hashes alone, in this folder; its path."""
    for name in CRATES:
        shutil.copytree(os.path.join(own_top(), "crates", name), os.path.join(folder, "crates", name))
    crate = os.path.join(folder, "crates", "hashing")
    os.makedirs(os.path.join(crate, "src"))
    with open(os.path.join(crate, "src", "main.rt"), "w") as text:
        text.write(HASHING)
    with open(os.path.join(own_top(), "crates.txt")) as text:
        lines = [line for line in text if line.split(":")[0] in CRATES]
    with open(os.path.join(folder, "crates.txt"), "w") as text:
        text.writelines(lines)
        text.write("hashing: psb_bytes psb_digest\n")
    subprocess.run(["git", "init", "-q", folder], check=True)
    subprocess.run(["rt", "run"], cwd=crate, check=True, stdout=subprocess.DEVNULL, stderr=subprocess.DEVNULL)
    return os.path.join(crate, "out", "hashing")


def own_top():
    """The top of the repository."""
    return os.path.dirname(os.path.dirname(os.path.dirname(os.path.abspath(__file__))))


def time_hashing(program):
    began = time.monotonic()
    subprocess.run([program], check=True, stdout=subprocess.DEVNULL)
    print(f"the SHA-256 of {PIECES} bodies of {SIZE} bytes alone: {time.monotonic() - began:.2f} s", flush=True)


def main():
    flags = [word for word in sys.argv[1:] if word.startswith("--hashing")]
    sys.argv = [word for word in sys.argv if word not in flags]
    program = program_named()
    with tempfile.TemporaryDirectory(dir=MEMORY) as folder:
        path = os.path.join(folder, "node.img")
        for pieces, own_pieces in ((PIECES, 0), (PIECES, PIECES)):
            write_image(path, pieces, own_pieces)
            size = os.path.getsize(path) / 2**20
            seconds, processor, memory = opened(program, path)
            print(f"opened {UNITS * pieces} units of {len(PEERS)} peers in pieces of {SIZE} bytes, and {UNITS * own_pieces} there,"
                  f" {size:.0f} MiB: {seconds:.2f} s ({processor:.2f} s of the processor), {memory:.0f} MiB", flush=True)
    for flag in flags:
        named = flag.partition("=")[2]
        if named:
            time_hashing(os.path.abspath(named))
        else:
            with tempfile.TemporaryDirectory() as folder:
                time_hashing(built_hashing(folder))


if __name__ == "__main__":
    main()
