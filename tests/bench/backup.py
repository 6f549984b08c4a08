#!/usr/bin/env python3
"""Times the backup of a folder, first whole and then again unchanged, and its restore. Not a part of the gate.

    tests/bench/backup.py [PROGRAM]     times crates/psb/out/psb, or the program that is named

Makes one tree of files, whose sizes and bytes are drawn from a fixed seed, in memory (/dev/shm) and on the disk of the
system's temporary folder, and prints for each backup the time, the time of the processor in the program and in the
system, and the size of the node's file; then the same of a restore of the second snapshot into an empty folder, and
whether the two trees are equal. Where restic or borg are installed, they back the same tree up without compression,
into a repository beside it.
"""

import os
import random
import resource
import shutil
import subprocess
import tempfile
import time

from node import MEMORY, program_named, settings

FILES, FOLDERS, BYTES = 14_000, 700, 500_000_000


def make_tree(top):
    """Many small files and a few long ones, of bytes that nothing compresses."""
    draw = random.Random(22)
    shares = [draw.paretovariate(1.1) for _ in range(FILES)]
    whole = sum(min(share, 400) for share in shares)
    for number, share in enumerate(shares):
        folder = os.path.join(top, "part%03d" % (number % FOLDERS))
        os.makedirs(folder, exist_ok=True)
        with open(os.path.join(folder, "file%05d" % number), "wb") as file:
            file.write(draw.randbytes(int(BYTES * min(share, 400) / whole)))


def timed(words, **how):
    before = resource.getrusage(resource.RUSAGE_CHILDREN)
    begun = time.monotonic()
    done = subprocess.run(words, stdout=subprocess.PIPE, stderr=subprocess.STDOUT, **how)
    wall = time.monotonic() - begun
    after = resource.getrusage(resource.RUSAGE_CHILDREN)
    return done, wall, after.ru_utime - before.ru_utime, after.ru_stime - before.ru_stime


def tell(what, words, **how):
    done, wall, own, system = timed(words, **how)
    print(f"{what}: {wall:.1f} s, {own:.1f} s of the processor and {system:.1f} s in the system, status {done.returncode}", flush=True)
    return done.stdout


def time_in(place, program):
    with tempfile.TemporaryDirectory(dir=place) as room:
        tree = os.path.join(room, "tree")
        make_tree(tree)
        path, text = os.path.join(room, "node.img"), os.path.join(room, "node.toml")
        with open(text, "wb") as file:
            file.write(settings(7001, [(2, 7002)]))
        print(f"in {place}:")
        tell("begun", [program, path, "init", text])
        for how in ("whole", "again"):
            said = tell(f"psb, {how}", [program, path, "backup", tree])
            print(said.decode().split(" ticket ")[0], f"file {os.path.getsize(path)}", flush=True)
        target = os.path.join(room, "back")
        os.mkdir(target)
        said = tell("psb, restored", [program, path, "restore", "2", target, "1"])
        differs = subprocess.run(["diff", "-rq", tree, target], stdout=subprocess.DEVNULL).returncode
        print(said.decode().strip(), "and the trees differ" if differs else "and the trees are equal", flush=True)
        shutil.rmtree(target)
        for tool, begin, run in (
            ("restic", ["init"], ["backup", "--compression", "off", tree]),
            ("borg", ["init", "-e", "none"], ["create", "-C", "none", "::{now}", tree]),
        ):
            if shutil.which(tool) is None:
                continue
            room_of = os.path.join(room, tool)
            known = dict(os.environ, RESTIC_REPOSITORY=room_of, RESTIC_PASSWORD="bench", BORG_REPO=room_of, HOME=room)
            tell(f"{tool}, begun", [tool, *begin], env=known)
            for how in ("whole", "again"):
                tell(f"{tool}, {how}", [tool, *run], env=known)


def main():
    program = program_named()
    for place in (MEMORY, tempfile.gettempdir()):
        time_in(place, program)


if __name__ == "__main__":
    main()
