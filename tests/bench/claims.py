#!/usr/bin/env python3
"""Times the crate `claims`, and measures the memory that a claim takes. Not a part of the gate.

    tests/bench/claims.py

Makes a repository of `claims` and the crates below it in a folder of its own, with a small program over
them; proves and builds that, which takes some minutes, and runs it once for each line that is printed.
"""

import os
import shutil
import subprocess
import tempfile
import time

TOP = os.path.dirname(os.path.dirname(os.path.dirname(os.path.abspath(__file__))))
CRATES = ("psb_bytes", "psb_digest", "claims")

PROGRAM = """\
//! Makes and finds claims, for the clock of who calls it: one word says which.
#![tactic(auto)]

use claims::ClaimSource;
use psb_bytes::{Digest, Memory};
use std::alloc::Global;
use std::env;
use std::process::ExitCode;

/// A source that has issued a million numbers, and walked over so many of their claims.
fn new_source(alloc: Global, walked: u32) -> Result<ClaimSource, Memory> {
    let mut source = ClaimSource::new(alloc, &Digest([7; 32]));
    if source.issue(1_000_000).is_ok() {
        source.walk(walked)?;
    }
    Ok(source)
}

/// Makes one claim so many times, and adds up its first bytes.
fn make_again(source: &ClaimSource, number: u32, times: u32) -> u64 {
    let mut sum = 0_u64;
    for _again in 0..times {
        if number < source.issued() {
            sum = sum.wrapping_add(u64::from(source.claim(number)[0]));
        }
    }
    sum
}

/// Walks on over so many claims, as a new Store does, and adds up their first bytes.
fn walk_over(source: &mut ClaimSource, count: u32) -> Result<u64, Memory> {
    let mut sum = 0_u64;
    for _next in 0..count {
        if source.walked() < source.issued() {
            sum = sum.wrapping_add(u64::from(source.walk_next()?[0]));
        }
    }
    Ok(sum)
}

/// Looks so many times for bodies that are no claims.
fn look_in_vain(source: &ClaimSource, times: u32) -> u32 {
    let mut found = 0_u32;
    for again in 0..times {
        let mut body = [0; 512];
        body[..4].copy_from_slice(&again.to_be_bytes());
        if source.home_of(&body).is_some() {
            found = found.wrapping_add(1);
        }
    }
    found
}

fn main(rt: HostRuntime) -> ExitCode {
    let alloc = rt.alloc();
    let kind = match env::args(&rt) {
        Ok(mut args) => {
            args.next();
            args.next()
        }
        Err(_) => None,
    };
    let kind = match &kind {
        Some(word) => word.as_str(),
        None => "",
    };
    let done = match kind {
        "none" => new_source(alloc, 0).map(|s| u64::from(s.issued())),
        "first" => new_source(alloc, 65_536).map(|s| u64::from(s.issued())),
        "one" => new_source(alloc, 65_536).map(|s| make_again(&s, 65_535, 4_096)),
        "store" => new_source(alloc, 65_536).and_then(|mut s| walk_over(&mut s, 64)),
        "all" => new_source(alloc, 1_000_000).map(|s| u64::from(s.issued())),
        "home" => new_source(alloc, 1_000_000).map(|s| u64::from(look_in_vain(&s, 4_096))),
        _ => Ok(0),
    };
    match done {
        Ok(sum) => {
            let _ = println!(rt; "{sum}");
            ExitCode::from(0)
        }
        Err(_) => ExitCode::from(18),
    }
}
"""

ROWS = (
    ("none", "a million numbers issued, no claim walked"),
    ("first", "and 65,536 claims walked"),
    ("one", "and claim 65,535 made 4,096 times"),
    ("store", "and the next 64 walked over, in place of these"),
    ("all", "a million numbers issued, and all walked"),
    ("home", "and 4,096 bodies that are no claims looked for"),
)


def lines_of(path):
    """The lines of crates.txt for these crates."""
    with open(path) as text:
        return [line for line in text if line.split(":")[0] in CRATES]


def built(folder):
    """Proves and builds the program in this folder; its path."""
    for name in CRATES:
        shutil.copytree(os.path.join(TOP, "crates", name), os.path.join(folder, "crates", name))
    os.makedirs(os.path.join(folder, "crates", "bench", "src"))
    with open(os.path.join(folder, "crates", "bench", "src", "main.rt"), "w") as text:
        text.write(PROGRAM)
    with open(os.path.join(folder, "crates.txt"), "w") as text:
        text.writelines(lines_of(os.path.join(TOP, "crates.txt")))
        text.write("bench: claims psb_bytes\n")
    subprocess.run(["git", "init", "-q", folder], check=True)
    crate = os.path.join(folder, "crates", "bench")
    subprocess.run(["rt", "run"], cwd=crate, check=True, stdout=subprocess.DEVNULL, stderr=subprocess.DEVNULL)
    return os.path.join(crate, "out", "bench")


def run(program, word):
    """Seconds that a run takes, and the bytes of memory that it has at most."""
    began = time.monotonic()
    child = os.posix_spawn(program, [program, word], {}, file_actions=[(os.POSIX_SPAWN_OPEN, 1, os.devnull, os.O_WRONLY, 0)])
    peak = 0
    while True:
        try:
            with open(f"/proc/{child}/status") as status:
                peak = max([peak] + [int(line.split()[1]) for line in status if line.startswith("VmRSS")])
        except OSError:
            pass
        if os.waitpid(child, os.WNOHANG)[0]:
            return time.monotonic() - began, 1024 * peak
        time.sleep(0.005)


def main():
    with tempfile.TemporaryDirectory() as folder:
        program = built(folder)
        for word, said in ROWS:
            seconds, peak = run(program, word)
            print(f"{said}: {seconds:.2f} s, {peak / 2 ** 20:.1f} MiB")


if __name__ == "__main__":
    main()
