#!/usr/bin/env python3
"""Runs the built program psb_cases on a text of cases and compares what it prints.

    tests/cases.py [--program PROGRAM] [CASES EXPECTED]    prints the first difference of each case, by name
    tests/cases.py [--program PROGRAM] --print [CASES]     prints the answers that the program gives now

Without files it takes crates/psb_cases/stdin and crates/psb_cases/stdout, and without a program the one
that `rt run` leaves in crates/psb_cases/out/psb_cases. Answers that --print gives show what the program
does, not that it is right: compare them with answers from elsewhere before they are kept. Ends with
status 0 where all is equal, with 1 where a case differs, and with 2 where the program did not run.
"""

import argparse
import itertools
import os
import subprocess
import sys

CRATE = os.path.join(os.path.dirname(os.path.dirname(os.path.abspath(__file__))), "crates", "psb_cases")
SECONDS = 120


def answers(program, cases):
    """What the program prints on a file of cases, and the status that it ends with."""
    with open(cases, "rb") as text:
        done = subprocess.run([program], stdin=text, stdout=subprocess.PIPE, timeout=SECONDS)
    return done.stdout.decode(errors="replace").splitlines(), done.returncode


def by_case(lines):
    """The lines of each case under its name, in order; those before the first case under no name."""
    cases = [("", [])]
    for line in lines:
        if line.startswith("case "):
            cases.append((line[len("case "):], []))
        else:
            cases[-1][1].append(line)
    return cases


def first_difference(given, wanted):
    """The place of the first line that differs, counted from 1, and the two lines there."""
    for place, (one, other) in enumerate(itertools.zip_longest(given, wanted), 1):
        if one != other:
            return place, one, other
    return None


def compare(given, wanted):
    """Prints the first difference of each case, and says how many cases differ."""
    differ = 0
    for one, other in itertools.zip_longest(by_case(given), by_case(wanted)):
        if one is None or other is None or one[0] != other[0]:
            print("the cases are not the same: %s, and not %s" % (one and one[0], other and other[0]))
            return differ + 1
        found = first_difference(one[1], other[1])
        if found:
            differ += 1
            print("%s, line %d\n  given:  %s\n  wanted: %s" % (other[0] or "before the first case", *found))
    return differ


def main():
    parser = argparse.ArgumentParser(description=__doc__, formatter_class=argparse.RawDescriptionHelpFormatter)
    parser.add_argument("--program", default=os.path.join(CRATE, "out", "psb_cases"))
    parser.add_argument("--print", action="store_true", dest="print_answers")
    parser.add_argument("files", nargs="*", metavar="FILE")
    asked = parser.parse_args()
    files = asked.files or [os.path.join(CRATE, "stdin"), os.path.join(CRATE, "stdout")]
    if not os.path.isfile(asked.program):
        print("tests/cases.py: there is no program at %s: build it with `rt run` in crates/psb_cases" % asked.program, file=sys.stderr)
        return 2
    try:
        given, status = answers(asked.program, files[0])
    except (OSError, subprocess.TimeoutExpired) as error:
        print("tests/cases.py: %s" % error, file=sys.stderr)
        return 2
    if asked.print_answers:
        print("\n".join(given))
        return 0
    if len(files) != 2:
        parser.error("a file of cases and one of the answers that are expected")
    with open(files[1], encoding="utf-8") as text:
        wanted = text.read().splitlines()
    differ = compare(given, wanted)
    print("%d cases, %d differ, status %d" % (len(by_case(wanted)) - 1, differ, status))
    return 1 if differ or status else 0


if __name__ == "__main__":
    sys.exit(main())
