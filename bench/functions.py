#!/usr/bin/env python3
"""Checks one crate and lists the functions whose check took longest.

usage: bench/functions.py NAME

Without `crates/NAME/out` the check is from nothing; otherwise it is of what changed since the last one. A function is charged
with the time since the one before it was reported, so with one job only: what it loads first, as a library or a lemma, counts too.
"""

import pathlib
import re
import subprocess
import sys
import time

LISTED = 15


def main():
    if len(sys.argv) != 2:
        sys.exit(__doc__.strip())
    folder = pathlib.Path(__file__).resolve().parent.parent / "crates" / sys.argv[1]
    check = subprocess.Popen(["rt", "check", "--jobs", "1"], cwd=folder, stdout=subprocess.PIPE, stderr=subprocess.STDOUT, text=True)
    took, before, start = [], time.monotonic(), time.monotonic()
    for line in check.stdout:
        found = re.match(r"checked (\S+), \d+ of \d+", line)
        if found:
            took.append((time.monotonic() - before, found.group(1)))
            before = time.monotonic()
        elif line.startswith("logic="):
            print(line.split(" sum=", 1)[0])
    for seconds, name in sorted(took, reverse=True)[:LISTED]:
        print(f"{seconds:7.1f} s  {name}")
    print(f"{time.monotonic() - start:7.1f} s  in all, {len(took)} functions")
    sys.exit(check.wait())


if __name__ == "__main__":
    main()
