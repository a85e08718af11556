#!/usr/bin/env python3
"""Runs the gate and says how many processor minutes each crate took: proof, tests and wrong bodies.

usage: bench/gate.py [NAME ..]         the words are given to `rt ci`; without any it runs the whole gate

What an earlier run on this machine passed is kept and takes no time here: use a machine where nothing is kept, or
`bench/gate.py --anew`. Times are those of the processes of the prover and the compilers, looked up twice a second, so
they are short by up to half a second a process.
"""

import collections
import os
import re
import subprocess
import sys
import time

TICKS = os.sysconf("SC_CLK_TCK")
SHOWN = ("proof", "tests", "edits", "other")


def words_of(pid):
    """Returns the command line of a process, and the folder that it runs in."""
    with open(f"/proc/{pid}/cmdline", "rb") as file:
        words = file.read().decode(errors="replace").split("\0")
    return words, os.readlink(f"/proc/{pid}/cwd")


def parents_and_times():
    """Returns the parent and the processor seconds of each process."""
    found = {}
    for pid in filter(str.isdigit, os.listdir("/proc")):
        try:
            with open(f"/proc/{pid}/stat", encoding="ascii", errors="replace") as file:
                fields = file.read().rsplit(")", 1)[1].split()
        except OSError:
            continue
        found[int(pid)] = (int(fields[1]), (int(fields[11]) + int(fields[12])) / TICKS)
    return found


def below(root, processes):
    """Returns the processes that descend from this one."""
    children = collections.defaultdict(list)
    for pid, (parent, _) in processes.items():
        children[parent].append(pid)
    found, waiting = [], [root]
    while waiting:
        for child in children[waiting.pop()]:
            found.append(child)
            waiting.append(child)
    return found


def place_of(words, folder):
    """Returns the crate that a process works on, and what it does there. Wrong bodies are tried in folders of their own."""
    found = re.search(r"--crate-name ([a-z0-9_]+)", " ".join(words)) or re.search(r"/crates/([a-z0-9_]+)", folder)
    name = re.sub(r"_tests_test$", "", found.group(1)) if found else "(none)"
    if "rt-edit" in folder:
        return name, "edits"
    if "--test" in words:
        return name, "tests"
    return name, "proof" if words[1:2] in (["check"], ["build"]) else "other"


def main():
    gate = subprocess.Popen(["rt", "ci", *sys.argv[1:]])
    seconds, places = {}, {}
    start = time.monotonic()
    while gate.poll() is None:
        processes = parents_and_times()
        for pid in below(gate.pid, processes):
            seconds[pid] = processes[pid][1]
            if pid not in places:
                try:
                    places[pid] = place_of(*words_of(pid))
                except OSError:
                    continue
        time.sleep(0.5)
    table = collections.defaultdict(collections.Counter)
    for pid, took in seconds.items():
        name, what = places.get(pid, ("(none)", "other"))
        table[name][what] += took
    print(f"{'crate':<16}" + "".join(f"{what:>8}" for what in SHOWN) + f"{'all':>8}   (processor minutes)")
    for name, row in sorted(table.items(), key=lambda item: -sum(item[1].values())):
        print(f"{name:<16}" + "".join(f"{row[what] / 60:8.1f}" for what in SHOWN) + f"{sum(row.values()) / 60:8.1f}")
    total = sum(sum(row.values()) for row in table.values())
    print(f"all: {total / 60:.0f} processor minutes in {(time.monotonic() - start) / 60:.0f} minutes")
    sys.exit(gate.returncode)


if __name__ == "__main__":
    main()
