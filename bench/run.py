#!/usr/bin/env python3
"""Times `run` on arrays with many steps: a deep loop of two cells, and 256 cells that exchange 512 messages.

usage: bench/run.py [PROGRAM..]        PROGRAM is out/systole at the top, which ./build makes, where none is given

Each line has an array, a schedule, the program, the least of three times in processor seconds, and the steps of the run. The time
includes the start of the process, and `check`.
"""

import json
import os
import resource
import subprocess
import sys
import tempfile

ROWS = 16
TURNS = 44


def deep_loop():
    """Two cells that exchange a word 655,350 times."""
    body = "for i 65535 {{ for j 10 {{ {} }} }}"
    message = "array 1 x 2;\nqueues 1;\nmessage A from 0.0 to 0.1;\n"
    return message + f"cell 0.0 {{ {body.format('write A i;')} }}\ncell 0.1 {{ var x; {body.format('read A x;')} }}\n"


def full_grid():
    """16 x 16 cells, each of which hands words to its right and its lower neighbour, round the grid."""
    cells = [(r, c) for r in range(ROWS) for c in range(ROWS)]
    messages, body = [], {cell: [] for cell in cells}
    for r, c in cells:
        for name, to in ((f"E{r}_{c}", (r, (c + 1) % ROWS)), (f"S{r}_{c}", ((r + 1) % ROWS, c))):
            messages.append(f"message {name} from {r}.{c} to {to[0]}.{to[1]};")
            body[(r, c)].append(f"write {name} n;")
            body[to].append(f"read {name} x;")
    lines = ["array 16 x 16;", "queues 32;", "buffer 1;"] + messages
    for cell in cells:
        writes = [line for line in body[cell] if line.startswith("write")]
        reads = [line for line in body[cell] if line.startswith("read")]
        lines.append(f"cell {cell[0]}.{cell[1]} {{ var x; for n {TURNS} {{ {' '.join(writes + reads)} }} }}")
    return "\n".join(lines) + "\n"


def least_time(words):
    """Returns the least processor time of three runs, and the steps that the last one says."""
    times = []
    for _ in range(3):
        before = resource.getrusage(resource.RUSAGE_CHILDREN)
        ran = subprocess.run(words, capture_output=True, check=False)
        after = resource.getrusage(resource.RUSAGE_CHILDREN)
        times.append(after.ru_utime + after.ru_stime - before.ru_utime - before.ru_stime)
        if ran.returncode != 0:
            sys.exit(f"{' '.join(words)}: status {ran.returncode}, {ran.stdout + ran.stderr}")
    return min(times), json.loads(ran.stdout)["steps"]


def main():
    here = os.path.dirname(os.path.abspath(__file__))
    programs = sys.argv[1:] or [os.path.join(here, "..", "out", "systole")]
    with tempfile.TemporaryDirectory() as room:
        source, none = os.path.join(room, "source.sys"), os.path.join(room, "none.in")
        with open(none, "w", encoding="ascii") as file:
            file.write("{}\n")
        for array in (deep_loop, full_grid):
            with open(source, "w", encoding="ascii") as file:
                file.write(array())
            for schedule in ("low", "round", "seed=1"):
                for program in programs:
                    seconds, steps = least_time([os.path.abspath(program), "run", source, none, "1", schedule])
                    print(f"{array.__name__:10} {schedule:7} {os.path.basename(program):10} {seconds:8.3f} s {steps:9} steps")


if __name__ == "__main__":
    main()
