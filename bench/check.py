#!/usr/bin/env python3
"""Times `check` on sources of a quarter, a half and the whole of the greatest length, of several kinds.

usage: bench/check.py [PROGRAM]        PROGRAM is out/systole at the top, which ./build makes, where it isn't given

Each line has a kind, the bytes, the least of five times and what the program said. The time includes the start of the process.
"""

import os
import subprocess
import sys
import tempfile
import time

GREATEST = 1_048_576
MESSAGES = 512
HEAD = "array 1 x 2;\nqueues 32;\n"


def filled(size, head, line, tail):
    """Returns head, as many of the lines as fit, tail, and spaces up to just `size` bytes; line(k) is the k-th."""
    room = size - len(head) - len(tail)
    lines, k = [], 0
    while len(line(k)) <= room:
        lines.append(line(k))
        room -= len(lines[-1])
        k += 1
    return head + "".join(lines) + tail + " " * room


def exchange(size):
    """Two cells that exchange 512 messages, one after another."""
    names = [f"M{m:03}" for m in range(MESSAGES)]
    head = HEAD + "".join(f"message {name} from 0.0 to 0.1;\n" for name in names)
    between = "}\ncell 0.1 {\nvar x;\n"
    room = size - len(head) - len("cell 0.0 {\n") - len(between) - len("}\n")
    words = room // (len("write M000 7;\n") + len("read M000 x;\n"))
    sent = [names[k * MESSAGES // words] for k in range(words)]
    writes = "".join(f"write {name} 7;\n" for name in sent)
    reads = "".join(f"read {name} x;\n" for name in sent)
    source = head + "cell 0.0 {\n" + writes + between + reads + "}\n"
    return source + " " * (size - len(source))


def statements(size):
    """One cell with many short statements."""
    return filled(size, HEAD + "cell 0.0 {\nvar x;\n", lambda k: "x=x;", "}\n")


def sums(size):
    """One cell with sums of 120 terms, spaced as in canonical text."""
    return filled(size, HEAD + "cell 0.0 {\nvar x;\n", lambda k: "  x = " + " + ".join(["x"] * 120) + ";\n", "}\n")


def dense_sums(size):
    """One cell with sums of 120 terms and no spaces, which have the most nodes a byte."""
    return filled(size, HEAD + "cell 0.0 {\nvar x;\n", lambda k: "x=" + "+".join(["x"] * 120) + ";\n", "}\n")


def parentheses(size):
    """One cell with expressions that stand 100 parentheses deep."""
    return filled(size, HEAD + "cell 0.0 {\nvar x;\n", lambda k: "x=" + "(" * 100 + "x" + ")" * 100 + ";\n", "}\n")


def blocks(size):
    """One cell with blocks that stand 16 deep."""
    deep = "".join(f"for i{k} 1 {{" for k in range(16)) + "}" * 16 + "\n"
    return filled(size, HEAD + "cell 0.0 {\nvar x;\n", lambda k: deep, "}\n")


def comments(size):
    """A pipe, and then comments only."""
    pipe = HEAD + "message A from 0.0 to 0.1; cell 0.0 { write A 7; } cell 0.1 { var x; read A x; }\n"
    return filled(size, pipe, lambda k: "# a comment, and nothing else\n", "")


def one_name(size):
    """One cell that emits one variable of 32 bytes again and again."""
    name = "v" * 32
    return filled(size, HEAD + f"cell 0.0 {{\nvar {name};\n", lambda k: f"emit {name};\n", "}\n")


def deep_loop(_size):
    """Two cells that exchange a word 655,350 times, in loops: the source is short whatever the size."""
    body = "for i 65535 {{ for j 10 {{ {} }} }}"
    message = HEAD + "message A from 0.0 to 0.1;\n"
    return message + f"cell 0.0 {{ {body.format('write A i;')} }}\ncell 0.1 {{ var x; {body.format('read A x;')} }}\n"


def least_time(program, path):
    """Returns the least time of five runs, and what the last one said."""
    times = []
    for _ in range(5):
        start = time.perf_counter()
        ran = subprocess.run([program, "check", path], capture_output=True, check=False)
        times.append(time.perf_counter() - start)
    if ran.returncode not in (0, 1):
        sys.exit(f"{path}: status {ran.returncode}, {ran.stdout + ran.stderr}")
    return min(times), (ran.stdout + ran.stderr).decode().strip()


def main():
    here = os.path.dirname(os.path.abspath(__file__))
    program = os.path.abspath(sys.argv[1]) if len(sys.argv) > 1 else os.path.join(here, "..", "out", "systole")
    with tempfile.TemporaryDirectory() as room:
        path = os.path.join(room, "source.sys")
        for kind in (exchange, statements, sums, dense_sums, parentheses, blocks, comments, one_name, deep_loop):
            for size in (GREATEST // 4, GREATEST // 2, GREATEST):
                with open(path, "w", encoding="ascii") as file:
                    file.write(kind(size))
                took, said = least_time(program, path)
                print(f"{kind.__name__:<12} {size:>9} bytes: {1000 * took:8.1f} ms   {said}")


if __name__ == "__main__":
    main()
