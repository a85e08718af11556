#!/usr/bin/env python3
"""Works out what each program of this folder emits for the input beside it, with no part of Systole.

usage: expected.py            writes NAME.outputs for each program
       expected.py NAME       prints the line of one program
"""
import json
import pathlib
import sys

FOLDER = pathlib.Path(__file__).parent


def fir(given):
    x = given["0.0"]
    taps = [5, -3, 2]
    return {"0.2": [sum(tap * x[n - k] for k, tap in enumerate(taps) if n >= k) for n in range(len(x))]}


def matvec(given):
    rows = [given["0.0"][:3], given["0.1"], given["0.2"]]
    vector = given["0.0"][3:]
    return {"0.0": [sum(a * v for a, v in zip(row, vector)) for row in rows]}


def sort(given):
    words = sorted(word for words in given.values() for word in words)
    return {f"0.{place}": [word] for place, word in enumerate(words)}


def blocks(given):
    def matrix(first):
        whole = [[0] * 4 for _ in range(4)]
        for cell, words in given.items():
            row, column = map(int, cell.split("."))
            for place, word in enumerate(words[first:first + 4]):
                whole[2 * row + place // 2][2 * column + place % 2] = word
        return whole

    a, b = matrix(0), matrix(4)
    product = [[sum(a[i][k] * b[k][j] for k in range(4)) for j in range(4)] for i in range(4)]
    return {
        f"{r}.{c}": [product[2 * r + i][2 * c + j] for i in range(2) for j in range(2)]
        for r in range(2)
        for c in range(2)
    }


def echo(given):
    y = []
    for n, x in enumerate(given["0.0"]):
        earlier = y[n - 8] if n >= 8 else 0
        # Division goes towards zero.
        y.append(x + (abs(earlier) // 2) * (1 if earlier >= 0 else -1))
    return {"0.1": y}


PROGRAMS = [blocks, echo, fir, matvec, sort]


def line(program):
    given = json.loads((FOLDER / f"{program.__name__}.in").read_text())
    return json.dumps({"outputs": program(given)}, separators=(",", ":"), sort_keys=True) + "\n"


if len(sys.argv) == 1:
    for each in PROGRAMS:
        (FOLDER / f"{each.__name__}.outputs").write_text(line(each))
else:
    for each in PROGRAMS:
        if each.__name__ == sys.argv[1]:
            print(line(each), end="")
