#!/usr/bin/env python3
"""Times the compiled program `mark` on cards drawn for it. It is no part of the gate.

    speed.py PROGRAM      marks each of these some times and prints the shortest and the middle time in milliseconds, process start included:
        nothing           an empty text and an empty card, for the start of the process
        everyday          20 nodes
        longest           1,024 formulas, 4,096 labels, 1,024 nodes, 2,048 moves, 16 + 16 variables; each node has labels and moves of its own
        worst             the same counts, and all nodes share all labels and moves; once only
"""
import pathlib
import subprocess
import sys
import tempfile
import time

from limits import COPY, LONGEST, TEXTS, Draft, literal
from second_marker import mark

EVERYDAY = COPY.but(
    labels=[8] * 20,
    nodes=[(n, 1, 2 * n, 2) for n in range(20)],
    moves=[(1, value, 1, value, (n + 1) % 20) for n in range(20) for value in (0, 1)],
)
# a tautology of a variable that each move fixes, and what it is some steps later; each of the 2,048 moves fixes eleven variables
TRUTH = [(0, 0, 0, 0, 0, 0), (1, 0, 0, 0, 0, 0), literal(0), literal(0, False), (5, 0, 2, 3, 0, 0)]
WORST = Draft(
    1,
    TRUTH + [(6, 0, 4, 0, n, 0) for n in range(1, 1020)],
    [4 + k % 1020 for k in range(4096)],
    [(0, 4096, 0, 2048)] * 1024,
    [(2047, value, 0, 0, 0) for value in range(2048)],
)
CARDS = [("nothing", b"", b"", 50), ("everyday", TEXTS["copy"], EVERYDAY, 50), ("longest", TEXTS["wide"], LONGEST, 20), ("worst", TEXTS["wide"], WORST, 1)]


def main(program):
    with tempfile.TemporaryDirectory() as folder:
        for name, text, drawn, runs in CARDS:
            file = drawn if isinstance(drawn, bytes) else drawn.file()
            rules, card = pathlib.Path(folder, "rules.txt"), pathlib.Path(folder, "card.bin")
            rules.write_bytes(text)
            card.write_bytes(file)
            times = []
            for _ in range(runs):
                begin = time.perf_counter()
                out = subprocess.run([program, rules, card], capture_output=True, text=True, check=True).stdout
                times.append(1000 * (time.perf_counter() - begin))
            times.sort()
            assert name == "worst" or out == mark(text, file) + "\n", out
            print(f"{name}: {times[0]:.1f} and {times[len(times) // 2]:.1f} ms of {runs}: {out.strip()}")


if __name__ == "__main__":
    main(sys.argv[1])
