#!/usr/bin/env python3
"""Random and mutated texts through the compiled program and the second reader.

    fuzz.py [RUNS [SEED]]       after `rt run` in crates/explain; stops at the first difference
"""
import pathlib
import random
import subprocess
import sys
import tempfile
import time

from make_cases import CASES
from oracle import explain

PROGRAM = pathlib.Path(__file__).resolve().parents[2] / "crates" / "explain" / "out" / "explain"
PIECES = [b"a", b"b_e", b"s", b"p_e", b"True", b"False", b"-", b"X", b"X[2]", b"G[0,3]", b"F[1,2]", b"G[3,2]", b"&", b"|", b"->", b"<->", b"(", b")",
          b"[", b"]", b",", b"7", b"4096", b" ", b"\n", b"<", b">", b"\0", b"\xff", b"Environment", b"Global", b"Constraints", b"Safety", b"Formula",
          b"Initial", b"abcdefghijklmno", b"abcdefghijklmnop", b"_", b"\t", b"\r"]


def formula(rng, depth):
    if depth == 0 or rng.random() < 0.2:
        return rng.choice([b"a", b"b_e", b"s", b"p_e", b"True", b"False", b"v%d" % rng.randrange(20), b"w%d_e" % rng.randrange(20)])
    kind = rng.randrange(9)
    if kind < 4:
        return b"(" + formula(rng, depth - 1) + rng.choice([b"&", b"|", b"->", b"<->"]) + formula(rng, depth - 1) + b")"
    if kind < 5:
        return formula(rng, depth - 1) + rng.choice([b" & ", b" | ", b" -> ", b" <-> "]) + formula(rng, depth - 1)
    n, m = rng.choice([0, 1, 2, 9, 4094, 4095, 4096]), rng.choice([0, 1, 2, 9, 4094, 4095, 4096])
    return rng.choice([b"-", b"X ", b"X[%d] " % n, b"G[%d,%d] " % (n, m), b"F[%d,%d] " % (min(n, m), max(n, m))]) + formula(rng, depth - 1)


def text(rng):
    if rng.random() < 0.1:
        return b"".join(rng.choice(PIECES) for _ in range(rng.randrange(60)))
    if rng.random() < 0.3:
        data = rng.choice(CASES)[1]
    else:
        lines = b"".join(formula(rng, rng.randrange(6)) + b"\n" for _ in range(rng.randrange(1, 4)))
        data = b"Initial Formula\n" + formula(rng, rng.randrange(4)) + b"\nSafety Formula\n" + lines + b"Environment Global Constraints\nTrue\n"
    for _ in range(rng.choice([0, 0, 0, 1, 2])):
        at = rng.randrange(len(data) + 1)
        data = data[:at] + rng.choice(PIECES) + data[at + rng.randrange(3):]
    return data


def main():
    runs, seed = int(sys.argv[1]) if len(sys.argv) > 1 else 1000, int(sys.argv[2]) if len(sys.argv) > 2 else 1
    rng, refused, slowest = random.Random(seed), 0, 0.0
    with tempfile.NamedTemporaryFile() as file:
        for k in range(runs):
            data = text(rng)
            pathlib.Path(file.name).write_bytes(data)
            begin = time.monotonic()
            done = subprocess.run([PROGRAM, file.name], capture_output=True, timeout=20)
            slowest = max(slowest, time.monotonic() - begin)
            expected = "\n".join(explain(data)) + "\n"
            if done.returncode != 0 or done.stdout.decode("latin-1") != expected:
                print(f"run {k}: {data!r}\nprogram, status {done.returncode}:\n{done.stdout.decode('latin-1')}second reader:\n{expected}")
                return 1
            refused += expected.startswith("refused")
    print(f"{runs} runs, {refused} refused, no difference, slowest {slowest * 1000:.1f} ms")
    return 0


if __name__ == "__main__":
    sys.exit(main())
