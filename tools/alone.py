#!/usr/bin/env python3
"""Tells which answers a check finds alone.

Usage: tools/alone.py CRATE..: in each crate, takes all files Answers.antt away, checks what is left with `rt check --allow-holes`, puts the files
back, and prints each answer whose goal the check did not miss. Invariants and lemmas stay where they are.
"""
import re
import subprocess
import sys
from pathlib import Path


def missed(said):
    """The goals that a check did not prove, by function."""
    goals = {}
    for found in re.finditer(r"^fn \w+::(\S+): (?:no proof|not proved)(.*)$", said, re.M):
        names = found.group(2).split("did not prove", 1)
        listed = names[1].split("; it calls")[0] if len(names) > 1 else ""
        goals[found.group(1).replace("::", "/")] = re.findall(r"`([^`]+)`", listed)
    return goals


def alone(folder, name, goals):
    """Whether the answer of this name, in this folder of proofs/, is to none of the goals."""
    parts = folder.split("/")
    if parts[-1].startswith("+"):
        called, _, rest = name.partition("-")
        parts[-1], name = (called, rest) if called in parts[-1][1:].split("_") else (parts[-1][1:], name)
    path = "/".join(parts)
    of = next((listed for each, listed in goals.items() if path.endswith(each) or each.endswith(path)), [])
    return not any(goal == name or goal.startswith(name + "-clause-") for goal in of)


for crate in sys.argv[1:]:
    top = Path(__file__).resolve().parent.parent / "crates" / crate
    files = {path: path.read_text() for path in sorted(top.glob("proofs/**/Answers.antt"))}
    for path in files:
        path.unlink()
    try:
        run = subprocess.run(["rt", "check", "--allow-holes"], cwd=top, capture_output=True, text=True)
    finally:
        for path, text in files.items():
            path.write_text(text)
    goals = missed(run.stdout + run.stderr)
    count = 0
    for path, text in files.items():
        folder = str(path.parent.relative_to(top / "proofs"))
        for name in re.findall(r"^pub (\S+) : goal\.\1$", text, re.M):
            count += 1
            if alone(folder, name, goals):
                print(f"{crate} {folder}: {name}")
    print(f"{crate}: {count} answers")
