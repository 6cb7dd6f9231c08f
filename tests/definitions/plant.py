#!/usr/bin/env python3
"""Plants changes in the definitions of cards, one at a time, and says what refuses each.

    plant.py [WORD ..]      all changes of changes.json, or those whose description has one of the words

Works on a copy of crates/temporal and crates/tableau in a temporary folder. A change that is refused by nothing is printed as MISSED, and
the status is then 1. `samples` means that the computed cards refuse it (they show a real difference); `laws` lists the law functions
that are not proved any more (a proof may also break where the law still holds). A check that ends without a verdict counts as refused, since
the gate refuses it too.
"""
import json
import pathlib
import re
import shutil
import subprocess
import sys
import tempfile

ROOT = pathlib.Path(__file__).resolve().parents[2]
CHANGES = json.loads((pathlib.Path(__file__).parent / "changes.json").read_text())


def checked(folder):
    run = subprocess.run(["rt", "check"], cwd=folder / "crates" / "tableau", stdout=subprocess.PIPE, stderr=subprocess.STDOUT, text=True)
    return run.stdout


def is_proved(said):
    verdicts = [line for line in said.splitlines() if line.startswith("logic=")]
    return bool(verdicts) and verdicts[-1].startswith("logic=proved")


def main():
    chosen = [c for c in CHANGES if not sys.argv[1:] or any(w in c["change"] for w in sys.argv[1:])]
    missed = 0
    with tempfile.TemporaryDirectory() as folder:
        copy = pathlib.Path(folder)
        (copy / "crates").mkdir()
        for crate in ("temporal", "tableau"):
            shutil.copytree(ROOT / "crates" / crate, copy / "crates" / crate)
        (copy / "crates.txt").write_text("temporal:\ntableau: temporal\n")
        assert is_proved(checked(copy)), "the definitions as they are have to be proved"
        for change in chosen:
            saved = {}
            for edit in change["edits"]:
                path = copy / edit["file"]
                text = path.read_text()
                saved.setdefault(path, text)
                assert edit["old"] in text, (change["change"], edit["old"])
                path.write_text(text.replace(edit["old"], edit["new"], 1))
            out = checked(copy)
            laws = sorted(set(re.findall(r"fn tableau::(\w+): no(?:t proved| proof)", out)))
            samples = "worked_cards_have_their_outcomes" in laws
            refused = not is_proved(out)
            missed += not refused
            others = [law for law in laws if law != "worked_cards_have_their_outcomes"]
            print(f"{'refused' if refused else 'MISSED '}  {change['change']}: {'samples' if samples else 'no sample'}; laws {', '.join(others) or 'none'}", flush=True)
            for path, text in saved.items():
                path.write_text(text)
    print(f"{len(chosen)} planted, {missed} missed")
    return 1 if missed else 0


if __name__ == "__main__":
    sys.exit(main())
