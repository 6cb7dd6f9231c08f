#!/usr/bin/env python3
"""Makes what the programs `mark` and `mark_cases` are run on by the gate: the eight worked cards, and cards on both sides of every limit, with every refusal.

A card file is written here by the layout of docs/card.md, and shares no code with the library. The outcome of each worked card is the one that
crate `worked_cards` proves of it; the outcomes of the others were worked out by hand, and the second marker (second_marker.py) has to agree with all of them.
"""
import pathlib
import shutil

from limits import END, FALSE, LIMITS, TRUE, Draft, literal, text
from second_marker import mark

TOP = pathlib.Path(__file__).resolve().parents[2]
CRATES = TOP / "crates"
P, S = 0, 16  # the variables p_e and s


def of(variable):
    return literal(variable)


def not_of(variable):
    return literal(variable, False)


def conj(a, b):
    return (4, 0, a, b, 0, 0)


def disj(a, b):
    return (5, 0, a, b, 0, 0)


def later(n, a):
    return (6, 0, a, 0, n, 0)


def always(n, m, a):
    return (7, 0, a, 0, n, m)


def eventually(n, m, a):
    return (8, 0, a, 0, n, m)


def card(kind, formulas, labels, nodes, moves):
    """The bytes of a card file; false and true come first."""
    return Draft(kind, [FALSE, TRUE, *formulas], labels, nodes, moves).file()


def rules(safety):
    return text(b"True", safety)


OPEN, CLOSED = 1, 2
LITERALS = [of(S), not_of(S), of(P), not_of(P)]


def foreseeing(last):
    formulas = [*LITERALS, later(1, 4), later(1, 5), conj(2, 6), conj(3, 7), disj(8, 9), *last]
    moves = [(0, 0, 1, 1, 1), (0, 0, 1, 0, 2), (1, 0, 0, 0, END), (1, 1, 0, 0, END)]
    return card(CLOSED, formulas, [4, 5], [(0, 0, 0, 2), (0, 1, 2, 1), (1, 1, 3, 1)], moves)


def copying_later(label):
    steps = [later(1, 2), later(1, 4), later(1, 3), later(1, 5), conj(6, 7), conj(8, 9), disj(10, 11)]
    formulas = [*LITERALS, *steps, conj(2, 4), conj(3, 5), disj(13, 14)]
    return card(OPEN, formulas, [label], [(0, 0, 0, 1), (0, 1, 1, 2)], [(0, 0, 0, 0, 1), (1, 1, 1, 1, 1), (1, 0, 1, 0, 1)])


def holding(label):
    formulas = [of(S), not_of(P), always(0, 99, 2), disj(3, 4), always(0, 98, 2), always(0, 97, 2)]
    return card(OPEN, formulas, [label], [(0, 0, 0, 2), (0, 1, 2, 1)], [(1, 0, 0, 0, 0), (1, 1, 1, 1, 1), (0, 0, 1, 1, 1)])


COPYING = card(OPEN, [*LITERALS, conj(2, 4), conj(3, 5), disj(6, 7)], [], [(0, 0, 0, 2)], [(1, 0, 1, 0, 0), (1, 1, 1, 1, 0)])

CASES = [
    ("nothing_keeps_false", b"False", card(CLOSED, [], [], [(0, 0, 0, 1)], [(0, 0, 0, 0, END)]), "unrealizable nodes 1 moves 1 depth 1"),
    ("copying_the_input", b"s <-> p_e", COPYING, "realizable nodes 1 moves 2"),
    ("nobody_foresees_the_input", b"s <-> X p_e", foreseeing([disj(4, 5)]), "unrealizable nodes 3 moves 4 depth 2"),
    ("a_rest_is_not_listed", b"s <-> X p_e", foreseeing([]), "refused 11 list 3 number 2"),
    ("copying_the_next_input", b"X s <-> X p_e", copying_later(15), "realizable nodes 2 moves 3"),
    ("a_split_reveals_a_later_input", b"X s <-> X p_e", copying_later(13), "refused 16 list 3 number 2"),
    ("holding_for_a_hundred_steps", b"p_e -> G[0,99] s", holding(6), "realizable nodes 2 moves 3"),
    ("holding_one_step_too_short", b"p_e -> G[0,99] s", holding(7), "refused 16 list 3 number 1"),
]
# beside the worked cards: a text that is refused is judged before the card, and a card that is missing is an empty file
OTHERS = [
    ("the_text_is_judged_first", b"s <-> ?", b"", f"refused 2 byte {rules(b's <-> ?').index(b'?')}"),
    ("an_empty_card_file", b"s", b"", "refused 8 list 4 number 10"),
]
# the ticket gate of the samples: node 0 after a step without a ticket, where it stays closed, and node 1 after one with a ticket, where it opens
GATE_FORMULAS = [not_of(S), not_of(P), of(S), eventually(0, 3, 4), disj(3, 5), of(P), later(1, 2), disj(7, 8), conj(6, 9), eventually(0, 2, 4), eventually(0, 1, 4)]
GATE_MOVES = [(1, 0, 1, 0, 0), (1, 1, 1, 0, 1), (1, 0, 1, 1, 0), (1, 1, 1, 1, 1)]
GATE = card(OPEN, GATE_FORMULAS, [2, 11], [(0, 1, 0, 2), (1, 1, 2, 2)], GATE_MOVES)


def fresh(crate):
    data = CRATES / crate / "data"
    shutil.rmtree(data, ignore_errors=True)
    data.mkdir()
    return data


def main():
    data, pairs, out = fresh("mark_cases"), [], []
    (TOP / "samples" / "gate.card").write_bytes(GATE)
    sample = ("gate", "gate", (TOP / "samples" / "gate.rules").read_bytes(), GATE, "realizable nodes 2 moves 4")
    worked = [(name, name, rules(safety), file, line) for name, safety, file, line in CASES + OTHERS]
    for text_name, name, rules_text, file, line in [*worked, sample, *LIMITS]:
        assert mark(rules_text, file) == line, (name, mark(rules_text, file), line)
        (data / f"{text_name}.rules").write_bytes(rules_text)
        (data / f"{name}.card").write_bytes(file)
        pairs.append(f"{text_name}.rules {name}.card\n")
        out += [f"case {text_name}.rules {name}.card", line]
    assert len(set(pairs)) == len(pairs)
    (data / "cases.txt").write_text("".join(pairs))
    (CRATES / "mark_cases" / "stdout").write_text("\n".join(out) + "\n")
    _, safety, file, line = CASES[1]
    data = fresh("mark")
    (data / "rules.txt").write_bytes(rules(safety))
    (data / "card.bin").write_bytes(file)
    (CRATES / "mark" / "stdout").write_text(line + "\n")
    print(f"{len(pairs)} cases")


if __name__ == "__main__":
    main()
