#!/usr/bin/env python3
"""A second reader of rules texts, by docs/rules-text.md and docs/refusals.md.

It shares no code with the library and is not part of the gate; it makes the expected output of the cases
that are, and random texts can be tried against the program `explain` with it (see fuzz.py).

    oracle.py FILE      prints what `explain FILE` has to print
"""
import re
import sys

sys.setrecursionlimit(20000)

LIMIT_BYTES, LIMIT_WORD, LIMIT_KIND, LIMIT_NESTING, LIMIT_BOUND, LIMIT_FORMULAS = 1024, 15, 16, 32, 4095, 256


class Refused(Exception):
    def __init__(self, number, place):
        super().__init__(f"refused {number} byte {place}")
        self.number, self.place = number, place


LETTERS = b"abcdefghijklmnopqrstuvwxyzABCDEFGHIJKLMNOPQRSTUVWXYZ"
DIGITS = b"0123456789"
SIGNS = [b"<->", b"->", b"-", b"&", b"|", b"(", b")", b"[", b"]", b","]


def tokens(text):
    """All tokens as (kind, value, place), the end included; lexing itself never fails."""
    out, i = [], 0
    while i < len(text):
        b = text[i]
        if b == 32:
            i += 1
        elif b == 10:
            out.append(("line", b"\n", i))
            i += 1
        elif b in LETTERS:
            j = i
            while j < len(text) and (text[j] in LETTERS or text[j] in DIGITS or text[j] == 95):
                j += 1
            word = text[i:j]
            if len(word) > LIMIT_WORD:
                out.append(("unknown", word, i))
            elif word in (b"True", b"False", b"X", b"G", b"F"):
                out.append(("reserved", word, i))
            else:
                out.append(("word", word, i))
            i = j
        elif b in DIGITS:
            j = i
            while j < len(text) and text[j] in DIGITS:
                j += 1
            out.append(("number", int(text[i:j]), i))
            i = j
        else:
            for sign in SIGNS:
                if text.startswith(sign, i):
                    out.append(("sign", sign, i))
                    i += len(sign)
                    break
            else:
                out.append(("unknown", text[i:i + 1], i))
                i += 1
    out.append(("end", b"", len(text)))
    return out


class Reader:
    def __init__(self, text):
        if len(text) > LIMIT_BYTES:
            raise Refused(1, LIMIT_BYTES)
        self.toks, self.pos, self.length = tokens(text), 0, len(text)
        self.environment, self.system = [], []

    def peek(self, ahead=0):
        return self.toks[min(self.pos + ahead, len(self.toks) - 1)]

    def refuse(self, number=3):
        kind, _, place = self.peek()
        raise Refused(2 if kind == "unknown" else number, place)

    def sign(self, sign):
        return self.peek()[:2] == ("sign", sign)

    def expect(self, kind, value=None):
        k, v, _ = self.peek()
        if k != kind or (value is not None and v != value):
            self.refuse()
        self.pos += 1
        return v

    def open(self, depth):
        if depth == LIMIT_NESTING:
            self.refuse(6)
        self.pos += 1
        return depth + 1

    # formulas as nested tuples
    def equivalence(self, depth):
        left = self.implication(depth)
        if self.sign(b"<->"):
            inner = self.open(depth)
            return ("<->", left, self.implication(inner))
        return left

    def implication(self, depth):
        left = self.disjunction(depth)
        if self.sign(b"->"):
            inner = self.open(depth)
            return ("->", left, self.implication(inner))
        return left

    def disjunction(self, depth):
        left = self.conjunction(depth)
        while self.sign(b"|"):
            self.pos += 1
            left = ("|", left, self.conjunction(depth))
        return left

    def conjunction(self, depth):
        left = self.unary(depth)
        while self.sign(b"&"):
            self.pos += 1
            left = ("&", left, self.unary(depth))
        return left

    def bound(self, least):
        kind, value, _ = self.peek()
        if kind != "number":
            self.refuse()
        if not least <= value <= LIMIT_BOUND:
            self.refuse(4)
        self.pos += 1
        return value

    def unary(self, depth):
        kind, value, _ = self.peek()
        if kind == "word":
            names = self.environment if value.endswith(b"_e") else self.system
            if value not in names:
                if len(names) == LIMIT_KIND:
                    self.refuse(5)
                names.append(value)
            self.pos += 1
            return ("var", value)
        if kind == "reserved" and value in (b"True", b"False"):
            self.pos += 1
            return ("const", value == b"True")
        if kind == "sign" and value == b"-":
            inner = self.open(depth)
            return ("-", self.unary(inner))
        if kind == "reserved" and value == b"X":
            inner = self.open(depth)
            n = 1
            if self.sign(b"["):
                self.pos += 1
                n = self.bound(1)
                self.expect("sign", b"]")
            return ("X", n, self.unary(inner))
        if kind == "reserved":
            inner = self.open(depth)
            self.expect("sign", b"[")
            n = self.bound(0)
            self.expect("sign", b",")
            m = self.bound(n)
            self.expect("sign", b"]")
            return (value.decode(), n, m, self.unary(inner))
        if kind == "sign" and value == b"(":
            inner = self.open(depth)
            f = self.equivalence(inner)
            self.expect("sign", b")")
            return f
        self.refuse()

    def blank(self):
        while self.peek()[0] == "line":
            self.pos += 1

    def header(self, *words):
        self.blank()
        for word in words:
            self.expect("word", word)
        self.expect("line")

    def formula_line(self):
        self.blank()
        f = self.equivalence(0)
        self.expect("line")
        return f

    def text(self):
        self.header(b"Initial", b"Formula")
        initial = self.formula_line()
        self.header(b"Safety", b"Formula")
        safety = self.formula_line()
        while True:
            self.blank()
            if self.peek()[:2] == ("word", b"Environment") and self.peek(1)[:2] == ("word", b"Global"):
                break
            safety = ("&", safety, self.formula_line())
        self.header(b"Environment", b"Global", b"Constraints")
        self.blank()
        self.expect("reserved", b"True")
        if self.peek()[0] != "end":
            self.expect("line")
        self.blank()
        self.expect("end")
        return initial, safety


class Normal:
    """Normal forms as numbers of a growing pool, so that shared formulas stay shared."""

    def __init__(self):
        self.pool, self.index, self.memo = [], {}, {}
        self.false, self.true = self.make(("False",)), self.make(("True",))

    def make(self, f):
        if f not in self.index:
            self.index[f] = len(self.pool)
            self.pool.append(f)
        return self.index[f]

    def both(self, a, b):
        if self.false in (a, b):
            return self.false
        return b if a == self.true else a if b == self.true else self.make(("&", a, b))

    def either(self, a, b):
        if self.true in (a, b):
            return self.true
        return b if a == self.false else a if b == self.false else self.make(("|", a, b))

    def timed(self, *f):
        return f[-1] if f[-1] in (self.false, self.true) else self.make(f)

    def of(self, f, positive=True):
        key = (id(f), positive)
        if key not in self.memo:
            self.memo[key] = (self.compute(f, positive), f)
        return self.memo[key][0]

    def compute(self, f, pos):
        kind = f[0]
        if kind == "const":
            return self.true if f[1] == pos else self.false
        if kind == "var":
            return self.make(("lit", pos, f[1]))
        if kind == "-":
            return self.of(f[1], not pos)
        if kind == "X":
            return self.timed("X", f[1], self.of(f[2], pos))
        if kind in ("G", "F"):
            return self.timed(kind if pos else {"G": "F", "F": "G"}[kind], f[1], f[2], self.of(f[3], pos))
        l, r = f[1], f[2]
        if kind == "&":
            return (self.both if pos else self.either)(self.of(l, pos), self.of(r, pos))
        if kind == "|":
            return (self.either if pos else self.both)(self.of(l, pos), self.of(r, pos))
        if kind == "->":
            return self.either(self.of(l, False), self.of(r)) if pos else self.both(self.of(l), self.of(r, False))
        first = self.both(self.of(l), self.of(r, pos))
        return self.either(first, self.both(self.of(l, False), self.of(r, not pos)))

    def parts(self, *roots):
        """Numbers in the pool of false, true and all parts: parts before wholes, each once."""
        order, seen = [], set()

        def enter(f):
            if f in seen:
                return
            for part in self.pool[f]:
                if isinstance(part, int) and not isinstance(part, bool) and self.pool[f][0] in "&|":
                    enter(part)
            if self.pool[f][0] in ("X", "G", "F"):
                enter(self.pool[f][-1])
            if f not in seen:
                seen.add(f)
                order.append(f)

        for root in (self.false, self.true) + roots:
            enter(root)
        return order


def explain(text):
    try:
        reader = Reader(text)
        initial, safety = reader.text()
    except Refused as r:
        return [str(r)]
    normal = Normal()
    a, s = normal.of(initial), normal.of(safety)
    order = normal.parts(a, s)
    if len(order) > LIMIT_FORMULAS:
        return [f"refused 7 byte {len(text)}"]
    number = {f: k for k, f in enumerate(order)}
    lines = [f"environment {i} {n.decode()}" for i, n in enumerate(reader.environment)]
    lines += [f"system {i} {n.decode()}" for i, n in enumerate(reader.system)]
    for k, f in enumerate(order):
        e = normal.pool[f]
        if e[0] in ("False", "True"):
            shown = e[0]
        elif e[0] == "lit":
            shown = ("" if e[1] else "-") + e[2].decode()
        elif e[0] in "&|":
            shown = f"{number[e[1]]} {e[0]} {number[e[2]]}"
        elif e[0] == "X":
            shown = f"X[{e[1]}] {number[e[2]]}"
        else:
            shown = f"{e[0]}[{e[1]},{e[2]}] {number[e[3]]}"
        lines.append(f"formula {k} {shown}")
    return lines + [f"initial {number[a]}", f"safety {number[s]}"]


if __name__ == "__main__":
    try:
        data = open(sys.argv[1] if len(sys.argv) > 1 else "rules.txt", "rb").read()
    except FileNotFoundError:
        data = b""
    print("\n".join(explain(data)))
