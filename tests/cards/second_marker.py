#!/usr/bin/env python3
"""A second marker of cards, by docs/card.md and docs/refusals.md.

It shares no code with the library and is not part of the gate; it has to agree with the lines of make_cases.py, which are worked out by hand, before
the gate is given the cases. The text is read by the second reader (tests/reader/oracle.py).

    second_marker.py RULES CARD      prints what `mark RULES CARD` has to print
"""
import pathlib
import struct
import sys

sys.path.insert(0, str(pathlib.Path(__file__).resolve().parents[1] / "reader"))
import oracle as second_reader

OPEN, CLOSED, END = 1, 2, 65535
FORMULAS, LABELS, NODES, MOVES, TRAILER = range(5)


class Refused(Exception):
    def __init__(self, number, where, place):
        super().__init__(f"refused {number} list {where} number {place}")


def require(right, number, where, place):
    if not right:
        raise Refused(number, where, place)


class Game:
    """What a text states: how many variables there are, the initial and the safety formula, and a pool in which equal formulas are one number."""

    def __init__(self, text):
        reader = second_reader.Reader(text)
        initial, safety = reader.text()
        self.pool = second_reader.Normal()
        self.environment, self.system = reader.environment, reader.system
        self.initial, self.safety = self.pool.of(initial), self.pool.of(safety)
        self.listed = self.pool.parts(self.initial, self.safety)
        if len(self.listed) > second_reader.LIMIT_FORMULAS:
            raise second_reader.Refused(7, len(text))

    def has(self, variable):
        return variable < min(16, len(self.environment)) or 16 <= variable < 16 + len(self.system)

    def name(self, variable):
        return self.environment[variable] if variable < 16 else self.system[variable - 16]

    def variable(self, name):
        return self.environment.index(name) if name in self.environment else 16 + self.system.index(name)


class Card:
    """A card as its file holds it: a file is refused for the first wrong field of its trailer."""

    def __init__(self, data):
        require(len(data) >= 20, 8, TRAILER, 10)
        require(len(data) <= 47124, 8, TRAILER, 11)
        fields = struct.unpack("<10H", data[-20:])
        sizes, least, most = (10, 2, 8, 10), (2, 0, 1, 1), (1024, 4096, 1024, 2048)
        at = 0
        for i in range(4):
            require(fields[2 * i] == at, 8, TRAILER, 2 * i)
            require(least[i] <= fields[2 * i + 1] <= most[i], 8, TRAILER, 2 * i + 1)
            at += sizes[i] * fields[2 * i + 1]
        require(at + 20 == len(data), 8, TRAILER, 7)
        self.kind = fields[8]
        require(self.kind in (OPEN, CLOSED), 8, TRAILER, 8)
        require(fields[9] == 20, 8, TRAILER, 9)

        def entries(i, layout):
            start = fields[2 * i]
            return [struct.unpack_from(layout, data, start + sizes[i] * k) for k in range(fields[2 * i + 1])]

        self.formulas = entries(0, "<BBHHHH")
        self.labels = [each for each, in entries(1, "<H")]
        self.nodes, self.moves = entries(2, "<HHHH"), entries(3, "<HHHHH")


def formula_formed(game, i, entry):
    kind, variable, a, b, n, m = entry
    if i < 2 and kind != i:
        return False
    if kind in (0, 1):
        return (variable, a, b, n, m) == (0, 0, 0, 0, 0)
    if kind in (2, 3):
        return game.has(variable) and (a, b, n, m) == (0, 0, 0, 0)
    if kind in (4, 5):
        return 2 <= a < i and 2 <= b < i and (variable, n, m) == (0, 0, 0)
    if kind == 6:
        return 1 <= n <= 4095 and 2 <= a < i and (variable, b, m) == (0, 0, 0)
    return kind in (7, 8) and n <= m <= 4095 and 2 <= a < i and (variable, b) == (0, 0)


def move_formed(game, move):
    env, env_values, sys_, sys_values, _ = move
    in_masks = env_values & ~env == 0 and sys_values & ~sys_ == 0
    return in_masks and env < 1 << len(game.environment) and sys_ < 1 << len(game.system)


def trees(game, card):
    """The formula of each entry, as a number of the pool; a whole is built of its parts without simplifying."""
    built = []
    for kind, variable, a, b, n, m in card.formulas:
        if kind < 2:
            built.append(game.pool.true if kind else game.pool.false)
        elif kind < 4:
            built.append(game.pool.make(("lit", kind == 2, game.name(variable))))
        elif kind < 6:
            built.append(game.pool.make(("&" if kind == 4 else "|", built[a], built[b])))
        elif kind == 6:
            built.append(game.pool.make(("X", n, built[a])))
        else:
            built.append(game.pool.make(("G" if kind == 7 else "F", n, m, built[a])))
    return built


class Rests:
    """Rests by the reading of one move, and what is met on the way to each."""

    def __init__(self, game, kind, move):
        self.game, self.kind, self.move, self.memo = game, kind, move, {}

    def literal(self, positive, name):
        env, env_values, sys_, sys_values, _ = self.move
        variable = self.game.variable(name)
        mask, values, bit = (env, env_values, variable) if variable < 16 else (sys_, sys_values, variable - 16)
        if not mask >> bit & 1:
            return self.kind == CLOSED
        return (values >> bit & 1 == 1) == positive

    def of(self, f):
        if f not in self.memo:
            self.memo[f] = self.compute(f)
        return self.memo[f]

    def compute(self, f):
        pool = self.game.pool
        shape = pool.pool[f]
        kind = shape[0]
        if kind in ("False", "True"):
            return f, {f}
        if kind == "lit":
            rest = pool.true if self.literal(shape[1], shape[2]) else pool.false
            return rest, {rest}
        if kind in ("&", "|"):
            (a, met_a), (b, met_b) = self.of(shape[1]), self.of(shape[2])
            rest = (pool.both if kind == "&" else pool.either)(a, b)
            return rest, {rest} | met_a | met_b
        if kind == "X":
            rest = shape[2] if shape[1] == 1 else pool.make(("X", shape[1] - 1, shape[2]))
            return rest, {rest}
        _, n, m, body = shape
        if n > 0:
            rest = pool.make((kind, n - 1, m - 1, body))
            return rest, {rest}
        here, met = self.of(body)
        if m == 0:
            return here, met
        shorter = pool.make((kind, 0, m - 1, body))
        rest = (pool.both if kind == "G" else pool.either)(here, shorter)
        return rest, {rest, shorter} | met


def held(pool, formulas):
    out, left = set(), list(formulas)
    while left:
        f = left.pop()
        if f not in out:
            out.add(f)
            if pool.pool[f][0] == "&":
                left += pool.pool[f][1:]
    return out


def covers(pool, holds, f):
    if pool.false in holds or f == pool.true or f in holds:
        return True
    shape = pool.pool[f]
    if shape[0] == "&":
        return covers(pool, holds, shape[1]) and covers(pool, holds, shape[2])
    if shape[0] == "|":
        return covers(pool, holds, shape[1]) or covers(pool, holds, shape[2])
    if shape[0] not in ("G", "F"):
        return False
    _, n, m, body = shape
    for h in holds:
        other = pool.pool[h]
        if other[0] == shape[0] and other[3] == body:
            wide, narrow = ((other[1], other[2]), (n, m)) if shape[0] == "G" else ((n, m), (other[1], other[2]))
            if wide[0] <= narrow[0] and narrow[1] <= wide[1]:
                return True
    return False


def split_all(cubes, variables):
    """Whether each valuation lies in exactly one cube: no two meet, and together they are as many as all."""
    meet = any((v ^ w) & m & k == 0 for i, (m, v) in enumerate(cubes) for k, w in cubes[:i])
    return not meet and sum(1 << (variables - bin(m).count("1")) for m, _ in cubes) == 1 << variables


def judge(game, card):
    for i, entry in enumerate(card.formulas):
        require(formula_formed(game, i, entry), 9, FORMULAS, i)
    for i, label in enumerate(card.labels):
        require(label < len(card.formulas), 9, LABELS, i)
    for i, (label, labels, move, moves) in enumerate(card.nodes):
        right = label + labels <= len(card.labels) and move + moves <= len(card.moves) and moves >= 1
        require(right, 9, NODES, i)
    for i, move in enumerate(card.moves):
        require(move_formed(game, move), 9, MOVES, i)
    seen = set()
    for i, entry in enumerate(card.formulas):
        require(entry not in seen, 10, FORMULAS, i)
        seen.add(entry)
    pool, tree = game.pool, trees(game, card)
    listed = set(tree)
    require(listed.issuperset(game.listed), 11, FORMULAS, 0)

    def label_of(node):
        first, count = card.nodes[node][:2]
        return [tree[each] for each in card.labels[first : first + count]]

    root, first = label_of(0), held(pool, [game.initial])
    if card.kind == OPEN:
        require(covers(pool, held(pool, root), game.initial), 12, NODES, 0)
    else:
        require(all(covers(pool, first, f) for f in root), 12, NODES, 0)
    for n in range(len(card.nodes)):
        judge_node(game, card, tree, listed, n, label_of)


def judge_node(game, card, tree, listed, n, label_of):
    pool = game.pool
    first_label, labels, first_move, moves = card.nodes[n]
    run = [(first_move + k, card.moves[first_move + k]) for k in range(moves)]
    if card.kind == OPEN:
        for k in range(first_label, first_label + labels):
            require(tree[card.labels[k]] != pool.false, 13, LABELS, k)
        right = split_all([(m[0], m[1]) for _, m in run], len(game.environment))
    else:
        alike = len({(m[0], m[1]) for _, m in run}) == 1
        right = alike and split_all([(m[2], m[3]) for _, m in run], len(game.system))
    require(right, 14, NODES, n)
    for k, move in run:
        target = move[4]
        inside = target < len(card.nodes)
        require(inside if card.kind == OPEN else target == END or inside and target > n, 15, MOVES, k)
    for k, move in run:
        rests = Rests(game, card.kind, move)
        taken = [rests.of(f) for f in [game.safety, *label_of(n)]]
        require(all(met <= listed for _, met in taken), 11, MOVES, k)
        left, target = [rest for rest, _ in taken], move[4]
        if card.kind == OPEN:
            holds = held(pool, label_of(target))
            right = all(covers(pool, holds, rest) for rest in left)
        elif target == END:
            right = pool.false in held(pool, left)
        else:
            holds = held(pool, left)
            right = all(covers(pool, holds, f) for f in label_of(target))
        require(right, 16, MOVES, k)


def depth(card):
    depths = [0] * len(card.nodes)
    for n in reversed(range(len(card.nodes))):
        first, count = card.nodes[n][2:]
        targets = [card.moves[k][4] for k in range(first, first + count)]
        depths[n] = 1 + max(0 if t == END else depths[t] for t in targets)
    return depths[0]


def mark(text, data):
    try:
        game = Game(text)
        card = Card(data)
        judge(game, card)
    except (second_reader.Refused, Refused) as refusal:
        return str(refusal)
    counts = f"nodes {len(card.nodes)} moves {len(card.moves)}"
    return f"realizable {counts}" if card.kind == OPEN else f"unrealizable {counts} depth {depth(card)}"


if __name__ == "__main__":
    print(mark(*(pathlib.Path(each).read_bytes() for each in sys.argv[1:3])))
