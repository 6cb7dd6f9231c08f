"""Cards on both sides of every limit, and with every refusal: a text, a card file, and the line that `mark` has to print, worked out by hand."""
import struct

END = 65535
FALSE, TRUE = (0, 0, 0, 0, 0, 0), (1, 0, 0, 0, 0, 0)
LAYOUTS = {"formulas": "<BBHHHH", "labels": "<H", "nodes": "<HHHH", "moves": "<HHHHH"}


def literal(variable, positive=True):
    return (2 if positive else 3, variable, 0, 0, 0, 0)


class Draft:
    """A card that is being drawn. Nodes: first label, labels, first move, moves. Moves: input mask and values, reply mask and values, target."""

    def __init__(self, kind, formulas, labels, nodes, moves):
        self.kind, self.formulas, self.labels, self.nodes, self.moves = kind, formulas, labels, nodes, moves

    def but(self, **lists):
        """The same card with other lists."""
        return Draft(**{**vars(self), **lists})

    def put(self, name, i, entry):
        """The same card with another entry i of a list; one past the end adds it."""
        entries = getattr(self, name)
        return self.but(**{name: entries[:i] + [entry] + entries[i + 1 :]})

    def file(self, fields={}, gap=b""):
        """The bytes of its file, with other trailer fields, and bytes between the last move and the trailer."""
        lists, trailer, at = b"", [], 0
        for name, layout in LAYOUTS.items():
            entries = [struct.pack(layout, *e) if isinstance(e, tuple) else struct.pack(layout, e) for e in getattr(self, name)]
            trailer += [at, len(entries)]
            at += sum(map(len, entries))
            lists += b"".join(entries)
        trailer += [self.kind, 20]
        return lists + gap + struct.pack("<10H", *[fields.get(i, field) for i, field in enumerate(trailer)])


def text(initial, safety):
    return b"Initial Formula\n" + initial + b"\nSafety Formula\n" + safety + b"\nEnvironment Global Constraints\nTrue\n"


def many(kind, letter):
    return b" | ".join(b"%s%d%s" % (letter, i, kind) for i in range(16))


TEXTS = {
    "nothing": text(b"True", b"True"),
    "never": text(b"True", b"False"),
    "copy": text(b"True", b"s <-> p_e"),
    "foresee": text(b"True", b"s <-> X p_e"),
    "start": text(b"s", b"True"),
    "doomed": text(b"s", b"False"),
    "reply": text(b"True", b"s"),
    "hold": text(b"True", b"p_e -> G[0,99] s"),
    "wide": text(b"(" + many(b"_e", b"p") + b") | (" + many(b"", b"s") + b") | True", b"True"),
}
S, P = 16, 0
LITERALS = [FALSE, TRUE, literal(S), literal(S, False), literal(P), literal(P, False)]
NOTHING = Draft(1, [FALSE, TRUE], [], [(0, 0, 0, 1)], [(0, 0, 0, 0, 0)])
NEVER = NOTHING.but(kind=2, moves=[(0, 0, 0, 0, END)])
COPY = Draft(1, LITERALS + [(4, 0, 2, 4, 0, 0), (4, 0, 3, 5, 0, 0), (5, 0, 6, 7, 0, 0)], [], [(0, 0, 0, 2)], [(1, 0, 1, 0, 0), (1, 1, 1, 1, 0)])
FORESEE = Draft(
    2,
    LITERALS + [(6, 0, 4, 0, 1, 0), (6, 0, 5, 0, 1, 0), (4, 0, 2, 6, 0, 0), (4, 0, 3, 7, 0, 0), (5, 0, 8, 9, 0, 0), (5, 0, 4, 5, 0, 0)],
    [4, 5],
    [(0, 0, 0, 2), (0, 1, 2, 1), (1, 1, 3, 1)],
    [(0, 0, 1, 1, 1), (0, 0, 1, 0, 2), (1, 0, 0, 0, END), (1, 1, 0, 0, END)],
)
START = Draft(1, [FALSE, TRUE, literal(S)], [2], [(0, 1, 0, 1), (0, 0, 1, 1)], [(0, 0, 1, 1, 1), (0, 0, 0, 0, 1)])
DOOMED = Draft(2, [FALSE, TRUE, literal(S), literal(S, False)], [2, 3], [(0, 1, 0, 1)], [(0, 0, 0, 0, END)])
REPLY = Draft(2, [FALSE, TRUE, literal(S)], [], [(0, 0, 0, 1)], [(0, 0, 0, 0, END)])
HOLD = Draft(
    1,
    [FALSE, TRUE, literal(S), literal(P, False), (7, 0, 2, 0, 0, 99), (5, 0, 3, 4, 0, 0), (7, 0, 2, 0, 0, 98), (7, 0, 2, 0, 0, 97)],
    [6],
    [(0, 0, 0, 2), (0, 1, 2, 1)],
    [(1, 0, 0, 0, 0), (1, 1, 1, 1, 1), (0, 0, 1, 1, 1)],
)
# sixteen variables of each kind, and each node with two moves of its own, on to the next node and from the last to the first
LONGEST = Draft(
    1,
    [FALSE, TRUE] + [literal(0)] + [(6, 0, 2, 0, n, 0) for n in range(1, 1022)],
    [1] * 4096,
    [(4 * n, 4, 2 * n, 2) for n in range(1024)],
    [(1, value, 65535, 0, (n + 1) % 1024) for n in range(1024) for value in (0, 1)],
)
CHAIN = NEVER.but(nodes=[(0, 0, n, 1) for n in range(1024)], moves=[(0, 0, 0, 0, n + 1 if n < 1023 else END) for n in range(1024)])

FINE = {"nothing": "realizable nodes 1 moves 1", "copy": "realizable nodes 1 moves 2", "foresee": "unrealizable nodes 3 moves 4 depth 2"}
LIMITS = []


def case(of, name, drawn, line):
    file = drawn if isinstance(drawn, bytes) else drawn.file()
    LIMITS.append((of, name, TEXTS[of], file, line))


def fine(of, name, drawn):
    case(of, name, drawn, FINE[of])


def refused(of, name, drawn, number, where, place):
    case(of, name, drawn, f"refused {number} list {where} number {place}")


# ── 8: the trailer ──
refused("copy", "nineteen_bytes", bytes(19), 8, 4, 10)
refused("copy", "twenty_bytes_of_zero", bytes(20), 8, 4, 1)
case("wide", "the_longest_file", LONGEST, "realizable nodes 1024 moves 2048")
refused("wide", "a_byte_more_than_the_longest_file", LONGEST.file(gap=b"\0"), 8, 4, 11)
for field, start in {0: 1, 2: 91, 4: 91, 6: 99}.items():
    refused("copy", f"field_{field}_another_start", COPY.file({field: start}), 8, 4, field)
refused("nothing", "one_formula", NOTHING.but(formulas=[FALSE]), 8, 4, 1)
fine("nothing", "two_formulas", NOTHING)
X_OF_2 = [FALSE, TRUE, literal(0)] + [(6, 0, 2, 0, n, 0) for n in range(1, 1023)]
refused("wide", "a_formula_too_many", NOTHING.but(formulas=X_OF_2), 8, 4, 1)
case("wide", "as_many_formulas_as_can_be", NOTHING.but(formulas=X_OF_2[:1024]), FINE["nothing"])
fine("copy", "as_many_labels_as_can_be", COPY.but(labels=[2] * 4096))
refused("copy", "a_label_too_many", COPY.but(labels=[2] * 4097), 8, 4, 3)
refused("copy", "no_node", COPY.but(nodes=[]), 8, 4, 5)
case("never", "as_many_nodes_as_can_be", CHAIN, "unrealizable nodes 1024 moves 1024 depth 1024")
refused("never", "a_node_too_many", CHAIN.put("nodes", 1024, (0, 0, 0, 1)), 8, 4, 5)
refused("copy", "no_move", COPY.but(moves=[]), 8, 4, 7)
MOVES = COPY.moves + [COPY.moves[0]] * 2047
case("copy", "as_many_moves_as_can_be", COPY.but(moves=MOVES[:2048]), "realizable nodes 1 moves 2048")
refused("copy", "a_move_too_many", COPY.but(moves=MOVES), 8, 4, 7)
refused("copy", "a_byte_before_the_trailer", COPY.file(gap=b"\0"), 8, 4, 7)
refused("copy", "a_count_more_than_the_file_has", COPY.file({7: 3}), 8, 4, 7)
refused("copy", "kind_0", COPY.but(kind=0), 8, 4, 8)
refused("copy", "kind_3", COPY.but(kind=3), 8, 4, 8)
refused("copy", "field_9_below", COPY.file({9: 19}), 8, 4, 9)
refused("copy", "field_9_above", COPY.file({9: 21}), 8, 4, 9)

# ── 9: the form of formulas; entry 9 is the first that the card does not need ──
refused("copy", "true_first", COPY.put("formulas", 0, TRUE), 9, 0, 0)
refused("copy", "false_second", COPY.put("formulas", 1, FALSE), 9, 0, 1)
FORMS = {
    "constant_with_a_variable": (FALSE[:1] + (1,) + FALSE[2:], 0),
    "constant_with_a_part": ((1, 0, 2, 0, 0, 0), 1),
    "constant_with_a_second_part": ((1, 0, 0, 2, 0, 0), 1),
    "constant_with_a_bound": ((1, 0, 0, 0, 1, 0), 1),
    "constant_with_a_second_bound": ((1, 0, 0, 0, 0, 1), 1),
    "an_environment_variable_too_many": ((2, 1, 0, 0, 0, 0), 9),
    "the_last_environment_variable_of_none": ((3, 15, 0, 0, 0, 0), 9),
    "a_system_variable_too_many": ((2, 17, 0, 0, 0, 0), 9),
    "a_variable_past_all": ((3, 32, 0, 0, 0, 0), 9),
    "literal_with_a_part": ((2, 0, 2, 0, 0, 0), 9),
    "literal_with_a_bound": ((2, 0, 0, 0, 1, 0), 9),
    "pair_of_itself": ((4, 0, 9, 2, 0, 0), 9),
    "pair_with_itself": ((4, 0, 2, 9, 0, 0), 9),
    "pair_of_a_constant": ((5, 0, 1, 2, 0, 0), 9),
    "pair_with_a_constant": ((5, 0, 2, 1, 0, 0), 9),
    "pair_with_a_variable": ((4, 1, 2, 3, 0, 0), 9),
    "pair_with_a_bound": ((5, 0, 2, 3, 1, 0), 9),
    "pair_with_a_second_bound": ((5, 0, 2, 3, 0, 1), 9),
    "next_of_no_step": ((6, 0, 2, 0, 0, 0), 9),
    "next_of_too_many_steps": ((6, 0, 2, 0, 4096, 0), 9),
    "next_of_itself": ((6, 0, 9, 0, 1, 0), 9),
    "next_of_a_constant": ((6, 0, 1, 0, 1, 0), 9),
    "next_with_a_second_part": ((6, 0, 2, 2, 1, 0), 9),
    "next_with_a_second_bound": ((6, 0, 2, 0, 1, 1), 9),
    "next_with_a_variable": ((6, 1, 2, 0, 1, 0), 9),
    "always_with_bounds_exchanged": ((7, 0, 2, 0, 1, 0), 9),
    "always_too_long": ((7, 0, 2, 0, 0, 4096), 9),
    "always_of_itself": ((7, 0, 9, 0, 0, 1), 9),
    "always_of_a_constant": ((7, 0, 0, 0, 0, 1), 9),
    "always_with_a_second_part": ((7, 0, 2, 3, 0, 1), 9),
    "eventually_with_bounds_exchanged": ((8, 0, 2, 0, 4095, 4094), 9),
    "eventually_too_long": ((8, 0, 2, 0, 4095, 4096), 9),
    "eventually_with_a_variable": ((8, 1, 2, 0, 0, 1), 9),
    "kind_9": ((9, 0, 2, 0, 0, 1), 9),
    "kind_255": ((255, 0, 0, 0, 0, 0), 9),
}
for name, (entry, place) in FORMS.items():
    refused("copy", name, COPY.put("formulas", place, entry), 9, 0, place)
GOOD_FORMS = {
    "pair_of_the_entry_before": (4, 0, 8, 8, 0, 0),
    "next_of_one_step": (6, 0, 8, 0, 1, 0),
    "next_of_as_many_steps_as_can_be": (6, 0, 2, 0, 4095, 0),
    "always_here": (7, 0, 2, 0, 0, 0),
    "always_as_late_as_can_be": (7, 0, 2, 0, 4095, 4095),
    "eventually_as_long_as_can_be": (8, 0, 2, 0, 0, 4095),
}
for name, entry in GOOD_FORMS.items():
    fine("copy", name, COPY.put("formulas", 9, entry))
WIDE = NOTHING.but(formulas=[FALSE, TRUE, literal(15), literal(31)])
case("wide", "the_last_variables_of_sixteen", WIDE, FINE["nothing"])
refused("wide", "a_variable_past_sixteen", WIDE.put("formulas", 4, literal(32)), 9, 0, 4)

# ── 9: the form of labels, nodes and moves ──
fine("copy", "label_of_the_last_formula", COPY.but(labels=[2, 8]))
refused("copy", "label_past_the_last_formula", COPY.but(labels=[2, 9]), 9, 1, 1)
fine("foresee", "labels_up_to_the_end", FORESEE)
refused("foresee", "labels_past_the_end", FORESEE.put("nodes", 2, (1, 2, 3, 1)), 9, 2, 2)
refused("foresee", "no_labels_past_the_end", FORESEE.put("nodes", 0, (3, 0, 0, 2)), 9, 2, 0)
fine("foresee", "no_labels_at_the_end", FORESEE.put("nodes", 0, (2, 0, 0, 2)))
refused("foresee", "moves_past_the_end", FORESEE.put("nodes", 2, (1, 1, 3, 2)), 9, 2, 2)
refused("foresee", "a_node_without_moves", FORESEE.put("nodes", 1, (0, 1, 2, 0)), 9, 2, 1)
refused("copy", "an_input_mask_too_wide", COPY.put("moves", 1, (2, 0, 1, 1, 0)), 9, 3, 1)
refused("copy", "a_reply_mask_too_wide", COPY.put("moves", 1, (1, 1, 2, 0, 0)), 9, 3, 1)
refused("copy", "an_input_outside_its_mask", COPY.put("moves", 0, (0, 1, 1, 0, 0)), 9, 3, 0)
refused("copy", "a_reply_outside_its_mask", COPY.put("moves", 0, (1, 0, 0, 1, 0)), 9, 3, 0)
refused("nothing", "a_mask_without_variables", NOTHING.put("moves", 0, (1, 0, 0, 0, 0)), 9, 3, 0)

# ── 10: equal formulas ──
refused("copy", "a_formula_twice", COPY.put("formulas", 9, literal(S)), 10, 0, 9)
refused("copy", "false_twice", COPY.put("formulas", 9, FALSE), 10, 0, 9)
refused("copy", "true_twice", COPY.put("formulas", 9, TRUE), 10, 0, 9)
fine("copy", "formulas_that_differ_in_a_bound", COPY.but(formulas=COPY.formulas + [(7, 0, 2, 0, 0, 1), (7, 0, 2, 0, 0, 2), (8, 0, 2, 0, 0, 2)]))
fine("copy", "a_pair_turned_around", COPY.put("formulas", 9, (4, 0, 4, 2, 0, 0)))

# ── 11: the formulas of the text, and those that are met ──
refused("copy", "the_safety_formula_is_not_listed", COPY.but(formulas=COPY.formulas[:8]), 11, 0, 0)
refused("start", "the_initial_formula_is_not_listed", START.put("formulas", 2, literal(S, False)), 11, 0, 0)
case("hold", "the_shorter_range_is_listed", HOLD, "realizable nodes 2 moves 3")
refused("hold", "the_shorter_range_is_not_listed", HOLD.but(formulas=HOLD.formulas[:7]), 11, 3, 2)

# ── 12: the root ──
case("start", "the_root_starts_as_it_has_to", START, "realizable nodes 2 moves 2")
refused("start", "the_root_starts_with_less", START.put("nodes", 0, (0, 0, 0, 1)), 12, 2, 0)
case("doomed", "the_root_follows_from_the_start", DOOMED, "unrealizable nodes 1 moves 1 depth 1")
refused("doomed", "the_root_has_what_need_not_be", DOOMED.put("nodes", 0, (1, 1, 0, 1)), 12, 2, 0)

# ── 13: false in a label ──
refused("start", "false_in_an_open_label", START.but(labels=[2, 0]).put("nodes", 1, (0, 2, 1, 1)), 13, 1, 1)
FALSE_BELOW = NEVER.but(labels=[0], nodes=[(0, 0, 0, 1), (0, 1, 1, 1)], moves=[(0, 0, 0, 0, 1), (0, 0, 0, 0, END)])
case("never", "false_in_a_closed_label", FALSE_BELOW, "unrealizable nodes 2 moves 2 depth 2")

# ── 14: covering ──
refused("copy", "an_input_without_a_move", COPY.put("nodes", 0, (0, 0, 0, 1)), 14, 2, 0)
refused("copy", "an_input_with_two_moves", COPY.put("moves", 1, (0, 0, 1, 1, 0)), 14, 2, 0)
refused("foresee", "a_reply_without_a_move", FORESEE.put("nodes", 0, (0, 0, 0, 1)), 14, 2, 0)
refused("foresee", "a_reply_with_two_moves", FORESEE.put("moves", 1, (0, 0, 0, 0, 2)), 14, 2, 0)
refused("foresee", "moves_of_two_input_masks", FORESEE.put("moves", 1, (1, 0, 1, 0, 2)), 14, 2, 0)
TWO_INPUTS = FORESEE.put("moves", 0, (1, 0, 1, 1, 1))
refused("foresee", "moves_of_two_inputs", TWO_INPUTS.put("moves", 1, (1, 1, 1, 0, 2)), 14, 2, 0)
fine("foresee", "moves_of_one_input", TWO_INPUTS.put("moves", 1, (1, 0, 1, 0, 2)))
refused("foresee", "a_reply_without_a_move_at_the_last_node", FORESEE.put("moves", 3, (1, 1, 1, 0, END)), 14, 2, 2)

# ── 15: targets ──
refused("copy", "an_open_move_to_the_end", COPY.put("moves", 1, (1, 1, 1, 1, END)), 15, 3, 1)
refused("copy", "an_open_move_past_the_last_node", COPY.put("moves", 1, (1, 1, 1, 1, 1)), 15, 3, 1)
refused("foresee", "a_closed_move_past_the_last_node", FORESEE.put("moves", 3, (1, 1, 0, 0, 3)), 15, 3, 3)
refused("foresee", "a_closed_move_to_its_own_node", FORESEE.put("moves", 3, (1, 1, 0, 0, 2)), 15, 3, 3)
refused("foresee", "a_closed_move_back", FORESEE.put("moves", 3, (1, 1, 0, 0, 1)), 15, 3, 3)
refused("never", "the_end_written_otherwise", NEVER.put("moves", 0, (0, 0, 0, 0, 65534)), 15, 3, 0)

# ── 16: steps ──
refused("copy", "a_reply_that_breaks_the_formula", COPY.put("moves", 1, (1, 1, 1, 0, 0)), 16, 3, 1)
refused("copy", "a_reply_left_open", COPY.put("moves", 0, (1, 0, 0, 0, 0)), 16, 3, 0)
refused("reply", "an_end_where_nothing_is_lost", REPLY, 16, 3, 0)
refused("foresee", "labels_exchanged", FORESEE.but(labels=[5, 4]), 16, 3, 0)
refused("foresee", "an_end_at_the_other_input", FORESEE.put("moves", 3, (1, 0, 0, 0, END)), 16, 3, 3)

# ── which refusal comes first ──
BAD_FORMULA, BAD_MOVE = (9, 0, 0, 0, 0, 0), (2, 0, 0, 0, 0)
BOTH = COPY.put("formulas", 9, BAD_FORMULA).but(labels=[99]).put("nodes", 0, (0, 0, 0, 3)).put("moves", 1, BAD_MOVE)
refused("copy", "a_bad_formula_before_a_bad_label", BOTH, 9, 0, 9)
refused("copy", "a_bad_label_before_a_bad_node", BOTH.but(formulas=COPY.formulas), 9, 1, 0)
refused("copy", "a_bad_node_before_a_bad_move", BOTH.but(formulas=COPY.formulas, labels=[]), 9, 2, 0)
refused("copy", "a_bad_move_before_an_equal_formula", COPY.put("formulas", 9, FALSE).put("moves", 1, BAD_MOVE), 9, 3, 1)
refused("copy", "an_equal_formula_before_one_that_is_missing", COPY.put("formulas", 8, FALSE), 10, 0, 8)
refused("start", "a_missing_formula_before_the_root", START.put("formulas", 2, literal(S, False)).put("nodes", 0, (0, 0, 0, 1)), 11, 0, 0)
refused("start", "the_root_before_a_label", START.but(labels=[2, 0]).put("nodes", 0, (0, 0, 0, 1)).put("nodes", 1, (0, 2, 1, 1)), 12, 2, 0)
UNCOVERED = START.but(labels=[2, 0], moves=[(0, 0, 1, 1, END), (0, 0, 0, 0, 1)])
refused("start", "a_label_before_a_target", UNCOVERED.put("nodes", 0, (0, 2, 0, 1)), 13, 1, 1)
refused("copy", "a_label_before_the_covering", COPY.but(labels=[0], nodes=[(0, 1, 0, 1)]), 13, 1, 0)
refused("copy", "the_covering_before_a_target", COPY.but(nodes=[(0, 0, 1, 1)], moves=[(1, 0, 1, 0, 0), (1, 1, 1, 1, END)]), 14, 2, 0)
refused("copy", "a_target_before_the_step_of_an_earlier_move", COPY.but(moves=[(1, 0, 1, 1, 0), (1, 1, 1, 1, END)]), 15, 3, 1)
refused("hold", "a_missing_rest_before_its_step", HOLD.but(formulas=HOLD.formulas[:7]).put("moves", 2, (0, 0, 0, 0, 1)), 11, 3, 2)
refused("copy", "the_step_of_node_0_before_the_covering_of_node_1", COPY.but(nodes=[(0, 0, 0, 2), (0, 0, 0, 1)]).put("moves", 1, (1, 1, 1, 0, 0)), 16, 3, 1)
