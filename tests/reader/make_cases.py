#!/usr/bin/env python3
"""Makes the cases of the program `reader_cases`: texts on both sides of every limit, and what each is read as.

    make_cases.py       writes crates/reader_cases/data/ and crates/reader_cases/stdout anew

Every refusal stands here as it was worked out by hand from docs/refusals.md, and the second reader (oracle.py) has to
agree before anything is written. What an accepted text is read as comes from the second reader.
"""
import pathlib
import shutil

from oracle import explain

ROOT = pathlib.Path(__file__).resolve().parents[2] / "crates" / "reader_cases"
THIRD = b"Environment Global Constraints\nTrue\n"


def text(*safety, initial=b"True", third=THIRD):
    return b"Initial Formula\n" + initial + b"\nSafety Formula\n" + b"".join(s + b"\n" for s in safety) + third


def padded(length):
    """A good text of that many bytes, filled up by blank lines."""
    t = text(b"s")
    return t + b"\n" * (length - len(t))


def words(kind, count):
    return b" & ".join(b"v%d%s" % (i, kind) for i in range(count))


def chain(count):
    """2 * count + 2 formulas: false, true, a, count times X[n] a, and count - 1 conjunctions."""
    return b"&".join(b"X[%d]a" % n for n in range(1, count + 1))


CASES = []


def accepted(name, data):
    CASES.append((name, data, None))


def refused(name, data, number, place):
    CASES.append((name, data, f"refused {number} byte {place}"))


def refused_at(name, data, number, piece, offset=0):
    """Refused at the last place where the piece stands."""
    refused(name, data, number, data.rindex(piece) + offset)


# length of the text
refused("empty", b"", 3, 0)
refused("blank_lines_only", b"\n  \n", 3, 4)
accepted("bytes_1024", padded(1024))
refused("bytes_1025", padded(1025), 1, 1024)
refused("bytes_1025_all_unknown", b"\0" * 1025, 1, 1024)
accepted("no_last_line_end", text(b"s")[:-1])
accepted("blanks_behind_the_last_line", text(b"s")[:-1] + b"   ")

# words
accepted("word_of_15_bytes", text(b"abcdefghijklmno"))
refused_at("word_of_16_bytes", text(b"abcdefghijklmnop"), 2, b"abcdefghijklmnop")
refused_at("long_word_where_none_may_stand", text(b"s abcdefghijklmnop"), 2, b"abcdefghijklmnop")
accepted("reserved_as_parts_of_words", text(b"Xs & X1 & G2_e & TRUE & True1 & Ff"))
accepted("words_end_in_e", text(b"a_e & a_E & e_e & x_e_e & ae & a_e_"))
refused_at("underscore_first", text(b"_a"), 2, b"_a")
refused_at("digit_first", text(b"1a"), 3, b"1a")
accepted("variables_named_like_headers", text(b"Environment", b"Safety & Formula & Initial", b"Global & Constraints", b"Environment & Global",
                                              initial=b"Formula -> Initial"))

# unknown bytes
refused_at("nul_byte", text(b"s & \0"), 2, b"\0")
refused_at("tab", text(b"s &\ts"), 2, b"\t")
refused_at("carriage_return", text(b"s\r"), 2, b"\r")
refused("carriage_returns_everywhere", text(b"s").replace(b"\n", b"\r\n"), 2, 15)
refused_at("byte_128", text(b"\x80"), 2, b"\x80")
refused_at("byte_255", text(b"s | \xff"), 2, b"\xff")
refused_at("exclamation_mark", text(b"!s"), 2, b"!")
refused_at("lone_less_than", text(b"s < t"), 2, b"<")
refused_at("lone_greater_than", text(b"s > t"), 2, b">")
refused_at("broken_double_arrow", text(b"s <- t"), 2, b"<")
refused_at("blank_in_an_arrow", text(b"s - > t"), 3, b"- >")

# variables of a kind
accepted("environment_16", text(words(b"_e", 16)))
refused_at("environment_17", text(words(b"_e", 17)), 5, b"v16_e")
accepted("system_16", text(words(b"", 16)))
refused_at("system_17", text(words(b"", 17)), 5, b"v16")
accepted("both_16", text(words(b"_e", 16), words(b"", 16)))
accepted("seen_again_after_16", text(words(b"", 16) + b" & v0 & v15"))
refused_at("vanished_variables_count", text(b"False & (" + words(b"", 16) + b")", b"v16"), 5, b"v16")
accepted("numbered_by_first_appearance", text(b"d & c_e", b"b_e & d & a", initial=b"c_e | b"))

# nesting
accepted("parentheses_32", text(b"(" * 32 + b"s" + b")" * 32))
refused_at("parentheses_33", text(b"(" * 33 + b"s" + b")" * 33), 6, b"(s")
accepted("negations_32", text(b"-" * 32 + b"s"))
refused_at("negations_33", text(b"-" * 33 + b"s"), 6, b"-s")
accepted("next_32", text(b"X " * 32 + b"s"))
refused_at("next_33", text(b"X " * 33 + b"s"), 6, b"X s")
refused_at("next_33_before_its_bad_bound", text(b"X " * 32 + b"X[9999] s"), 6, b"X[9")
accepted("arrows_32", text(b"s->" * 32 + b"s"))
refused_at("arrows_33", text(b"s->" * 33 + b"s"), 6, b"->s")
accepted("double_arrow_and_31_arrows", text(b"s<->" + b"s->" * 31 + b"s"))
refused_at("double_arrow_and_32_arrows", text(b"s<->" + b"s->" * 32 + b"s"), 6, b"->s")
accepted("finished_arrows_free_their_nesting", text(b"s->" * 32 + b"s<->s"))
accepted("finished_parts_free_their_nesting", text(b"&".join([b"(" * 32 + b"s" + b")" * 32] * 3)))
refused_at("mixed_33", text(b"(-" * 16 + b"X s" + b")" * 16), 6, b"X s")

# bounds
accepted("bound_4095", text(b"G[0,4095] s & X[4095] s & F[4095,4095] s"))
refused_at("bound_4096", text(b"G[0,4096] s"), 4, b"4096")
refused_at("low_bound_4096", text(b"F[4096,4096] s"), 4, b"4096,")
refused_at("bounds_out_of_order", text(b"G[3,2] s"), 4, b"2]")
accepted("bounds_equal", text(b"G[3,3] s & F[0,0] s"))
refused_at("next_0", text(b"X[0] s"), 4, b"0]")
refused_at("next_00", text(b"X[00] s"), 4, b"00]")
accepted("next_01", text(b"X[01] s & X s & X [ 1 ] s"))
refused_at("next_4096", text(b"X[4096] s"), 4, b"4096")
refused_at("forty_digits", text(b"X[1" + b"0" * 39 + b"] s"), 4, b"10000")
accepted("forty_digits_of_value_7", text(b"X[" + b"0" * 39 + b"7] s"))
refused_at("always_without_bounds", text(b"G s"), 3, b"s\nEnv")
refused_at("always_with_one_bound", text(b"G[1] s"), 3, b"] s")
refused_at("next_with_two_bounds", text(b"X[1,2] s"), 3, b",2")
refused_at("missing_bound", text(b"G[,2] s"), 3, b",2")
refused_at("open_bound_at_line_end", text(b"G[1,2"), 3, b"\nEnv")
refused_at("number_where_none_may_stand", text(b"s & 9999"), 3, b"9999")

# precedence, grouping, normal form
accepted("and_before_or", text(b"a | b & c", b"a & b | c"))
accepted("or_before_arrow", text(b"a -> b | c", b"a | b -> c"))
accepted("arrow_groups_from_the_right", text(b"a -> b -> c", b"(a -> b) -> c"))
accepted("arrow_before_double_arrow", text(b"a -> b <-> c", b"a <-> b -> c"))
accepted("and_or_group_from_the_left", text(b"a & b & c | d | e"))
accepted("unary_binds_tightest", text(b"-a & b", b"X a | b", b"G[1,2] a -> F[0,3] b"))
accepted("negation_of_everything", text(b"-(a & b | c -> X d)", b"-(a <-> G[0,1] b)", b"-F[2,3] -a", b"--a"))
refused_at("double_arrow_does_not_chain", text(b"a <-> b <-> c"), 3, b"<-> c")
accepted("double_arrow_in_parentheses", text(b"(a <-> b) <-> c"))
accepted("constants_vanish", text(b"True & a", b"a | False", b"True -> a", b"a <-> False", b"X False | G[0,3] True", b"False -> (b & c)"))
accepted("false_specification", text(b"False"))
accepted("shared_parts_are_listed_once", text(b"(a & b) | X(a & b)", b"a & b", initial=b"a & b"))
accepted("nested_double_arrows", text(b"(" * 31 + b"a" + b"".join(b"<->v%d)" % (i % 14) for i in range(31))))
accepted("long_chain_of_254", text(b"&".join([b"ss"] * 254)))
refused("long_chain_of_255", text(b"&".join([b"ss"] * 255)), 7, len(text(b"&".join([b"ss"] * 255))))
refused("chain_of_a_thousand_bytes", text(b"&".join([b"s"] * 470)), 7, len(text(b"&".join([b"s"] * 470))))
accepted("thousand_bytes_that_vanish", text(b"&".join([b"False"] + [b"s"] * 464)))

# at most 256 formulas
accepted("formulas_256", text(chain(127)))
refused("formulas_257", text(chain(127), initial=b"-a"), 7, len(text(chain(127), initial=b"-a")))
accepted("vanished_formulas_do_not_count", text(chain(127), initial=b"False&-a"))
refused("formulas_258", text(chain(128)), 7, len(text(chain(128))))

# sections
accepted("blank_lines_and_blanks", b"\n\n  Initial   Formula  \n\n a \n \nSafety Formula\n\nb\n\n\nc\n\n Environment Global  Constraints\n\n True \n\n")
refused_at("lower_case_header", text(b"s").replace(b"Initial", b"initial"), 3, b"initial")
refused_at("header_with_three_words", text(b"s").replace(b"Initial Formula", b"Initial Formula s"), 3, b" s\nTrue\nSaf", 1)
refused_at("header_cut_by_a_line_end", text(b"s").replace(b"Initial Formula", b"Initial\nFormula"), 3, b"\nFormula\nTrue")
refused_at("sections_out_of_order", b"Safety Formula\ns\nInitial Formula\nTrue\n" + THIRD, 3, b"Safety")
refused_at("two_initial_formulas", text(b"s", initial=b"a\nb"), 3, b"b\nSafety")
refused_at("no_safety_line", text(), 3, b"Global")
refused("ends_behind_initial", b"Initial Formula\na\n", 3, 18)
refused("ends_in_the_initial_formula", b"Initial Formula\na &", 3, 19)
refused("ends_behind_the_initial_formula", b"Initial Formula\na", 3, 17)
refused("ends_behind_the_safety_line", text(b"s", third=b""), 3, len(text(b"s", third=b"")))
refused_at("third_header_not_finished", text(b"s", third=b"Environment Global\nTrue\n"), 3, b"\nTrue\n")
refused_at("third_header_with_another_word", text(b"s", third=b"Environment Global Conditions\nTrue\n"), 3, b"Conditions")
refused_at("third_part_false", text(b"s", third=b"Environment Global Constraints\nFalse\n"), 3, b"False")
refused_at("third_part_formula", text(b"s", third=b"Environment Global Constraints\nTrue & True\n"), 3, b"&")
refused("third_part_missing", text(b"s", third=b"Environment Global Constraints\n"), 3, len(text(b"s", third=b"Environment Global Constraints\n")))
refused_at("something_behind_the_third_part", text(b"s") + b"\ns\n", 3, b"s\n")
refused_at("line_ends_inside_a_formula", text(b"a &", b"b"), 3, b"\nb")
refused_at("empty_parentheses", text(b"()"), 3, b")")
refused_at("parenthesis_not_closed", text(b"(a"), 3, b"\nEnv")
refused_at("parenthesis_not_opened", text(b"a)"), 3, b")")
refused_at("two_ands", text(b"a && b"), 3, b"& b")
refused_at("two_words_in_a_row", text(b"a b"), 3, b"b\nEnv")
refused_at("environment_global_inside_a_line", text(b"a", b"Environment Global"), 3, b"\nEnvironment Global Con")
refused_at("first_offending_token_counts", text(b"a b \0"), 3, b"b \0")

# samples that are shipped
SAMPLES = pathlib.Path(__file__).resolve().parents[2] / "samples"
for sample in sorted(SAMPLES.glob("*.rules")):
    accepted("sample_" + sample.stem, sample.read_bytes())


def main():
    data = ROOT / "data"
    shutil.rmtree(data, ignore_errors=True)
    data.mkdir(parents=True)
    out, wrong = [], 0
    for name, content, expected in CASES:
        lines = explain(content)
        if expected is not None and lines != [expected] or expected is None and lines[0].startswith("refused"):
            print(f"{name}: by hand {expected}, second reader {lines[0]}")
            wrong += 1
        (data / name).write_bytes(content)
        out += [f"case {name}"] + lines
    assert wrong == 0 and len({name for name, _, _ in CASES}) == len(CASES)
    (data / "cases.txt").write_text("".join(name + "\n" for name, _, _ in CASES))
    (ROOT / "stdout").write_text("\n".join(out) + "\n")
    print(f"{len(CASES)} cases, {len(out)} lines")


if __name__ == "__main__":
    main()
