#!/usr/bin/env python3
"""Lists places in crates/*/src and proofs where today's Rattle has a better form, point by point.

Usage: tools/places.py [FOLDER] [--list]: counts, and with --list each place as file:line and text. FOLDER is the top of a checkout.
"""
import re
import sys
from pathlib import Path

top = Path(next((a for a in sys.argv[1:] if not a.startswith("--")), "."))
show = "--list" in sys.argv[1:]


def sources():
    for path in sorted(top.glob("crates/*/src/**/*.rt")):
        text = path.read_text()
        cut = text.find("#[cfg(test)]\nmod tests {")
        if path.name == "tests.rt":
            continue
        yield path.relative_to(top), text if cut < 0 else text[:cut]


def lines_that(pattern):
    for path, text in sources():
        for number, line in enumerate(text.split("\n"), 1):
            code = line.split("//")[0]
            if re.search(pattern, code) and not code.lstrip().startswith(("ghost ", "ensures", "requires")):
                yield path, number, line.strip()


def blocks_that(pattern):
    for path, text in sources():
        for found in re.finditer(pattern, text):
            yield path, text.count("\n", 0, found.start()) + 1, " ".join(found.group(0).split())


def functions():
    for path, text in sources():
        for found in re.finditer(r"^ *(?:pub(?:\(crate\))? )?fn (\w+)(?:<[^(]*>)?\(([^)]*)\)", text, re.M):
            yield path, text.count("\n", 0, found.start()) + 1, found.group(1), found.group(2)


def groups():
    """Pairs of parameters of a crate that nearly always stand together: in three functions and more, and seldom one without the other."""
    where = {}
    for path, number, name, parameters in functions():
        names = {p.split(":")[0].strip().replace("mut ", "") for p in parameters.split(",") if ":" in p}
        for each in names:
            where.setdefault((path.parts[1], each), set()).add((str(path), number))
    keys = sorted(where)
    for first in keys:
        for second in keys:
            if first[0] == second[0] and first[1] < second[1]:
                both, either = where[first] & where[second], where[first] | where[second]
                if len(both) >= 3 and len(both) >= 0.75 * len(either):
                    path, number = min(both)
                    yield path, number, f"{first[1]}, {second[1]} in {len(both)} of {len(either)} functions of {first[0]}"


WORDS = {"let", "mut", "if", "else", "for", "in", "match", "return", "while", "loop", "break", "Some", "None", "Ok", "Err", "true", "false", "as", "self"}


def bodies():
    for path, text in sources():
        for found in re.finditer(r"^( *)(?:pub(?:\(crate\))? )?fn (\w+)", text, re.M):
            close = re.compile("^" + found.group(1) + r"}", re.M).search(text, found.end())
            open_at = text.find("\n" + found.group(1) + "{", found.end())
            if re.search(r";\n(\n|})", text[found.end() : open_at]):  # a method of a trait, without a body
                continue
            if open_at < 0 or close is None or close.start() < open_at:
                line_end = text.find("{\n", found.end())
                if line_end < 0 or close is None or line_end > close.start():
                    continue
                open_at = line_end
            yield path, text.count("\n", 0, found.start()) + 1, found.group(2), text[open_at + 2 : close.start()]


def twins():
    """Functions whose bodies have three lines or more and are alike but for names, numbers and texts: each but the first of its kind."""
    shapes = {}
    for path, number, name, body in bodies():
        lines = [re.sub(r"//.*", "", line).strip() for line in body.strip("\n{ ").split("\n")]
        lines = [line for line in lines if line not in ("", "{", "}")]
        if len(lines) < 3:
            continue
        shape = " ".join(lines)
        shape = re.sub(r'b?"[^"]*"', '"', shape)
        shape = re.sub(r"[A-Za-z_]\w*", lambda m: m.group(0) if m.group(0) in WORDS else "x", shape)
        shape = re.sub(r"\b\d[\d_]*\b", "0", shape)
        shapes.setdefault(shape, []).append((path, number, name))
    for group in shapes.values():
        for path, number, name in group[1:]:
            yield path, number, f"{name} is like {group[0][2]}"


def repeated_clauses():
    seen = {}
    for path, text in sources():
        for found in re.finditer(r"^ *requires (?:\w+ )?\{ (.*) \}$", text, re.M):
            key = (str(path).split("/")[1], found.group(1))
            seen.setdefault(key, []).append((path, text.count("\n", 0, found.start()) + 1))
    for (crate, clause), where in sorted(seen.items()):
        if len(where) >= 3:
            yield where[0][0], where[0][1], f"{clause} in {len(where)} functions of {crate}"


def proofs():
    for path in sorted(top.glob("crates/*/proofs/**/*.antt")):
        yield path.relative_to(top), path.read_text()


def answers():
    for path, text in proofs():
        for found in re.finditer(r"^pub (\S+) : goal\.\1$", text, re.M):
            if path.name == "Answers.antt":
                yield path, text.count("\n", 0, found.start()) + 1, found.group(1)


def stated_twice():
    """Lemmas and helpers that say word for word what another one says: each but the first of its kind."""
    seen = {}
    for path, text in proofs():
        for found in re.finditer(r"^(?:pub )?([a-z][\w'-]*) :(?! goal\.)(.*(?:\n    .*)*)", text, re.M):
            words = " ".join(found.group(2).split())
            if len(words) > 20:
                seen.setdefault(words, []).append((path, text.count("\n", 0, found.start()) + 1, found.group(1)))
    for words, where in sorted(seen.items()):
        for path, number, name in where[1:]:
            yield path, number, f"{name} says what {where[0][2]} says: {words}"


POINTS = [
    ("1a a number that stands for nothing or for the end", lambda: lines_that(r"\b(FREE|65_?535)\b|^\s*Wrong,")),
    ("1b kinds by number", lambda: lines_that(r"\.kind == |match \w+\.kind\b|\b(leaf|pair|timed|shorter|later_range|fields_of)\(\d|kind: u8\b|always: bool|conjunction: bool|environment: bool|kind == 1|kind\(\) == 1")),
    ("1c a refusal by number", lambda: blocks_that(r"Refused \{ number|-> Option<usize>\n\s*ensures \{ result ≡ wrong_|fn refusal\(wrong: Option<usize>\)")),
    ("1d an Option or a Result handed on by hand", lambda: blocks_that(r"let Some\(\w+\) = [^;{]*else \{\s*return None;|let Some\(\w+\) = [^;{]*else \{\s*break;|let Some\(\w+\) = [^;{]*else \{\s*return Err\(|Some\((\w+)\) => Some\([^\n]*\),\s*None => None|None => None,|Some\((\w+)\) => \2,\s*None =>|Err\(_\) => Err\(|None => Err\(|Ok\(\w+\?\)|if let Some\(\w+\) = \w+\(\w+\) \{\s*return Err")),
    ("2 functions alike but for names and numbers", twins),
    ("3 loops by an index", lambda: lines_that(r"^\s*(for \w+ in (\(?0\.\.|1\.\.)|while |('\w+: )?loop \{)")),
    ("4a comparison, conversion by hand", lambda: lines_that(r" as u8 == | as usize as|fn same(_\w+)?\(|fn fields\(|fn fields_of\(")),
    ("4b a test by match", lambda: blocks_that(r"=> true,\s*_ => false,")),
    ("5a parameters that go together", groups),
    ("5b a requires that is repeated", repeated_clauses),
    ("6 arrays with a count, arrays side by side", lambda: lines_that(r"^\s*(pub(\(crate\))? )?\w+: \[[\w<>]+; \d+\],")),
    ("7 a switch on which step to run", lambda: lines_that(r"passes: bool|test: bool, |class: Class|always: bool|conjunction: bool|environment: bool\b")),
    ("8a answers (tools/alone.py tells which of them the check finds alone)", answers),
    ("8b lemmas that say what another one says", stated_twice),
]

for title, places in POINTS:
    found = list(places())
    print(f"{len(found):4} {title}")
    if show:
        for path, number, text in found:
            print(f"       {path}:{number}: {text[:150]}")
