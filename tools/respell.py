#!/usr/bin/env python3
"""Respells the repository's own ghost names: definitions, lemmas, fields and constructors in snake case, types in upper camel case.

usage: tools/respell.py [--list]        at the top of the repository; with --list it prints what it would rename and writes nothing

Names are found where specs/ and proofs/ declare them. The names of goals and invariants (proofs/F/) are made by the check and keep theirs, as do
names that come from the library, functions of src/, strings, inputs and outputs. A name that would fall together with another is reported, and
nothing is written.
"""

import collections
import os
import re
import sys

NAME = r"[A-Za-z_ℓ][A-Za-z0-9_'₀-₉-]*"
TOKEN = re.compile(NAME)
DECLARED = re.compile(rf"^(\s*)(?:abbrev\s+|pub\s+|opaque\s+|private\s+|unfoldable\s+)*({NAME})\s*(?::(?!:)|$)")
HEADED = re.compile(rf"^\s*(?:pub\s+)?(?:record|data|module)\s+(?:pub\s+)?({NAME})")
BOUND = re.compile(rf"\blet\s+({NAME})\s*(?::|=)")
KEYWORDS = {"where", "let", "in", "use", "record", "data", "module", "pub", "abbrev", "mod", "with", "of", "do"}

# what falls together with another name by the rule gets this name instead: a lemma with the name of its function ends in `_lem`
CHOSEN = {
    "rootKept": "keeps_root",
    "labelKept": "keeps_label",
    "coveringKept": "keeps_covering",
    "targetKept": "keeps_target",
    "restsKept": "keeps_rests",
    "stepKept": "keeps_step",
    "Worked-cards": "WorkedCardsAsListed",
    "Wrong-cards": "WrongCardsAsListed",
    "Unusual-cards": "UnusualCardsAsListed",
}
LEMMAS = """arrow-of at-node at-root entry-at formula-from from-nodes kind-number kind-of label-at level-at literal-formed move-formed
node-constant nodes-from pair-formed part-formed range-step ranges-marks safety-form same-entry same-name sign-by third-form third-from tree-at true-from
under-connective under-prefix word-at word-name bit-and bit-or bit-xor third-begins
constant-at""".split()
CHOSEN |= {name: name.replace("-", "_") + "_lem" for name in LEMMAS}
# names that already had the new spelling and make room for a definition's, with the crates that have them
ROOM = {"all_keep": ["rules"], "parts_below": ["normal"], "signed_by": ["normal"], "then_ok": ["lexer", "grammar"]}


# parameters, which are declared between parentheses
PARAMETERS = "firstLabel formulaSlots nameSlots e-is is-met is-not is-rest token-there zero-b".split()


def snake(name):
    name = re.sub(r"\bgetD\b|(?<=_)getD", "get_or", name.replace("-", "_"))
    name = re.sub(r"([a-z0-9'])([A-Z])", r"\1_\2", name)
    return name.lower()


def camel(name):
    return "".join(w[:1].upper() + w[1:] for w in re.split(r"[-_]", name))


def respelled(name):
    if name in CHOSEN:
        return CHOSEN[name]
    if name.startswith("_") or len(name) == 1:
        return name
    return camel(name) if name[0].isupper() else snake(name)


def files(root, endings):
    for folder, dirs, names in os.walk(root):
        dirs[:] = sorted(d for d in dirs if d not in ("out", "target", ".git", "__pycache__"))
        for name in sorted(names):
            if name.endswith(endings):
                yield os.path.join(folder, name)


def is_made(path):
    """Whether the file answers goals: its declared names are the check's."""
    return os.path.basename(path) in ("Answers.antt", "Invariants.antt", "Choices.antt", "Proof.antt")


def code_of(line):
    return line.split("--", 1)[0] if re.search(r"(^|\s)--", line) else line


def declared(path):
    found = set()
    with open(path, encoding="utf-8") as f:
        lines = [re.sub(r"(^|\s)--(\s.*)?$", r"\1", line.rstrip("\n")) for line in f]
    for i, line in enumerate(lines):
        if line.startswith("use "):
            continue
        m = HEADED.match(line)
        if m:
            found.add(m[1])
            continue
        m = DECLARED.match(line)
        if m and m[2] not in KEYWORDS:
            bare = line.rstrip().endswith(m[2])
            if bare and not (i + 1 < len(lines) and re.match(r"\s*:\s", lines[i + 1])):
                m = None
        if m and m[2] not in KEYWORDS:
            if is_made(path) and not m[1] and re.search(r":\s*(goal|given)\.", line):
                continue
            found.add(m[2])
        for b in BOUND.finditer(line):
            found.add(b[1])
        for w in re.finditer(rf"^\s+let\s+({NAME})((?:\s+{NAME})*)\s*(?:=|:)", line):
            found.add(w[1])
    return found


def imported(path):
    """Names that the file takes from the library, and not from a crate of the repository."""
    own = set(os.listdir("crates"))
    taken = set()
    with open(path, encoding="utf-8") as f:
        text = f.read()
    for m in re.finditer(r"(?:^|\n)\s*(?:ghost )?use ([\w.◌'-]+)\.\{([^}]*)\}", text):
        parts = m[1].split(".")
        foreign = parts[0] != "Rattle" or parts[1] not in own or ".declared" in m[1]
        if foreign:
            for word in m[2].split(","):
                words = word.split(" as ")
                if len(words) == 1:
                    taken.add(words[0].strip())
    return taken


def renaming():
    names = set(PARAMETERS)
    for path in files("crates", (".antt",)):
        names |= declared(path)
    for path in files("crates", (".rt", ".antt")):
        with open(path, encoding="utf-8") as f:
            for m in re.finditer(r"[{,] ?(%s) as (%s)" % (NAME, NAME), f.read()):
                names.add(m[2])
    table = {}
    for n in sorted(names):
        if n not in KEYWORDS and respelled(n) != n:
            table[n] = respelled(n)
    return table


def clashes(table, tokens):
    found = []
    turned = collections.defaultdict(set)
    for old, new in table.items():
        turned[new].add(old)
        if new in tokens and new not in table:
            turned[new].add(new)
    for new, olds in sorted(turned.items()):
        if len(olds) > 1:
            found.append((new, sorted(olds)))
    return found


def turn_word(word, table, dotted):
    """A member keeps to the rule where a free name was chosen otherwise."""
    if dotted and word in LEMMAS:
        return snake(word)
    return table.get(word, word)


def turn_code(text, table, kept):
    def one(m):
        if m[0] in kept and text[m.start() - 1 : m.start()] != ".":
            return m[0]
        return turn_word(m[0], table, text[m.start() - 1 : m.start()] == ".")

    return TOKEN.sub(one, text)


def turn_prose(text, table, kept):
    """In a comment or a document: what stands between backticks, and names that no prose has."""
    text = re.sub(r"`[^`\n]*`", lambda m: turn_code(m[0], table, kept), text)
    return TOKEN.sub(lambda m: table[m[0]] if m[0] in table and re.search(r"[a-z0-9][A-Z]", m[0]) else m[0], text)


def turn_antt(text, table, kept):
    out = []
    for line in text.split("\n"):
        m = re.search(r"(?:^|\s)--(?:\s|$)", line)
        at = m.start() if m else len(line)
        out.append(turn_code(line[:at], table, kept) + turn_prose(line[at:], table, kept))
    return "\n".join(out)


def turn_rust(text, table, kept):
    """As `turn_antt`, with strings left as they are."""
    out, at = [], 0
    for m in re.finditer(r'//[^\n]*|b?"(?:\\.|[^"\\])*"', text):
        out.append(turn_code(text[at : m.start()], table, kept))
        out.append(turn_prose(m[0], table, kept) if m[0].startswith("//") else m[0])
        at = m.end()
    return "".join(out) + turn_code(text[at:], table, kept)


def make_room(path, text):
    """A definition takes its lemma's name: the lemma, where it is declared, imported or called, gives way."""
    crate = path.split(os.sep)[1] if path.startswith("crates") else ""
    for name, crates in ROOM.items():
        if crate in crates and path.endswith(".antt"):
            text = re.sub(rf"(?<![\w.'-]){name}(?![\w'-])", name + "_lem", text)
    return text


def main(argv):
    table = renaming()
    tokens = collections.defaultdict(set)
    for path in files("crates", (".antt", ".rt")):
        with open(path, encoding="utf-8") as f:
            for t in set(TOKEN.findall(f.read())):
                tokens[t].add(path)
    bad = clashes(table, tokens)
    if "--list" in argv:
        for old, new in sorted(table.items()):
            print(old, "->", new)
        for new, olds in bad:
            print("CLASH", new, olds, [sorted(tokens[o])[:3] for o in olds])
        foreign = collections.defaultdict(list)
        for path in files("crates", (".antt", ".rt")):
            for t in imported(path) & set(table):
                foreign[t].append(path)
        for t, ps in sorted(foreign.items()):
            print("FOREIGN", t, ps[:3])
        return 0
    for path in [*files("crates", (".antt", ".rt", ".edit")), *files("docs", (".md",)), *files("tests", (".md", "plant.py")), "README.md"]:
        with open(path, encoding="utf-8") as f:
            text = f.read()
        if path.endswith(".md"):
            new = turn_prose(text, table, ())
        elif path.endswith(".antt"):
            new = turn_antt(make_room(path, text), table, imported(path))
        elif path.endswith(".py"):
            new = turn_code(text, table, ())
        else:
            new = turn_rust(text, table, imported(path))
        if new != text:
            with open(path, "w", encoding="utf-8") as f:
                f.write(new)
    return 0


if __name__ == "__main__":
    raise SystemExit(main(sys.argv[1:]))
