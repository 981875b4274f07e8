#!/usr/bin/env python3
"""Respells the repository's own definitions and lemmas as today's Rattle spells them: words in snake case.

Run once, at the top, right after port.py. It reads crates/ and writes it again. A name of the repository is one that is declared in a
file of specs/ or proofs/ (a function's own Proof.antt aside) and that no file imports from the kit. `checkNumber` and `check-number` become
`check_number`; where a definition and a lemma, or a field, would fall together, the lemma's name gets `_lem` (ENDINGS has the two fields
that read better otherwise). Types, modules, names of src/ and exported names stay.
"""
import glob
import re

TOKEN = r"[^\s(){};,.@\"«»|λ`]+"
SPECIAL = re.compile(r"^(?:[a-z][\w']*(?:-[\w']+)+|[a-z][a-z0-9]*[A-Z]\w*)$")
OTHERWISE = {"bitIs1": "bit_is_1", "noByteOver3": "no_byte_over_3", "well-formed": "is_well_formed", "is-frame": "is_a_frame"}
# Lemmas that port.py has respelled already, and that would fall together with a definition: the folders in which they are lemmas.
FALLEN = {
    "after_line": ["report_laws/proofs/"],
    "after_read": ["registers/proofs/", "guarantees/proofs/"],
    "all_digits": ["stored_line/proofs/", "line_report/proofs/", "report_laws/proofs/"],
    "in_map": ["guarantees/proofs/FineDelays.antt", "registers/proofs/WriteRefusal.antt"],
    "rest_read": ["line_report/proofs/Turn.antt"],
}
MODIFIERS = r"(?:(?:pattern|unfoldable|abbrev|pub|axiom) )*"


def code(text, mark):
    """The text without comments."""
    return "\n".join(re.sub(r"(^|\s)" + re.escape(mark) + r".*", "", line) for line in text.split("\n"))


def kit_names(text):
    for module, names in re.findall(r"(?m)^(?:pub )?(?:ghost )?use ([\w.]+?)\.\{([^}]*)\}", text):
        if not re.match(r"Rattle\.(?!std\b)", module):
            yield from (name.strip() for name in names.split(","))


def declared(text):
    for line in text.split("\n"):
        found = re.match(r"\s*" + MODIFIERS + r"([^\s(){};,.@\"«»|λ]+)((?: [^\s(){};,.@\"«»|λ:=]+)*)(?: \{[^}]*\})? :(?=\s)", line)
        if found:
            yield from [found.group(1)] + found.group(2).split()
        yield from re.findall(r"\blet ([^\s(){}:=]+) (?::|=)", line)
        for group in re.findall(r"[({]((?:[^\s(){}:=]+ )+): ", line):
            yield from group.split()
        # A local definition that has clauses and no signature: the word before its first argument.
        yield from re.findall(r"^\s+([a-z][\w'-]*) [^:=]*= ", line)


def snake(name):
    if name in OTHERWISE:
        return OTHERWISE[name]
    return re.sub(r"(?<=[a-z0-9])([A-Z])", lambda m: "_" + m.group(1).lower(), name.replace("-", "_"))


def names():
    own, kit, plain = set(), set(), set()
    for path in glob.glob("crates/*/*/**/*.antt", recursive=True):
        text = code(open(path).read(), "--")
        kit.update(kit_names(text))
        if path.endswith("/Proof.antt"):
            continue
        plain.update(declared(text))
    # Cited in src/ alone, or by a proof alone.
    plain.update(["withoutNumber", "i2c-high", "i2c-low", "idle-calls", "no-ten"])
    own = {name for name in plain if SPECIAL.match(name) and name not in kit}
    taken = {snake(name) for name in own if "-" not in name} | {name for name in plain if not SPECIAL.match(name)}
    table = {}
    for name in own:
        new = snake(name)
        lemma = "-" in name and new in taken and name not in OTHERWISE
        table[name] = new + "_lem" if lemma else new
    return table


def respelled(text, table, mark):
    def word(found):
        return table.get(found.group(0), found.group(0))

    lines = []
    for line in text.split("\n"):
        at = re.search(r"(^|\s)" + re.escape(mark), line)
        body, comment = (line[: at.start()], line[at.start() :]) if at else (line, "")
        comment = re.sub(r"`([^`]+)`", lambda m: "`" + re.sub(TOKEN, word, m.group(1)) + "`", comment)
        lines.append(re.sub(TOKEN, word, body) + comment)
    return "\n".join(lines)


def main():
    table = names()
    paths = glob.glob("crates/*/*/**/*.antt", recursive=True) + glob.glob("crates/*/src/*.rt") + glob.glob("crates/*/must-fail/*.edit")
    for path in paths:
        text = open(path).read()
        here = dict(table)
        for name, folders in FALLEN.items():
            if any(path.startswith("crates/" + folder) for folder in folders):
                here[name] = name + "_lem"
        new = respelled(text, here, "//" if path.endswith(".rt") else "--")
        if new != text:
            open(path, "w").write(new)
    print(len(table), "names")


main()
