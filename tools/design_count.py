#!/usr/bin/env python3
"""Counts the places of docs/DESIGN-PASS.md.

usage: tools/design_count.py FOLDER

FOLDER is a checkout. For each point it prints `point file:line: item: text`, and a total. A place is
an item (function, type or proof file), however many of its lines are found.
"""
import collections
import pathlib
import re
import sys

NAMED = {  # point: what no pattern finds, as `item` or `crate/item`
    1: """Found WrongBit Decoded Judged Taken StoredLine Hex digit_value first_bad until_feed place_of
        kind_of Reported ttclines/finish prints_dash prints_place row_verdict""",
    2: """step receive_bit step_over clock clock_over receive_frame receive_over receive_by_format
        receive_by_format_over encode_short encode_long encode_short_with_columns
        encode_long_with_columns decode_short decode_long decode_with_columns
        decode_short_with_columns decode_long_with_columns run_block run_block_over
        run_block_with_columns receive_frame_with_columns receive_by_format_with_columns
        clock_with_columns refuse_encoded refuse_decoded refuse_with_index accept_encoded DelayByte
        DelaySetting EncodedWithIndex DecodedWithIndex ClockWithIndex BlockWithIndex OutcomeWithIndex
        Encoded FreshAnswer ReadAnswer WriteAnswer print_state run_idle run_rest double_up single_after
        set_config2 set_config3 read_refusal write_refusal refuse_read refuse_write""",
    4: """flag_number kind_of line_answer frame_answer column_if remainder_16 digit_value
        digit_character row_verdict status_after ttcrx_well_formed bare_answer columns_answer
        ttcrx_run_block ttcrx_run_block_with_columns wide refuse_clock refuse_block stopped""",
    6: """NumberSet LinePart receiver_state/Held Running Ended Reported Room Progress find_column
        until_feed first_bad read_behind""",
    7: "print_or_skip run receive_frame",
}
LINES = {  # point: patterns over lines of code
    1: [r"\brefusal: u8\b", r"\brefusal: [1-9]", r"\b(refuse_\w+|bare_answer|columns_answer)\([1-9]", r"refusal [!=]= 0",
        r"^\s*return [1-9]\d*;", r"\b(kind|format|verdict|strobe|mode): u8\b", r"_refusal\(.*-> u8",
        r"\b(verdict|strobe|mode|kind|format|sub) [<>!=]=? \d", r"^\s+(pub )?\w+: bool,$"],
    3: [r"^\s*while\b", r"^\s*(let .* = )?loop\b", r"\bfor _ in\b", r"\w\[\d+\] = "],
    4: [r"^\s*let mut (next|settings|errors|counters) = ", r"^\s*return (1|true|false);", r"^\s*\d+ => (true|false),",
        r"^\s*\w+: \w+\.\w+\.?\w*,$", r"\bfn (print_\w+|put\w*|write_(digits|hex|line))\b", r"low <= \w+ && \w+ <= high",
        r"\{( \w+: 0,?){2,} \}"],
    6: [r"\bshort: &\[u8\]"],
    7: [r"\bfn\(", r"\bskip: bool", r"\bdyn\b"],
}
ITEM = re.compile(r"^(?:    )?(?:pub(?:\(crate\))? )?(?:extern \"C\" )?(fn|struct|enum|const|impl|trait) (?:<[^>]*> )?(\w+)")
TOGETHER = [  # parameters that travel together
    "short long", "kind number", "kind word", "address e sub data", "at out", "run place", "place buffer", "progress block",
    "trigger data", "count bits", "refusal index", "single double event bunch", "triggers first", "receiver block buffer",
]
SAID = r"(denied|granted)"  # cases of one lemma


def code(path):
    """(kind, item, line, text) of each line of code, with the item that it stands in."""
    kind = item = "-"
    for line, text in enumerate(path.read_text().splitlines(), 1):
        if found := ITEM.match(text):
            kind, item = found[1], found[2]
        if text.strip() and not text.lstrip().startswith(("//", "#", "ghost use", "use ")):
            yield kind, item, line, text


def renamed(text):
    """The text with its names and numbers taken out: equal for functions that differ in those."""
    names = {}
    return re.sub(r"\b[a-z]\w*\b(?!\()|\b\d\w*\b", lambda m: names.setdefault(m[0], f"n{len(names)}"), text)


def sources(top):
    twins, groups = collections.defaultdict(list), collections.defaultdict(list)
    for path in sorted(top.glob("crates/*/src/**/*.rt")):
        file, crate = path.relative_to(top), path.relative_to(top).parts[1]
        bodies, heads, before = collections.defaultdict(list), collections.defaultdict(str), ""
        for kind, item, line, text in code(path):
            place = (file, line, item, text)
            first = (file, line, item, text) if ITEM.match(text) else None
            clause = re.match(r"\s*(requires|ensures)\b", text)
            if first:
                for point, names in NAMED.items():
                    if {item, f"{crate}/{item}"} & set(names.split()):
                        yield point, *place
            if not clause:
                for point, patterns in LINES.items():
                    if any(re.search(pattern, text) for pattern in patterns):
                        yield point, *place
                if all(re.match(r"\s*\w+: 0,$", t) for t in (text, before)):
                    yield 4, *place
            before = text
            if kind == "fn" and (clause or not bodies[item, file]):
                heads[item, line if first else max((l for i, l in heads if i == item), default=line)] += " " + text.strip()
            if kind == "fn" and (text.startswith("    ") and not clause and not re.match(r"    \w+: .*,$", text)):
                bodies[item, file].append((line, text.strip()))
        for (item, _), lines in bodies.items():
            text = " ".join(t for _, t in lines)
            place = (file, lines[0][0], item, lines[0][1])
            twins[item, text].append(place)
            if len(lines) > 2:
                twins[renamed(text)].append(place)
            arms = [(l, t) for l, t in lines if re.search(r"=> (match \w+|\w+\()", t)]
            if len({re.search(r"=> (\w+)", t)[1] for _, t in arms}) > 1:
                yield from ((7, file, l, item, t) for l, t in arms)
        for (item, line), text in heads.items():
            head = re.split(" requires| ensures", text)[0]
            parameters = set(re.findall(r"(\w+): ", head))
            facts = [f.strip("() ") for r in re.findall(r"requires \{ (.*?) \}(?= ensures|$)", text) for f in r.split(" × ")]
            for fact in facts:
                fact = re.sub(r"length \(.*?\) ", "length (..) ", re.sub(r"\b(old|now|new)\b", "_", fact))
                groups["fact " + fact].append((5, file, line, item))
            for group in TOGETHER:
                if set(group.split()) <= parameters:
                    groups["together " + group].append((5, file, line, item))
            if ": &mut [" in head and re.search(r"\b(at|from|filled|records|digits): usize", head):
                yield 6, file, line, item, head
    for places in twins.values():
        if len({(f, i) for f, _, i, _ in places}) > 1:
            yield from ((2, *place) for place in places)
    for group, places in groups.items():
        if len(places) > 2:
            yield from ((*place, group) for place in places)


def answers(top):
    """Answers of one tactic without facts of their own, those repeated, and cases of one lemma."""
    texts = collections.defaultdict(list)
    for path in sorted(top.glob("crates/*/proofs/**/*.antt")):
        file = path.relative_to(top)
        for line, text in enumerate(path.read_text().splitlines(), 1):
            place = (8, file, line, "/".join(file.parts[3:]), text)
            answer = re.match(r"[\w+-]+ c = (.*)", text)
            if answer and path.name == "Answers.antt" and not answer[1].endswith(" in"):
                texts[re.sub(r"in-?\w+|-then-\w+", "_", answer[1])].append(place)
                if re.fullmatch(r"search [\w ]+|refl|rw c\.in-\w+\.is", answer[1]):
                    yield place
            if re.match(f"pub {SAID} ", text) or re.search(f"[( ]{SAID} _", text):
                yield place
    for places in texts.values():
        if len(places) > 2:
            yield from places


def main(folder):
    top = pathlib.Path(folder)
    found = sorted({(p, str(f), n, i, t.strip()) for p, f, n, i, t in [*sources(top), *answers(top)]})
    for point, file, line, item, text in found:
        print(f"{point} {file}:{line}: {item}: {text}")
    for point in range(1, 9):
        lines = [(f, i) for p, f, _, i, _ in found if p == point]
        print(f"point {point}: {len(set(lines))} places, {len(lines)} lines")


main(sys.argv[1])
