"""Tests docs/draw-file.schema.json: every example is valid by it, what it refuses is refused by the
independent program too (as if all kinds were built) and, with `--built`, by the built program, and what it cannot
say is as docs/DRAW-FILES.md lists it. Skipped where Python has no `jsonschema`.
"""

import argparse
import json
import random
import re
import sys

import comparing
import random_heads
import reference_group_rows
import reference_rows
from reference_heads import KINDS, Refused, read_head, read_json
from reference_rows import TINY, changed, changed_item

try:
    import jsonschema
except ImportError:
    jsonschema = None

SCHEMA = comparing.TOP / "docs/draw-file.schema.json"
GUIDE = comparing.TOP / "docs/DRAW-FILES.md"
CLASH = reference_group_rows.CLASH
place = reference_group_rows.place


def beyond_the_schema():
    """What no schema can say: by the words of the guide's list, files that only the program refuses."""
    twice = json.dumps(TINY).replace('"pot": 2', '"pot": 7, "pot": 2')
    yield "a whole number that is written `2.0`", json.dumps(TINY).replace('"pot": 2', '"pot": 2.0'), "5 FieldWrong pot"
    yield "a member that stands twice", twice, None
    yield "a code that two teams have", changed_item(TINY, "teams", 1, code="AAA"), "8 SameCode AAA"
    yield "how many teams a pot has", changed_item(TINY, "teams", 1, pot=1), "9 PotSize 2 0"
    yield "how many teams a pot has", changed(CLASH, groups=3), "9 PotSize 1 2"
    yield "a `pot` above `pots`", changed_item(CLASH, "teams", 3, pot=3), "5 FieldWrong pot"
    yield "a `lo` above its `hi`", changed_item(CLASH, "limits", 0, lo=2), "5 FieldWrong hi"
    yield "a tag that two limits name", changed(CLASH, limits=CLASH["limits"] * 2), "5 FieldWrong tag"
    yield "a team's tag that no limit names", changed_item(CLASH, "teams", 3, tags=["Y"]), "10 UnknownTag 3"
    yield "a code in `pairs` or `places` that no team has", changed(TINY, pairs=[["AAA", "CCC"]]), "11 BadPair 0"
    yield "a code in `pairs` or `places` that no team has", changed(CLASH, places=[place("EEE", "A", 1)]), "12 BadPlace 0"
    yield "a place past the file's groups or pots", changed(CLASH, places=[place("AAA", "C", 1)]), "12 BadPlace 0"
    yield "a place past the file's groups or pots", changed(CLASH, places=[place("CCC", "A", 3)]), "12 BadPlace 0"
    yield "position 1 for another pot than pot 1", changed(CLASH, places=[place("CCC", "A", 1)]), "12 BadPlace 0"
    yield "two places of one team, or one place twice", changed(CLASH, places=[place("AAA", "A", 1)] * 2), "12 BadPlace 1"


def refused_heads():
    """Heads with one fault each that the schema has to refuse."""
    yield from [[], {}, {"kind": "cup"}, {"kind": "league"}, {"kind": 1, "teams": []}, {"kind": "pairing"}, {"kind": "group"}]
    for head, list_name in ((TINY, "teams"), (CLASH, "teams"), (CLASH, "limits")):
        for name in head[list_name][0]:
            yield changed_item(head, list_name, 0, **{name: None})
            yield json.loads(json.dumps(changed_item(head, list_name, 0, **{name: {}})))
    for name in ("groups", "pots", "limits"):
        yield changed(CLASH, **{name: None})
        yield changed(CLASH, **{name: 99})
        yield changed(CLASH, **{name: 0})
    for name, value in (("code", "aaa"), ("code", "AAAA"), ("name", 1), ("pot", 3), ("pot", 0), ("tags", []), ("tags", ["X", "X"]),
                        ("tags", ["x"]), ("tags", ["A" * 17]), ("tags", ["X", "Y", "Z"]), ("group", "AB"), ("group", "a")):
        yield changed_item(TINY, "teams", 0, **{name: value})
    for name, value in (("tag", "x"), ("lo", -1), ("lo", 65), ("hi", 65), ("hi", "1")):
        yield changed_item(CLASH, "limits", 0, **{name: value})
    for pairs in (1, [1], [["AAA"]], [["AAA", "AAA"]], [["AAA", 1]], [["AAA", "BBB", "CCC"]], [["AAA", "bbb"]], [["AAA", "BBB"]] * 65):
        yield changed(TINY, pairs=pairs)
        yield changed(CLASH, pairs=pairs)
    for item in ([], {}, place("AAA", "I", 1), place("AAA", "a", 1), place("AAA", "A", 0), place("AAA", "A", 5), place("aaa", "A", 1)):
        yield changed(CLASH, places=[item])
    yield changed(TINY, teams=TINY["teams"] * 21)
    yield changed(CLASH, teams=CLASH["teams"] * 9)
    yield changed(CLASH, limits=CLASH["limits"] * 17)
    yield changed(CLASH, places=[place("AAA", "A", 1)] * 33)


def fault_of(text):
    """The fault of a head, or none."""
    try:
        read_head(text, KINDS)
    except Refused as refused:
        return str(refused)
    return None


class Comparison:
    """What schema and program say of heads, and what was wrong of it."""

    def __init__(self, program):
        self.program = program
        schema = json.loads(SCHEMA.read_text())
        jsonschema.Draft7Validator.check_schema(schema)
        self.validator = jsonschema.Draft7Validator(schema)
        self.count = self.bad = 0

    def note(self, right, what, text):
        self.count += 1
        if not right:
            self.bad += 1
            print(f"FAILED: {what}: {text.decode('latin-1')}")

    def is_valid(self, text):
        return self.validator.is_valid(read_json(text))

    def is_refused(self, text):
        """Whether the independent program refuses a head, and the built one, where there is one."""
        return fault_of(text) and (not self.program or comparing.run(self.program, "follow", text)[0] == 2)

    def check_lists(self):
        for path in sorted(comparing.TOP.glob("examples/*.json")):
            self.note(self.is_valid(path.read_bytes()), "the schema refuses an example", path.name.encode())
        for head in refused_heads():
            text = reference_rows.text_of(head)
            self.note(not self.is_valid(text), "the schema takes what it has to refuse", text)
            self.note(self.is_refused(text), "the schema's case is no fault of the program", text)
        section = GUIDE.read_text().partition("### What no schema can say")[2].partition("\n#")[0]
        listed = re.findall(r"^- (.*?)[;.]$", section, re.M)
        cases = list(beyond_the_schema())
        same = {what for what, _, _ in cases} == set(listed)
        self.note(same, "the guide lists something else that no schema can say", repr(listed).encode())
        for what, head, fault in cases:
            text = head.encode() if isinstance(head, str) else reference_rows.text_of(head)
            self.note(self.is_valid(text) and fault_of(text) == fault, what, text)

    def check_random(self, rng, number):
        """Good heads are valid, and of damaged ones those that are not valid have a fault."""
        for _ in range(number):
            head = random_heads.good_head(rng, rng.choice(KINDS), 8)
            text = json.dumps(head).encode()
            self.note(self.is_valid(text), "the schema refuses a draw file", text)
            text = json.dumps(random_heads.damage(rng, head)).encode()
            self.note(self.is_valid(text) or self.is_refused(text), "the schema refuses a draw file", text)


def main():
    parser = argparse.ArgumentParser(description=__doc__)
    parser.add_argument("--heads", type=int, default=300, help="so many random heads")
    parser.add_argument("--seed", type=int, default=1)
    parser.add_argument("--built", action="store_true", help="ask the built program too")
    words = parser.parse_args()
    if jsonschema is None:
        print("the schema of draw files is not tested here: Python has no jsonschema")
        return 0
    comparison = Comparison(comparing.path_of("draw") if words.built else None)
    comparison.check_lists()
    comparison.check_random(random.Random(words.seed), words.heads)
    print(f"{comparison.count - comparison.bad} of {comparison.count} cases of the schema are as they should be")
    return 1 if comparison.bad else 0


if __name__ == "__main__":
    sys.exit(main())
