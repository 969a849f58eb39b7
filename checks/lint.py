"""Tests bin/lint-draw-file: on random heads, good and damaged, it names the fault that the independent
program names, or none where that takes the file; and rows say what it notices, and where.
"""

import argparse
import json
import random
import subprocess
import sys
import tempfile

import comparing
import random_heads
import random_inputs
import reference
from built import BUILT
from guide import BLOCK, GUIDE
from reference_group_rows import CLASH, group_head, place
from reference_heads import KINDS
from reference_rows import TINY, changed, changed_item, rows_of, text_of

sys.path.insert(0, str(comparing.TOP / "bin/lint"))
sys.dont_write_bytecode = True
from faults import lint  # noqa: E402

PIECES = (b"", b",", b"}", b"]", b'"', b"\\", b"0", b"\n", b"ball VIL\n", b"\n--\n", b"\r", b"\x01", b"\xc3\xa9")
LINT = comparing.TOP / "bin/lint-draw-file"


def refusal_of(data, built):
    """The line with which the independent program refuses an input, or none."""
    status, text = reference.judge(data, built)
    return text.decode().rstrip("\n") if status == 2 else None


# ---- what is no JSON: a text with a mark ^ where the fault is, and words that are told


NO_JSON = (
    ("^", "there is no JSON text"),
    ("\n^--\nball VIL\n", "there is no JSON text"),
    ('{"kind": "pairing"^,}', "take the comma away"),
    ('[1, 2^, ]', "take the comma away"),
    ('{"kind": "pairing"\n ^"teams": []}', "a comma is missing before this"),
    ('{"teams": [1 ^2]}', "a comma is missing before this"),
    ('{"teams": [1^}', "a ] is missing before it"),
    ('{"kind": "pairing"^', "the text ends here"),
    ('{"kind": ^', "the text ends here"),
    ('{^', "the text ends here"),
    ('{"kind": ^“pairing”}', 'quotes of the form "'),
    ("{^'kind': 1}", "a member's name in quotes"),
    ('{"kind": ^"pair\ning"}', "not closed on its line"),
    ('{"kind" ^"pairing"}', "a colon is missing"),
    ('{"kind": ^pairing}', "a text stands in quotes"),
    ('{"kind": 1}\n^// that was it', "has ended before this"),
    ('{"kind": ^/* one */ 1}', "a comment is no JSON"),
    ('{"pots": ^01}', "does not begin with 0"),
    ('{"pots": ^-}', "no number"),
    ('{"pots": ^1e999}', "too large"),
    ('{"pots": ^' + "9" * 400 + "}", "too large"),
    ('{"name": "^\\x"}', "after \\ one of"),
    ('{"name": "^\\ud800"}', "half of a surrogate pair"),
    ('{"name": "^\\u12"}', "four digits"),
    ("[" * 127 + "^[" + "]" * 128, "more than 127 layers"),
    ('{"kind": 1}\n^ball VIL\n', "the line -- before them is forgotten"),
    ('{"kind": 1}\n^-- \nball VIL\n', "has to be exactly --"),
    ('{"kind": 1}\n^---\nball VIL\n', "has to be exactly --"),
    ('{"kind": 1}^--\nball VIL\n', "on a line of its own"),
    ('{"kind": 1}\n^–\nball VIL\n', "has to be exactly --"),
    ('{"teams": [1\n^ball VIL\n', "is a bracket above not closed"),
    ('{"teams": [1,\n^ball VIL\n', "is a bracket above not closed"),
    ('{"teams": [1\n\n^--\nball VIL\n', "the text ends here"),
)
NO_TEXT = (
    (b'{"kind": \n"\xff"}', 2, 2, "no UTF-8"),
    (b"\xff\xfe{\x00", 1, 1, "UTF-16"),
    (b"\xef\xbb\xbf{}", 1, 1, "byte order mark"),
)


# ---- files that are taken, and what is noticed: the place by a text that begins there


def pairing(*teams, **members):
    """A pairing by texts of code, pot, letter and tags, as `OAK 1 A NORTH`."""
    words = [team.split() for team in teams]
    return {
        "kind": "pairing",
        "teams": [{"code": w[0], "pot": int(w[1]), "tags": w[3:], "group": w[2]} for w in words],
    } | members


CALM = pairing("OAK 1 A NORTH", "ELM 1 B SOUTH", "FIR 2 A SOUTH", "YEW 2 B EAST")


def remarks():
    yield from pairing_remarks()
    yield from group_remarks()


def pairing_remarks():
    yield CALM, []
    yield changed(CALM, **{"$schema": "draw-file.schema.json"}), []
    yield changed(CALM, pairs=[["OAK", "YEW"]]), []
    yield changed(CALM, Pairs=[]), [('"Pairs"', 'the member "Pairs" is ignored; do you mean "pairs"?')]
    yield changed(CALM, forbidden=[]), [('"forbidden"', 'the member "forbidden" is ignored; the file has')]
    yield changed(CALM, limits=[]), [('"limits"', 'the member "limits" is ignored; a pairing has no such member')]
    yield changed_item(CALM, "teams", 2, tag="X"), [('"tag"', 'the member "tag" is ignored; do you mean "tags"?')]
    yield changed_item(changed_item(CALM, "teams", 0, town="X"), "teams", 1, town="X"), [
        ('"town": "X"}, {"code": "ELM"', 'the member "town" is ignored (so in 2 of the teams); each of the teams has'),
    ]
    twice = json.dumps(CALM)[:-1] + ', "pairs": [["OAK", "FIR"]], "pairs": []}'
    yield twice.encode(), [('"pairs": []', 'the file has "pairs" twice; the last one counts')]
    twice = json.dumps(CALM).replace('"pot": 1', '"pot": 2, "pot": 1', 1)
    yield twice.encode(), [('"pot": 1, "tags": ["NORTH"]', "the team OAK (teams 0")]
    for tag in ("SOUT", "SOUTHS", "SOUTX", "XSOUTH", "OUTH"):
        told = f"tags that differ by one character: SOUTH (1 team) beside {tag}"
        yield changed_item(CALM, "teams", 2, tags=[tag]), [('"SOUTH"', told)]
    for tag in ("SOUHT", "SO", "SOUTHERN"):
        yield changed_item(CALM, "teams", 2, tags=[tag]), []
    numbered = pairing("OAK 1 A T1", "ELM 1 B T2", "FIR 2 A T2", "YEW 2 B T3")
    yield numbered, [('"T1"', "tags that differ by one character: T1 (1 team) beside T2 (2 teams) beside T3 (1 team)")]
    yield pairing("OAK 1 A NORTH", "ELM 1 A SOUTH", "FIR 2 A SOUTH", "YEW 2 B EAST"), [
        ('"A"}, {"code": "FIR"', "OAK and ELM, both of pot 1, come from one first-round group, A"),
        ('"B"', "YEW is of pot 2 and group B, of which pot 1 has no team"),
    ]
    yield changed(CALM, pairs=[["OAK", "ELM"]]), [('["OAK", "ELM"]', "OAK and ELM are both of pot 1 and never meet anyway")]
    yield changed(CALM, pairs=[["OAK", "YEW"], ["YEW", "OAK"]]), [('["YEW", "OAK"]', "the pair of YEW and OAK stands twice")]


def group_remarks():
    pots = ("OAK NORTH, ELM SOUTH", "FIR SOUTH, YEW EAST")
    calm = "NORTH 0 1, SOUTH 0 1, EAST 0 1"
    yield group_head(pots, calm, places=[place("ELM", "A", 1)]), []
    yield changed_item(group_head(pots, calm), "teams", 0, group="A"), [
        ('"group"', 'the member "group" is ignored; a group draw has no such member'),
    ]
    yield changed(group_head(pots, calm), place=[]), [('"place"', 'the member "place" is ignored; do you mean "places"?')]
    yield group_head(pots, calm + ", WEST 0 1"), [('"WEST"', "no team has the tag WEST, so its limit says nothing")]
    yield group_head(pots, calm + ", WEST 1 1"), [('"WEST"', "no team has the tag WEST, so no table is legal")]
    yield group_head(pots, "NORTH 0 1, SOUTH 0 3, EAST 0 1"), [
        ("3}", "no group can reach 3 of SOUTH: 2 teams have it, in 2 pots, so this upper limit says nothing"),
    ]
    yield group_head(pots, "NORTH 1 1, SOUTH 0 1, EAST 0 1"), [
        ('1, "hi": 1}, {"tag": "SOUTH"', "2 groups with at least 1 of NORTH each cannot be: 1 team has it, in 1 pot"),
    ]
    yield group_head(("OAK X, ELM X", "FIR X, YEW Y"), "X 0 1, Y 0 1"), [
        ('1}, {"tag": "Y"', "2 groups with at most 1 of X each cannot be: 3 teams have it, in 2 pots, so no table is legal"),
    ]
    yield group_head(pots, "NORTH 0 1, SOUTH 0 1, EAST 0 1, EASTS 0 1"), [
        ('"EASTS"', "no team has the tag EASTS"),
        ('"EASTS"', "tags that differ by one character: EAST (1 team) beside EASTS (0 teams)"),
    ]
    three = group_head(("OAK X, ELM X", "FIR X, YEW X", "ASH X, BAY X"), "X 0 3")
    yield changed(three, places=[place("FIR", "A", 2), place("YEW", "A", 3)]), [
        ('{"code": "YEW", "group"', "FIR and YEW have places in one group and are both of pot 2"),
    ]
    yield changed(three, pairs=[["OAK", "FIR"]], places=[place("FIR", "A", 2), place("OAK", "A", 1)]), [
        ('{"code": "OAK", "group"', "FIR and OAK have places in one group"),
    ]


# ---- files that are refused: all faults of a stage, each with its place


def refused():
    yield [], [("[", "NotObject: this is a list")]
    yield {"Kind": "pairing"}, [("{", 'FieldMissing kind: the file has no "kind"; do you mean Kind?')]
    yield {"kind": "Pairing"}, [('"Pairing"', 'KindUnknown: there is no kind "Pairing"; do you mean pairing?')]
    two = changed_item(changed_item(TINY, "teams", 0, tags=None), "teams", 1, group=None, Group="B")
    yield two, [
        ('{"code": "AAA"', 'FieldMissing tags: the team AAA (teams 0, counted from 0) has no "tags"'),
        ('{"code": "BBB"', 'FieldMissing group: the team BBB (teams 1, counted from 0) has no "group"; do you mean Group?'),
    ]
    yield changed_item(changed_item(TINY, "teams", 0, pot="1"), "teams", 1, tags=["y"]), [
        ('"1"', 'FieldWrong pot: the team AAA (teams 0, counted from 0) has the text "1" as "pot"; it has to be a whole number from 1 to 2'),
        ('"y"', 'FieldWrong tags: the team BBB (teams 1, counted from 0) has the text "y" for a tag'),
    ]
    yield changed_item(CLASH, "limits", 0, lo=2), [
        ("1}]", 'FieldWrong hi: the limit X (limits 0, counted from 0) has the number 1 as "hi"; it has to be at least its "lo", 2'),
    ]
    yield changed(CLASH, groups=9), [("9", 'TooMany groups 9: "groups" is past its limit, 8')]
    wrong = changed(changed_item(changed_item(CLASH, "teams", 1, code="AAA"), "teams", 2, tags=["Y"]), pairs=[["AAA", "EEE"]])
    yield wrong, [
        ('"AAA", "pot": 1, "tags": ["X"]}, {"code": "CCC"', "SameCode AAA: the team AAA (teams 1, counted from 0): teams 0 has this code already"),
        ('"Y"', "UnknownTag 2: the team CCC (teams 2, counted from 0): no limit names Y"),
        ('"EEE"', 'BadPair 0: no team has the code "EEE"'),
    ]
    yield changed(CLASH, places=[place("CCC", "C", 1)]), [
        ('{"code": "CCC", "group"', "BadPlace 0: the place CCC (places 0, counted from 0): there are 2 groups, and no C"),
        ('{"code": "CCC", "group"', "BadPlace 0: the place CCC (places 0, counted from 0): position 1 is for teams of pot 1"),
    ]


class Test:
    def __init__(self):
        self.count = self.bad = 0

    def note(self, right, what):
        self.count += 1
        if not right:
            self.bad += 1
            print(f"FAILED: {what}")

    def same_fault(self, data, built):
        """One fault for both programs; and where there is one, it is told with a place of the file."""
        refusal, notes = lint(data, built)
        wanted = refusal_of(data, built)
        told = not wanted or bool(notes) and wanted.endswith(notes[0][2].partition(":")[0])
        lines = data.count(b"\n") + 1
        placed = all(1 <= line <= lines and column >= 1 for line, column, _ in notes)
        self.note(refusal == wanted and told and placed, f"wanted {wanted}, got {refusal} {notes[:3]} for {data[:2000]!r}")

    def random_heads(self, rng, number):
        for _ in range(number):
            text = random_inputs.head_text(rng, rng.choice(KINDS), 4)
            if rng.random() < 0.3:
                at = rng.randrange(len(text))
                text = text[:at] + rng.choice(PIECES) + text[at + rng.randint(0, 2) :]
            self.same_fault(text, KINDS)
            self.same_fault(text, BUILT)

    def worked_heads(self):
        """The heads and inputs of the rows, and the files of the guide."""
        for _, _, data, _, _ in rows_of(KINDS):
            if len(data) < 100_000:
                self.same_fault(data, KINDS)
                self.same_fault(data, BUILT)
        for language, block in BLOCK.findall(GUIDE.read_text()):
            if language == "json":
                self.same_fault(block.encode(), KINDS)

    def no_json(self):
        for marked, words in NO_JSON:
            before, _, after = marked.partition("^")
            _, notes = lint((before + after).encode(), KINDS)
            wanted = (before.count("\n") + 1, len(before) - before.rfind("\n"))
            right = [note[:2] for note in notes] == [wanted] and words in notes[0][2]
            self.note(right, f"{marked!r}: wanted {wanted} {words}, got {notes}")
        for data, line, column, words in NO_TEXT:
            _, notes = lint(data, KINDS)
            self.note(notes[0][:2] == (line, column) and words in notes[0][2], f"{data!r}: got {notes}")

    def rows(self, rows, is_refused):
        for head, wanted in rows:
            data = (head if isinstance(head, bytes) else json.dumps(head).encode()) + b"\n"
            refusal, notes = lint(data, KINDS)
            places = [(1, data.decode().rfind(start) + 1) for start, _ in wanted]
            right = bool(refusal) == is_refused and [note[:2] for note in notes] == places
            right = right and all(note[2].startswith(words) for note, (_, words) in zip(notes, wanted))
            self.note(right, f"{data.decode()}\n  wanted {wanted} at {places}\n  got {refusal} {notes}")

    def calm_files(self):
        """The examples, and the worked files of the guide, in which nothing but this is noticed."""
        noticed = {
            "no-legal-table.json": ["2 groups with at most 1 of X"],
            "world-cup-2022.json": ["tags that differ by one character: AFC (6 teams) beside OFC (1 team)"],
        }
        for path in sorted(comparing.TOP.glob("examples/*.json")):
            refusal, notes = lint(path.read_bytes(), KINDS)
            wanted = noticed.get(path.name, [])
            right = len(notes) == len(wanted) and all(note[2].startswith(words) for note, words in zip(notes, wanted))
            self.note(not refusal and right, f"{path.name}: {refusal} {notes}")
        for data, column in ((text_of(CALM), len(text_of(CALM)) + 1), (text_of(CALM) + b"\n--", None), (text_of(CALM) + b"\r\n", None)):
            _, notes = lint(data, KINDS)
            self.note([note[:2] for note in notes] == ([(1, column)] if column else []), f"{data!r}: {notes}")
        for _, block in [found for found in BLOCK.findall(GUIDE.read_text()) if found[0] == "json"][:2]:
            self.note(lint(block.encode(), KINDS) == (None, []), f"something is noticed in {block}")

    def command(self):
        """The words, the statuses and the texts of the command itself."""
        with tempfile.TemporaryDirectory() as folder:
            for name, head, status, text in (
                ("calm", text_of(CALM) + b"\n", 0, "{}: nothing was noticed; whether it says what you mean, only you can tell\n"),
                ("remark", text_of(changed(CALM, Pairs=[])) + b"\n", 0, '{}:1:236: the member "Pairs" is ignored; do you mean "pairs"?\n'),
                ("later", text_of({"kind": "league"}), 2, "{}: file refused 14 KindNotBuilt\n"),
                ("long", b" " * 4_194_305, 2, "{}: more than 4194304 bytes are not taken (status 6)\n"),
            ):
                path = f"{folder}/{name}"
                with open(path, "wb") as file:
                    file.write(head)
                ended = subprocess.run([LINT, path], capture_output=True, check=False, text=True)
                got = ended.stdout if name != "later" else ended.stdout.splitlines(keepends=True)[0]
                self.note((ended.returncode, got) == (status, text.format(path)), f"{name}: {ended}")
            for words in ([], ["a", "b"], [f"{folder}/none"], [folder]):
                ended = subprocess.run([LINT, *words], capture_output=True, check=False, text=True)
                self.note(ended.returncode == 1 and not ended.stdout and ended.stderr, f"{words}: {ended}")


def main():
    parser = argparse.ArgumentParser(description=__doc__)
    parser.add_argument("--heads", type=int, default=500, help="so many random heads")
    parser.add_argument("--seed", type=int, default=1)
    words = parser.parse_args()
    test = Test()
    test.worked_heads()
    test.random_heads(random.Random(words.seed), words.heads)
    test.no_json()
    test.rows(remarks(), False)
    test.rows(refused(), True)
    test.calm_files()
    test.command()
    print(f"{test.count - test.bad} of {test.count} cases of bin/lint-draw-file are as they should be")
    return 1 if test.bad else 0


if __name__ == "__main__":
    sys.exit(main())
