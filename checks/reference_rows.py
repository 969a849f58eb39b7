"""Tests checks/reference.py itself: rows whose answers were published, or found by hand, and random
small files on which its ways to decide are compared. The rows of group draws stand in
reference_group_rows.py; they are run whether the programs draw groups yet or not.

With `--programs` the rows of the kinds that are built go through the built programs too.
"""

import argparse
import copy
import itertools
import json
import random
import sys

import comparing
import random_heads
import reference
import reference_groups
import reference_group_rows
import reference_pairings
from built import BUILT
from reference_heads import KINDS

EXAMPLES = comparing.TOP / "examples"
TINY = {
    "kind": "pairing",
    "teams": [
        {"code": "AAA", "pot": 1, "tags": ["X"], "group": "A"},
        {"code": "BBB", "pot": 2, "tags": ["Y"], "group": "B"},
    ],
}
OPENING = "draw pairing 16 teams\nnext runner-up: PSG ATM SCP INT BEN VIL RBS CHE"


def example(name):
    return (EXAMPLES / name).read_bytes()


def text_of(head):
    return head if isinstance(head, bytes) else json.dumps(head, separators=(",", ":")).encode()


def with_balls(head, *lines):
    """An input: a head, the separator and lines; a line that is a word alone is a ball."""
    balls = [line if isinstance(line, bytes) else b"ball " + line.encode() for line in lines]
    return text_of(head) + b"\n--\n" + b"".join(ball + b"\n" for ball in balls)


def changed(head, /, **members):
    """The head with other members; those that are None are taken away."""
    head = copy.deepcopy(head) | members
    return {name: value for name, value in head.items() if value is not None}


def changed_item(head, name, place, /, **members):
    """The head with other members in one item of a list."""
    head = copy.deepcopy(head)
    head[name][place] = changed(head[name][place], **members)
    return head


# ---- pairings


def pairing_rows():
    """What, command, input, status, and the output: whole, its end after `..`, or a list of lines in it."""
    cl16 = example("round-of-16-2021.json")
    five = ("RBS", "BAY", "SCP", "MCI", "BEN", "AJX", "CHE")
    yield "no head", "follow", b"", 2, "file refused 1 NotJson"
    yield "a head alone", "follow", cl16.rstrip(b"\n"), 0, OPENING
    vil = "drawn VIL\nnext opponent VIL: MCI LIV AJX BAY LIL JUV"
    yield "one ball", "follow", with_balls(cl16, "VIL"), 0, f"{OPENING}\n{vil}"
    yield "an excluded ball", "follow", with_balls(cl16, "VIL", "MUN"), 0, f"{OPENING}\n{vil}\nrefused excluded"
    yield "a hard opponent", "follow", with_balls(cl16, *five), 0, "..drawn CHE\nnext opponent CHE: RMA LIL"
    yield (
        "who looks free and is not", "follow", with_balls(cl16, *five, "LIL", "PSG"), 0,
        "..paired CHE LIL\nnext runner-up: PSG ATM INT VIL\ndrawn PSG\nnext opponent PSG: RMA",
    )
    rest = ("LIL", "PSG", "RMA", "ATM", "MUN", "INT", "LIV", "VIL", "JUV", "PSG")
    yield (
        "to the end", "follow", with_balls(cl16, *five, *rest), 0,
        "..paired PSG RMA\nnext runner-up: ATM INT VIL\ndrawn ATM\nnext opponent ATM: MUN JUV\n"
        "paired ATM MUN\nnext runner-up: INT VIL\ndrawn INT\nnext opponent INT: LIV\n"
        "paired INT LIV\nnext runner-up: VIL\ndrawn VIL\nnext opponent VIL: JUV\n"
        "paired VIL JUV\ncomplete\nrefused complete",
    )
    stray = (b"ball", b"Ball VIL", b"ball vil", b"", b"x" * 300, "XYZ", "2", "MCI")
    causes = ["form"] * 5 + ["unknown", "unknown", "phase"]
    yield "refusals", "follow", with_balls(cl16, *stray), 0, "..\n" + "\n".join(f"refused {cause}" for cause in causes)
    spaces = b" " * (reference.LIMIT - len(cl16))
    yield "as long as may be", "follow", cl16 + spaces, 0, OPENING
    yield "longer than may be", "follow", cl16 + spaces + b" ", 6, None
    yield (
        "the limit of commands", "follow", with_balls(TINY, *[b"offer"] * 4096, "BBB"), 0,
        "draw pairing 2 teams\nnext runner-up: BBB\n" + "refused form\n" * 4096 + "refused limit",
    )
    yield (
        "the smallest draw", "follow", with_balls(TINY, "BBB", "AAA", "BBB"), 0,
        "draw pairing 2 teams\nnext runner-up: BBB\ndrawn BBB\nnext opponent BBB: AAA\npaired BBB AAA\ncomplete\nrefused complete",
    )
    yield "the example", "follow", cl16 + example("round-of-16-2021.balls"), 0, example("round-of-16-2021.answer").decode()[:-1]


def pairing_tables():
    cl16 = example("round-of-16-2021.json")
    yield "the example's table", "judge", cl16 + example("round-of-16-2021.table"), 0, "legal"
    for line, status, text in (
        (b"RMA MUN MCI LIV AJX JUV BAY LIL", 0, "legal"),
        (b"RMA JUV MCI LIV AJX MUN BAY LIL", 7, "broken 2 13 5"),
        (b"RMA MUN MCI LIV AJX JUV BAY RMA", 7, "broken 1 3 2"),
        (b"RMA MUN MCI LIV AJX JUV LIL BAY", 7, "broken 2 14 6"),
        (b"RMA MUN MCI AJX LIL JUV BAY LIV", 7, "broken 3 15 1"),
        (b"RMA", 7, "not a table"),
    ):
        yield f"the table {line.decode()}", "judge", with_balls(cl16, line), status, text


def pairing_heads():
    """Heads and the lines that refuse them, or none."""
    a, b = TINY["teams"]
    yield [], "2 NotObject"
    yield {"kind": "cup"}, "3 KindUnknown"
    yield {}, "4 FieldMissing kind"
    yield {"kind": 1}, "5 FieldWrong kind"
    yield {"kind": "pairing"}, "4 FieldMissing teams"
    yield {"kind": "pairing", "teams": 7}, "5 FieldWrong teams"
    yield {"kind": "pairing", "teams": [7, {}]}, "4 FieldMissing code"
    yield {"kind": "pairing", "teams": [a, changed(b, tags=None, group=None)]}, "4 FieldMissing tags"
    yield changed(TINY, groups=None, pots="many", limits=7, places=[7]), None
    yield changed_item(TINY, "teams", 1, code="bbb"), "7 BadCode 1"
    yield changed_item(TINY, "teams", 1, code="AAA"), "8 SameCode AAA"
    yield changed_item(TINY, "teams", 1, pot=1), "9 PotSize 2 0"
    yield changed_item(TINY, "teams", 1, pot=3), "5 FieldWrong pot"
    yield changed_item(TINY, "teams", 1, group="a"), "5 FieldWrong group"
    yield {"kind": "pairing", "teams": []}, "9 PotSize 1 0"
    yield {"kind": "pairing", "teams": [a] * 41}, "6 TooMany teams 41"
    yield {"kind": "pairing", "teams": [a] * 40}, "8 SameCode AAA"
    yield changed(TINY, pairs=[["AAA", "CCC"]]), "11 BadPair 0"
    yield changed(TINY, pairs=[["AAA", "BBB"], ["AAA", "AAA"]]), "11 BadPair 1"
    yield changed(TINY, pairs=[["AAA"]]), "5 FieldWrong pairs"
    yield changed(TINY, pairs=[["AAA", "BBB"]] * 64), None
    yield changed(TINY, pairs=[["AAA", "BBB"]] * 65), "6 TooMany pairs 65"
    for text in (b"", b"{", b"{} {}", b'{"kind":NaN}', b'\xef\xbb\xbf{"kind":"cup"}', b"[" * 128 + b"]" * 128, b"[1e999]"):
        yield text, "1 NotJson"
    yield b"[" * 127 + b"]" * 127, "2 NotObject"
    yield b'{"kind":"cup","kind":"pairing"}', "4 FieldMissing teams"
    yield json.dumps(TINY).replace('"pot": 1', '"pot": 1.0').encode(), "5 FieldWrong pot"
    yield {"kind": "league"}, "14 KindNotBuilt"


def head_rows(heads):
    for head, fault in heads:
        text = text_of(head)
        name = f"the head {text[:60].decode('latin-1')}"
        yield name, "follow", text, 2 if fault else 0, f"file refused {fault}" if fault else None


# ---- running the rows


def differs(got, status, wanted):
    """Whether an answer is another than a row wants."""
    if got[0] != status:
        return True
    text = got[1].decode("latin-1")
    if wanted is None:
        return False
    if isinstance(wanted, list):
        return not set(wanted) <= set(text.splitlines())
    return not text.endswith(f"{wanted[2:]}\n") if wanted.startswith("..") else text != f"{wanted}\n"


def run_rows(rows, answer):
    """The number of rows, of which each that is not answered as it says is told."""
    count = bad = 0
    for what, command, data, status, wanted in rows:
        got = answer(command, data)
        count += 1
        if differs(got, status, wanted):
            bad += 1
            print(f"FAILED: {what}\n  wanted {status}: {wanted}\n  got {got[0]}: {got[1].decode('latin-1')}")
    return count, bad


def by_reference(command, data):
    return {"follow": reference.follow, "judge": reference.judge}[command](data, KINDS)


def by_programs(folder):
    programs = {command: comparing.path_of(name, folder) for command, name in (("follow", "draw"), ("judge", "drawcheck"))}
    return lambda command, data: comparing.run(programs[command], command, data)[:2]


def rows_of(kinds):
    if "pairing" in kinds:
        yield from pairing_rows()
        yield from pairing_tables()
        yield from head_rows(pairing_heads())
    if "group" in kinds:
        yield from reference_group_rows.draw_rows(example, with_balls)
        yield from reference_group_rows.table_rows(example, with_balls)
        yield from head_rows(reference_group_rows.heads(changed, changed_item))


# ---- ways to decide, compared on random small files


def all_maps(file):
    """Every table that the rules allow, by trying every place for every team."""
    places = list(itertools.product(file.groups, file.pots))
    tables = (dict(zip(file.codes, chosen)) for chosen in itertools.product(places, repeat=len(file.codes)))
    return [table for table in tables if file.first_broken(table) is None]


def same_tables(file):
    """Whether the tables that are tried have all legal ones, where every map can be tried."""
    tried = reference_groups.Trying(file).tables
    return len(file.codes) > 4 or sorted(map(repr, all_maps(file))) == sorted(repr(reorder(file, t)) for t in tried)


def reorder(file, table):
    return {code: table[code] for code in file.codes}


def differing_pairs(file, rng, number):
    """Some pairs of which the two ways say different things, or none."""
    trying, matching = reference_pairings.Trying(file), reference_pairings.Matching(file)
    for _ in range(number):
        start = rng.choice(trying.tables) if trying.tables and rng.random() < 0.7 else None
        paired = {
            runner: start[runner] if start and rng.random() < 0.9 else rng.choice(file.winners)
            for runner in rng.sample(file.runners, rng.randint(0, len(file.runners)))
        }
        if trying.is_completable(paired) != matching.is_completable(paired):
            return paired
    return None


def differing_question(file, rng, number):
    """Some teams with groups and positions of which the two ways say different things, or none."""
    trying, filling = reference_groups.Trying(file), reference_groups.Filling(file)
    for _ in range(number):
        codes = rng.sample(file.codes, rng.randint(0, len(file.codes)))
        start = rng.choice(trying.tables) if trying.tables and rng.random() < 0.7 else None
        placed = {code: start[code][0] if start and rng.random() < 0.9 else rng.choice(file.groups) for code in codes}
        later = [code for code in codes if file.pot_of[code] > 1]
        chosen = rng.sample(later, rng.randint(0, len(later)))
        positioned = {
            code: start[code][1] if start and rng.random() < 0.9 else rng.choice(range(2, len(file.pots) + 1)) for code in chosen
        }
        if trying.is_completable(placed, positioned) != filling.is_completable(placed, positioned):
            return placed, positioned
    return None


def compare_ways(files, seed):
    """The number of small files compared, and of those that are decided differently."""
    rng = random.Random(seed)
    compared = bad = 0
    while compared < files // 2:
        head = random_heads.good_head(rng, "pairing", 6)
        compared += 1
        paired = differing_pairs(reference.read_file(text_of(head)), rng, 30)
        if paired is not None:
            bad += 1
            print(f"FAILED: two ways to decide differ on {json.dumps(head)}: {paired}")
    while compared < files:
        head = random_heads.good_head(rng, "group", 3)
        file = reference.read_file(text_of(head))
        if file.tables_to_try() > 1728:
            continue
        compared += 1
        question = differing_question(file, rng, 30)
        if question or not same_tables(file):
            bad += 1
            print(f"FAILED: two ways to decide differ on {json.dumps(head)}: {question}")
    return compared, bad


def main():
    parser = argparse.ArgumentParser(description=__doc__)
    parser.add_argument("--files", type=int, default=200, help="how many random files the ways to decide are compared on")
    parser.add_argument("--seed", type=int, default=1)
    parser.add_argument("--built", action="store_true", help="run the rows of built kinds through the built programs too")
    comparing.add_programs(parser)
    words = parser.parse_args()
    rows, bad = run_rows(rows_of(KINDS), by_reference)
    files, differing = compare_ways(words.files, words.seed)
    print(f"{rows - bad} of {rows} rows answered as they say; ways to decide agree on {files - differing} of {files} files")
    if words.built or words.programs:
        rows, more = run_rows(rows_of(BUILT), by_programs(words.programs))
        print(f"{rows - more} of {rows} rows answered by the built programs as they say")
        bad += more
    return 1 if bad or differing else 0


if __name__ == "__main__":
    sys.exit(main())
