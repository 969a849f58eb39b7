"""Rows of group draws with their answers: test data after the World Cups of 2018 and 2022, and small
files whose answers were found by hand, with the reason beside each."""

import json

CLASH = {
    "kind": "group",
    "groups": 2,
    "pots": 2,
    "teams": [
        {"code": "AAA", "pot": 1, "tags": ["X"]},
        {"code": "BBB", "pot": 1, "tags": ["X"]},
        {"code": "CCC", "pot": 2, "tags": ["X"]},
        {"code": "DDD", "pot": 2, "tags": ["X"]},
    ],
    "limits": [{"tag": "X", "lo": 0, "hi": 1}],
}
POT_ONE_2018 = "RUS GER BRA POR ARG BEL POL FRA"
RESULT_2018 = """\
group A: RUS:1 URU:2 EGY:3 KSA:4
group B: POR:1 ESP:2 IRN:3 MAR:4
group C: FRA:1 PER:2 DEN:3 AUS:4
group D: ARG:1 CRO:2 ISL:3 NGA:4
group E: BRA:1 SUI:2 CRC:3 SRB:4
group F: GER:1 MEX:2 SWE:3 KOR:4
group G: BEL:1 ENG:2 TUN:3 PAN:4
group H: POL:1 COL:2 SEN:3 JPN:4"""
POTS_2022 = "QAT NED SEN, ENG USA IRN, ARG MEX POL, FRA DEN TUN, ESP GER JPN, BEL CRO MAR, BRA SUI SRB, POR URU KOR"


def group_head(pots, limits, **members):
    """A head by its pots, each a text of codes with their tags, as `AAA X Y, BBB Z`; limits are `X 0 1`."""
    teams = [item.split() for pot in pots for item in pot.split(", ")]
    numbers = [pot for pot, items in enumerate(pots, 1) for _ in items.split(", ")]
    return {
        "kind": "group",
        "groups": len(pots[0].split(", ")),
        "pots": len(pots),
        "teams": [{"code": words[0], "pot": pot, "tags": words[1:]} for words, pot in zip(teams, numbers)],
        "limits": [{"tag": tag, "lo": int(lo), "hi": int(hi)} for tag, lo, hi in map(str.split, limits.split(", "))],
    } | members


def place(code, group, position):
    return {"code": code, "group": group, "position": position}


def answer(teams, opening, *replies):
    return "\n".join((f"draw group {teams} teams", f"next team pot 1: {opening}", *replies))


# ---- draws


def balls_by_groups(groups):
    """The balls that draw groups of teams pot by pot, with the pot's number as position past pot 1."""
    for pot in range(len(groups[0])):
        for teams in groups:
            yield teams[pot]
            if pot > 0:
                yield str(pot + 1)


def draw_rows(example, with_balls):
    yield from world_cup_rows(example, with_balls)
    yield from small_rows(with_balls)


def world_cup_rows(example, with_balls):
    wc18, wc22 = example("world-cup-2018.json"), example("world-cup-2022.json")
    groups = [[item[:3] for item in line.split()[2:]] for line in RESULT_2018.splitlines()]
    balls = list(balls_by_groups(groups))
    placed = [f"placed {team} {'ABCDEFGH'[at]}" for at, teams in enumerate(groups) for team in teams]
    stands = [f"stands {team} {'ABCDEFGH'[at]}{pot}" for at, teams in enumerate(groups) for pot, team in enumerate(teams, 1) if pot > 1]
    yield "2018: all balls", "follow", with_balls(wc18, *balls), 0, "..stands JPN H4\ncomplete"
    yield "2018: every team to its group", "follow", with_balls(wc18, *balls), 0, placed + stands
    stored = example("world-cup-2018.answer").decode()[:-1]
    yield "2018: its example's answer", "follow", with_balls(wc18, *balls), 0, stored
    yield "2018: its example's balls", "follow", wc18 + example("world-cup-2018.balls"), 0, stored
    yield (
        "2018: the host's group is skipped", "follow", with_balls(wc18, "GER"), 0,
        answer(32, POT_ONE_2018, "placed GER B", "next team pot 1: RUS BRA POR ARG BEL POL FRA"),
    )
    three = list(balls_by_groups([teams.split() for teams in POTS_2022.split(", ")]))
    four = [word for team in ("ECU", "KSA", "CAN", "CMR", "GHA") for word in (team, "4")]
    placed = [f"placed {team} {'ABCDEFGH'[at]}" for at, teams in enumerate(POTS_2022.split(", ")) for team in teams.split()]
    placed += ["placed ECU A", "placed KSA C", "placed CAN D", "placed CMR B", "placed GHA E"]
    yield "2022: every team to its group", "follow", with_balls(wc22, *three, *four), 0, placed
    yield (
        "2022: the free group F is skipped", "follow", with_balls(wc22, *three, *four, "IC2"), 0,
        "..placed IC2 G\nnext position IC2: 4",
    )
    yield "2022: its example", "follow", wc22 + example("world-cup-2022.balls"), 0, example("world-cup-2022.answer").decode()[:-1]
    yield (
        "2022: refusals where a position is due", "follow", with_balls(wc22, *three, "ECU", "5", "3", "1", "SEN", "4"), 0,
        "..placed ECU A\nnext position ECU: 4\nrefused unknown\nrefused excluded\nrefused phase\nrefused phase\n"
        "stands ECU A4\nnext team pot 4: CMR CAN KSA GHA IC1 IC2 EPA",
    )


def small_rows(with_balls):
    """Small files, what their balls are and what they get."""
    yield "no legal table", "follow", with_balls(CLASH, "AAA"), 0, "draw group 4 teams\nimpossible\nrefused excluded"
    for rows in (draws_of_groups(), draws_of_positions(), draws_of_words()):
        for what, head, balls, wanted in rows:
            yield what, "follow", with_balls(head, *balls.split()), 0, wanted


def draws_of_groups():
    """Which group a team comes to."""
    tags = "X 0 1, Y 0 1, Z 0 1"
    # AAA holds Y, so CCC may not join it.
    yield (
        "a second tag counts", group_head(("AAA X Y, BBB Z", "CCC Y, DDD Z"), tags), "AAA BBB CCC",
        answer(4, "AAA BBB", "placed AAA A", "next team pot 1: BBB", "placed BBB B", "next team pot 2: CCC DDD",
               "placed CCC B", "next position CCC: 2"),
    )
    # With CCC beside AAA, the group of BBB and DDD would have nobody with X.
    yield (
        "a lower bound excludes a group", group_head(("AAA X, BBB Y", "CCC X, DDD Y"), "X 1 2, Y 0 2"), "AAA BBB CCC 2 DDD",
        answer(4, "AAA BBB", "placed AAA A", "next team pot 1: BBB", "placed BBB B", "next team pot 2: CCC DDD",
               "placed CCC B", "next position CCC: 2", "stands CCC B2", "next team pot 2: DDD", "placed DDD A", "next position DDD: 2"),
    )
    host = group_head(("AAA X, BBB X, HST X",), "X 0 1", places=[place("HST", "A", 1)])
    # Nobody but the host may stand in group A, so the first two go to B and C. One pot has no positions.
    yield (
        "the host is drawn late", host, "BBB AAA HST AAA",
        answer(3, "AAA BBB HST", "placed BBB B", "next team pot 1: AAA HST", "placed AAA C", "next team pot 1: HST",
               "placed HST A", "complete", "refused complete"),
    )
    forbidden = group_head(("AAA X, BBB X", "CCC X, DDD X"), "X 0 2", pairs=[["CCC", "AAA"], ["AAA", "BBB"]])
    # CCC may not join AAA; that AAA and BBB may not meet says nothing, they are of one pot.
    yield (
        "a forbidden pair", forbidden, "AAA BBB CCC",
        answer(4, "AAA BBB", "placed AAA A", "next team pot 1: BBB", "placed BBB B", "next team pot 2: CCC DDD",
               "placed CCC B", "next position CCC: 2"),
    )
    # AAA has to leave group A to BBB, since CCC stands there and may not meet AAA.
    later = group_head(("AAA X, BBB X", "CCC X, DDD X"), "X 0 2", pairs=[["CCC", "AAA"]], places=[place("CCC", "A", 2)])
    yield "a place of a later pot excludes a group", later, "AAA", answer(4, "AAA BBB", "placed AAA B", "next team pot 1: BBB")


def draws_of_positions():
    """Which positions are offered."""
    # BBB cannot have position 3, which is CCC's.
    held = group_head(("AAA X", "BBB X", "CCC X", "DDD X"), "X 4 4", places=[place("CCC", "A", 3)])
    yield (
        "a fixed place holds its position", held, "AAA BBB 3 1 4 CCC 2 4 3 DDD 2",
        answer(4, "AAA", "placed AAA A", "next team pot 2: BBB", "placed BBB A", "next position BBB: 2 4", "refused excluded",
               "refused phase", "stands BBB A4", "next team pot 3: CCC", "placed CCC A", "next position CCC: 3",
               "refused excluded", "refused excluded", "stands CCC A3", "next team pot 4: DDD", "placed DDD A",
               "next position DDD: 2", "stands DDD A2", "complete"),
    )
    # A team of pot 2 may have position 3; what it leaves is for pot 3.
    order = group_head(("AAA X", "CCC X", "EEE X"), "X 0 3")
    yield (
        "positions in any order", order, "AAA CCC 3 EEE 3 2",
        answer(3, "AAA", "placed AAA A", "next team pot 2: CCC", "placed CCC A", "next position CCC: 2 3", "stands CCC A3",
               "next team pot 3: EEE", "placed EEE A", "next position EEE: 2", "refused excluded", "stands EEE A2", "complete"),
    )
    both = group_head(("AAA X, BBB X", "CCC X, DDD X", "EEE X, FFF X"), "X 0 3",
                      places=[place("CCC", "A", 2), place("DDD", "A", 3)])
    # Two teams of pot 2 have places in group A.
    yield "two fixed places that cannot both be", both, "AAA", "draw group 6 teams\nimpossible\nrefused excluded"


def draws_of_words():
    """Which words are refused, and why."""
    mixed = group_head(("AAA X, BBB X", "CCC X, DDD X"), "X 0 2")
    mixed["teams"] = [mixed["teams"][at] for at in (3, 1, 2, 0)]
    yield (
        "pots mixed in the file, and words of other phases", mixed, "CCC 2 3 05 DDD BBB 2 AAA DDD AAA 2 CCC 1 2 9",
        answer(4, "BBB AAA", "refused phase", "refused phase", "refused unknown", "refused form", "refused phase",
               "placed BBB A", "next team pot 1: AAA", "refused phase", "placed AAA B", "next team pot 2: DDD CCC",
               "placed DDD A", "next position DDD: 2", "refused phase", "stands DDD A2", "next team pot 2: CCC",
               "placed CCC B", "next position CCC: 2", "refused phase", "stands CCC B2", "complete", "refused unknown"),
    )


# ---- tables


def table_rows(example, with_balls):
    yield "2018: its table", "judge", example("world-cup-2018.json") + example("world-cup-2018.table"), 0, "legal"
    # EEE stands in B, so FFF in A, and not with BBB; CCC beside AAA and FFF would make three X and no Y.
    pots = ("AAA X, BBB Y", "CCC X, DDD Y", "EEE Y, FFF X")
    fixed = [place("EEE", "B", 2)]
    head = group_head(pots, "X 0 2, Y 1 2", pairs=[["BBB", "FFF"]], places=fixed)
    least = group_head(pots, "Y 1 2, X 0 2", pairs=[["BBB", "FFF"]], places=fixed)
    pairs = group_head(pots, "X 0 2, Y 1 2", pairs=[["BBB", "FFF"], ["DDD", "AAA"]], places=fixed)
    for which, line, verdict in (
        (head, "A1 B1 B3 A2 B2 A3", "legal"),
        (head, "A1 B1 B3 A3 B2 A2", "legal"),
        (head, "A1 B1 B2 A2 B3 A3", "broken 1 0 0"),
        (head, "A1 B1 B3 A2 A2 B2", "broken 1 0 0"),
        (head, "A1 A1 B3 A2 B2 A3", "broken 2 0 1"),
        (head, "A1 B1 B3 B1 B2 A3", "broken 2 0 2"),
        (head, "A1 B1 B3 A2 B2 B1", "broken 2 0 3"),
        (head, "B1 A1 A2 B3 B2 A3", "broken 4 0 0"),
        (head, "A1 B1 A2 B3 B2 A3", "broken 3 0 0"),
        (least, "A1 B1 A2 B3 B2 A3", "broken 3 0 0"),
        (pairs, "A1 B1 B3 A2 B2 A3", "broken 4 1 0"),
        (head, "A1 B1 B3 A2 B2 A2", "broken 5 0 2"),
        (head, "A2 B1 B3 A1 B2 A3", "broken 5 0 1"),
        (head, "A1 B3 B1 A2 B2 A3", "broken 5 1 1"),
        (head, "A1 B1 B1 A2 B2 A3", "broken 5 1 1"),
    ):
        yield f"the table {line}", "judge", with_balls(which, line.encode()), 0 if verdict == "legal" else 7, verdict
    upper = group_head(("AAA X, BBB Y", "CCC Y, DDD X"), "Y 0 9, X 0 1")
    yield "the second limit", "judge", with_balls(upper, b"B1 A1 A2 B2"), 7, "broken 3 1 1"
    for line in ("A1 B1 B3 A2 B2", "A1 B1 B3 A2 B2 A3 A1", "C1 B1 B3 A2 B2 A3", "A4 B1 B3 A2 B2 A3", "A0 B1 B3 A2 B2 A3",
                 "A01 B1 B3 A2 B2 A3", "a1 B1 B3 A2 B2 A3", "A1  B1 B3 A2 B2 A3", "A1 B1 B3 A2 B2 A3 ", "1A B1 B3 A2 B2 A3",
                 "", "A1 B1 B3 A2 B2 A3\nA1 B1 B3 A2 B2 A3", "AAA BBB CCC DDD EEE FFF"):
        yield f"no table: {line}", "judge", with_balls(head, line.encode()), 7, "not a table"


# ---- heads


def heads(changed, changed_item):
    """Heads and the lines that refuse them, or none."""
    yield from faulty_heads(changed, changed_item)
    yield from heads_with_places(changed)
    yield from heads_at_limits(changed)
    yield from heads_with_two_faults(changed, changed_item)


def faulty_heads(changed, changed_item):
    yield {"kind": "group"}, "4 FieldMissing groups"
    yield {"kind": "group", "groups": 2}, "4 FieldMissing pots"
    yield {"kind": "group", "groups": 2, "pots": 2}, "4 FieldMissing teams"
    for name in ("code", "pot", "tags"):
        yield changed_item(CLASH, "teams", 3, **{name: None}), f"4 FieldMissing {name}"
    for name in ("tag", "lo", "hi"):
        yield changed_item(CLASH, "limits", 0, **{name: None}), f"4 FieldMissing {name}"
    for name in ("code", "group", "position"):
        yield changed(CLASH, places=[changed(place("AAA", "A", 1), **{name: None})]), f"4 FieldMissing {name}"
    for name, value in (("groups", 0), ("groups", "2"), ("pots", 0), ("pots", -1), ("teams", {}), ("limits", {}), ("limits", [1]),
                        ("pairs", 1), ("pairs", [["AAA", 1]]), ("places", None), ("places", [[]])):
        yield json.dumps(CLASH | {name: value}).encode(), f"5 FieldWrong {name}"
    for name, value in (("code", 1), ("name", 1), ("pot", 0), ("pot", 3), ("tags", []), ("tags", ["X", "X"]), ("tags", "X"),
                        ("tags", ["x"]), ("tags", ["X", "Y", "Z"]), ("tags", ["A" * 17])):
        yield changed_item(CLASH, "teams", 3, **{name: value}), f"5 FieldWrong {name}"
    for name, value in (("tag", "x"), ("tag", ""), ("lo", 65), ("lo", -1), ("hi", 65), ("hi", "1")):
        yield changed_item(CLASH, "limits", 0, **{name: value}), f"5 FieldWrong {name}"
    yield changed_item(CLASH, "limits", 0, lo=2), "5 FieldWrong hi"
    yield changed(CLASH, limits=CLASH["limits"] * 2), "5 FieldWrong tag"
    for name, value in (("code", 1), ("group", "a"), ("group", "AB"), ("group", 1), ("position", 0), ("position", "1")):
        yield changed(CLASH, places=[place("AAA", "A", 1) | {name: value}]), f"5 FieldWrong {name}"
    yield changed_item(CLASH, "teams", 2, code="cc"), "7 BadCode 2"
    yield changed_item(CLASH, "teams", 2, code="BBB"), "8 SameCode BBB"
    yield changed_item(CLASH, "teams", 2, pot=1), "9 PotSize 1 3"
    yield changed(CLASH, pots=3), "9 PotSize 3 0"
    yield changed(CLASH, groups=3), "9 PotSize 1 2"
    yield changed_item(CLASH, "limits", 0, tag="Z"), "10 UnknownTag 0"
    yield changed_item(CLASH, "teams", 2, tags=["X", "Y"]), "10 UnknownTag 2"
    yield changed(CLASH, limits=None), "10 UnknownTag 0"
    yield changed(CLASH, pairs=[["AAA", "BBB"], ["AAA", "EEE"]]), "11 BadPair 1"
    yield changed(CLASH, pairs=[["AAA", "AAA"]]), "11 BadPair 0"
    yield changed_item(CLASH, "teams", 0, group=7, name="the name"), None
    yield changed(CLASH, pairs=[["AAA", "BBB"], ["AAA", "BBB"]], limits=CLASH["limits"] + [{"tag": "NOBODY", "lo": 0, "hi": 64}]), None


def heads_with_places(changed):
    for item in (place("EEE", "A", 1), place("AAA", "C", 1), place("AAA", "Z", 1), place("CCC", "A", 3), place("CCC", "A", 1),
                 place("AAA", "A", 2), place("AAA", "A", 2**64 - 1)):
        yield changed(CLASH, places=[item]), "12 BadPlace 0"
        yield changed(CLASH, places=[place("BBB", "B", 1), item]), "12 BadPlace 1"
    for item in (place("AAA", "A", 1), place("AAA", "B", 1), place("BBB", "A", 1)):
        yield changed(CLASH, places=[place("AAA", "A", 1), item]), "12 BadPlace 1"
    for items in ([place("CCC", "B", 2), place("AAA", "B", 1)], [place("CCC", "A", 2), place("DDD", "B", 2)], []):
        yield changed(CLASH, places=items), None


def heads_at_limits(changed):
    """Numbers at the limits: what is as large as may be, and what is one more."""
    full = group_head([", ".join(f"{pot}{at}A X" for at in range(8)) for pot in "WXYZ"], "X 0 64")
    yield full, None
    yield changed(full, groups=9), "6 TooMany groups 9"
    yield changed(full, pots=5), "6 TooMany pots 5"
    yield changed(full, groups=2**64 - 1), f"6 TooMany groups {2**64 - 1}"
    yield json.dumps(full).replace('"groups": 8', f'"groups": {2**64}').encode(), "5 FieldWrong groups"
    yield changed(full, teams=full["teams"] + full["teams"][:8]), "8 SameCode W0A"
    yield changed(full, teams=full["teams"] + full["teams"][:9]), "6 TooMany teams 41"
    more = [{"tag": f"T{at}", "lo": 0, "hi": 64} for at in range(16)]
    yield changed(full, limits=full["limits"] + more[:15]), None
    yield changed(full, limits=full["limits"] + more), "6 TooMany limits 17"
    yield changed(full, pairs=[["W0A", "X0A"]] * 64), None
    yield changed(full, pairs=[["W0A", "X0A"]] * 65), "6 TooMany pairs 65"
    every = [place(f"{pot}{at}A", "ABCDEFGH"[at], number) for number, pot in enumerate("WXYZ", 1) for at in range(8)]
    yield changed(full, places=every), None
    for number in (33, 40):
        yield changed(full, places=(every + every)[:number]), "12 BadPlace 32"
    yield changed(full, places=(every + every)[:41]), "6 TooMany places 41"


def heads_with_two_faults(changed, changed_item):
    """Of two faults the one with the lower number is told, wherever it stands."""
    unknown = changed_item(CLASH, "teams", 3, tags=["Z"])
    yield changed(unknown, pairs=[["AAA", "AAA"]]), "10 UnknownTag 3"
    yield changed(unknown, places=[place("AAA", "A", 2)]), "10 UnknownTag 3"
    yield changed(CLASH, pairs=[["AAA", "AAA"]], places=[place("AAA", "A", 2)]), "11 BadPair 0"
    yield changed_item(changed_item(CLASH, "teams", 3, pot=1), "teams", 0, tags=["Z"]), "9 PotSize 1 3"
    yield changed_item(changed_item(CLASH, "teams", 3, code="?"), "teams", 0, pot=2), "7 BadCode 3"
    yield changed(unknown, groups=9), "6 TooMany groups 9"
    yield changed(CLASH, groups=9, pots=9), "6 TooMany groups 9"
    yield changed_item(changed(CLASH, groups=0), "limits", 0, lo=None), "4 FieldMissing lo"
    yield changed_item(changed(CLASH, pots=0), "teams", 0, pot=9), "5 FieldWrong pots"
    yield changed_item(changed(CLASH, pairs=7), "limits", 0, hi=99), "5 FieldWrong hi"
    yield changed(CLASH, pairs=7, places=7), "5 FieldWrong pairs"
    yield changed(CLASH, limits=7, pairs=7), "5 FieldWrong limits"
    yield changed(CLASH, teams=[1, {}], places=[{}]), "4 FieldMissing code"
