"""Draw files that bench/search measures, made from fixed seeds."""

import json
import pathlib
import random

TOP = pathlib.Path(__file__).resolve().parent.parent
LETTERS = "ABCDEFGHIJKLMNOPQRSTUVWXYZ"
EXAMPLE = TOP / "examples/round-of-16-2021.json"
EXAMPLE_BALLS = TOP / "examples/round-of-16-2021.balls"


def team(pot, number, tags, letter):
    """A team whose code tells its pot and its place there."""
    return {"code": f"{'W' if pot == 1 else 'R'}{number:02}", "pot": pot, "tags": tags, "group": letter}


def written(teams, **members):
    """The head of a pairing with these teams and further members."""
    return json.dumps({"kind": "pairing", "teams": teams, **members}).encode()


def pairs(seed, size=20, kinds=6, forbidden=64):
    """A file of that many pairs with two tags a team, each of a family of so many kinds, and forbidden
    pairs. One table, which the seed chooses, is legal."""
    rng = random.Random(seed)
    winners = [team(1, number, two_tags(rng, kinds), LETTERS[number]) for number in range(size)]
    table = rng.sample(winners, size)
    runners = []
    for number, own in enumerate(table):
        tags = two_tags(rng, kinds)
        while set(tags) & set(own["tags"]):
            tags = two_tags(rng, kinds)
        # The letter is that of the next runner-up's own winner.
        runners.append(team(2, number, tags, table[(number + 1) % size]["group"]))
    others = [[winner["code"], runner["code"]] for runner, own in zip(runners, table) for winner in winners if winner is not own]
    return written(winners + runners, pairs=rng.sample(others, forbidden))


def two_tags(rng, kinds):
    return [f"A{rng.randrange(kinds)}", f"B{rng.randrange(kinds)}"]


def hall(few, size=20):
    """A file that no table completes: by their group's letter so many runners-up may meet only one
    winner fewer. Nothing else is forbidden."""
    winners = [team(1, number, [f"W{number}"], "H" if number <= size - few else "W") for number in range(size)]
    runners = [team(2, number, [f"R{number}"], "H" if number < few else "R") for number in range(size)]
    return written(winners + runners)


def generated(number, groups=8):
    """The head of a group draw from a number: so many groups of four pots, and six tags, each of which a
    group has at most once. The table that has team k of each pot in group k is legal."""
    state = number
    first = []
    for _ in range(groups):
        state = (state * 6364136223846793005 + 1442695040888963407) % 2**64
        first.append((state >> 33) % 6)
    teams = [
        {"code": f"T{pot}{k}", "pot": pot, "tags": [f"T{(first[k] + pot) % 6}"]} for pot in range(1, 5) for k in range(groups)
    ]
    limits = [{"tag": f"T{tag}", "lo": 0, "hi": 1} for tag in range(6)]
    return json.dumps({"kind": "group", "groups": groups, "pots": 4, "teams": teams, "limits": limits}).encode()


def crowded(groups):
    """A group draw of two pots that no table completes: a tag of which a group may have one team has one
    team more than there are groups, half of them in each pot."""
    held = {1: (groups + 1) // 2, 2: groups + 1 - (groups + 1) // 2}
    teams = [
        {"code": f"{'AB'[pot - 1]}{k:02}", "pot": pot, "tags": ["X" if k < held[pot] else "Y"]}
        for pot in (1, 2)
        for k in range(groups)
    ]
    limits = [{"tag": "X", "lo": 0, "hi": 1}, {"tag": "Y", "lo": 0, "hi": 2}]
    return json.dumps({"kind": "group", "groups": groups, "pots": 2, "teams": teams, "limits": limits}).encode()
