"""Random heads of draw files: good ones of each kind, and damage to them."""

import string

LETTERS = "ABCDEFGHIJ"


def good_head(rng, kind, most):
    """A head that is a draw file, its members in any order, with some that mean nothing."""
    head = (pairing_head if kind == "pairing" else group_head)(rng, most)
    for team in head["teams"]:
        if rng.random() < 0.2:
            team["name"] = "Näme"
        if rng.random() < 0.1:
            team["position"] = None
    if rng.random() < 0.6:
        rng.shuffle(head["teams"])
    items = list(head.items())
    rng.shuffle(items)
    return dict(items)


def some_tags(rng, tags):
    return rng.sample(tags, min(len(tags), rng.choice((1, 1, 1, 2))))


def pairing_head(rng, most):
    """A pairing that may be dense with forbidden pairs."""
    size = rng.randint(1, most)
    large = size > len(LETTERS)
    tags = [f"T{k}" for k in range(rng.randint(*((size // 2, 2 * size) if large else (1, 8))))]
    teams = []
    for pot in (1, 2):
        letters = rng.sample(string.ascii_uppercase if large else LETTERS, size)
        for number in range(size):
            code = f"{'W' if pot == 1 else 'R'}{number:02}"
            teams.append({"code": code, "pot": pot, "tags": some_tags(rng, tags), "group": letters[number]})
    head = {"kind": "pairing", "teams": teams}
    if rng.random() < 0.5:
        codes = [team["code"] for team in teams]
        head["pairs"] = [rng.sample(codes, 2) for _ in range(rng.randint(0, 2 * size))]
    return head


def group_head(rng, most):
    """A group draw around a table that is drawn up first: its limits, pairs and places mostly allow
    that table and little else."""
    groups, pots = rng.randint(1, min(most, 8)), rng.randint(1, 4)
    tags = [f"T{k}" for k in range(rng.randint(1, 6))]
    letters = rng.sample(LETTERS[:groups], groups)
    teams = [
        {"code": f"{'WXYZ'[pot - 1]}{number:02}", "pot": pot, "tags": some_tags(rng, tags)}
        for pot in range(1, pots + 1)
        for number in range(groups)
    ]
    group_of = {team["code"]: letters[at % groups] for at, team in enumerate(teams)}
    head = {"kind": "group", "groups": groups, "pots": pots, "teams": teams}
    head["limits"] = limits_around(rng, teams, tags, group_of)
    if rng.random() < 0.5:
        head["pairs"] = pairs_around(rng, teams, group_of)
    if rng.random() < 0.6:
        head["places"] = places_around(rng, teams, pots, group_of)
    return head


def limits_around(rng, teams, tags, group_of):
    """Each tag's least and largest number in a group of the table, mostly a little wider."""
    limits = []
    for tag in rng.sample(tags, len(tags)):
        numbers = [
            sum(tag in team["tags"] for team in teams if group_of[team["code"]] == group)
            for group in set(group_of.values())
        ]
        lo = max(0, min(numbers) - rng.choice((0, 0, 1, 1, 9)))
        hi = max(numbers) + rng.choice((0, 0, 0, 0, 1, 2))
        if rng.random() < 0.03:
            lo, hi = rng.choice(((lo, max(lo, hi - 1)), (min(lo + 1, hi), hi), (64, 64), (0, 0), (0, 64)))
        limits.append({"tag": tag, "lo": lo, "hi": hi})
    if rng.random() < 0.2:
        limits.append({"tag": "NOBODY", "lo": rng.choice((0, 0, 0, 1)), "hi": rng.choice((1, 4))})
    return limits


def pairs_around(rng, teams, group_of):
    codes = [team["code"] for team in teams]
    pairs = []
    for _ in range(rng.randint(0, 2 * len(codes))):
        if len(codes) > 1:
            pair = rng.sample(codes, 2)
            if group_of[pair[0]] != group_of[pair[1]] or rng.random() < 0.01:
                pairs.append(pair)
    return pairs[:64]


def places_around(rng, teams, pots, group_of):
    """Places of some teams: mostly their groups in the table, and in each group different positions."""
    places = []
    free = {group: rng.sample(range(2, pots + 1), pots - 1) for group in set(group_of.values())}
    for team in rng.sample(teams, rng.choice((1, 1, 2, min(3, len(teams)), rng.randint(1, len(teams)))) % (len(teams) + 1)):
        group = group_of[team["code"]]
        if rng.random() < 0.05:
            group = rng.choice(list(free))
        position = 1 if team["pot"] == 1 else (free[group] and free[group].pop())
        if position:
            places.append({"code": team["code"], "group": group, "position": position})
    return [place for at, place in enumerate(places) if not clashes(place, places[:at])]


def clashes(place, before):
    return any((place["group"], place["position"]) == (other["group"], other["position"]) for other in before)


# ---- damage

VALUES = (None, True, 0, 1, 2, 3, 4, 5, 9, 64, 65, -1, 2.0, 1e3, 2**32 + 1, 2**64, "", "A", "B", "I", "AB", "a", "AAA",
          "T0", "T1", "WWWWWWWWWWWWWWWWW", [], ["X"], ["X", "X"], ["T0", "T0"], ["X", "Y", "Z"], [["W00", "R00"]],
          [["W00", "W00"]], [["W00"]], {}, {"kind": "pairing"}, "group", "pairing", "league")
MEMBERS = ("kind", "groups", "pots", "teams", "limits", "pairs", "places", "code", "name", "pot", "tags", "group", "tag",
           "lo", "hi", "position")
LISTS = ("teams", "limits", "pairs", "places")


def objects_of(head):
    """The head and the objects in its lists."""
    lists = [head[name] for name in LISTS if isinstance(head.get(name), list)]
    return [head] + [item for items in lists for item in items if isinstance(item, dict)]


def damage(rng, head):
    """One or two faults somewhere in a head, or what might be one."""
    for _ in range(rng.choice((1, 1, 2))):
        rng.choice((drop, put, put, put, add, repeat, nearly, nearly, nearly))(rng, head)
    return head


def drop(rng, head):
    target = rng.choice(objects_of(head)) if rng.random() < 0.7 else head
    target.pop(rng.choice(list(target) or ["kind"]), None)


def put(rng, head):
    target = rng.choice(objects_of(head)) if rng.random() < 0.7 else head
    target[rng.choice(list(target) or ["kind"]) if rng.random() < 0.9 else rng.choice(MEMBERS)] = rng.choice(VALUES)


def add(rng, head):
    """Another item in a list, of any form or of one that the list has."""
    name = rng.choice(LISTS)
    items = head.setdefault(name, [])
    if isinstance(items, list):
        item = rng.choice(items) if items and rng.random() < 0.5 else rng.choice(VALUES)
        items.insert(rng.randint(0, len(items)), dict(item) if isinstance(item, dict) else item)


def repeat(rng, head):
    """A list about as long as it may be."""
    name, about = rng.choice((("teams", 40), ("limits", 16), ("pairs", 64), ("places", 40), ("places", 32)))
    items = head.setdefault(name, [["W00", "R00"]] if name == "pairs" else [])
    if isinstance(items, list) and items:
        number = about + rng.randint(-1, 2)
        head[name] = [dict(item) if isinstance(item, dict) else item for item in (items * number)[:number]]
        if name == "limits":
            for at, item in enumerate(head[name]):
                if isinstance(item, dict):
                    item["tag"] = f"T{at}"


def nearly(rng, head):
    """One number, code, tag or letter that is not quite right."""
    target = rng.choice(objects_of(head))
    name = rng.choice(list(target) or ["kind"])
    value = target.get(name)
    if isinstance(value, int):
        target[name] = value + rng.choice((-1, 1))
    elif isinstance(value, str) and value:
        codes = [item["code"] for item in objects_of(head) if isinstance(item.get("code"), str)]
        target[name] = rng.choice((value.lower(), value[:-1], value + "X", chr(ord(value[0]) + 1) + value[1:], *codes[:1]))
    elif name in ("tags", "pairs") and isinstance(value, list) and value and value[0] and isinstance(value[0], (str, list)):
        target[name] = rng.choice((value + value, value[:1] + ["T9"], [value[0]], [value[0][::-1]], [[value[0][0]] * 2]))
