"""Heads of draw files, read and refused without the programs' methods.

The faults stand in the order of their numbers, each over the whole head; which members a kind has
stands in tables. Nothing is shared with the proved program but the rules in docs/DEFINITIONS.md.
"""

import json
import re

KINDS = ("pairing", "group")
KNOWN_KINDS = (*KINDS, "league")
CODE = re.compile(r"[A-Z0-9]{3}\Z")
TAG = re.compile(r"[A-Z0-9]{1,16}\Z")
LETTER = re.compile(r"[A-Z]\Z")

# What a head needs, and then each object in a list, in the order in which an absent member is told.
NEEDED = {
    "pairing": {"": ("teams",), "teams": ("code", "pot", "tags", "group")},
    "group": {
        "": ("groups", "pots", "teams"),
        "teams": ("code", "pot", "tags"),
        "limits": ("tag", "lo", "hi"),
        "places": ("code", "group", "position"),
    },
}
MOST = {"groups": 8, "pots": 4, "teams": 40, "limits": 16, "pairs": 64, "places": 40}
MOST_OF_KIND = {"pairing": ("teams", "pairs"), "group": tuple(MOST)}
LARGEST_BOUND = 64


class Refused(Exception):
    """A head without a draw file; the text is what follows `file refused `."""


class WholeNumber(int):
    """A number that stands without a point or an exponent."""


# ---- one JSON value


def read_json(head):
    """One JSON value, or NotJson; the last of repeated members counts."""
    try:
        text = head.decode("utf-8")
    except UnicodeDecodeError:
        raise Refused("1 NotJson") from None
    if text.startswith("\ufeff"):
        raise Refused("1 NotJson")

    def constant(_):
        raise ValueError

    depth = deepest(text)
    try:
        value = json.loads(text, parse_int=whole_number, parse_float=fraction, parse_constant=constant)
    except (ValueError, RecursionError):
        raise Refused("1 NotJson") from None
    if depth > 127 or has_bad_text(text):
        raise Refused("1 NotJson")
    return value


def fraction(digits):
    """A number as a float; one that is too large for a float is not read."""
    number = float(digits)
    if number in (float("inf"), float("-inf")):
        raise ValueError(digits)
    return number


def whole_number(digits):
    """An unsigned 64-bit number as such; anything else as a fraction."""
    if digits.startswith("-") or len(digits) > 20 or int(digits) >= 2**64:
        return fraction(digits)
    return WholeNumber(int(digits))


def deepest(text):
    """How deep lists and objects nest, outside of texts."""
    depth = most = 0
    inside = escaped = False
    for letter in text:
        if inside:
            if escaped:
                escaped = False
            elif letter == "\\":
                escaped = True
            elif letter == '"':
                inside = False
        elif letter == '"':
            inside = True
        elif letter in "[{":
            depth += 1
            most = max(most, depth)
        elif letter in "]}":
            depth -= 1
    return most


def has_bad_text(text):
    """Whether a lone surrogate stands in an escape, which is no text."""
    return any(
        0xD800 <= ord(letter) < 0xE000
        for piece in re.findall(r'"(?:[^"\\]|\\.)*"', text, re.S)
        for letter in json.loads(piece, strict=False)
    )


# ---- members that are absent or of another form


def is_number(value, least, most=2**64 - 1):
    return isinstance(value, WholeNumber) and least <= value <= most


def is_text(value, form):
    return isinstance(value, str) and bool(form.match(value))


def is_list_of(value, kind):
    return isinstance(value, list) and all(isinstance(item, kind) for item in value)


def missing_members(head, kind):
    """The needed members that are absent, in the order in which they are looked for."""
    for place, names in NEEDED[kind].items():
        items = head.get(place, []) if place else [head]
        for item in items if isinstance(items, list) else []:
            if isinstance(item, dict):
                yield from (name for name in names if name not in item)


def wrong_members(head, kind):
    """The members of another form or range, in the order in which they are looked for. After the first
    nothing is certain of what follows, so only the first may be asked for."""
    if kind == "group":
        yield from (name for name in ("groups", "pots") if not is_number(head[name], 1))
    if not is_list_of(head["teams"], dict):
        yield "teams"
    for team in head["teams"]:
        yield from wrong_in_team(team, kind, head["pots"] if kind == "group" else 2)
    if kind == "group":
        yield from wrong_limits(head.get("limits", []))
    pairs = head.get("pairs", [])
    if not (is_list_of(pairs, list) and all(len(pair) == 2 and is_list_of(pair, str) for pair in pairs)):
        yield "pairs"
    if kind == "group":
        yield from wrong_places(head.get("places", []))


def wrong_in_team(team, kind, pots):
    tags = team["tags"]
    if not isinstance(team["code"], str):
        yield "code"
    if not isinstance(team.get("name", ""), str):
        yield "name"
    if not is_number(team["pot"], 1, pots):
        yield "pot"
    if not (isinstance(tags, list) and len(tags) in (1, 2) and all(is_text(tag, TAG) for tag in tags)):
        yield "tags"
    elif len(set(tags)) < len(tags):
        yield "tags"
    if kind == "pairing" and not is_text(team["group"], LETTER):
        yield "group"


def wrong_limits(limits):
    if not is_list_of(limits, dict):
        yield "limits"
    seen = set()
    for limit in limits:
        if not is_text(limit["tag"], TAG) or limit["tag"] in seen:
            yield "tag"
        if not is_number(limit["lo"], 0, LARGEST_BOUND):
            yield "lo"
        if not is_number(limit["hi"], limit["lo"], LARGEST_BOUND):
            yield "hi"
        seen.add(limit["tag"])


def wrong_places(places):
    if not is_list_of(places, dict):
        yield "places"
    for place in places:
        if not isinstance(place["code"], str):
            yield "code"
        if not is_text(place["group"], LETTER):
            yield "group"
        if not is_number(place["position"], 1):
            yield "position"


# ---- a head whose members have their forms


class Head:
    """The members of a head in which each has its form, and the faults that are told after that."""

    def __init__(self, value, kind):
        self.kind = kind
        self.teams = value["teams"]
        self.groups = value["groups"] if kind == "group" else 0
        self.pots = value["pots"] if kind == "group" else 2
        self.limits = value.get("limits", []) if kind == "group" else []
        self.pairs = value.get("pairs", [])
        self.places = value.get("places", []) if kind == "group" else []
        self.codes = [team["code"] for team in self.teams]
        self.by_code = {team["code"]: team for team in self.teams}

    def pot(self, number):
        """The codes of a pot's teams, in file order."""
        return [team["code"] for team in self.teams if team["pot"] == number]

    def faults(self):
        """The faults of numbers 6 to 12, each kind in its order and told at its first case."""
        yield from self.too_many()
        yield from (f"7 BadCode {at}" for at, code in enumerate(self.codes) if not CODE.match(code))
        yield from (f"8 SameCode {code}" for at, code in enumerate(self.codes) if code in self.codes[:at])
        yield from self.wrong_pots()
        if self.kind == "group":
            named = {limit["tag"] for limit in self.limits}
            yield from (f"10 UnknownTag {at}" for at, team in enumerate(self.teams) if not set(team["tags"]) <= named)
        for at, (first, second) in enumerate(self.pairs):
            if first not in self.by_code or second not in self.by_code or first == second:
                yield f"11 BadPair {at}"
        yield from (f"12 BadPlace {at}" for at in range(len(self.places)) if self.is_bad_place(at))

    def too_many(self):
        for name in MOST_OF_KIND[self.kind]:
            value = getattr(self, name)
            number = value if isinstance(value, int) else len(value)
            if number > MOST[name]:
                yield f"6 TooMany {name} {number}"

    def wrong_pots(self):
        sizes = [len(self.pot(number + 1)) for number in range(self.pots)]
        if self.kind == "pairing" and sizes[0] == 0:
            yield "9 PotSize 1 0"
        wanted = self.groups if self.kind == "group" else sizes[0]
        yield from (f"9 PotSize {at + 1} {size}" for at, size in enumerate(sizes) if size != wanted)

    def is_bad_place(self, at):
        place, before = self.places[at], self.places[:at]
        if place["code"] not in self.by_code:
            return True
        is_first = self.by_code[place["code"]]["pot"] == 1
        return (
            ord(place["group"]) - ord("A") >= self.groups
            or place["position"] > self.pots
            or (place["position"] == 1) != is_first
            or any(place["code"] == other["code"] for other in before)
            or any((place["group"], place["position"]) == (other["group"], other["position"]) for other in before)
        )


def kind_of(value, built):
    """The kind of a head's value, where it is one of those that are built."""
    if not isinstance(value, dict):
        raise Refused("2 NotObject")
    if "kind" not in value:
        raise Refused("4 FieldMissing kind")
    kind = value["kind"]
    if not isinstance(kind, str):
        raise Refused("5 FieldWrong kind")
    if kind in built:
        return kind
    raise Refused("14 KindNotBuilt" if kind in KNOWN_KINDS else "3 KindUnknown")


def head_of(value, built):
    """The head of a JSON value, or its first fault."""
    kind = kind_of(value, built)
    for name in missing_members(value, kind):
        raise Refused(f"4 FieldMissing {name}")
    for name in wrong_members(value, kind):
        raise Refused(f"5 FieldWrong {name}")
    head = Head(value, kind)
    for fault in head.faults():
        raise Refused(fault)
    return head


def read_head(data, built):
    """The head of bytes, or its first fault."""
    return head_of(read_json(data), built)
