"""The faults of a draw file, each with its place and how it may have come about.

A stage has the faults that can be told at once: absent members; members of another form; numbers past
their limits; and what is looked at when all that is right. Within a stage the first is the one that the programs
tell.
"""

import difflib
import re

import remarks
from places import NotJson, Reader, head_of, line_and_column, read_text

LONGEST = 4_194_304
CODE = re.compile(r"[A-Z0-9]{3}\Z")
TAG = re.compile(r"[A-Z0-9]{1,16}\Z")
TAG_FORM = "1 to 16 characters A to Z or 0 to 9"
LETTER = re.compile(r"[A-Z]\Z")
KINDS = ("pairing", "group")
KNOWN = (*KINDS, "league")

# The members of a head and of the objects in its lists: those that are needed, and the others.
MEMBERS = {
    "pairing": {
        "": (("teams",), ("kind", "pairs")),
        "teams": (("code", "pot", "tags", "group"), ("name",)),
    },
    "group": {
        "": (("groups", "pots", "teams"), ("kind", "limits", "pairs", "places")),
        "teams": (("code", "pot", "tags"), ("name",)),
        "limits": (("tag", "lo", "hi"), ()),
        "places": (("code", "group", "position"), ()),
    },
}
MOST = {"groups": 8, "pots": 4, "teams": 40, "limits": 16, "pairs": 64, "places": 40}


def like(word, words):
    """The one of the words that is most like this one, as a question; or nothing."""
    by_lower = {other.lower(): other for other in words}
    found = difflib.get_close_matches(word.lower(), by_lower, 1, 0.6)
    return f"; do you mean {by_lower[found[0]]}?" if found and by_lower[found[0]] != word else ""


class File:
    """A head whose value is an object of a known kind. What a list has is looked at where it is one."""

    def __init__(self, head, kind):
        self.head, self.kind = head, kind
        self.members = MEMBERS[kind]
        self.pots = head.get("pots").value if kind == "group" and "pots" in head.value else 2

    def items(self, name):
        """The items of a list of the head."""
        node = self.head.get(name) if name in self.names() else None
        return node.value if node and node.is_list() else []

    def objects(self, name):
        """Each object in a list of the head, with its number there; the head itself for no name."""
        return [(at, item) for at, item in enumerate(self.items(name)) if item.is_object()] if name else [(0, self.head)]

    def names(self):
        needed, others = self.members[""]
        return needed + others

    def who(self, name, at, item):
        """An object of a list, for a message."""
        if not name:
            return "the file"
        mark = item.get("tag" if name == "limits" else "code")
        mark = f" {mark.value}" if mark and mark.is_text() else ""
        return f"the {name[:-1]}{mark} ({name} {at}, counted from 0)"


# ---- an absent member


def missing(file):
    for name, (needed, others) in file.members.items():
        for at, item in file.objects(name):
            for member in (member for member in needed if member not in item.value):
                unknown = [other for _, other in item.names if other not in needed + others]
                why = f'{file.who(name, at, item)} has no "{member}"{like(member, unknown)}'
                yield f"4 FieldMissing {member}", item.at, why


# ---- a member of another form


def wrong(file):
    for name in ("groups", "pots") if file.kind == "group" else ():
        yield from number(file, "", 0, file.head, name, 1, 2**64 - 1)
    yield from wrong_list(file, "teams", "objects")
    for at, team in file.objects("teams"):
        yield from wrong_team(file, at, team)
    if file.kind == "group":
        yield from wrong_list(file, "limits", "objects")
        yield from wrong_limits(file)
    yield from wrong_list(file, "pairs", "pairs of codes")
    if file.kind == "group":
        yield from wrong_list(file, "places", "objects")
        for at, place in file.objects("places"):
            yield from text(file, "places", at, place, "code", None, "a text")
            yield from text(file, "places", at, place, "group", LETTER, "one letter A to Z")
            yield from number(file, "places", at, place, "position", 1, 2**64 - 1)


def told(file, name, at, item, member, wanted):
    """A member of an object that is not as it has to be."""
    node = item.get(member)
    why = f'{file.who(name, at, item)} has {node.words()} as "{member}"; it has to be {wanted}'
    return f"5 FieldWrong {member}", node.at, why


def number(file, name, at, item, member, least, most):
    if not item.get(member).is_whole(least, most):
        range_ = f"from {least} to {most}" if most < 2**64 - 1 else f"and at least {least}"
        yield told(file, name, at, item, member, f"a whole number {range_}, of digits alone")


def text(file, name, at, item, member, form, wanted):
    node = item.get(member)
    if not (node.is_text() and (not form or form.match(node.value))):
        yield told(file, name, at, item, member, wanted)


def wrong_list(file, name, of):
    node = file.head.value.get(name)
    if node is None:
        return
    if not node.is_list():
        yield f"5 FieldWrong {name}", node.at, f'"{name}" is {node.words()}; it has to be a list of {of}'
        return
    for item in node.value:
        is_pair = item.is_list() and len(item.value) == 2 and all(code.is_text() for code in item.value)
        if not (is_pair if name == "pairs" else item.is_object()):
            yield f"5 FieldWrong {name}", item.at, f'"{name}" is a list of {of}, and this is {item.words()}'


def wrong_team(file, at, team):
    yield from text(file, "teams", at, team, "code", None, "a text")
    if "name" in team.value:
        yield from text(file, "teams", at, team, "name", None, "a text")
    pots = file.pots if type(file.pots) is int and file.pots > 0 else 2**64 - 1
    yield from number(file, "teams", at, team, "pot", 1, pots)
    yield from wrong_tags(file, at, team)
    if file.kind == "pairing":
        yield from text(file, "teams", at, team, "group", LETTER, "one letter A to Z")


def is_tag(node):
    return node.is_text() and bool(TAG.match(node.value))


def wrong_tags(file, at, team):
    tags, who = team.get("tags"), file.who("teams", at, team)
    if not tags.is_list() or len(tags.value) not in (1, 2):
        yield told(file, "teams", at, team, "tags", "a list of one tag or two")
    elif not all(is_tag(tag) for tag in tags.value):
        bad = next(tag for tag in tags.value if not is_tag(tag))
        yield "5 FieldWrong tags", bad.at, f"{who} has {bad.words()} for a tag, which is {TAG_FORM}"
    elif len({tag.value for tag in tags.value}) < len(tags.value):
        yield "5 FieldWrong tags", tags.at, f"{who} has one tag twice"


def wrong_limits(file):
    seen = set()
    for at, limit in file.objects("limits"):
        tag, lo, hi = map(limit.get, ("tag", "lo", "hi"))
        if not is_tag(tag):
            yield told(file, "limits", at, limit, "tag", TAG_FORM)
        elif tag.value in seen:
            yield "5 FieldWrong tag", tag.at, f"{file.who('limits', at, limit)} names a tag that a limit before it names"
        yield from number(file, "limits", at, limit, "lo", 0, 64)
        if hi.is_whole(0, 64) and lo.is_whole(0) and hi.value < lo.value:
            yield told(file, "limits", at, limit, "hi", f'at least its "lo", {lo.value}')
        else:
            yield from number(file, "limits", at, limit, "hi", 0, 64)
        seen.add(tag.value if tag.is_text() else None)


# ---- what is looked at when all members have their forms


def late(file):
    """The faults of numbers 7 to 12."""
    for check in (bad_codes, same_codes, pot_sizes, unknown_tags, bad_pairs, bad_places):
        yield from check(file)


def too_many(file):
    for name, most in MOST.items():
        node = file.head.get(name) if name in file.names() else None
        value = 0 if node is None else len(node.value) if node.is_list() else node.value
        if value > most:
            yield f"6 TooMany {name} {value}", node.at, f'"{name}" is past its limit, {most}'


def bad_codes(file):
    for at, team in file.objects("teams"):
        code = team.get("code")
        if not CODE.match(code.value):
            yield f"7 BadCode {at}", code.at, f"{file.who('teams', at, team)}: a code is three characters A to Z or 0 to 9"


def codes_of(file):
    return [team.get("code").value for _, team in file.objects("teams")]


def same_codes(file):
    codes = codes_of(file)
    for at, team in file.objects("teams"):
        code = team.get("code")
        if code.value in codes[:at]:
            why = f"{file.who('teams', at, team)}: teams {codes.index(code.value)} has this code already"
            yield f"8 SameCode {code.value}", code.at, why


def pot_sizes(file):
    in_pots = [team.get("pot").value for _, team in file.objects("teams")]
    sizes = [in_pots.count(pot) for pot in range(1, min(file.pots, 4) + 1)]
    wanted = file.head.get("groups").value if file.kind == "group" else sizes[0]
    why = f"there are {wanted} groups" if file.kind == "group" else f"pot 1 has {wanted}"
    if file.kind == "pairing" and wanted == 0:
        yield "9 PotSize 1 0", file.head.get("teams").at, "pot 1 has no team"
    for pot, size in enumerate(sizes, 1):
        if size != wanted:
            yield f"9 PotSize {pot} {size}", file.head.get("teams").at, f"pot {pot} has {size} teams, and {why}"


def unknown_tags(file):
    if file.kind != "group":
        return
    named = [limit.get("tag").value for _, limit in file.objects("limits")]
    for at, team in file.objects("teams"):
        for tag in (tag for tag in team.get("tags").value if tag.value not in named):
            why = f"{file.who('teams', at, team)}: no limit names {tag.value}{like(tag.value, named)}"
            yield f"10 UnknownTag {at}", tag.at, why


def bad_pairs(file):
    codes = codes_of(file)
    for at, pair in enumerate(file.items("pairs")):
        first, second = pair.value
        for code in (code for code in pair.value if code.value not in codes):
            yield f"11 BadPair {at}", code.at, f'no team has the code "{code.value}"{like(code.value, codes)}'
        if first.value == second.value:
            yield f"11 BadPair {at}", pair.at, f"{first.value} stands twice in this pair"


def bad_places(file):
    before = []
    for at, place in file.objects("places"):
        for why in why_no_place(file, place, before):
            yield f"12 BadPlace {at}", place.at, f"{file.who('places', at, place)}: {why}"
        before.append(tuple(place.get(name).value for name in ("code", "group", "position")))


def why_no_place(file, place, before):
    """What is wrong of a place, after those before it."""
    code, group, position = (place.get(name).value for name in ("code", "group", "position"))
    groups, codes = file.head.get("groups").value, codes_of(file)
    if code not in codes:
        yield f"no team has this code{like(code, codes)}"
    if ord(group) - ord("A") >= groups:
        yield f"there are {groups} groups, and no {group}"
    if position > file.pots:
        yield f"there are {file.pots} positions"
    elif code in codes:
        pot = file.objects("teams")[codes.index(code)][1].get("pot").value
        if (position == 1) != (pot == 1):
            yield "position 1 is for teams of pot 1" if position == 1 else "a team of pot 1 has position 1"
    if any(code == other for other, _, _ in before):
        yield "the team has a place already"
    if any((group, position) == other[1:] for other in before):
        yield f"{group}{position} is taken already"


# ---- a whole file


def kind_fault(head, built):
    """What is wrong of the kind, as a fault; or none."""
    if not head.is_object():
        return "2 NotObject", head.at, f"this is {head.words()}; a draw file is one object, in {{ }}"
    if "kind" not in head.value:
        return "4 FieldMissing kind", head.at, 'the file has no "kind"' + like("kind", [name for _, name in head.names])
    kind = head.get("kind")
    if not kind.is_text():
        return "5 FieldWrong kind", kind.at, f"the kind is {kind.words()}; it has to be a text"
    if kind.value in built:
        return None
    if kind.value in KNOWN:
        return "14 KindNotBuilt", kind.at, f"today's programs do not draw this kind; they draw: {', '.join(built)}"
    instead = like(kind.value, KINDS) or f"; the kinds are {', '.join(KINDS)}"
    return "3 KindUnknown", kind.at, f'there is no kind "{kind.value}"{instead}'


def first_stage(file):
    """The faults of the first stage that has some."""
    for stage in (missing, wrong, too_many, late):
        found = list(stage(file))
        if found:
            return found
    return []


def findings(head, built):
    """The faults of a value; and what else is noticed, where the programs take it or, but for its kind,
    will do so."""
    fault = kind_fault(head, built)
    if fault and not (fault[0] == "14 KindNotBuilt" and head.get("kind").value in KINDS):
        return [fault], []
    file = File(head, head.get("kind").value)
    found = first_stage(file)
    noticed = [] if found else sorted(remarks.of(file))
    if fault:
        return [fault], [(at, f"for later programs: {why}") for _, at, why in found] + noticed
    return found, noticed


def lint(data, built):
    """The line with which the programs refuse a file, or none; and notes, with line and column."""
    if len(data) > LONGEST:
        return f"more than {LONGEST} bytes are not taken (status 6)", []
    head = head_of(data)
    text_of_head = head.decode("utf-8", "replace")
    try:
        found, noticed = findings(Reader(read_text(head)).whole(), built)
    except NotJson as fault:
        found, noticed = [("1 NotJson", fault.at, fault.why)], []
    if not found and head == data and not data.endswith(b"\n"):
        noticed.append((len(text_of_head), "the last line is not ended; put together with balls, the -- would stand on it"))
    notes = [(at, f"{line.partition(' ')[2]}: {why}") for line, at, why in found] + noticed
    refusal = f"file refused {found[0][0]}" if found else None
    return refusal, [(*line_and_column(text_of_head, at), note) for at, note in notes]
