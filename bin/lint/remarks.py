"""What looks like a mistake in a draw file and is none by the rules. That nothing is noticed does not
make a file right."""

import collections
import difflib
import itertools

# What an editor or a person may put there on purpose.
ALLOWED = ("$schema",)


def of(file):
    """Where something is noticed, and what."""
    yield from ignored_members(file)
    yield from repeated_members(file)
    yield from tags_alike(file)
    yield from pairs(file)
    if file.kind == "pairing":
        yield from letters(file)
    else:
        yield from limits(file)
        yield from places(file)


def all_objects(file):
    return [(name, at, item) for name in file.members for at, item in file.objects(name)]


def ignored_members(file):
    """Members that the programs do not look at, each name told once for each list."""
    seen = collections.Counter()
    first = {}
    for name, _, item in all_objects(file):
        needed, others = file.members[name]
        for at, member in {member: (at, member) for at, member in item.names}.values():
            if member not in needed + others + ALLOWED:
                seen[name, member] += 1
                first.setdefault((name, member), (at, needed + others))
    for (name, member), number in seen.items():
        at, known = first[name, member]
        where = f" (so in {number} of the {name})" if number > 1 else ""
        yield at, f'the member "{member}" is ignored{where}{what_instead(member, known, file, name)}'


def what_instead(member, known, file, name):
    """What may be meant by a member that is ignored."""
    by_lower = {other.lower(): other for other in known}
    near = difflib.get_close_matches(member.lower(), by_lower, 1, 0.6)
    if near:
        return f'; do you mean "{by_lower[near[0]]}"?'
    if member in ("groups", "pots", "limits", "places", "group"):
        return f"; a {file.kind} draw has no such member" if file.kind == "group" else "; a pairing has no such member"
    return f"; {'the file' if not name else f'each of the {name}'} has {', '.join(known)}"


def repeated_members(file):
    for name, at, item in all_objects(file):
        before = {}
        for place, member in item.names:
            if member in before:
                yield place, f'{file.who(name, at, item)} has "{member}" twice; the last one counts'
            before[member] = place


# ---- tags


def is_near(one, other):
    """Whether two texts differ by one character more, less or other, and not in all that they have."""
    if len(one) > len(other):
        one, other = other, one
    if len(one) == len(other):
        return len(one) > 1 and sum(a != b for a, b in zip(one, other)) == 1
    return len(other) == len(one) + 1 and any(other[:at] + other[at + 1 :] == one for at in range(len(other)))


def holders(file):
    """By tag how many teams hold it, and where it stands first."""
    numbers, first = collections.Counter(), {}
    for _, team in file.objects("teams"):
        for tag in team.get("tags").value:
            numbers[tag.value] += 1
            first.setdefault(tag.value, tag.at)
    for _, limit in file.objects("limits"):
        numbers[limit.get("tag").value] += 0
        first.setdefault(limit.get("tag").value, limit.get("tag").at)
    return numbers, first


def held(numbers, tag):
    return f"{tag} ({numbers[tag]} team{'' if numbers[tag] == 1 else 's'})"


def tags_alike(file):
    """Tags that differ by one character from another; those that hang together are told at once."""
    numbers, first = holders(file)
    near = {tag: [other for other in numbers if is_near(tag, other)] for tag in numbers}
    left = [tag for tag in numbers if near[tag]]
    while left:
        together = [left.pop(0)]
        for tag in together:
            together += [other for other in near[tag] if other in left]
            left = [other for other in left if other not in together]
        least = min(together, key=lambda tag: numbers[tag])
        names = " beside ".join(held(numbers, tag) for tag in together)
        yield first[least], f"tags that differ by one character: {names}; for the programs they have nothing in common"


# ---- pairs, letters, limits, places


def pairs(file):
    pot_of = {team.get("code").value: team.get("pot").value for _, team in file.objects("teams")}
    before = set()
    for node in file.items("pairs"):
        one, other = (code.value for code in node.value)
        if pot_of[one] == pot_of[other]:
            yield node.at, f"{one} and {other} are both of pot {pot_of[one]} and never meet anyway"
        if frozenset((one, other)) in before:
            yield node.at, f"the pair of {one} and {other} stands twice"
        before.add(frozenset((one, other)))


def letters(file):
    by_pot = {1: {}, 2: {}}
    for _, team in file.objects("teams"):
        letter, pot = team.get("group"), team.get("pot").value
        other = by_pot[pot].setdefault(letter.value, team)
        if other is not team:
            codes = f"{other.get('code').value} and {team.get('code').value}"
            yield letter.at, f"{codes}, both of pot {pot}, come from one first-round group, {letter.value}"
    for pot, teams in by_pot.items():
        for letter, team in teams.items():
            if letter not in by_pot[3 - pot]:
                code = team.get("code").value
                yield team.get("group").at, f"{code} is of pot {pot} and group {letter}, of which pot {3 - pot} has no team"


def limits(file):
    """Limits that nobody can reach, or nobody can keep."""
    groups = file.head.get("groups").value
    for _, limit in file.objects("limits"):
        tag, lo, hi = map(limit.get, ("tag", "lo", "hi"))
        pots = pots_with(file, tag.value)
        reach = len(set(pots))
        if not pots:
            yield tag.at, f"no team has the tag {tag.value}, so {'no table is legal' if lo.value else 'its limit says nothing'}"
            continue
        cannot = f"of {tag.value} each cannot be: {counted(pots)}, so no table is legal"
        if lo.value > reach or lo.value * groups > len(pots):
            yield lo.at, f"{groups} groups with at least {lo.value} {cannot}"
        elif hi.value * groups < len(pots):
            yield hi.at, f"{groups} groups with at most {hi.value} {cannot}"
        if hi.value > reach:
            yield hi.at, f"no group can reach {hi.value} of {tag.value}: {counted(pots)}, so this upper limit says nothing"


def pots_with(file, tag):
    """The pots of the teams that hold a tag, each as often as it has such teams."""
    teams = [team for _, team in file.objects("teams")]
    return [team.get("pot").value for team in teams if tag in [held.value for held in team.get("tags").value]]


def counted(pots):
    number = f"{len(pots)} team{' has' if len(pots) == 1 else 's have'} it"
    return f"{number}, in {len(set(pots))} pot{'' if len(set(pots)) == 1 else 's'}"


def places(file):
    """Fixed places that no table can keep together."""
    forbidden = {frozenset(code.value for code in node.value) for node in file.items("pairs")}
    pot_of = {team.get("code").value: team.get("pot").value for _, team in file.objects("teams")}
    for (_, one), (_, other) in itertools.combinations(file.objects("places"), 2):
        first, second = one.get("code").value, other.get("code").value
        if one.get("group").value != other.get("group").value:
            continue
        both = f"{first} and {second} have places in one group and are"
        if pot_of[first] == pot_of[second]:
            yield other.at, f"{both} both of pot {pot_of[first]}, so no table is legal"
        if frozenset((first, second)) in forbidden:
            yield other.at, f"{both} a forbidden pair, so no table is legal"
