"""Group draws: their tables, offers and verdicts.

What is possible is decided over whole tables. In small files every table is tried by the written
rules (`Trying`); in larger ones the groups are filled one after the other, a group with one team of
each pot, until all are full or no way is left (`Filling`). checks/reference_rows.py compares both.

A table maps each code to its group, counted from 0, and its position, counted from 1.
"""

import collections
import functools
import itertools
import math
import re

ITEM = re.compile(r"([A-Z])([1-9][0-9]?)\Z")
MOST_TRIED = 600


class File:
    """A draw file of a group draw."""

    def __init__(self, head):
        self.kind, self.teams, self.by_code, self.codes = head.kind, head.teams, head.by_code, head.codes
        self.groups, self.pots = range(head.groups), range(1, head.pots + 1)
        self.letters = [chr(ord("A") + group) for group in self.groups]
        self.teams_of_pot = {pot: head.pot(pot) for pot in self.pots}
        self.pot_of = {team["code"]: team["pot"] for team in head.teams}
        self.limits = [(limit["tag"], limit["lo"], limit["hi"]) for limit in head.limits]
        self.holders = {limit["tag"]: {t["code"] for t in head.teams if limit["tag"] in t["tags"]} for limit in head.limits}
        self.pairs = [tuple(pair) for pair in head.pairs]
        self.places = [(p["code"], self.letters.index(p["group"]), p["position"]) for p in head.places]

    def tables_to_try(self):
        """How many tables give each group one team of each pot, and position 1 to pot 1."""
        teams = math.factorial(len(self.groups)) ** len(self.pots)
        return teams * math.factorial(len(self.pots) - 1) ** len(self.groups)

    @functools.cached_property
    def decider(self):
        return Trying(self) if self.tables_to_try() <= MOST_TRIED else Filling(self)

    def any_legal_table(self, rng):
        """A legal table, or none."""
        group_of = Filling(self).groups_with({}, rng)
        if group_of is None:
            return None
        table = {code: (group, place) for code, group, place in self.places}
        for group in self.groups:
            free = [p for p in self.pots if p > 1 and (group, p) not in table.values()]
            rng.shuffle(free)
            for code in (code for code in self.codes if group_of[code] == group and code not in table):
                table[code] = (group, 1 if self.pot_of[code] == 1 else free.pop())
        return table

    def read_table(self, line):
        """The table that a text gives, or none where it is no table."""
        items = [ITEM.match(item) for item in line.decode("latin-1").split(" ")]
        if len(items) != len(self.codes) or not all(items):
            return None
        places = [(ord(item[1]) - ord("A"), int(item[2])) for item in items]
        if not all(group in self.groups and position in self.pots for group, position in places):
            return None
        return dict(zip(self.codes, places))

    def table_text(self, table):
        return " ".join(self.letters[group] + str(position) for group, position in map(table.get, self.codes))

    def first_broken(self, table):
        """The first case of the first rule that a table breaks, or none."""
        return next(broken_cases(self, table), None)


def broken_cases(file, table):
    """The cases in which a table breaks a rule, in the order in which they are told."""
    members = {group: [code for code in file.codes if table[code][0] == group] for group in file.groups}
    for number, (code, group, position) in enumerate(file.places):
        if table[code] != (group, position):
            yield 1, number, 0
    for group in file.groups:
        for pot in file.pots:
            if sum(file.pot_of[code] == pot for code in members[group]) != 1:
                yield 2, group, pot
    for group in file.groups:
        for number, (tag, lo, hi) in enumerate(file.limits):
            if not lo <= sum(tag in file.by_code[code]["tags"] for code in members[group]) <= hi:
                yield 3, group, number
    for number, (one, other) in enumerate(file.pairs):
        if table[one][0] == table[other][0]:
            yield 4, number, table[one][0]
    for group in file.groups:
        for position in file.pots:
            holders = [code for code in members[group] if table[code][1] == position]
            if len(holders) != 1 or (position == 1 and file.pot_of[holders[0]] != 1):
                yield 5, group, position


class Trying:
    """Decides by the list of all legal tables."""

    def __init__(self, file):
        self.tables = [table for table in self.candidates(file) if file.first_broken(table) is None]

    @staticmethod
    def candidates(file):
        """Every table that gives each group one team of each pot, and position 1 to that of pot 1."""
        orders = list(itertools.permutations(range(2, len(file.pots) + 1)))
        for teams in itertools.product(*(itertools.permutations(file.teams_of_pot[pot]) for pot in file.pots)):
            for positions in itertools.product(orders, repeat=len(file.groups)):
                yield {
                    teams[pot - 1][group]: (group, 1 if pot == 1 else positions[group][pot - 2])
                    for pot in file.pots
                    for group in file.groups
                }

    def is_completable(self, placed, positioned):
        return any(
            all(table[code][0] == group for code, group in placed.items())
            and all(table[code][1] == position for code, position in positioned.items())
            for table in self.tables
        )


class Filling:
    """Decides by filling the groups one after the other."""

    def __init__(self, file):
        self.file = file
        self.found = []
        self.answers = {}
        self.partners = collections.defaultdict(set)
        for one, other in file.pairs:
            self.partners[one].add(other)
            self.partners[other].add(one)

    def is_completable(self, placed, positioned):
        return self.have_room(placed, positioned) and self.have_groups(placed)

    def have_room(self, placed, positioned):
        """Whether no two teams of a group want one position, and none wants two. Who has no wish can
        then take any position that is left."""
        wishes = {(code, placed[code], position) for code, position in positioned.items()} | set(self.file.places)
        return len({code for code, _, _ in wishes}) == len(wishes) == len({wish[1:] for wish in wishes})

    def have_groups(self, placed):
        """Whether there are groups for all teams that keep rules 1 to 4, with these teams as they stand."""
        question = frozenset(placed.items())
        if question not in self.answers:
            groups = next((groups for groups in self.found if question <= groups.items()), None)
            groups = groups or self.groups_with(placed)
            if groups:
                self.found.append(groups)
            self.answers[question] = groups is not None
        return self.answers[question]

    def groups_with(self, placed, rng=None):
        """Groups for all teams, so that rules 1 to 4 hold and these teams stand there; or none."""
        home = dict(placed)
        for code, group, _ in self.file.places:
            if home.setdefault(code, group) != group:
                return None
        if len({(group, self.file.pot_of[code]) for code, group in home.items()}) < len(home):
            return None
        numbers = collections.Counter(home.values())
        order = sorted(self.file.groups, key=lambda group: -numbers[group])
        return Groups(self.file, self.partners, home, rng).fill(order, frozenset(self.file.codes))


class Groups:
    """One search for the groups of all teams, where those in `home` have theirs."""

    def __init__(self, file, partners, home, rng):
        self.file, self.partners, self.home, self.rng = file, partners, home, rng
        self.failed = set()
        self.kind = {code: self.kind_of(code) for code in file.codes}

    def kind_of(self, code):
        """What tells a team from others of its pot: two of one kind can change places in any table."""
        tags = frozenset(self.file.by_code[code]["tags"])
        return self.file.pot_of[code], tags, frozenset(self.partners[code]), self.home.get(code)

    def fill(self, order, left):
        """The groups of the teams that are left, in the groups of this order; or none. `failed` has what
        was left where no way was found, by the teams' kinds."""
        if not order:
            return {}
        kinds = frozenset(collections.Counter(map(self.kind.get, left)).items())
        if kinds in self.failed or not self.can_share(left, len(order)):
            return None
        for chosen in self.choices(order[0], left):
            rest = self.fill(order[1:], left - set(chosen))
            if rest is not None:
                return rest | {code: order[0] for code in chosen}
        self.failed.add(kinds)
        return None

    def can_share(self, left, groups):
        """Whether so many groups want no more holders of a tag than are left, and have room for all."""
        return all(lo * groups <= self.number_of(tag, left) <= hi * groups for tag, lo, hi in self.file.limits)

    def choices(self, group, left):
        """Lists of one team of each pot that may stand in a group together, one list of each kind."""
        by_pot = []
        for pot in self.file.pots:
            there = [code for code in self.file.teams_of_pot[pot] if self.home.get(code) == group]
            free = [code for code in self.file.teams_of_pot[pot] if code in left and code not in self.home]
            if self.rng:
                self.rng.shuffle(free)
            by_pot.append(there or list({self.kind[code]: code for code in free}.values()))
        yield from self.extended([], by_pot)

    def extended(self, chosen, by_pot):
        if len(chosen) == len(by_pot):
            if all(self.number_of(tag, chosen) >= lo for tag, lo, _ in self.file.limits):
                yield chosen
            return
        for code in by_pot[len(chosen)]:
            longer = [*chosen, code]
            if self.partners[code].isdisjoint(chosen) and all(
                self.number_of(tag, longer) <= hi for tag, _, hi in self.file.limits
            ):
                yield from self.extended(longer, by_pot)

    def number_of(self, tag, codes):
        return len(self.file.holders[tag].intersection(codes))


class State:
    """A file with its placed teams and their positions, in the order of the balls."""

    def __init__(self, file):
        self.file, self.placed, self.positioned = file, {}, {}

    def is_completable(self, placed, positioned):
        return self.file.decider.is_completable(self.placed | placed, self.positioned | positioned)

    def waiting(self):
        """The team that waits for its position, or none."""
        last = next(reversed(self.placed), None)
        return last if last and self.file.pot_of[last] > 1 and last not in self.positioned else None

    def phase(self):
        if self.waiting():
            return "position"
        return "team" if len(self.placed) < len(self.file.codes) else "complete"

    def names(self, word):
        """Whether a ball's word is a team's code or a position."""
        return word in self.file.by_code or (len(word) < 3 and int(word) in self.file.pots)

    def undrawn(self):
        """The lowest pot with undrawn teams, and these."""
        for pot in self.file.pots:
            teams = [code for code in self.file.teams_of_pot[pot] if code not in self.placed]
            if teams:
                return pot, teams
        return None, []

    def candidates(self):
        if self.phase() == "position":
            return [str(position) for position in self.file.pots if position > 1]
        return self.undrawn()[1]

    def offer(self):
        if self.phase() == "position":
            return [p for p in self.candidates() if self.is_completable({}, {self.waiting(): int(p)})]
        return self.candidates() if self.is_completable({}, {}) else []

    def prompt(self):
        """What the next line asks for."""
        return f"position {self.waiting()}" if self.waiting() else f"team pot {self.undrawn()[0]}"

    def free_groups(self, pot):
        """The groups without a placed team of a pot."""
        taken = {group for code, group in self.placed.items() if self.file.pot_of[code] == pot}
        return [group for group in self.file.groups if group not in taken]

    def take(self, word):
        """Adds an offered ball and tells its line. A team goes to the first possible group."""
        if self.phase() == "position":
            code = self.waiting()
            self.positioned[code] = int(word)
            return f"stands {code} {self.file.letters[self.placed[code]]}{word}"
        free = self.free_groups(self.file.pot_of[word])
        group = next(group for group in free if self.is_completable({word: group}, {}))
        self.placed[word] = group
        return f"placed {word} {self.file.letters[group]}"
