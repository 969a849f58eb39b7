"""Pairings: their tables, offers and verdicts.

What is possible is found by trying every one-to-one map from runners-up to winners; in files of more
than eight pairs by matching: opponents are given to the runners-up that are left, one after the other,
and where none is free those that were given one move along (augmenting paths). reference_rows.py
compares both ways on small files.
"""

import functools
import itertools

MOST_TRIED = 8


class File:
    """A draw file of a pairing."""

    def __init__(self, head):
        self.kind, self.teams, self.by_code = head.kind, head.teams, head.by_code
        self.winners, self.runners = head.pot(1), head.pot(2)
        self.place_of = {code: place for place, code in enumerate(head.codes)}
        self.forbidden = {frozenset(pair) for pair in head.pairs}

    def breaks(self, rule, runner, other):
        """Whether a runner-up with this opponent breaks a rule: 2 group, 3 tags, 4 forbidden pairs."""
        one, two = self.by_code[runner], self.by_code[other]
        if rule == 2:
            return one["group"] == two["group"]
        if rule == 3:
            return any(tag in two["tags"] for tag in one["tags"])
        return frozenset((runner, other)) in self.forbidden

    @functools.cached_property
    def allowed(self):
        """For each runner-up the winners that no rule forbids it, in file order."""
        return {
            runner: [w for w in self.winners if not any(self.breaks(rule, runner, w) for rule in (2, 3, 4))]
            for runner in self.runners
        }

    @functools.cached_property
    def way(self):
        """What decides whether pairs can be completed."""
        return Trying(self) if len(self.runners) <= MOST_TRIED else Matching(self)

    def any_legal_table(self, rng):
        """The codes of a legal table in file order of the runners-up, or none."""
        table = self.way.any_table(rng)
        return table and [table[runner] for runner in self.runners]

    def read_table(self, line):
        """The codes that a table's text gives, or none where it is no table."""
        table = line.decode("latin-1").split(" ")
        return table if len(table) == len(self.runners) and all(code in self.by_code for code in table) else None

    def first_broken(self, table):
        """The first case of the first rule that a table breaks, or none."""
        for winner in self.winners:
            times = table.count(winner)
            if times != 1:
                return 1, self.place_of[winner], times
        for rule in (2, 3, 4):
            for runner, other in zip(self.runners, table):
                if self.breaks(rule, runner, other):
                    return rule, self.place_of[runner], self.place_of[other]
        return None


class Trying:
    """Every legal table of a file, as maps from runners-up to winners."""

    def __init__(self, file):
        self.tables = [
            dict(zip(file.runners, winners))
            for winners in itertools.permutations(file.winners)
            if all(winner in file.allowed[runner] for runner, winner in zip(file.runners, winners))
        ]

    def is_completable(self, paired):
        """Whether some legal table has all these pairs."""
        return any(paired.items() <= table.items() for table in self.tables)

    def any_table(self, rng):
        return rng.choice(self.tables) if self.tables else None


class Matching:
    """Opponents for all runners-up of a file, given one after the other."""

    def __init__(self, file):
        self.file = file

    def is_completable(self, paired):
        """Whether some legal table has all these pairs."""
        kept = len(set(paired.values())) == len(paired) and all(w in self.file.allowed[r] for r, w in paired.items())
        return kept and self.matched(paired, self.file.runners) is not None

    def any_table(self, rng):
        return self.matched({}, rng.sample(self.file.runners, len(self.file.runners)))

    def matched(self, paired, order):
        """These pairs with an opponent for each other runner-up, or none."""
        runner_of = {winner: runner for runner, winner in paired.items()}
        fixed = set(runner_of)
        for runner in order:
            if runner not in paired and not self.is_given_one(runner, runner_of, set(fixed)):
                return None
        return {runner: winner for winner, runner in runner_of.items()}

    def is_given_one(self, runner, runner_of, seen):
        """Gives the runner-up an opponent that was not seen, where those that have one can move along."""
        for winner in self.file.allowed[runner]:
            if winner not in seen:
                seen.add(winner)
                if winner not in runner_of or self.is_given_one(runner_of[winner], runner_of, seen):
                    runner_of[winner] = runner
                    return True
        return False


class State:
    """A file with its drawn and paired teams."""

    def __init__(self, file):
        self.file, self.drawn, self.paired = file, [], {}

    def phase(self):
        if self.drawn and self.drawn[-1] not in self.paired:
            return "opponent"
        return "runner-up" if len(self.drawn) < len(self.file.runners) else "complete"

    def names(self, word):
        """Whether a ball's word is a team's code. No number means anything here."""
        return word in self.file.by_code

    def candidates(self):
        phase = self.phase()
        if phase == "runner-up":
            return [r for r in self.file.runners if r not in self.drawn]
        if phase == "opponent":
            return [w for w in self.file.winners if w not in self.paired.values()]
        return []

    def offer(self):
        if self.phase() == "opponent":
            runner = self.drawn[-1]
            return [w for w in self.candidates() if self.file.way.is_completable({**self.paired, runner: w})]
        return self.candidates() if self.file.way.is_completable(self.paired) else []

    def prompt(self):
        """What the next line asks for."""
        return f"opponent {self.drawn[-1]}" if self.phase() == "opponent" else "runner-up"

    def take(self, code):
        """Adds an offered ball and tells its line."""
        if self.phase() == "runner-up":
            self.drawn.append(code)
            return f"drawn {code}"
        runner = self.drawn[-1]
        self.paired[runner] = code
        return f"paired {runner} {code}"
