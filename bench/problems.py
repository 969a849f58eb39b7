"""A draw as a count problem, and the questions of its states, for a peer of the program.

Made from the head and the texts of docs/DEFINITIONS.md alone, with its numbering of atoms and rules.
Each kind of draw is a class with `problem`, its rules, and `states`, its questions.
"""

import itertools
import json
import math
from typing import Callable, NamedTuple

LETTERS = "ABCDEFGHIJKLMNOPQRSTUVWXYZ"
SUBSETS = 400


class Rule(NamedTuple):
    """From `lo` to `hi` of the atoms are true."""

    atoms: list[int]
    lo: int
    hi: int


class State(NamedTuple):
    """What is asked in one state, and the line that was printed for it.

    Each question is the atoms that are to be true: one a choice, or one for all choices.
    """

    printed: str
    choices: list[str]
    questions: list[list[int]]
    line_of: Callable[[list[str]], str]

    def due(self, answers):
        """The line that the answers make, one boolean a question."""
        if len(self.questions) == len(self.choices):
            offered = [choice for choice, is_possible in zip(self.choices, answers) if is_possible]
        else:
            offered = self.choices if all(answers) else []
        return self.line_of(offered)


def next_line(label):
    """How the line of an offer is made."""
    return lambda offered: f"next {label}: {' '.join(offered)}" if offered else "impossible"


def complete(printed):
    return State(printed, [], [], lambda offered: "complete")


# ---- the kinds of draws


class Pairing:
    """The atom of runner-up r and winner w, each by its place in its pot, is r * n + w."""

    def __init__(self, head):
        self.winners, self.runners = ([team for team in head["teams"] if team["pot"] == pot] for pot in (1, 2))
        self.pairs = {frozenset(pair) for pair in head.get("pairs", [])}
        self.atoms = {
            (runner["code"], winner["code"]): r * len(self.winners) + w
            for r, runner in enumerate(self.runners)
            for w, winner in enumerate(self.winners)
        }

    def is_barred(self, runner, winner):
        return (
            runner["group"] == winner["group"]
            or bool(set(runner["tags"]) & set(winner["tags"]))
            or frozenset((runner["code"], winner["code"])) in self.pairs
        )

    def problem(self):
        """The number of atoms and the rules."""
        n = len(self.winners)
        rows = [Rule([r * n + w for w in range(n)], 1, 1) for r in range(n)]
        columns = [Rule([r * n + w for r in range(n)], 1, 1) for w in range(n)]
        barred = [
            Rule([self.atoms[runner["code"], winner["code"]]], 0, 0)
            for runner in self.runners
            for winner in self.winners
            if self.is_barred(runner, winner)
        ]
        return n * n, rows + columns + barred

    def states(self, lines):
        """The states that the program's lines lead through."""
        moves, drawn = [], None
        undrawn = [team["code"] for team in self.runners]
        free = [team["code"] for team in self.winners]
        for word, *rest in (line.split(" ") for line in lines[1:]):
            if word == "drawn":
                (drawn,) = rest
                undrawn.remove(drawn)
            elif word == "paired":
                moves.append(self.atoms[tuple(rest)])
                free.remove(rest[1])
                drawn = None
            elif word != "refused":
                printed = " ".join([word, *rest])
                if drawn is not None:
                    questions = [moves + [self.atoms[drawn, winner]] for winner in free]
                    yield State(printed, free[:], questions, next_line(f"opponent {drawn}"))
                elif undrawn:
                    yield State(printed, undrawn[:], [moves[:]], next_line("runner-up"))
                else:
                    yield complete(printed)


class Groups:
    """The atom of team i, by its place in the file, in group k is i * groups + k."""

    def __init__(self, head):
        self.groups, self.pots, self.teams = head["groups"], head["pots"], head["teams"]
        self.limits, self.pairs, self.places = (head.get(name, []) for name in ("limits", "pairs", "places"))
        self.numbers = {team["code"]: number for number, team in enumerate(self.teams)}
        self.pot_of = {team["code"]: team["pot"] for team in self.teams}

    def atom(self, code, group):
        return self.numbers[code] * self.groups + group

    def atoms_where(self, holds, group):
        """The atoms in a group of the teams of which this holds, in file order."""
        return [self.atom(team["code"], group) for team in self.teams if holds(team)]

    def problem(self):
        """The number of atoms and the rules."""
        groups = range(self.groups)
        rules = [Rule([self.atom(team["code"], group) for group in groups], 1, 1) for team in self.teams]
        for group in groups:
            for pot in range(1, self.pots + 1):
                rules.append(Rule(self.atoms_where(lambda team: team["pot"] == pot, group), 1, 1))
        for group in groups:
            for limit in self.limits:
                holders = self.atoms_where(lambda team: limit["tag"] in team["tags"], group)
                rules.append(Rule(holders, limit["lo"], limit["hi"]))
        rules += [Rule([self.atom(code, group) for code in pair], 0, 1) for pair in self.pairs for group in groups]
        rules += [Rule([self.atom(place["code"], LETTERS.index(place["group"]))], 1, 1) for place in self.places]
        return len(self.teams) * self.groups, rules

    def states(self, lines):
        """The states that the program's lines lead through. Where a team is placed, the groups that it
        may go to are asked first, and the first possible one is its group."""
        moves, group_of, waiting = [], {}, None
        held = {(place["group"], place["position"]): place["code"] for place in self.places}
        undrawn = [team["code"] for team in self.teams]
        for word, *rest in (line.split(" ") for line in lines[1:]):
            printed = " ".join([word, *rest])
            if word == "placed":
                code, letter = rest
                yield self.placing(printed, code, moves, group_of)
                moves.append(self.atom(code, LETTERS.index(letter)))
                group_of[code] = letter
                undrawn.remove(code)
                waiting = code if self.pot_of[code] > 1 else None
            elif word == "stands":
                held[rest[1][0], int(rest[1][1:])] = rest[0]
                waiting = None
            elif word != "refused":
                yield self.standing(printed, moves, undrawn, waiting, self.open_positions(waiting, group_of, held))

    def placing(self, printed, code, moves, group_of):
        """The state in which a drawn team has no group yet."""
        taken = {letter for other, letter in group_of.items() if self.pot_of[other] == self.pot_of[code]}
        open_groups = [group for group in range(self.groups) if LETTERS[group] not in taken]
        questions = [moves + [self.atom(code, group)] for group in open_groups]
        line_of = lambda offered: f"placed {code} {offered[0]}" if offered else "impossible"
        return State(printed, [LETTERS[group] for group in open_groups], questions, line_of)

    def open_positions(self, waiting, group_of, held):
        """The positions, as texts, that the waiting team may take."""
        if waiting is None:
            return []
        own = [place["position"] for place in self.places if place["code"] == waiting]
        return [
            str(position)
            for position in (own or range(2, self.pots + 1))
            if held.get((group_of[waiting], position), waiting) == waiting
        ]

    def standing(self, printed, moves, undrawn, waiting, positions):
        """A state whose offer follows from one question."""
        if waiting is not None:
            return State(printed, positions, [moves[:]], next_line(f"position {waiting}"))
        if not undrawn:
            return complete(printed)
        pot = min(self.pot_of[code] for code in undrawn)
        choices = [code for code in undrawn if self.pot_of[code] == pot]
        return State(printed, choices, [moves[:]], next_line(f"team pot {pot}"))


KINDS = {"pairing": Pairing, "group": Groups}


def draw_of(head):
    """The draw of a head's bytes, by its kind, or None where the kind has no class here."""
    value = json.loads(head)
    kind = KINDS.get(value["kind"])
    return kind and kind(value)


# ---- clauses and the text for the peer


def clauses_of(atoms, rules):
    """The rules as clauses over the variables from 1 on, where atom a is variable a + 1."""
    clauses, last = [], atoms
    for rule in rules:
        literals = [atom + 1 for atom in rule.atoms]
        last = add_at_most(rule.hi, literals, clauses, last)
        last = add_at_most(len(literals) - rule.lo, [-literal for literal in literals], clauses, last)
    return clauses


def add_at_most(most, literals, clauses, last):
    """Adds clauses by which at most so many literals are true: of every subset with one more, where
    these are few, else by a sequential counter. Returns the last variable in use."""
    if most >= len(literals):
        return last
    if most < 0:
        clauses.append([])
    elif most == 0 or math.comb(len(literals), most + 1) <= SUBSETS:
        subsets = itertools.combinations(literals, most + 1)
        clauses.extend([-literal for literal in subset] for subset in subsets)
    else:
        return add_counter(most, literals, clauses, last)
    return last


def add_counter(most, literals, clauses, last):
    """The sequential counter: variable `reached(i, j)` is true where j or more of the literals up to i are."""

    def reached(i, j):
        return last + i * most + j + 1

    for i, literal in enumerate(literals):
        for j in range(most):
            if i > 0:
                clauses.append([-reached(i - 1, j), reached(i, j)])
            if j == 0:
                clauses.append([-literal, reached(i, 0)])
            elif i > 0:
                clauses.append([-literal, -reached(i - 1, j - 1), reached(i, j)])
        if i > 0:
            clauses.append([-literal, -reached(i - 1, most - 1)])
    return last + len(literals) * most


def text_for_peer(problem, states):
    """The iCNF text of the problem and of the states' questions."""
    lines = ["p inccnf"]
    lines += [" ".join(map(str, [*clause, 0])) for clause in clauses_of(*problem)]
    for state in states:
        lines += [" ".join(["a", *(str(atom + 1) for atom in question), "0"]) for question in state.questions]
    return ("\n".join(lines) + "\n").encode()


def first_difference(states, answers):
    """The first printed line that is not the one that the answers make, with that one; else None."""
    given = iter(answers)
    for state in states:
        due = state.due([next(given) for _ in state.questions])
        if due != state.printed:
            return state.printed, due
    return None
