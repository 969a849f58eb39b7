"""Random count problems, pigeonholes and whole draws through the built program `solve`, several questions
on one session, against an independent decision: all assignments are tried, of pigeonholes it is known,
and of the pairings of a draw it is decided by matching (reference_pairings.py).

Values are compared with rules and question as they are written. Steps are checked by the checker of
checks/count_problems.py, and by the built program `stepcheck`. Some inputs are damaged, so that they
are refused.
"""

import argparse
import collections
import json
import pathlib
import random
import subprocess
import sys

import random_heads
import reference
from count_problems import damaged_text, failing_hint, line_in, read, refusal_of_rules, text_of

BUILT = pathlib.Path(__file__).resolve().parent.parent / "crates"
MOST_BYTES = "4000000"


class Wrong(Exception):
    """What the program did is not what it should do."""


# ---- the independent decision


def number_true(values, lits):
    return sum(1 for atom, sign in lits if (values >> atom & 1 == 1) == sign)


def satisfies(values, rules, question):
    """Whether the values, one bit an atom, satisfy the rules and make each literal true."""
    return all(lo <= number_true(values, lits) <= hi for lo, hi, lits in rules) and number_true(
        values, question
    ) == len(question)


def masks_of(places, lits):
    """The bits of the positive literals' atoms, and of the negative ones'."""
    positive = sum(1 << places[atom] for atom, sign in lits if sign)
    negative = sum(1 << places[atom] for atom, sign in lits if not sign)
    return positive, negative


def decide(rules, questions):
    """Which questions are possible: all values of the atoms that stand somewhere are tried."""
    everywhere = {atom for lits in [lits for _, _, lits in rules] + questions for atom, _ in lits}
    places = {atom: place for place, atom in enumerate(sorted(everywhere))}
    masks = [(lo, hi, *masks_of(places, lits)) for lo, hi, lits in rules]
    found = [
        values
        for values in range(1 << len(places))
        if all(
            lo <= (values & positive).bit_count() + (~values & negative).bit_count() <= hi
            for lo, hi, positive, negative in masks
        )
    ]
    asked = [masks_of(places, question) for question in questions]
    return [
        any(values & positive == positive and not values & negative for values in found)
        for positive, negative in asked
    ]


# ---- what is written of a question


def check_values(atoms, rules, question, words):
    if any(word not in ("0", "1") for word in words) or len(words) != atoms:
        raise Wrong(f"no values of {atoms} atoms: {words}")
    values = sum(1 << atom for atom, word in enumerate(words) if word == "1")
    if not satisfies(values, rules, question):
        raise Wrong("the values do not satisfy rules and question")


def check_steps(atoms, rules, question, lines):
    """The lines are steps that are accepted, and the last negates literals of the question alone."""
    steps = []
    for line in lines:
        said = line_in(line, 2, steps, "s")
        if said is None or said[0] != "s":
            raise Wrong(f"no step: {line!r}")
        if failing_hint(atoms, rules, steps, said[1]) is not None:
            raise Wrong(f"step {len(steps)} is not accepted")
        steps.append(said[1])
    if not steps or any((atom, not sign) not in question for atom, sign in steps[-1][0]):
        raise Wrong("the steps do not refute the question")
    ended = run("stepcheck", text_of(atoms, rules, steps, "s"))
    if (ended.returncode, ended.stdout) != (0, b"accepted\n"):
        raise Wrong(f"stepcheck says {ended.stdout!r}, status {ended.returncode}")
    return len(steps)


def check_answers(atoms, rules, questions, possible, text):
    """Each question has its answer, and nothing else is written. Counts the answers by kind."""
    lines = text.decode("ascii").split("\n")
    if lines.pop() != "":
        raise Wrong("the last line does not end")
    seen = collections.Counter()
    for question, is_possible in zip(questions, possible, strict=True):
        words = lines.pop(0).split(" ") if lines else [""]
        if words[0] != ("possible" if is_possible else "impossible"):
            raise Wrong(f"answered {words[0]!r}, and possible is {is_possible}")
        if is_possible:
            check_values(atoms, rules, question, words[1:])
        else:
            end = next((n for n, line in enumerate(lines) if not line.startswith("s")), len(lines))
            seen["steps"] += check_steps(atoms, rules, question, lines[:end])
            del lines[:end]
        seen["possible" if is_possible else "impossible"] += 1
    if lines:
        raise Wrong(f"more is written: {lines}")
    return seen


# ---- running the programs


def run(program, text):
    return subprocess.run(
        [BUILT / f"{program}/out/{program}", MOST_BYTES], input=text, capture_output=True, check=False
    )


def refusal_of(said):
    """The line that refuses what a text says, or none."""
    if isinstance(said, int):
        return f"not a list {said}"
    atoms, rules, questions = said
    refusal = refusal_of_rules(atoms, rules)
    if refusal:
        return refusal
    for number, question in enumerate(questions):
        if any(atom >= atoms for atom, _ in question):
            return f"question refused {number} AtomRange"
        if len({atom for atom, _ in question}) < len(question):
            return f"question refused {number} RepeatedAtom"
    return None


def compare(text, known):
    """Compares what is said of the text. `known` says which questions are possible; where it is none,
    all assignments are tried."""
    said = read(text, "q")
    refusal = refusal_of(said)
    ended = run("solve", text)
    if ended.stderr:
        raise Wrong(f"standard error has {ended.stderr!r}, status {ended.returncode}")
    if refusal is not None:
        if (ended.returncode, ended.stdout) != (2, refusal.encode() + b"\n"):
            raise Wrong(f"wanted {refusal}, got {ended.stdout!r}, status {ended.returncode}")
        return collections.Counter(refused=1)
    if ended.returncode != 0:
        raise Wrong(f"status {ended.returncode}, {ended.stdout!r}")
    atoms, rules, questions = said
    known = decide(rules, questions) if known is None else known
    return check_answers(atoms, rules, questions, known, ended.stdout)


# ---- making problems


def random_lits(rng, atoms, most, positive):
    chosen = rng.sample(range(atoms), rng.randint(0, min(atoms, most)))
    return [(atom, rng.random() < positive) for atom in chosen]


def random_problem(rng):
    """Rules of any bounds, also such that nothing can meet, and questions of different sizes."""
    atoms = rng.choice((0, 1, 2, 3, 5, 7, 8, 9, 10, 11, 12))
    positive = rng.choice((0.2, 0.5, 0.8, 1.0))
    rules = []
    for _ in range(rng.randint(0, rng.choice((3, 10, 25)))):
        lits = random_lits(rng, atoms, rng.choice((3, 4, 6)), positive)
        lo = rng.choice((0, 0, 1, 1, rng.randint(0, len(lits)), len(lits)))
        hi = rng.choice((lo, lo + 1, len(lits), len(lits) + 1, rng.randint(lo, lo + len(lits))))
        if rng.random() < 0.97:
            lo, hi = min(lo, len(lits)), max(hi, lo)
        rules.append((lo, hi, lits))
    questions = [random_lits(rng, atoms, rng.choice((0, 1, 2, 4, 7)), 0.5) for _ in range(rng.randint(1, 6))]
    return atoms, rules, questions


def damage(rng, atoms, rules, questions):
    """One change that mostly makes the rules no problem, or a question one that may not be asked."""
    lists = [question for question in questions] + [lits for _, _, lits in rules]
    lits = rng.choice(lists)
    if lits and rng.random() < 0.5:
        atom, sign = rng.choice(lits)
        lits.append((atom, rng.random() < 0.5))
    else:
        lits.append((atoms + rng.randint(0, 1), rng.random() < 0.5))


def pigeonholes(rng):
    """Each pigeon in one hole, at most one in a hole; atoms in random order, some of them negated.
    With the questions it is known which are possible."""
    holes = rng.randint(1, 6)
    pigeons = holes + rng.randint(0, 1)
    order = list(range(pigeons * holes))
    rng.shuffle(order)
    signs = [rng.random() < 0.7 for _ in order]

    def inside(pigeon, hole):
        place = pigeon * holes + hole
        return order[place], signs[place]

    def outside(pigeon, hole):
        atom, sign = inside(pigeon, hole)
        return atom, not sign

    rules = [(1, 1, [inside(p, h) for h in range(holes)]) for p in range(pigeons)]
    rules += [(0, 1, [inside(p, h) for p in range(pigeons)]) for h in range(holes)]
    rng.shuffle(rules)
    fit = pigeons <= holes
    questions = [([], fit), ([inside(0, holes - 1)], fit), ([outside(0, h) for h in range(holes)], False)]
    if holes > 1:
        questions += [([inside(0, 0), inside(1, 0)], False), ([outside(pigeons - 1, 0)], fit)]
        questions += [([outside(p, 0) for p in range(pigeons)], False)]
    rng.shuffle(questions)
    return (pigeons * holes, rules, [lits for lits, _ in questions]), [known for _, known in questions]


def rules_of_pairing(file):
    """The count rules of a pairing of n runners-up and winners, atom `r * n + w`: one winner for each
    runner-up, one runner-up for each winner, and no pair that may not meet."""
    size = len(file.winners)
    rules = [(1, 1, [(r * size + w, True) for w in range(size)]) for r in range(size)]
    rules += [(1, 1, [(r * size + w, True) for r in range(size)]) for w in range(size)]
    for r, runner in enumerate(file.runners):
        rules += [(0, 0, [(r * size + w, True)]) for w, winner in enumerate(file.winners) if winner not in file.allowed[runner]]
    return size * size, rules


def draw(rng):
    """A random pairing and a draw of it: of each candidate opponent the question whether it is possible."""
    file = reference.read_file(json.dumps(random_heads.good_head(rng, "pairing", 20)).encode())
    atoms, rules = rules_of_pairing(file)
    matching, paired, questions = file.way, {}, []
    for runner in rng.sample(file.runners, len(file.runners)):
        offered = []
        for winner in [w for w in file.winners if w not in paired.values()]:
            later = {**paired, runner: winner}
            lits = [(file.runners.index(r) * len(file.winners) + file.winners.index(w), True) for r, w in later.items()]
            questions.append((lits, matching.is_completable(later)))
            offered += [winner] if questions[-1][1] else []
        if not offered:
            break
        paired[runner] = rng.choice(offered)
    return (atoms, rules, [lits for lits, _ in questions]), [known for _, known in questions]


def one_draw(rng, number):
    problem, known = draw(rng)
    return text_of(*problem, "q"), known


def one_input(rng, number):
    """A text, and which of its questions are possible, where that is known."""
    if number % 20 == 0:
        problem, known = pigeonholes(rng)
        return text_of(*problem, "q"), known
    atoms, rules, questions = random_problem(rng)
    kind = rng.random()
    if kind < 0.05:
        damage(rng, atoms, rules, questions)
    text = text_of(atoms, rules, questions, "q")
    return damaged_text(rng, text) if kind > 0.93 else text, None


def main():
    parser = argparse.ArgumentParser()
    parser.add_argument("--problems", type=int, default=2000)
    parser.add_argument("--draws", type=int, default=0, help="so many whole draws of up to 20 pairs besides")
    parser.add_argument("--seed", type=int, default=1)
    chosen = parser.parse_args()
    for name, made, number in ("problems", one_input, chosen.problems), ("draws", one_draw, chosen.draws):
        if number:
            compare_all(name, made, number, chosen.seed)


def compare_all(name, made, most, seed):
    """Compares so many inputs, and ends the program at the first that differs."""
    rng = random.Random(seed)
    seen = collections.Counter()
    for number in range(most):
        text, known = made(rng, number)
        try:
            seen += compare(text, known)
        except Wrong as wrong:
            print(f"number {number} of the {name} of seed {seed}: {wrong}")
            print(text.decode("latin-1"))
            sys.exit(1)
    kinds = ", ".join(f"{count} {kind}" for kind, count in sorted(seen.items()))
    print(f"{most} {name} of seed {seed} agreed: {kinds}")


main()
