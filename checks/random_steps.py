"""Random problems and lists of steps through the built program `stepcheck`, against the checker of
checks/count_problems.py, which is written from the words of docs/DEFINITIONS.md alone.

Lists are made by a small search for hints, so that many steps are accepted, and then damaged in one
place or left whole; texts of another form are made by damage to single bytes.
"""

import argparse
import collections
import pathlib
import random
import subprocess
import sys

from count_problems import answer_of, conflicts, damaged_text, forced, named, read, text_of

PROGRAM = pathlib.Path(__file__).resolve().parent.parent / "crates/stepcheck/out/stepcheck"
STATUS = {"accepted": 0, "bad": 7, "problem": 2, "not": 2}


def reference(text):
    said = read(text, "s")
    return f"not a list {said}" if isinstance(said, int) else answer_of(*said)


# ---- making lists


def random_rules(rng, atoms):
    rules = []
    for _ in range(rng.randint(1, 9)):
        chosen = rng.sample(range(atoms), rng.randint(1, min(atoms, 5)))
        lits = [(atom, rng.random() < 0.7) for atom in chosen]
        lo = rng.randint(0, len(lits))
        rules.append((lo, rng.randint(lo, len(lits) + rng.choice((0, 0, 1))), lits))
    return rules


def hints_for(rng, atoms, rules, earlier, clause):
    """Hints that lead to a conflict, found by trying rules and steps in a random order, or none."""
    values = {atom: not sign for atom, sign in clause}
    hints = []
    names = [("r", n) for n in range(len(rules))] + [("s", n) for n in range(len(earlier))]
    moved = True
    while moved:
        moved = False
        rng.shuffle(names)
        for hint in names:
            rule = named(rules, earlier, hint)
            if conflicts(values, rule):
                return hints + [hint]
            more = forced(values, rule)
            if more is not None:
                values.update(more)
                hints.append(hint)
                moved = True
    return None


def random_steps(rng, atoms, rules):
    steps = []
    for _ in range(rng.randint(0, 40)):
        size = rng.choice((0, 1, 1, 2, 2, 3, 4))
        clause = [(a, rng.random() < 0.5) for a in rng.sample(range(atoms), min(size, atoms))]
        hints = hints_for(rng, atoms, rules, steps, clause)
        if hints is not None:
            steps.append((clause, hints))
    return steps


def damage(rng, atoms, rules, steps):
    """One change, which may leave the list accepted."""
    if steps and rng.random() < 0.85:
        place = rng.randrange(len(steps))
        clause, hints = list(steps[place][0]), list(steps[place][1])
        what = rng.randrange(9)
        if what == 0 and hints:
            del hints[rng.randrange(len(hints))]
        elif what == 1:
            hints.insert(rng.randint(0, len(hints)), ("r", rng.randint(0, len(rules))))
        elif what == 2:
            hints.insert(rng.randint(0, len(hints)), ("s", rng.randint(0, len(steps))))
        elif what == 3 and len(hints) > 1:
            rng.shuffle(hints)
        elif what == 4 and clause:
            clause.append(rng.choice(clause))
        elif what == 5:
            clause.append((rng.randint(0, atoms + 1), rng.random() < 0.5))
        elif what == 6 and clause:
            atom, sign = clause.pop()
            clause.append((atom, not sign))
        elif what == 7 and clause:
            clause.pop(rng.randrange(len(clause)))
        else:
            hints.append((rng.choice("rs"), rng.choice((place, 2**32 - 1, rng.randrange(9)))))
        steps[place] = (clause, hints)
    else:
        place = rng.randrange(len(rules))
        lo, hi, lits = rules[place]
        what = rng.randrange(4)
        if what == 0:
            lo, hi = hi, lo
        elif what == 1:
            lits = lits + [rng.choice(lits)]
        elif what == 2:
            lits = lits + [(atoms + rng.randint(0, 1), True)]
        else:
            hi += 1
        rules[place] = (lo, hi, lits)


def random_text(rng):
    atoms = rng.randint(1, 10)
    rules = random_rules(rng, atoms)
    steps = random_steps(rng, atoms, rules)
    kind = rng.random()
    if kind < 0.6:
        damage(rng, atoms, rules, steps)
    text = text_of(atoms, rules, steps, "s")
    return damaged_text(rng, text) if kind > 0.85 else text


def main():
    parser = argparse.ArgumentParser()
    parser.add_argument("--lists", type=int, default=2000)
    parser.add_argument("--seed", type=int, default=1)
    chosen = parser.parse_args()
    rng = random.Random(chosen.seed)
    agreed = collections.Counter()
    for number in range(chosen.lists):
        text = random_text(rng)
        want = reference(text)
        done = subprocess.run([PROGRAM, "1000000"], input=text, capture_output=True, check=False)
        word = want.split(" ")[0]
        if done.stdout != want.encode() + b"\n" or done.returncode != STATUS[word]:
            print(f"list {number} of seed {chosen.seed}: wanted {want}, was {done.stdout!r}, status {done.returncode}")
            print(text.decode("latin-1"))
            sys.exit(1)
        agreed[" ".join(want.split(" ")[: 2 if word != "not" else 3]) if word != "bad" else word] += 1
    print(f"{chosen.lists} lists of seed {chosen.seed} agreed: " + ", ".join(f"{n} {k}" for k, n in sorted(agreed.items())))


main()
