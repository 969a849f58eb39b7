"""Plays whole random draws of given files through the built program `draw follow`.

Each ball is one of those that the program offers. Each ball has to be accepted, each draw has to end
with `complete`, and `drawcheck judge` has to call the table that the replies tell legal.

    python3 checks/random_draws.py --draws N FILE..

A head with a separator and balls is cut at the separator; files of kinds that are not built are
passed over, and named.
"""

import argparse
import json
import pathlib
import random
import sys

import comparing
import reference
from built import BUILT


class Wrong(Exception):
    """A draw that went another way than it has to."""


def lines_of_draw(program, head, balls):
    """The lines that the program answers to a head and these balls."""
    data = head + b"\n--\n" + "".join(f"ball {ball}\n" for ball in balls).encode()
    status, wrote, told = comparing.run(program, "follow", data)
    if status != 0:
        raise Wrong(f"status {status}: {(wrote + told).decode()}")
    return wrote.decode().splitlines()


def play(program, head, rng):
    """The reply lines of one draw, each of whose balls is one that is offered; and the balls."""
    balls, before = [], []
    while True:
        lines = lines_of_draw(program, head, balls)
        if lines[: len(before)] != before or len(lines) != 2 + 2 * len(balls):
            raise Wrong(f"after {balls} the lines before changed, or a ball was refused: {lines[len(before):]}")
        if lines[-1] == "complete":
            return lines, balls
        if not lines[-1].startswith("next ") or not lines[-1].partition(":")[2].split():
            raise Wrong(f"after {balls} nothing is offered: {lines[-1]}")
        balls.append(rng.choice(lines[-1].partition(":")[2].split()))
        before = lines


def table_of(value, lines):
    """The text of the table that the replies tell."""
    teams, told = value["teams"], [line.split() for line in lines]
    if value["kind"] == "pairing":
        winner_of = {words[1]: words[2] for words in told if words[0] == "paired"}
        return " ".join(winner_of[team["code"]] for team in teams if team["pot"] == 2)
    place_of = {words[1]: words[2] + "1" for words in told if words[0] == "placed"}
    place_of |= {words[1]: words[2] for words in told if words[0] == "stands"}
    return " ".join(place_of[team["code"]] for team in teams)


def one_draw(programs, head, rng):
    """Plays a draw and has its table judged; gives the number of balls."""
    lines, balls = play(programs["draw"], head, rng)
    table = table_of(json.loads(head), lines)
    status, wrote, told = comparing.run(programs["drawcheck"], "judge", head + b"\n--\n" + table.encode() + b"\n")
    if (status, wrote) != (0, b"legal\n"):
        raise Wrong(f"the balls {balls} gave the table {table}, which is {(wrote + told).decode()}")
    return len(balls)


def main():
    parser = argparse.ArgumentParser(description=__doc__, formatter_class=argparse.RawDescriptionHelpFormatter)
    parser.add_argument("--draws", type=int, default=5, help="so many draws of each file")
    parser.add_argument("--seed", type=int, default=1)
    parser.add_argument("files", nargs="+", type=pathlib.Path)
    comparing.add_programs(parser)
    words = parser.parse_args()
    programs = {name: comparing.path_of(name, words.programs) for name in ("draw", "drawcheck")}
    rng = random.Random(words.seed)
    for path in words.files:
        head = reference.split_input(path.read_bytes())[0]
        kind = json.loads(head)["kind"]
        if kind not in BUILT:
            print(f"{path}: passed over, since the kind {kind} is not built yet")
            continue
        try:
            balls = [one_draw(programs, head, rng) for _ in range(words.draws)]
        except Wrong as wrong:
            print(f"{path}, draws of seed {words.seed}: {wrong}")
            return 1
        print(f"{path}: {len(balls)} random draws of {max(balls, default=0)} balls ended complete, each with a legal table")
    return 0


if __name__ == "__main__":
    sys.exit(main())
