"""The answers of `draw follow` and `drawcheck judge`, found without the programs' methods.

Heads are read in reference_heads.py; pairings and group draws stand in reference_pairings.py and
reference_groups.py, each with its files, states and verdicts. Here are the lines, the commands and
the replies. Nothing is shared with the proved program but the rules in docs/DEFINITIONS.md. Kinds
that the programs do not draw yet are refused as they refuse them (built.py).

    python3 checks/reference.py follow|judge [KIND ..] <INPUT    as if these kinds were built
"""

import re
import sys

import reference_groups
import reference_pairings
from built import BUILT
from reference_heads import KINDS, Refused, read_head

LIMIT = 4_194_304
MOST_COMMANDS = 4096
USAGE = b"usage: draw follow|prove|room|trial N [--workers 1..16]\n"
BALL = re.compile(rb"ball ([A-Z0-9]{3}|[1-9][0-9]?)\Z")
OF_KIND = {"pairing": reference_pairings, "group": reference_groups}


def read_file(data, built=KINDS):
    """The draw file of a head's bytes, or Refused."""
    head = read_head(data, built)
    return OF_KIND[head.kind].File(head)


def start(file):
    """The state without balls."""
    return OF_KIND[file.kind].State(file)


def next_line(state):
    if state.phase() == "complete":
        return "complete"
    offer = state.offer()
    return f"next {state.prompt()}: {' '.join(offer)}" if offer else "impossible"


def reply(state, answered, line):
    """The lines of one reply."""
    if answered >= MOST_COMMANDS:
        return ["refused limit"]
    ball = BALL.match(line)
    if not ball:
        return ["refused form"]
    word = ball.group(1).decode()
    if not state.names(word):
        return ["refused unknown"]
    if state.phase() == "complete":
        return ["refused complete"]
    if word not in state.candidates():
        return ["refused phase"]
    if word not in state.offer():
        return ["refused excluded"]
    return [state.take(word), next_line(state)]


def lines_of(data):
    """Lines with their ends taken off: a line feed, and then one carriage return."""
    pieces = data.split(b"\n")
    if pieces[-1] == b"":
        pieces.pop()
    return [piece[:-1] if piece.endswith(b"\r") else piece for piece in pieces]


def split_input(data):
    """The head's bytes and the command lines."""
    at = 0
    while at < len(data):
        end = data.find(b"\n", at)
        stop = len(data) if end < 0 else end + 1
        line = data[at:stop].removesuffix(b"\n").removesuffix(b"\r")
        if line == b"--":
            return data[:at], lines_of(data[stop:])
        at = stop
    return data, []


def answered(data, answer, built):
    """The status and the output of a program that answers a draw file and lines by `answer`."""
    if len(data) > LIMIT:
        return 6, b""
    head, lines = split_input(data)
    try:
        file = read_file(head, built)
    except Refused as refused:
        return 2, f"file refused {refused}\n".encode()
    return answer(file, lines)


def answer_balls(file, lines):
    state = start(file)
    text = [f"draw {file.kind} {len(file.teams)} teams", next_line(state)]
    for count, line in enumerate(lines):
        text += reply(state, count, line)
    return 0, ("\n".join(text) + "\n").encode()


def judge_lines(file, lines):
    table = file.read_table(lines[0]) if len(lines) == 1 else None
    if table is None:
        return 7, b"not a table\n"
    broken = file.first_broken(table)
    return (7, b"broken %d %d %d\n" % broken) if broken else (0, b"legal\n")


def follow(data, built=BUILT):
    """The status and the output of `draw follow` on this input."""
    return answered(data, answer_balls, built)


def judge(data, built=BUILT):
    """The status and the output of `drawcheck judge` on this input."""
    return answered(data, judge_lines, built)


def main(word, kinds):
    wanted = {"follow": follow, "judge": judge}[word]
    status, text = wanted(sys.stdin.buffer.read(), tuple(kinds) or BUILT)
    sys.stdout.buffer.write(text)
    return status


if __name__ == "__main__":
    sys.exit(main(sys.argv[1], sys.argv[2:]))
