"""Runs a built program on random inputs, and compares what it does with an independent program."""

import argparse
import pathlib
import random
import subprocess
import sys

from built import BUILT
from reference_heads import KINDS

TOP = pathlib.Path(__file__).resolve().parent.parent


def add_programs(parser):
    parser.add_argument("--programs", type=pathlib.Path, help="a folder that bin/install filled; else those built here")


def path_of(program, folder=None):
    """Where a built program stands."""
    return folder / program if folder else TOP / f"crates/{program}/out/{program}"


def run(path, word, data):
    """The status and the output of a program, and what it told."""
    ended = subprocess.run([path, word], input=data, capture_output=True, check=False)
    return ended.returncode, ended.stdout, ended.stderr


def compare(description, program, word, wanted, one_input, kind):
    """Compares as the words of the command line say; 1 at the first input that differs.

    `wanted` gives the status and the output that an input should have, `one_input` an input from a
    generator, the kind of its draw and the most pairs or groups of a file, and `kind` what a status
    and an output are counted as.
    """
    parser = argparse.ArgumentParser(description=description)
    parser.add_argument("--inputs", type=int, default=5000)
    parser.add_argument("--seed", type=int, default=1)
    parser.add_argument("--most", type=int, default=6, help="the most pairs or groups of a file; 20 and 8 at the most")
    parser.add_argument("--kinds", nargs="+", choices=KINDS, default=BUILT, help="what draws are made; else those built")
    add_programs(parser)
    words = parser.parse_args()
    rng = random.Random(words.seed)
    path = path_of(program, words.programs)
    seen = {}
    for number in range(words.inputs):
        data = one_input(rng, rng.choice(words.kinds), words.most)
        status, text = wanted(data)
        got, wrote, told = run(path, word, data)
        if (got, wrote) != (status, text):
            sys.stdout.buffer.write(b"input:\n" + data + b"\nwanted %d:\n" % status + text)
            sys.stdout.buffer.write(b"got %d:\n" % got + wrote + told + b"\n")
            print(f"input {number} of seed {words.seed} differs")
            return 1
        key = kind(status, text)
        seen[key] = seen.get(key, 0) + 1
    kinds = " and ".join(words.kinds)
    print(f"{words.inputs} random inputs ({kinds}) of {program} {word} answered alike: {dict(sorted(seen.items()))}")
    return 0
