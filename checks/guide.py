"""Tests docs/DRAW-FILES.md: each file in it is answered as it says there, by the independent program
(as if all kinds were built) and, with `--built`, by the built programs; each fault has its file; and
the notice at its top stands as long as group draws are not built.

A block ```json is a head, one that begins with -- the lines after it, and one that begins as an
answer does is what `draw follow` or `drawcheck judge` answers to both.
"""

import argparse
import re
import sys

import comparing
import random_heads
import reference
from built import BUILT
from reference_heads import KINDS, Refused, read_head

GUIDE = comparing.TOP / "docs/DRAW-FILES.md"
BLOCK = re.compile(r"^```(\w*)\n(.*?)^```$", re.S | re.M)
ANSWER = re.compile(r"(draw |file refused )|(legal|broken |not a table)")
ROW = re.compile(r"^\| `(\w+)` \| `(.+?)` \| `(.+?)` \|$", re.M)
PLACE = re.compile(r"^\| `(\{.+?\})` \| .* \|$", re.M)


def blocks(text):
    """Head, lines, command and answer of each answer in the guide."""
    head = lines = ""
    for language, block in BLOCK.findall(text):
        answer = ANSWER.match(block)
        if language == "json":
            head, lines = block, ""
        elif block.startswith("--\n"):
            lines = block
        elif answer and head:
            yield head, lines, "follow" if answer[1] else "judge", block


def changed_files(text):
    """The files that the tables of changes speak of, with their faults."""
    pairing, group = [block for language, block in BLOCK.findall(text) if language == "json"][:2]
    for name, wrong, right in ROW.findall(text.partition("### 5 FieldWrong")[2].partition("### 6")[0]):
        holders = [head for head in (pairing, group) if right in head]
        yield [head.replace(right, wrong, 1) for head in holders], f"5 FieldWrong {name}"
    for place in PLACE.findall(text.partition("### 12 BadPlace")[2].partition("### 14")[0]):
        right = '{"code": "HST", "group": "A", "position": 1}'
        number = place.count("code") - 1
        yield [group.replace(right, place, 1)], f"12 BadPlace {number}"


def fault_of(head):
    try:
        read_head(head.encode(), KINDS)
    except Refused as refused:
        return str(refused)
    return None


class Test:
    def __init__(self):
        self.count = self.bad = 0

    def note(self, right, what):
        self.count += 1
        if not right:
            self.bad += 1
            print(f"FAILED: {what}")

    def answers(self, text, built):
        """Each answer of the guide; with `built` those of the built programs too."""
        for head, lines, command, answer in blocks(text):
            data = (head + lines).encode()
            wanted = (re.compile(r"file refused|broken|not a").match(answer) is None, answer.encode())
            got = (reference.follow if command == "follow" else reference.judge)(data, KINDS)
            self.note((got[0] == 0, got[1]) == wanted, f"{answer!r} is {got[1]!r} for\n{head}{lines}")
            kind = re.search(r'"kind": "(\w+)"', head)
            if built and (not kind or kind[1] not in KINDS or kind[1] in BUILT):
                path = comparing.path_of("draw" if command == "follow" else "drawcheck")
                got = comparing.run(path, command, data)
                self.note((got[0] == 0, got[1]) == wanted, f"the program answers {got[1]!r} to\n{head}{lines}")

    def faults(self, text):
        numbers = {int(number) for number in re.findall(r"^file refused (\d+)", text, re.M)}
        self.note(numbers == {*range(1, 13), 14}, f"faults with a file: {numbers}")
        for heads, fault in changed_files(text):
            found = [fault_of(head) for head in heads]
            self.note(fault in found, f"{fault} for the table of changes, and not {found}")
        named = {name for name, _, _ in ROW.findall(text)}
        self.note(named == set(random_heads.MEMBERS), f"changes for each member: {named ^ set(random_heads.MEMBERS)}")


def main():
    parser = argparse.ArgumentParser(description=__doc__, formatter_class=argparse.RawDescriptionHelpFormatter)
    parser.add_argument("--built", action="store_true", help="ask the built programs too")
    words = parser.parse_args()
    text = GUIDE.read_text()
    test = Test()
    test.answers(text, words.built)
    test.faults(text)
    has_notice = "Today's programs draw pairings" in text
    test.note(has_notice == ("group" not in BUILT), "the notice at the top of the guide is out of date")
    print(f"{test.count - test.bad} of {test.count} answers and faults of the guide are as it says")
    return 1 if test.bad else 0


if __name__ == "__main__":
    sys.exit(main())
