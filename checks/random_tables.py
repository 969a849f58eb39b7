"""Random tables through the built program `drawcheck`, against checks/reference.py.

Legal tables where the file has some, and damaged ones: exchanged, repeated and foreign teams or
places, spaces, letters, line ends, no line and several.
"""

import json
import sys

import comparing
import random_heads
import random_inputs
import reference

STRAY_CODES = ("", "XYZ", "w00", "W0", "W000", "W\x00", "\xff00", "W00\t")
STRAY_PLACES = ("", "A", "1", "A0", "A5", "I1", "a1", "A01", "A11", "A1\x00", "\xff1", "A1\t", "1A", "A+1")


def some_items(rng, file):
    """The items of a table's text, mostly of a legal one; what may stand in it, and what may not."""
    legal = file.any_legal_table(rng) if rng.random() < 0.7 else None
    if file.kind == "pairing":
        items = legal or rng.sample(file.winners, len(file.winners))
        return list(items), file.winners + file.runners, STRAY_CODES
    every = [letter + str(position) for letter in file.letters for position in file.pots]
    items = file.table_text(legal).split(" ") if legal else rng.sample(every, len(every))
    return items, every, STRAY_PLACES


def damaged(rng, items, others, stray):
    """The items with one fault, or the bytes of something that is no table."""
    turn = rng.randrange(11)
    places = range(len(items))
    one, other = rng.choice(places), rng.choice(places)
    if turn == 0:
        items[one], items[other] = items[other], items[one]
    elif turn in (1, 2):
        items[one] = rng.choice(others)
    elif turn == 3:
        items.append(rng.choice(others))
    elif turn == 4:
        items.pop(one)
    elif turn == 5:
        items[one] = rng.choice(stray)
    elif turn == 6:
        rng.shuffle(items)
    elif turn == 7:
        items[one] = items[one][:1] + items[other][1:]
    text = " ".join(items).encode("latin-1")
    if turn == 8:
        text = rng.choice((b" " + text, text + b" ", text.replace(b" ", b"  ", 1), text.replace(b" ", b"\t", 1), text.lower()))
    if turn == 9:
        place = rng.randrange(len(text))
        text = text[:place] + bytes([rng.randrange(256)]) + text[place + 1 :]
    if turn == 10 and len(items) > 1:
        items[one], items[other] = items[one][:1] + items[other][1:], items[other][:1] + items[one][1:]
        text = " ".join(items).encode("latin-1")
    return text


def one_input(rng, kind, most):
    head = random_heads.good_head(rng, kind, most)
    if rng.random() < 0.1:
        head = random_heads.damage(rng, head)
    text = json.dumps(head).encode()
    file = random_inputs.file_of(text)
    if not file:
        return text + b"\n--\nW00\n"
    items, others, stray = some_items(rng, file)
    line = damaged(rng, list(items), others, stray) if rng.random() < 0.7 else " ".join(items).encode()
    end = b"\n"
    if rng.random() < 0.2:
        end = rng.choice((b"\r\n", b"", b"\r", b"\r\r\n", b"\n\n", b"\n" + line + b"\n", b"\n--\n"))
    if rng.random() < 0.03:
        return text + rng.choice((b"", b"\n", b"\n--", b"\n--\n"))
    return text + b"\n--\n" + line + end


def first_words(_, text):
    return " ".join(text.decode().split()[:2])


if __name__ == "__main__":
    sys.exit(comparing.compare(__doc__, "drawcheck", "judge", reference.judge, one_input, first_words))
