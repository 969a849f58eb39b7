"""Random inputs of draws through the built program, against checks/reference.py.

Heads good and bad, balls that follow the offer and balls that do not, nonsense lines, carriage
returns, zero bytes, long lines and runs past the limit of commands.
"""

import json
import sys

import comparing
import random_heads
import reference

STRAY_WORDS = ("W00", "R00", "R01", "X00", "ABC", "1", "2", "3", "4", "5", "10", "05", "123", "w00", "", "W00 ", "WWWW")
STRAY_LINES = (b"", b"--", b"undo", b"offers", b"table", b"Ball W00", b"ball", b"ball \x00", b"\xff\xfe", b"x" * 300,
               b"ball W00\r")


def file_of(data):
    """The draw file of a head's bytes, whether its kind is built or not; or none."""
    try:
        return reference.read_file(data)
    except reference.Refused:
        return None


def lines(rng, file, count):
    """Lines that mostly follow the offer of the state they lead to."""
    state = reference.start(file) if file else None
    out = []
    for answered in range(count):
        word = rng.choice(STRAY_WORDS)
        if state and rng.random() < 0.85:
            pool = state.offer() if rng.random() < 0.7 else state.candidates()
            word = rng.choice(pool or sorted(file.by_code))
        line = f"ball {word}".encode()
        if rng.random() < 0.1:
            line = rng.choice(STRAY_LINES)
        if state:
            reference.reply(state, answered, line)
        out.append(line + rng.choice((b"\n", b"\n", b"\n", b"\r\n")))
    if out and rng.random() < 0.3:
        out[-1] = out[-1].rstrip(b"\r\n") or b"ball"
    return b"".join(out)


def damaged_text(rng, text):
    """A head's bytes, now and then with a byte, a number or a mark that does not belong there."""
    if rng.random() < 0.05:
        place = rng.randrange(len(text))
        text = text[:place] + bytes([rng.randrange(256)]) + text[place + 1 :]
    if rng.random() < 0.05:
        number = rng.choice((b"1e999", b"-1e999", b"9" * 400, b"1e308", b"18446744073709551616", b"-0", b"01", b"NaN"))
        text = text.replace(b": 1", b": " + number, 1) if rng.random() < 0.5 else text[:-1] + b',"x":' + number + b"}"
    if rng.random() < 0.02:
        text = b"\xef\xbb\xbf" + text
    return text


def head_text(rng, kind, most):
    """The bytes of a head, which may be damaged."""
    head = random_heads.good_head(rng, kind, most)
    if rng.random() < 0.4:
        head = random_heads.damage(rng, head)
    return damaged_text(rng, json.dumps(head, ensure_ascii=rng.random() < 0.5).encode())


def one_input(rng, kind, most):
    text = head_text(rng, kind, most)
    end = rng.choice((b"\n", b"\r\n", b"", b" \n"))
    if rng.random() < 0.1:
        return text + end
    file = file_of(text)
    most_lines = max(30, len(file.teams) + 10) if file and kind == "pairing" else 2 * len(file.teams) + 8 if file else 30
    count = 5000 if rng.random() < 0.004 else rng.randint(0, most_lines)
    return text + (end if end.endswith(b"\n") else b"\n") + rng.choice((b"--\n", b"--\r\n")) + lines(rng, file, count)


if __name__ == "__main__":
    sys.exit(comparing.compare(__doc__, "draw", "follow", reference.follow, one_input, lambda status, _: status))
