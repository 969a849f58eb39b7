"""JSON values that know where they stand, and what is wrong where a text is none.

The forms are those that the programs read: nothing but UTF-8, no text before or after the value, no
number too large for a 64-bit float, no half of a surrogate pair, at most 127 layers.
"""

import re

NUMBER = re.compile(r"-?(?:0|[1-9][0-9]*)(\.[0-9]+)?([eE][+-]?[0-9]+)?")
BALL = re.compile(r"\s*(ball|undo|offers|table)\b")
DASHES = re.compile(r"\s*[-‐-―−_=*]+\s*\Z")
BLANKS = re.compile(r"[ \t\r\n]*")
PLAIN = re.compile(r'[^"\\\x00-\x1f]*')
WORDS = {"true": True, "false": False, "null": None}
ESCAPES = dict(zip('"\\/bfnrt', '"\\/\b\f\n\r\t'))
DEEPEST = 127


class NotJson(Exception):
    """Where a text is no JSON value, and why."""

    def __init__(self, at, why):
        super().__init__(why)
        self.at, self.why = at, why


class Node:
    """A value and where it begins. An object is a map from names to nodes, of which the last of a name
    counts; `names` has every name in it with its place. A list is a list of nodes."""

    def __init__(self, at, value, names=(), spelling=None):
        self.at, self.value, self.names, self.spelling = at, value, names, spelling

    def get(self, name):
        return self.value.get(name)

    def is_object(self):
        return isinstance(self.value, dict)

    def is_list(self):
        return isinstance(self.value, list)

    def is_text(self):
        return isinstance(self.value, str)

    def is_whole(self, least, most=2**64 - 1):
        return type(self.value) is int and least <= self.value <= most

    def words(self):
        """What stands there, for a message."""
        if self.is_object():
            return "an object"
        if self.is_list():
            return "a list"
        return f'the text "{self.value}"' if self.is_text() else self.spelling


class Reader:
    """Reads one value from a text."""

    def __init__(self, text):
        self.text, self.at, self.layers = text, 0, 0

    def fail(self, why, at=None):
        raise NotJson(self.at if at is None else at, why)

    def skip_blanks(self):
        self.at = BLANKS.match(self.text, self.at).end()

    def next(self):
        """The next character that is no blank, or the empty text at the end."""
        self.skip_blanks()
        return self.text[self.at : self.at + 1]

    def whole(self):
        """The one value of the text."""
        if self.text.startswith("\ufeff"):
            self.fail("the file begins with a byte order mark; save it as UTF-8 without BOM")
        if not self.next():
            self.fail("there is no JSON text before the line --, or none at all")
        value = self.value()
        if self.next():
            self.fail(self.after_the_end())
        return value

    def line_here(self):
        begin = self.text.rfind("\n", 0, self.at) + 1
        return self.text[begin : (self.text + "\n").find("\n", begin)].rstrip("\r")

    def after_the_end(self):
        """What is wrong where something follows the value."""
        line = self.line_here()
        if BALL.match(line):
            return "here the balls begin, and the line -- before them is forgotten"
        if DASHES.match(line):
            return f'this line is "{line}"; the line before the balls has to be exactly --'
        if self.text.startswith("--", self.at):
            return "the -- before the balls has to stand on a line of its own; end the line before it"
        return "the JSON value has ended before this; one bracket too many, or a comma in place of it?"

    def value(self):
        first = self.next()
        begin = self.at
        if first == "{":
            return self.container(self.object)
        if first == "[":
            return self.container(self.list)
        if first == '"':
            return Node(begin, self.string())
        if first and first in "-0123456789":
            return self.number()
        for word, value in WORDS.items():
            if self.text.startswith(word, self.at):
                self.at += len(word)
                return Node(begin, value, spelling=word)
        return self.fail(self.no_value(first))

    def no_value(self, first):
        """Why no value begins here."""
        if not first:
            return "the text ends here, before its brackets are closed"
        if BALL.match(self.line_here()) or DASHES.match(self.line_here()):
            return "here the JSON text should go on; is a bracket above not closed?"
        if first in "]}":
            return f"a value is missing before this {first}; a comma too many?"
        if first in "'‘’‚‛“”„‟«»`":
            return f'a text stands in quotes of the form "; this one is {first}'
        if first in "/#":
            return "a comment is no JSON; take it away"
        return "this is no JSON value; a text stands in quotes"

    def container(self, read):
        self.layers += 1
        if self.layers > DEEPEST:
            self.fail(f"lists and objects stand in more than {DEEPEST} layers")
        begin = self.at
        self.at += 1
        node = read(begin)
        self.layers -= 1
        return node

    def more(self, closing):
        """Whether another item follows; the closing bracket is taken."""
        mark = self.next()
        if mark == closing:
            self.at += 1
            return False
        if mark == ",":
            comma = self.at
            self.at += 1
            if self.next() == closing:
                self.fail(f"no {closing} may follow this comma; take the comma away", comma)
            return True
        if not mark:
            self.fail("the text ends here, before its brackets are closed")
        if BALL.match(self.line_here()) or DASHES.match(self.line_here()):
            self.fail(f"here a {closing} is missing; is a bracket above not closed?")
        if mark in "]}":
            self.fail(f"this {mark} closes what was not opened so; a {closing} is missing before it")
        return self.fail(f"a comma is missing before this, or a {closing}")

    def list(self, begin):
        items = []
        if self.next() == "]":
            self.at += 1
            return Node(begin, items)
        while True:
            items.append(self.value())
            if not self.more("]"):
                return Node(begin, items)

    def object(self, begin):
        members, names = {}, []
        if self.next() == "}":
            self.at += 1
            return Node(begin, members, names)
        while True:
            if self.next() != '"':
                self.fail("a member's name in quotes has to stand here" if self.next() else self.no_value(""))
            names.append((self.at, self.string()))
            if self.next() != ":":
                self.fail(f'after the name "{names[-1][1]}" a colon is missing')
            self.at += 1
            members[names[-1][1]] = self.value()
            if not self.more("}"):
                return Node(begin, members, names)

    def number(self):
        begin = self.at
        match = NUMBER.match(self.text, begin)
        if not match:
            self.fail("this is no number")
        self.at = match.end()
        if self.text[self.at : self.at + 1].isdigit():
            self.fail("a number does not begin with 0", begin)
        digits = match[0]
        is_whole = not match[1] and not match[2] and digits[0] != "-" and len(digits) <= 20 and int(digits) < 2**64
        if is_whole:
            return Node(begin, int(digits), spelling=f"the number {digits}")
        if float(digits) in (float("inf"), float("-inf")):
            self.fail("this number is too large", begin)
        return Node(begin, float(digits), spelling=f"the number {digits}")

    def string(self):
        begin, pieces = self.at, []
        self.at += 1
        while True:
            plain = PLAIN.match(self.text, self.at)
            pieces.append(plain[0])
            self.at = plain.end() + 1
            mark = self.text[plain.end() : self.at]
            if mark == '"':
                return "".join(pieces)
            if mark != "\\":
                self.fail("this text is not closed on its line", begin)
            pieces.append(self.escape())

    def escape(self):
        begin, letter = self.at - 1, self.text[self.at : self.at + 1]
        self.at += 1
        if letter in ESCAPES and letter:
            return ESCAPES[letter]
        if letter != "u":
            self.fail("after \\ one of \" \\ / b f n r t u has to stand", begin)
        unit = self.unit(begin)
        if 0xD800 <= unit < 0xDC00 and self.text.startswith("\\u", self.at):
            self.at += 2
            low = self.unit(begin)
            if 0xDC00 <= low < 0xE000:
                return chr(0x10000 + ((unit - 0xD800) << 10) + (low - 0xDC00))
        if 0xD800 <= unit < 0xE000:
            self.fail("half of a surrogate pair is no character", begin)
        return chr(unit)

    def unit(self, begin):
        digits = self.text[self.at : self.at + 4]
        if not re.fullmatch("[0-9a-fA-F]{4}", digits):
            self.fail("after \\u four digits 0 to 9 or a to f have to stand", begin)
        self.at += 4
        return int(digits, 16)


def read_text(data):
    """The text of bytes, or where they are none."""
    if data[:2] in (b"\xff\xfe", b"\xfe\xff"):
        raise NotJson(0, "the file is saved as UTF-16; save it as UTF-8")
    try:
        return data.decode("utf-8")
    except UnicodeDecodeError as error:
        raise NotJson(len(data[: error.start].decode("utf-8")), "this byte is no UTF-8; save the file as UTF-8") from None


def head_of(data):
    """The bytes before the first line that is --, or all."""
    at = 0
    for line in re.findall(rb"[^\n]*\n|[^\n]+", data):
        if line.removesuffix(b"\n").removesuffix(b"\r") == b"--":
            return data[:at]
        at += len(line)
    return data


def line_and_column(text, at):
    """Both from 1; a column counts characters."""
    return text.count("\n", 0, at) + 1, at - text.rfind("\n", 0, at)
