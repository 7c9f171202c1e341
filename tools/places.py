"""Reads JSON as dshark does, and keeps where each value stands. Places are numbers of characters, from 0."""

import re

SPACE = re.compile(r"[ \t\n\r]*")
NUMBER = re.compile(r"-?(?:0|[1-9][0-9]*)(?:\.[0-9]+)?(?:[eE][+-]?[0-9]+)?")
ESCAPES = {'"': '"', "\\": "\\", "/": "/", "b": "\b", "f": "\f", "n": "\n", "r": "\r", "t": "\t"}
DEEPEST = 127


class NoJson(Exception):
    """A place, and what is wrong there."""


class Value:
    """A value: its kind, the place of its first character and that after its last, and what it holds. An object holds
    a map from each name to the place of the name and the value, the last of those with one name; a list its values; a
    text its characters, with `places` of each of them and of its end; a number its own text."""

    def __init__(self, kind, start, end, holds=None, places=None):
        self.kind, self.start, self.end, self.holds, self.places = kind, start, end, holds, places

    def member(self, name):
        """The value of a member of an object, or None."""
        return self.holds[name][1] if self.kind == "object" and name in self.holds else None


class Reader:
    def __init__(self, text):
        self.text, self.at = text, 0

    def blank(self):
        self.at = SPACE.match(self.text, self.at).end()

    def sign(self):
        """The character here, or nothing at the end."""
        return self.text[self.at:self.at + 1]

    def demand(self, sign, what):
        self.blank()
        if self.sign() != sign:
            raise NoJson(self.at, what if self.sign() else "the text ends too early")
        self.at += 1

    def whole(self):
        value = self.value(0)
        self.blank()
        if self.sign():
            raise NoJson(self.at, "nothing may follow the value")
        return value

    def value(self, depth):
        self.blank()
        start, sign = self.at, self.sign()
        if sign and sign in "{[":
            if depth == DEEPEST:
                raise NoJson(start, f"more than {DEEPEST} levels")
            self.at += 1
            return self.object(start, depth + 1) if sign == "{" else self.list(start, depth + 1)
        if sign == '"':
            return self.string()
        for word in ("true", "false", "null"):
            if self.text.startswith(word, start):
                self.at += len(word)
                return Value("null" if word == "null" else "flag", start, self.at, word)
        number = NUMBER.match(self.text, start)
        if not number:
            raise NoJson(start, "a value has to stand here" if sign else "the text ends too early")
        if float(number.group()) in (float("inf"), -float("inf")):
            raise NoJson(start, "the number is too large")
        self.at = number.end()
        return Value("number", start, self.at, number.group())

    def object(self, start, depth):
        members = {}
        self.blank()
        while self.sign() != "}" or members:
            self.blank()
            if self.sign() != '"':
                raise NoJson(self.at, "the name of a member has to stand here" if self.sign() else "the text ends too early")
            name = self.string()
            self.demand(":", "a ':' has to stand here")
            members.pop(name.holds, None)
            members[name.holds] = (name, self.value(depth))
            self.blank()
            if self.sign() == "}":
                break
            self.demand(",", "a ',' or '}' has to stand here")
        self.at += 1
        return Value("object", start, self.at, members)

    def list(self, start, depth):
        values = []
        self.blank()
        while self.sign() != "]" or values:
            values.append(self.value(depth))
            self.blank()
            if self.sign() == "]":
                break
            self.demand(",", "a ',' or ']' has to stand here")
        self.at += 1
        return Value("list", start, self.at, values)

    def unit(self):
        """The number after \\u."""
        digits = self.text[self.at + 2:self.at + 6]
        if not re.fullmatch(r"[0-9A-Fa-f]{4}", digits):
            raise NoJson(self.at, "four hexadecimal digits have to follow \\u")
        self.at += 6
        return int(digits, 16)

    def string(self):
        start = self.at
        self.at += 1
        characters, places = [], []
        while self.sign() != '"':
            sign = self.sign()
            if not sign:
                raise NoJson(start, "the text that begins here has no end")
            if sign < " ":
                raise NoJson(self.at, "a control character in a text")
            places.append(self.at)
            if sign != "\\":
                self.at += 1
            elif self.text[self.at + 1:self.at + 2] == "u":
                here, unit = self.at, self.unit()
                if 0xD800 <= unit < 0xDC00 and self.text.startswith("\\u", self.at):
                    low = self.unit()
                    if 0xDC00 <= low < 0xE000:
                        unit = 0x10000 + (unit - 0xD800) * 0x400 + (low - 0xDC00)
                if 0xD800 <= unit < 0xE000:
                    raise NoJson(here, "half of a pair of \\u")
                sign = chr(unit)
            else:
                sign = ESCAPES.get(self.text[self.at + 1:self.at + 2])
                if sign is None:
                    raise NoJson(self.at, "no such escape")
                self.at += 2
            characters.append(sign)
        self.at += 1
        return Value("text", start, self.at, "".join(characters), places + [self.at - 1])


def read_json(text):
    return Reader(text).whole()
