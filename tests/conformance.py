#!/usr/bin/env python3
"""Judges the texts of crates/conformance/stdin by a second reader, written here from the rules of docs/RULES.md,
section 5, and compares with the verdicts that the table expects.

    tests/conformance.py [TABLE]

The reader is a recursive descent over the grammar, one function to a production, and shares nothing with the proved
scanner. Where the rules agree, Python's own json is asked as a third judge. Ends with status 1 where a text is not as
expected.
"""
import json
import os
import sys

LONGEST = 1024
DEEPEST = 8
SPACE = b" \t\n\r"
DIGITS = b"0123456789"
HEX = b"0123456789abcdefABCDEF"


class Refused(Exception):
    """The verdict 52 or 53, at the first place from the left that gives one."""


class Reader:
    """One text, read from the left. Depth is the number of open arrays and objects."""

    def __init__(self, text):
        self.text = text
        self.at = 0
        self.depth = 0

    def peek(self):
        return self.text[self.at : self.at + 1]

    def take(self, allowed):
        byte = self.peek()
        if not byte or byte not in allowed:
            raise Refused("53")
        self.at += 1
        return byte

    def taken(self, byte):
        if self.peek() == byte:
            self.at += 1
            return True
        return False

    def space(self):
        while self.peek() and self.peek() in SPACE:
            self.at += 1

    def whole(self):
        self.space()
        self.value()
        self.space()
        if self.peek():
            raise Refused("53")

    def value(self):
        byte = self.peek()
        if byte == b"[":
            self.container(b"]", self.value)
        elif byte == b"{":
            self.container(b"}", self.member)
        elif byte == b'"':
            self.string()
        elif byte == b"t":
            self.word(b"true")
        elif byte == b"f":
            self.word(b"false")
        elif byte == b"n":
            self.word(b"null")
        else:
            self.number()

    def container(self, close, element):
        if self.depth == DEEPEST:
            raise Refused("52")
        self.depth += 1
        self.at += 1
        self.space()
        if not self.taken(close):
            element()
            self.space()
            while not self.taken(close):
                self.take(b",")
                self.space()
                element()
                self.space()
        self.depth -= 1

    def member(self):
        self.string()
        self.space()
        self.take(b":")
        self.space()
        self.value()

    def string(self):
        self.take(b'"')
        while not self.taken(b'"'):
            byte = self.peek()
            if not byte or byte < b"\x20":
                raise Refused("53")
            self.at += 1
            if byte == b"\\" and self.take(b'"\\/bfnrtu') == b"u":
                for _ in range(4):
                    self.take(HEX)

    def word(self, word):
        for byte in word:
            self.take(bytes([byte]))

    def digits(self):
        self.take(DIGITS)
        while self.peek() and self.peek() in DIGITS:
            self.at += 1

    def number(self):
        self.taken(b"-")
        if not self.taken(b"0"):
            self.take(b"123456789")
            while self.peek() and self.peek() in DIGITS:
                self.at += 1
        if self.taken(b"."):
            self.digits()
        if self.taken(b"e") or self.taken(b"E"):
            if not self.taken(b"+"):
                self.taken(b"-")
            self.digits()


def judge(text):
    if len(text) > LONGEST:
        return "51"
    try:
        Reader(text).whole()
    except Refused as refused:
        return str(refused)
    return "json"


def refuse_constant(name):
    raise ValueError(name)


def python_takes(text):
    """Whether Python's json takes the text, each byte for a character, without NaN and the infinities."""
    try:
        json.loads(text.decode("latin-1"), parse_constant=refuse_constant)
    except ValueError:
        return False
    return True


def python_agrees(text, verdict):
    """Python knows no limits, so it says nothing of 51, and nothing of what follows a 52."""
    if verdict in ("json", "53"):
        return python_takes(text) == (verdict == "json")
    return True


def decode(encoded):
    """%HH is a byte, %*NNNNc is NNNN times c, any other printable byte is itself. None where it is malformed."""
    text = bytearray()
    while encoded:
        byte = encoded[0]
        if encoded[:2] == b"%*":
            count, unit, encoded = encoded[2:6], encoded[6:7], encoded[7:]
            if len(count) != 4 or any(b not in DIGITS for b in count) or not plain(unit):
                return None
            text += unit * int(count)
        elif byte == ord("%"):
            pair, encoded = encoded[1:3], encoded[3:]
            if len(pair) != 2 or any(b not in b"0123456789ABCDEF" for b in pair):
                return None
            text.append(int(pair, 16))
        else:
            if not plain(encoded[:1]):
                return None
            text.append(byte)
            encoded = encoded[1:]
    return bytes(text)


def plain(unit):
    return len(unit) == 1 and 0x20 <= unit[0] <= 0x7E and unit != b"%"


def check(table):
    texts = expected = python = malformed = 0
    seen = {}
    for number, line in enumerate(table.split(b"\n"), 1):
        if not line or line.startswith(b"# "):
            continue
        verdict, space, encoded = line.partition(b" ")
        verdict = verdict.decode("latin-1")
        text = decode(encoded)
        if verdict not in ("json", "51", "52", "53") or not space or text is None:
            malformed += 1
            print(f"line {number}: not a line of a table")
            continue
        texts += 1
        if text in seen:
            print(f"line {number}: the text of line {seen[text]} again")
        seen.setdefault(text, number)
        got = judge(text)
        if got == verdict:
            expected += 1
        else:
            print(f"line {number}: expected {verdict}, got {got}")
        if python_agrees(text, verdict):
            python += 1
        else:
            print(f"line {number}: expected {verdict}, and Python's json differs")
    print(f"{texts} texts, {expected} as expected, {texts - expected} not; {len(seen)} different texts")
    print(f"Python's json agrees on {python}, and not on {texts - python}; {malformed} lines malformed")
    return expected == python == texts == len(seen) and malformed == 0


def main():
    beside = os.path.join(os.path.dirname(os.path.abspath(__file__)), "..", "crates", "conformance", "stdin")
    path = sys.argv[1] if len(sys.argv) > 1 else beside
    with open(path, "rb") as file:
        return 0 if check(file.read()) else 1


if __name__ == "__main__":
    sys.exit(main())
