"""Avida's files: their lines, the numbers in them, and what becomes of them here.

The files have settings, events, reactions or instructions, one on a line. What follows a # is a comment. Lines end with
a newline, with or without a return before it.
"""

import re
from decimal import Decimal, localcontext
from fractions import Fraction
from pathlib import Path
from typing import NamedTuple

from avida_log import Fault

MILLION = 1000000
DEEPEST = 20


class Line(NamedTuple):
    """A line of a file without its comment, and where it begins."""

    path: Path
    number: int
    words: list

    @property
    def where(self):
        return f"{self.path}:{self.number}"

    @property
    def text(self):
        """Its words, without bytes that a comment of a configuration can't have."""
        return re.sub(r"[\x00-\x1f\x7f-\x9f]", "?", " ".join(self.words))

    def fault(self, why):
        return Fault(f"{self.where}: {self.text}: {why}")


def text_of(path, asked=None):
    """The text of a file. Where another line asked for it, a Fault names that line."""
    try:
        given = Path(path).read_bytes()
    except OSError as error:
        raise Fault(f"{asked.where}: {path}: {error.strerror}" if asked else f"{path}: {error.strerror}") from None
    try:
        return given.decode("utf-8").removeprefix("\ufeff")
    except UnicodeDecodeError:
        return given.decode("latin-1")


class Reader:
    """The lines of a file and of those that it includes, in their order.

    `#include FILE` and `#include NAME=FILE` are replaced by the lines of that file; of the second kind an option may
    name another. `#define NAME VALUE` gives a value to $NAME. A line that ends with a backslash goes on in the next.
    """

    def __init__(self, replaced=None):
        self.replaced, self.defined = replaced or {}, {}

    def lines(self, path, asked=None, depth=0):
        if depth > DEEPEST:
            raise Fault(f"{asked.where}: #include goes deeper than {DEEPEST}: a file may include itself")
        begun = None
        for number, text in enumerate(text_of(path, asked).split("\n"), 1):
            words = text.split()
            if words[:1] in (["#include"], ["#import"]):
                here = Line(path, number, words)
                yield from self.lines(self.included(here), here, depth + 1)
                continue
            if words[:1] == ["#define"]:
                if len(words) < 3:
                    raise Line(path, number, words).fault("a name and a value belong behind #define")
                self.defined[f"${words[1]}"] = " ".join(words[2:]).split("#", 1)[0].split()
                continue
            text = text.split("#", 1)[0].rstrip()
            goes_on = text.endswith("\\")
            words = [each for word in text.removesuffix("\\").split() for each in self.value_of(word, path, number)]
            begun = Line(path, number, words) if begun is None else begun._replace(words=begun.words + words)
            if not goes_on:
                if begun.words:
                    yield begun
                begun = None
        if begun is not None and begun.words:
            yield begun

    def value_of(self, word, path, number):
        if not word.startswith("$"):
            return [word]
        if word not in self.defined:
            raise Fault(f"{path}:{number}: {word} isn't defined before this line")
        return self.defined[word]

    def included(self, line):
        if len(line.words) < 2:
            raise line.fault("a file belongs behind it")
        name, equal, file = line.words[1].strip('"<>').partition("=")
        if equal and name in self.replaced:
            return self.replaced[name]
        return line.path.parent / (file if equal else name).strip('"')


def is_number(word):
    return len(word) <= 40 and re.fullmatch(r"[+-]?(\d+\.?\d*|\.\d+)([eE][+-]?\d{1,3})?", word) is not None


def number_of(line, word, what="this"):
    """A decimal number, exactly."""
    if not is_number(word):
        raise line.fault(f"{what} must be a number")
    return Fraction(Decimal(word))


def whole_of(line, word, what="this"):
    number = number_of(line, word, what)
    if number.denominator != 1:
        raise line.fault(f"{what} must be a whole number")
    return int(number)


def in_decimals(number):
    """A number as people write it; it has finitely many decimals."""
    with localcontext() as context:
        context.prec = 100
        decimal = (Decimal(number.numerator) / Decimal(number.denominator)).normalize()
    return format(decimal, "f") if decimal.adjusted() > -30 else str(decimal)


def is_same(word, value):
    """Whether a word is this value, numbers as numbers."""
    if is_number(word) and is_number(value):
        return Fraction(Decimal(word)) == Fraction(Decimal(value))
    return word == value


# What becomes of them.


class Finding(NamedTuple):
    """Something that this world can't have: where it stands, what it is and what follows."""

    where: str
    what: str
    follows: str

    def __str__(self):
        return f"{self.where}: {self.what}: {self.follows}"


class Translation:
    """The configuration that comes about, with a comment for each key, and what can't be translated."""

    def __init__(self):
        self.keys, self.comments, self.events, self.changes, self.nothings = {}, {}, [], [], []
        self.read = []

    def set(self, key, value, comment):
        self.keys[key], self.comments[key] = value, comment

    def change(self, line, follows, what=None):
        self.changes.append(Finding(line.where, what or line.text, follows))

    def nothing(self, line, follows, what=None):
        self.nothings.append(Finding(line.where, what or line.text, follows))

    def take_file(self, path):
        if path not in self.read:
            self.read.append(path)


def parts_of(made, line, word, kind):
    """A probability as whole ppm, or a share as whole percent. One that isn't whole is named."""
    parts = MILLION if kind == "ppm" else 100
    what, least = ("probability", 0) if kind == "ppm" else ("share", 1)
    number = number_of(line, word, f"a {what}")
    if not 0 <= number <= 1:
        raise line.fault(f"a {what} goes from 0 to 1")
    exact = number * parts
    value = max(int(exact + Fraction(1, 2)), least)
    if value != exact:
        made.change(line, f"that is {in_decimals(exact)} {kind}, and a whole number from {least} on is needed, so it is {value}")
    return value
