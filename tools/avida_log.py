"""The log of a run for other programs, and what the tools of this folder share.

`read_log` gives a log's lines one after another as records with names, and keeps none of them. It needs nothing but
Python's own library, and this file alone can be copied elsewhere.

    from avida_log import Birth, read_log

    for record in read_log("seed5.log"):
        if isinstance(record, Birth) and record.update > 9000:
            print(record.id, record.parent, record.changes)

A log is a file, perhaps compressed by gzip; `-`, standard input; a folder whose files are the pieces of one log; or an
open file of bytes. Its forms are those of docs/FORMATS.md, "The log":

- Times are updates. Update 0 is the founding, and the first update is 1.
- Cells are numbered row by row from 0, places in a genome from 0, and ids from 0, which is the founder's.
- A genome is a text of letters from a to z, one for each instruction.
- Rates are in parts per million (ppm).

A piece of a log is what `run` or `resume` writes: the first one begins with an `L` line, and each other one with the
update after the last one of the piece before. The `E` lines between them are left out. A log may be cut: a last piece of
a line is left out, and then no `E` line comes. A line that has no form raises a Fault, which names it. Whether the lines
fit each other is for the program's replay to say; `worlds_of` names only what it can't go on from.

    >>> log = TOP / "examples" / "events" / "output"
    >>> records = list(read_log(log))
    >>> records[0].width, records[0].height, len(records[0].letters)
    (12, 9, 100)
    >>> [record for record in records if isinstance(record, Rate)]
    [Rate(update=30, name='copy_error', ppm=90000), Rate(update=90, name='site_insert', ppm=0)]
    >>> records[-1]
    End(updates=120)
    >>> max(update.living for update in read_log(log, "U"))
    56
"""

import argparse
import gzip
import io
import os
import re
import shutil
import signal
import stat
import subprocess
import sys
import tempfile
import time
import zlib
from array import array
from bisect import bisect
from contextlib import contextmanager
from pathlib import Path
from typing import NamedTuple

if sys.version_info < (3, 10):
    sys.exit(f"{Path(sys.argv[0]).name}: it needs Python 3.11 or later, and this is {sys.version.split()[0]}")

TOP = Path(__file__).resolve().parent.parent

TASKS = ("NOT", "NAND", "AND", "ORN", "OR", "ANDN", "NOR", "XOR", "EQU")

# Nine colours, and one for no task. Any two stand apart by 15 or more in CIEDE2000, also for who can't tell red from green
# (colour_checks.py). Within each three they go from light to dark.
COLOURS = ("#8CC4A8", "#388C8C", "#005454", "#E0A8E0", "#7070FC", "#1C00C4", "#FCA800", "#A87000", "#70381C")
NO_TASK = "#F0F0F0"

# The instructions in the order of their letters, a to z.
INSTRUCTIONS = (
    "nop-A nop-B nop-C if-n-equ if-less if-label mov-head jmp-head get-head set-flow shift-r shift-l inc dec "
    "push pop swap-stk swap add sub nand h-copy h-alloc h-divide IO h-search"
).split()
NAME_OF = {chr(ord("a") + place): name for place, name in enumerate(INSTRUCTIONS)}
LETTER_OF = {name: letter for letter, name in NAME_OF.items()}

LEAST_LENGTH, GREATEST_LENGTH = 8, 8192

# The columns of a table of replays: its seed, the saved update and the last one, for each task the first update in which
# it stood above 0, and the counts after the last update.
TAPE_HEADER = ("seed", "from", "to", *(task.lower() for task in TASKS), *(f"{task.lower()}_end" for task in TASKS))

STANDARD_INPUT = "-"


class Fault(Exception):
    """Something that the user can mend. Its text says what and where."""


class Stopped(BaseException):
    """A signal that ends the tool. What it began ends with it, and what it made in part is removed."""

    def __init__(self, number):
        super().__init__(number)
        self.number = number


class Misfit(ValueError):
    """Why a line doesn't fit those before it."""


# Genomes.

IS_GENOME = re.compile(f"[a-z]{{{LEAST_LENGTH},{GREATEST_LENGTH}}}").fullmatch
ARE_CHANGES = re.compile(r"(?:p\d+[a-z]|i\d+[a-z]|d\d+)(?:,(?:p\d+[a-z]|i\d+[a-z]|d\d+))*").fullmatch


def fault_of_length(letters):
    """Why a genome of these letters is refused, in the program's words, or None."""
    if len(letters) < LEAST_LENGTH:
        return f"short {len(letters)}"
    return f"long {len(letters)}" if len(letters) > GREATEST_LENGTH else None


def fault_of_letters(text):
    """Why a text isn't a genome by letters, in the program's words, or None."""
    for place, letter in enumerate(text):
        if letter not in NAME_OF:
            return f"letter at {place}"
    return fault_of_length(text)


def are_of_a_birth(base, changes):
    """Whether these have the forms of a birth's base and changes."""
    return (base == "=" or IS_GENOME(base)) and (changes == "-" or ARE_CHANGES(changes))


def applied(parent, base, changes):
    """The genome that a birth's base and changes make of the parent's.

    >>> applied("wzcagcvf", "=", "p0a,i8b,d1")
    'acagcvfb'
    >>> applied("wzcagcvf", "aaaaaaaa", "-")
    'aaaaaaaa'
    """
    letters = parent if base == "=" else base
    if not are_of_a_birth(base, changes):
        raise ValueError(base, changes)
    if changes == "-":
        return letters
    for change in changes.split(","):
        kind = change[0]
        at = int(change[1:] if kind == "d" else change[1:-1])
        if not 0 <= at < len(letters) + (kind == "i"):
            raise Misfit(f"the change {change} has no place in a genome of {len(letters)} letters")
        if kind == "p":
            letters = letters[:at] + change[-1] + letters[at + 1 :]
        elif kind == "i":
            letters = letters[:at] + change[-1] + letters[at:]
        else:
            letters = letters[:at] + letters[at + 1 :]
    return letters


# Records: a log's lines.


class Start(NamedTuple):
    """An `L` line: the world's columns and rows, the founder's cell and its genome. The founder's id is 0."""

    version: int
    width: int
    height: int
    cell: int
    letters: str

    @classmethod
    def of(cls, fields):
        _, version, width, height, cell, letters = fields
        if not IS_GENOME(letters):
            raise ValueError(letters)
        return cls(int(version), int(width), int(height), int(cell), letters)


class Death(NamedTuple):
    """A `D` line: an organism died of age in this update, and its cell became empty."""

    id: int
    update: int
    cell: int

    @classmethod
    def of(cls, fields):
        _, id, update, cell = fields
        return cls(int(id), int(update), int(cell))


class Birth(NamedTuple):
    """A `B` line: an organism was born in this update, and put into this cell.

    `over` is the id of the organism that stood there and so died, or None. `base` is `=` for the parent's genome, or the
    letters that were copied; `changes` is `-`, or what then changed in them, as `p50q,i7z,d12`.

    >>> Birth.of("B 7 3 12 45 - = p4k,d9".split(" "))
    Birth(id=7, parent=3, update=12, cell=45, over=None, base='=', changes='p4k,d9')
    """

    id: int
    parent: int
    update: int
    cell: int
    over: int | None
    base: str
    changes: str

    @classmethod
    def of(cls, fields):
        _, id, parent, update, cell, over, base, changes = fields
        if not are_of_a_birth(base, changes):
            raise ValueError(base, changes)
        return cls(int(id), int(parent), int(update), int(cell), None if over == "-" else int(over), base, changes)

    def genome(self, parent):
        """The child's genome, of the parent's.

        >>> Birth(1, 0, 13, 7, None, "=", "p2q").genome("wzcagcvf")
        'wzqagcvf'
        """
        return applied(parent, self.base, self.changes)


class Injection(NamedTuple):
    """An `I` line: an event of this update put an organism with this genome into a cell. `over` is as in a birth."""

    id: int
    update: int
    cell: int
    over: int | None
    letters: str

    @classmethod
    def of(cls, fields):
        _, id, update, cell, over, letters = fields
        if not IS_GENOME(letters):
            raise ValueError(letters)
        return cls(int(id), int(update), int(cell), None if over == "-" else int(over), letters)


class Clearing(NamedTuple):
    """An `X` line: an event of this update killed the organism in a cell."""

    id: int
    update: int
    cell: int

    @classmethod
    def of(cls, fields):
        _, id, update, cell = fields
        return cls(int(id), int(update), int(cell))


class Rate(NamedTuple):
    """An `R` line: from the next update on the rate of this key is so many ppm."""

    update: int
    name: str
    ppm: int

    @classmethod
    def of(cls, fields):
        _, update, name, ppm = fields
        return cls(int(update), name, int(ppm))


class Update(NamedTuple):
    """A `U` line: what is counted at the end of an update.

    `living`, `genotypes`, `merit` (the sum of all) and `tasks` are of those who live then; `births` and `deaths` are of
    this update alone. `tasks` has a count of organisms for each of TASKS.

    >>> update = Update.of("U 60 9 0 0 8 841 2 0 0 0 0 0 0 0 0".split(" "))
    >>> update.number, update.living, round(update.mean_merit(), 3), dict(zip(TASKS, update.tasks))["NOT"]
    (60, 9, 93.444, 2)
    """

    number: int
    living: int
    births: int
    deaths: int
    genotypes: int
    merit: int
    tasks: tuple

    @classmethod
    def of(cls, fields):
        _, *numbers = fields
        if len(numbers) != 15 or not all(map(str.isdecimal, numbers)):
            raise ValueError(fields)
        numbers = list(map(int, numbers))
        return cls(*numbers[:6], tuple(numbers[6:]))

    def mean_merit(self):
        """The mean merit of the living, or None in an empty world."""
        return self.merit / self.living if self.living else None


class End(NamedTuple):
    """The `E` line, which ends a log that is whole: the number of its updates."""

    updates: int

    @classmethod
    def of(cls, fields):
        _, updates = fields
        return cls(int(updates))


RECORDS = {"L": Start, "D": Death, "B": Birth, "I": Injection, "X": Clearing, "R": Rate, "U": Update, "E": End}
# The fields of a line after its mark, and where a line of each mark has its update.
FIELDS = {mark: record._fields for mark, record in RECORDS.items()} | {
    "U": ("update", *Update._fields[1:6], *(f"count of {task}" for task in TASKS))
}
PLACE_OF_UPDATE = {"D": 2, "B": 3, "I": 2, "X": 2, "R": 1, "U": 1, "E": 1}


def cause_of(line):
    """Why a line isn't one of a log.

    >>> cause_of("B 3 1 26")
    'a B line has 7 fields after its mark, and this one has 3'
    >>> cause_of("D 3 x 4")
    "its field update has 'x', which is no number"
    """
    mark, *fields = line.split(" ")
    if mark not in FIELDS:
        return f"no line of a log begins with {mark[:20]!r}" if mark else "it is empty"
    names = FIELDS[mark]
    if len(fields) != len(names):
        return f"a {mark} line has {len(names)} fields after its mark, and this one has {len(fields)}"
    for name, field in zip(names, fields):
        if name == "letters" or (name == "base" and field != "="):
            reason = fault_of_letters(field)
            if reason:
                return f"its field {name} is no genome: {reason}"
        elif name == "changes":
            if field != "-" and not ARE_CHANGES(field):
                return f"its field changes has {field[:20]!r}, which isn't as p50q,i7z,d12"
        elif name in ("name", "base") or (name == "over" and field == "-"):
            continue
        elif not re.fullmatch("[0-9]+", field):
            return f"its field {name} has {field[:20]!r}, which is no number"
    return "it doesn't fit those before it"


# Files.


class Progress:
    """Says on a terminal, in one line of standard error, how far it is, once that has taken a second.

    What is counted are bytes of a file, or what `unit` says. Without a size nothing says how much there is.
    """

    # The name that the line begins with, which `run` gives. Without one nothing is said.
    tool = None

    def __init__(self, name, size, unit=None):
        self.name, self.size, self.unit, self.done, self.is_shown = name, size, unit, 0, False
        self.is_on = bool(self.tool) and sys.stderr.isatty()
        self.begun = self.last = time.monotonic()

    def add(self, count):
        self.done += count
        now = time.monotonic()
        if self.is_on and now - self.begun >= 1 and now - self.last >= 0.2:
            sys.stderr.write(f"\r\033[K{self.tool}: {self.name}: {self.share()}, {now - self.begun:.0f} s")
            sys.stderr.flush()
            self.last, self.is_shown = now, True

    def share(self):
        if self.unit:
            return f"{self.done} of {self.size} {self.unit}" if self.size else f"{self.done} {self.unit}"
        return f"{100 * self.done // self.size} % of {self.size / 1e6:.0f} MB" if self.size else f"{self.done / 1e6:.0f} MB"

    def over(self, results):
        """The same results, each of which is counted once it has come."""
        for result in results:
            self.add(1)
            yield result
        self.end()

    def end(self):
        if self.is_shown:
            sys.stderr.write("\r\033[K")
            sys.stderr.flush()


class Watched(io.FileIO):
    """A file that tells a Progress what is read of it."""

    def __init__(self, file, name, **how):
        super().__init__(file, **how)
        self.progress = Progress(name, os.fstat(self.fileno()).st_size)

    def readinto(self, buffer):
        count = super().readinto(buffer)
        self.progress.add(count or 0)
        return count


BLOCK = 1 << 18
# Copies of what can't be read twice, such as standard input or a pipe, by their paths.
kept = {}


def name_of(path):
    if hasattr(path, "read"):
        return "the log"
    return "standard input" if path == STANDARD_INPUT else str(path)


def is_folder(path):
    return not hasattr(path, "read") and path != STANDARD_INPUT and Path(path).is_dir()


def watched(path):
    try:
        if str(path) in kept:
            return Watched(kept[str(path)].name, Path(name_of(path)).name)
        return Watched(0, name_of(path), closefd=False) if path == STANDARD_INPUT else Watched(path, Path(path).name)
    except OSError as error:
        raise Fault(f"{name_of(path)}: {error.strerror}") from None


@contextmanager
def opened(path):
    """The bytes of a file, or of standard input for -. What gzip has compressed is unpacked."""
    if hasattr(path, "read"):
        yield path
        return
    raw = watched(path)
    with io.BufferedReader(raw, BLOCK) as file:
        try:
            is_packed = file.peek(2)[:2] == b"\x1f\x8b" or str(path).endswith(".gz")
            yield gzip.GzipFile(fileobj=file, mode="rb") if is_packed else file
        except (EOFError, zlib.error, gzip.BadGzipFile):
            raise Fault(f"{name_of(path)}: its compressed bytes are cut or damaged") from None
        finally:
            raw.progress.end()


@contextmanager
def as_text(file):
    """The text of a file of bytes, which stays open. Each byte is one character, so that each line can be told of."""
    text = io.TextIOWrapper(file, encoding="latin-1", newline="\n")
    try:
        yield text
    finally:
        text.detach()


def is_stream(path):
    """Whether what is read from here is gone then."""
    try:
        mode = os.stat(path).st_mode
    except OSError:
        return path == STANDARD_INPUT
    return path == STANDARD_INPUT or not (stat.S_ISREG(mode) or stat.S_ISDIR(mode))


def keep(path):
    """Makes a log one that can be read several times: standard input or a pipe is copied into a temporary file first."""
    if not hasattr(path, "read") and is_stream(path) and str(path) not in kept:
        with opened(path) as file:
            copy = tempfile.NamedTemporaryFile()
            shutil.copyfileobj(file, copy)
            copy.flush()
        kept[str(path)] = copy
    return path


class Piece(NamedTuple):
    """A file of a log: its first update, and where it lies. The one that begins the log has update 0."""

    update: int
    path: Path

    @classmethod
    def of(cls, path):
        """The piece in this file, or None where its first line isn't one of a log."""
        with opened(path) as file:
            fields = file.readline(100).decode("latin-1").split()
        if fields[:1] == ["L"]:
            return cls(0, path)
        place = PLACE_OF_UPDATE.get(fields[0], 0) if fields else 0
        if not place or len(fields) <= place or not fields[place].isdigit():
            return None
        return cls(int(fields[place]) + (fields[0] == "E"), path)


def pieces_of(path):
    """The pieces of a log in their order. In a folder hidden files and those that end in .part are left out."""
    if not is_folder(path):
        return [Piece(0, path)]
    files = [file for file in Path(path).iterdir() if file.is_file() and file.name[0] != "." and file.suffix != ".part"]
    pieces = sorted(filter(None, map(Piece.of, files)))
    begins = [piece for piece in pieces if piece.update == 0]
    if len(begins) != 1:
        which = " and ".join(piece.path.name for piece in begins[:2]) if begins else "no file"
        raise Fault(f"{path}: in a folder of one log one file begins with an L line, and here {which}")
    return pieces


class Lines:
    """The whole lines of a log as texts without their ends; where marks are given, only those that begin with one of them.

    While they are read, `where()` says where the last one stands. Afterwards `is_whole` says whether the log had its end.
    """

    def __init__(self, path, marks=None):
        self.path, self.marks, self.pieces = path, marks, pieces_of(path)
        self.piece, self.number, self.is_whole = self.pieces[0], 0, False

    def where(self):
        return f"{name_of(self.piece.path)}:{self.number}"

    def fault(self, cause):
        return Fault(f"{self.where()}: {cause}")

    def __iter__(self):
        marks, before = self.marks, 0
        for at, self.piece in enumerate(self.pieces):
            if at and not (self.is_whole and self.piece.update == before + 1):
                end = f"ends with update {before}" if self.is_whole else "is cut"
                raise Fault(f"{self.piece.path}: it begins with update {self.piece.update}, and the piece before it {end}")
            is_last, self.number, self.is_whole = at + 1 == len(self.pieces), 0, False
            with opened(self.piece.path) as file, as_text(file) as text:
                if not at:
                    self.number, first = 1, text.readline()
                    if not first.startswith("L "):
                        why = "its first line doesn't begin with L" if first else "it is empty"
                        raise Fault(f"{name_of(self.piece.path)}: this isn't a log: {why}")
                    if not first.endswith("\n"):
                        raise Fault(f"{name_of(self.piece.path)}: this log is cut in its first line")
                    if first.endswith("\r\n"):
                        raise Fault(f"{name_of(self.piece.path)}: its lines end with CR LF, and those of a log with LF alone")
                    if not marks or "L" in marks:
                        yield first[:-1]
                for self.number, line in enumerate(text, self.number + 1):
                    if self.is_whole:
                        raise self.fault("a line stands after the E line")
                    if line[-1] != "\n":
                        break
                    if line[0] == "E":
                        self.is_whole = True
                        before = self.end_of(line[:-1])
                        if not is_last:
                            continue
                    if not marks or line[0] in marks:
                        yield line[:-1]

    def end_of(self, line):
        try:
            return End.of(line.split(" ")).updates
        except ValueError:
            raise self.fault(cause_of(line)) from None

    def blocks(self):
        """The first line, and then for each update its lines with the U line at their end, each as one text.

        This is faster than line by line, and raises a ValueError where a line isn't in its place, without
        saying which. What is behind the last U line is only looked at for its form. Afterwards `ended` has the number of
        the E line, or None.
        """
        before, self.ended = 0, None
        for at, self.piece in enumerate(self.pieces):
            if at and not (self.is_whole and self.piece.update == before + 1):
                raise ValueError(self.piece)
            with opened(self.piece.path) as file:
                if not at:
                    first = file.readline().decode("latin-1")
                    if first[:2] != "L " or first[-1] != "\n":
                        raise ValueError(first)
                    yield first[:-1]
                # What is read and has no U line yet, with the line end before it.
                rest = b"\n"
                for chunk in iter(lambda: file.read(4 * BLOCK), b""):
                    rest, begun = rest + chunk, 0
                    while True:
                        update = rest.find(b"\nU ", begun)
                        end = rest.find(b"\n", update + 1)
                        if update < 0 or end < 0:
                            break
                        yield rest[begun + 1 : end].decode("latin-1")
                        begun = end
                    rest = rest[begun:]
            # The last one is empty, or cut.
            lines = rest[1:].decode("latin-1").split("\n")[:-1]
            self.is_whole = bool(lines) and lines[-1][:1] == "E"
            for line in lines:
                fields = line.split(" ")
                if fields[0] not in RECORDS or (fields[0] == "E") != (self.is_whole and line is lines[-1]):
                    raise ValueError(line)
                record = RECORDS[fields[0]].of(fields)
            self.ended = before = record.updates if self.is_whole else None


def read_log(log, marks=None):
    """The records of a log, one after another: a Start, then Death, Birth, Injection, Clearing, Rate and Update, and an End.

    With marks, such as "U" or "BD", it gives only the records of lines that begin with one of these letters, and is faster.
    From a program it reads as well as from a file:

        with subprocess.Popen(["./avida", "run"], stdin=open("a.toml"), stdout=subprocess.PIPE) as run:
            for update in read_log(run.stdout, "U"):
                print(update.number, update.mean_merit())

    >>> small = b"L 2 1 1 0 wzcagcvf\\nB 1 0 1 0 0 = p2q\\nU 1 1 1 1 1 8 0 0 0 0 0 0 0 0 0\\nE 1\\n"
    >>> [type(record).__name__ for record in read_log(io.BytesIO(small))]
    ['Start', 'Birth', 'Update', 'End']
    >>> [update.births for update in read_log(io.BytesIO(small), "U")]
    [1]
    >>> next(read_log(io.BytesIO(b"a,b\\n1,2\\n")))
    Traceback (most recent call last):
    avida_log.Fault: the log: this isn't a log: its first line doesn't begin with L
    """
    lines = Lines(log, marks)
    for line in lines:
        fields = line.split(" ")
        try:
            record = RECORDS[fields[0]].of(fields)
        except (ValueError, KeyError):
            raise lines.fault(cause_of(line)) from None
        yield record


def updates_of(path):
    """The `U` lines of a log. Standard input can be read once more after it."""
    return list(read_log(keep(path), "U"))


def last_update(path):
    """The number of a log's last update, or 0. Of a plain file only the end is read."""
    end, size = b"", 4 * BLOCK
    with opened(pieces_of(keep(path))[-1].path) as file:
        if isinstance(file, gzip.GzipFile):
            for chunk in iter(lambda: file.read(size), b""):
                end += chunk
                end = end[max(0, end.rfind(b"\nU ", 0, end.rfind(b"\n"))) :]
        else:
            whole = file.seek(0, os.SEEK_END)
            while end.rfind(b"\nU ", 0, end.rfind(b"\n")) < 0 and len(end) < whole:
                size *= 4
                file.seek(max(0, whole - size))
                end = file.read()
    found = end.rfind(b"\nU ", 0, end.rfind(b"\n"))
    number = end[found:].split(b" ", 2)[1] if found >= 0 else b"0"
    return int(number) if number.isdigit() else 0


def first_updates(updates):
    """For each task the first update in which its count is above 0, or None."""
    return [next((update.number for update in updates if update.tasks[at]), None) for at in range(len(TASKS))]


def thinned(updates, most):
    """The updates in so many groups at most, each of the same size, and that size."""
    size = -(-len(updates) // most)
    return [updates[at : at + size] for at in range(0, len(updates), size)], size


def mean_of(group, value):
    """The mean of a value over those updates of a group that have one, or None."""
    found = [number for number in map(value, group) if number is not None]
    return sum(found) / len(found) if found else None


# Worlds.


class World:
    """Who lives after each update of a log: the id in each cell, and the genome of each id."""

    def __init__(self, fields):
        start = Start.of(fields)
        self.width, self.height = start.width, start.height
        self.cells = [None] * (self.width * self.height)
        if not start.cell < len(self.cells):
            raise Misfit("its cell isn't in the world")
        self.cells[start.cell] = 0
        self.genomes = {0: start.letters}
        # Of each id that lives, and of each that died in this update, since a child may still name it.
        self.parents = {0: None}
        self.gone = []
        self.births, self.update, self.next_id, self.due = [0], None, 1, "1"

    def settle(self, cell, over, id, parent, genome):
        if id != self.next_id:
            raise Misfit(f"its organism is {id}, and the next one is {self.next_id}")
        self.next_id += 1
        cells = self.cells
        if not 0 <= cell < len(cells):
            raise Misfit("its cell isn't in the world")
        held = cells[cell]
        if held is not None and over != "-" and held == int(over):
            self.gone.append(held)
        elif held is not None or over != "-":
            raise Misfit(f"its line has {over} for who stood in cell {cell}, where {'-' if held is None else held} stands")
        cells[cell] = id
        self.genomes[id], self.parents[id] = genome, parent
        self.births.append(id)

    def leave(self, cell, id):
        if not 0 <= cell < len(self.cells):
            raise Misfit("its cell isn't in the world")
        if self.cells[cell] != id:
            raise Misfit(f"organism {id} doesn't stand in cell {cell}")
        self.cells[cell] = None
        self.gone.append(id)

    def take(self, fields):
        mark = fields[0]
        if mark == "B":
            _, id, parent, update, cell, over, base, changes = fields
            above = int(parent)
            genome = self.genomes.get(above)
            if genome is None:
                raise Misfit(f"its parent {parent} doesn't live")
            if base != "=" or changes != "-":
                genome = applied(genome, base, changes)
            self.settle(int(cell), over, int(id), above, genome)
        elif mark == "U":
            _, update, *_ = fields
            self.update = Update.of(fields)
        elif mark == "D" or mark == "X":
            _, id, update, cell = fields
            self.leave(int(cell), int(id))
        elif mark == "I":
            _, id, update, cell, over, letters = fields
            if not IS_GENOME(letters):
                raise ValueError(letters)
            self.settle(int(cell), over, int(id), None, letters)
        elif mark == "R":
            return
        elif mark == "E":
            last = self.update.number if self.update else 0
            if End.of(fields).updates != last:
                raise Misfit(f"its update is {fields[1]}, and the last one is {last}")
            return
        else:
            raise ValueError(mark)
        if update != self.due:
            raise Misfit(f"its update is {update}, and {self.due} is due")

    def forget(self):
        """Drops what the next update doesn't need."""
        self.due = str(self.update.number + 1 if self.update else 1)
        for id in self.gone:
            del self.genomes[id], self.parents[id]
        self.gone, self.births = [], []


def worlds_of(path):
    """The world of a log at its founding and after each update. It is one World, which changes as the log is read.

    >>> for world in worlds_of(TOP / "examples" / "first_birth" / "output"):
    ...     pass
    >>> world.update.number, world.cells, len(world.genomes[1])
    (13, [1], 100)
    """
    lines, world = Lines(path), None
    for line in lines:
        fields = line.split(" ")
        try:
            if world is None:
                world = World(fields)
            else:
                world.take(fields)
        except Misfit as why:
            raise lines.fault(why) from None
        except ValueError:
            raise lines.fault(cause_of(line)) from None
        if fields[0] == "U" or fields[0] == "L":
            yield world
            world.forget()


def with_one(numbers, number):
    """The array with one number more, in which each takes 4 bytes while all fit, and else 8.

    >>> with_one(array("i", [-1]), 2**31 - 1), with_one(array("i", [-1]), 2**31)
    (array('i', [-1, 2147483647]), array('q', [-1, 2147483648]))
    """
    try:
        numbers.append(number)
    except OverflowError:
        numbers = array({"i": "q", "I": "Q"}[numbers.typecode], numbers)
        numbers.append(number)
    return numbers


class Births:
    """The parent of each organism of a log and where its line stands, for lines of descent. It takes 8 bytes each, and
    more where an id or a place needs over 32 bits."""

    def __init__(self, path):
        # A founder's parent is -1.
        self.path, self.parents, self.places = keep(path), array("i"), array("I")
        # For each piece its first organism.
        self.firsts, self.pieces = [], []
        lines, place = Lines(path), 0
        for line in lines:
            if lines.piece is not (self.pieces and self.pieces[-1]):
                self.firsts.append(len(self.parents))
                self.pieces.append(lines.piece)
                place = 0
            if line[:1] in ("B", "I", "L"):
                self.add(lines, line, place)
            place += len(line) + 1

    def add(self, lines, line, place):
        try:
            mark, id, parent, _ = line.split(" ", 3)
            id, parent = (0, -1) if mark == "L" else (int(id), int(parent) if mark == "B" else -1)
        except ValueError:
            raise lines.fault(cause_of(line)) from None
        if id != len(self.parents):
            raise lines.fault(f"its organism is {id}, and the next one is {len(self.parents)}")
        if parent >= id:
            raise lines.fault(f"its parent {parent} comes after it")
        self.parents = with_one(self.parents, parent)
        self.places = with_one(self.places, place)

    def ids_to(self, id):
        """The line of descent to an organism, its founder first."""
        if not self.parents:
            raise Fault(f"{name_of(self.path)} has no organism")
        if not 0 <= id < len(self.parents):
            raise Fault(f"{name_of(self.path)} has no organism {id}: its ids go from 0 to {len(self.parents) - 1}")
        ids = [id]
        while self.parents[ids[-1]] >= 0:
            ids.append(self.parents[ids[-1]])
        return ids[::-1]

    def lines_of(self, ids):
        """The fields of the lines of these organisms, whose ids rise."""
        at = 0
        while at < len(ids):
            piece = bisect(self.firsts, ids[at]) - 1
            end = self.firsts[piece + 1] if piece + 1 < len(self.firsts) else len(self.parents)
            with opened(self.pieces[piece].path) as file:
                while at < len(ids) and ids[at] < end:
                    file.seek(self.places[ids[at]])
                    yield file.readline().decode("latin-1").split()
                    at += 1

    def line_to(self, id):
        """The same, each with its parent, update, cell, base, changes and genome, as the command lineage writes them."""
        genome, ids = None, self.ids_to(id)
        for each, fields in zip(ids, self.lines_of(ids)):
            try:
                if fields[0] == "B":
                    parent, update, cell, _, base, changes = fields[2:]
                    genome = applied(genome, base, changes)
                else:
                    update, cell, genome = ("0", *fields[4:]) if fields[0] == "L" else (fields[2], fields[3], fields[5])
                    parent = base = changes = "-"
            except (ValueError, IndexError) as why:
                cause = why if isinstance(why, Misfit) else cause_of(" ".join(fields))
                raise Fault(f"{name_of(self.path)}: the line of organism {each}: {cause}") from None
            yield each, parent, update, cell, base, changes, genome


# Programs.


def program():
    """The built program, or the one that the environment names in AVIDA."""
    if os.environ.get("AVIDA"):
        return os.environ["AVIDA"]
    with subprocess.Popen([TOP / "tools" / "built-program"], stdout=subprocess.PIPE, text=True) as built:
        try:
            path, _ = built.communicate()
        except BaseException:
            # A build ends by this signal with all that it began.
            built.terminate()
            raise
    if built.returncode:
        sys.exit(built.returncode)
    return path.strip()


def answer(words, given):
    """What the program writes for these words and this input, a file or bytes. Where it ends with another status than 0, a Fault."""
    how = {"stdin": given} if hasattr(given, "fileno") else {"input": given}
    ran = subprocess.run([str(word) for word in words], capture_output=True, **how)
    if ran.returncode:
        raise Fault(f"{words[1]}: {ran.stderr.decode(errors='replace').strip() or f'status {ran.returncode}'}")
    return ran.stdout.decode("ascii")


def table(rows):
    """Prints columns of equal width: numbers to the right, the last one as it is."""
    widths = [max(len(row[at]) for row in rows) for at in range(len(rows[0]) - 1)]
    for row in rows:
        print("  ".join([cell.rjust(width) for cell, width in zip(row, widths)] + [row[-1]]))


def given_text(path):
    """The text of a file, or of standard input where none is given. A byte outside ASCII is one character of it."""
    try:
        given = Path(path).read_bytes() if path else sys.stdin.buffer.read()
    except OSError as error:
        raise Fault(f"{path}: {error.strerror}") from None
    return given.decode("latin-1")


def arguments(description, **how):
    """The reader of a tool's words: its description is shown as it stands."""
    return argparse.ArgumentParser(description=description, formatter_class=argparse.RawDescriptionHelpFormatter, **how)


STOPPING = (signal.SIGINT, signal.SIGTERM, signal.SIGHUP)


def stop(number, frame):
    # A second signal doesn't stop the tidying up.
    for each in STOPPING:
        signal.signal(each, signal.SIG_IGN)
    raise Stopped(number)


def run(main):
    """Runs a tool, and says in one line what the user can mend."""
    # This module alone can be copied elsewhere, and then has no other beside it.
    from files import shown

    Progress.tool = Path(sys.argv[0]).name
    sys.stderr = sys.stderr or open(os.devnull, "w")
    for each in STOPPING:
        # Whoever began this may have a signal ignored, as nohup does.
        if signal.getsignal(each) != signal.SIG_IGN:
            signal.signal(each, stop)
    try:
        if sys.stdout is None:
            raise Fault("standard output is closed")
        # The bytes of a name that isn't UTF-8 are written as they are.
        sys.stdout.reconfigure(errors="surrogateescape")
        status = main()
        sys.stdout.flush()
        sys.exit(status)
    except Fault as fault:
        told, status = str(fault), 1
    except Stopped as stopped:
        told, status = None, 128 + stopped.number
    except BrokenPipeError:
        # Whoever read the output has enough of it, as head does.
        told, status = None, 141
    except OSError as error:
        told, status = f"{error.filename or 'its output'}: {error.strerror}", 1
    except MemoryError:
        told, status = "out of memory", 1
    if told:
        print(f"{Path(sys.argv[0]).name}: {shown(told)}", file=sys.stderr)
    # What couldn't be written is let go.
    os.dup2(os.open(os.devnull, os.O_WRONLY), 1)
    sys.exit(status)
