"""The rules of docs/FORMATS.md by which a log or a saved world is rejected, written once more for tools/check-fuzz.

They are kept apart from the readers that the tools share: those take a log's order on trust.
"""

import re

WORD32, WORD64 = 2**32, 2**64
NUMBER = r"(?:0|[1-9][0-9]*)"
GENOME = "[a-z]{8,8192}"
RATES = "copy_error|divide_insert|divide_delete|site_point|site_insert|site_delete"
MILLION = 1_000_000
IS_NUMBER, IS_SIGNED, ARE_LETTERS = (re.compile(form).fullmatch for form in (NUMBER, "0|-?[1-9][0-9]*", GENOME))


class Rejected(Exception):
    """The reason of a line's fault."""


def must(holds, reason):
    if not holds:
        raise Rejected(reason)


def number(text, end=WORD64, least=0):
    """The number of a field, which is below an end."""
    must(IS_NUMBER(text) and least <= int(text[:25]) < end, "line")
    return int(text)


def fault_of_lines(data, take, is_ended):
    """The first fault of a text whose lines are taken one after another, or None."""
    *lines, rest = data.decode("latin-1").split("\n")
    for at, line in enumerate(lines, 1):
        try:
            take(line)
        except Rejected as rejected:
            return f"{rejected} {at}"
    if rest:
        return f"line {len(lines) + 1}"
    return None if is_ended() else f"unended {len(lines) + 1}"


# A log.

FIELDS_OF_LOG = {"L": 5, "D": 3, "B": 7, "I": 5, "X": 3, "R": 3, "U": 15, "E": 1}
PHASE = {"D": 0, "B": 1, "I": 2, "X": 2, "R": 2}


def changes_of(text):
    """The changes of a record of birth, as their kind, place and letter."""
    changes, before, last = [], "p", -1
    for item in text.split(",") if text != "-" else ():
        kind, place, letter = item[:1], item[1:], ""
        if kind in ("p", "i"):
            place, letter = item[1:-1], item[-1:]
            must(letter and "a" <= letter <= "z", "line")
        must(kind in ("p", "i", "d") and "pid".index(kind) >= "pid".index(before), "line")
        place = number(place, WORD32)
        must(kind != "p" or place > last, "line")
        before, last = kind, place if kind == "p" else last
        changes.append((kind, place, letter))
    return changes


def changed_by(genome, changes):
    letters = list(genome)
    for kind, place, letter in changes:
        must(place < len(letters) + (kind == "i"), "change")
        if kind == "p":
            letters[place] = letter
        elif kind == "i":
            letters.insert(place, letter)
        else:
            del letters[place]
        must(8 <= len(letters) <= 8192, "change")
    return "".join(letters)


class Log:
    """The rules of a log, line by line."""

    def __init__(self):
        self.version, self.cells, self.genomes, self.there = None, [], {}, set()
        self.due, self.next, self.phase, self.death_cell, self.births, self.deaths = 1, 1, 0, -1, 0, 0
        self.is_open = self.is_ended = False

    def take(self, line):
        mark, *fields = line.split(" ")
        must(len(fields) == FIELDS_OF_LOG.get(mark, -1), "line")
        known = getattr(self, f"form_{mark}")(*fields)
        must(not self.is_ended and (mark == "L") == (self.version is None), "order")
        if mark in PHASE:
            must(self.version == 2 or mark in "DB", "order")
            must(known[0] == self.due and PHASE[mark] >= self.phase, "order")
            self.phase, self.is_open = PHASE[mark], True
        getattr(self, f"take_{mark}")(*known)

    def form_L(self, version, width, height, cell, letters):
        must(version in ("1", "2") and ARE_LETTERS(letters), "line")
        return version, number(width, 257, 1) * number(height, 257, 1), number(cell, WORD32), letters

    def form_D(self, id, update, cell):
        return number(update, WORD32), number(id), number(cell, WORD32)

    form_X = form_D

    def form_B(self, id, parent, update, cell, over, base, changes):
        must(base == "=" or ARE_LETTERS(base), "line")
        return number(update, WORD32), number(id), number(parent), number(cell, WORD32), over_of(over), base, changes_of(changes)

    def form_I(self, id, update, cell, over, letters):
        must(ARE_LETTERS(letters), "line")
        return number(update, WORD32), number(id), number(cell, WORD32), over_of(over), letters

    def form_R(self, update, name, ppm):
        must(re.fullmatch(RATES, name), "line")
        return number(update, WORD32), number(ppm, MILLION + 1)

    def form_U(self, update, *counts):
        return number(update, WORD32), *(number(count) for count in counts[:3]), [number(count) for count in counts[3:]]

    def form_E(self, update):
        return (number(update, WORD32),)

    def take_L(self, version, cells, cell, letters):
        must(cell < cells, "order")
        self.version, self.cells = int(version), cells * [None]
        self.cells[cell], self.genomes, self.there = 0, {0: letters}, {0}

    def leave(self, id, cell):
        must(cell < len(self.cells) and self.cells[cell] == id, "order")
        self.cells[cell], self.deaths = None, self.deaths + 1

    def take_D(self, update, id, cell):
        must(cell > self.death_cell, "order")
        self.leave(id, cell)
        self.death_cell = cell

    def take_X(self, update, id, cell):
        self.leave(id, cell)

    def settle(self, id, cell, over):
        must(id == self.next and cell < len(self.cells) and self.cells[cell] == over, "order")
        self.cells[cell], self.next, self.deaths = id, id + 1, self.deaths + (over is not None)

    def take_B(self, update, id, parent, cell, over, base, changes):
        self.settle(id, cell, over)
        must(parent in self.there, "parent")
        self.genomes[id] = changed_by(self.genomes[parent] if base == "=" else base, changes)
        self.births += 1

    def take_I(self, update, id, cell, over, letters):
        self.settle(id, cell, over)
        self.genomes[id] = letters

    def take_R(self, update, ppm):
        pass

    def take_U(self, update, living, births, deaths, rest):
        self.there = {id for id in self.cells if id is not None}
        must((update, living, births, deaths) == (self.due, len(self.there), self.births, self.deaths), "order")
        self.due, self.phase, self.death_cell, self.births, self.deaths, self.is_open = update + 1, 0, -1, 0, 0, False

    def take_E(self, update):
        must(update == self.due - 1 and not self.is_open, "order")
        self.is_ended = True


def over_of(text):
    return None if text == "-" else number(text)


def fault_of_log(data):
    log = Log()
    return fault_of_lines(data, log.take, lambda: log.is_ended)


# A saved world.


def truth(text):
    must(text in ("0", "1"), "line")
    return text == "1"


def signed(text):
    must(IS_SIGNED(text) and -(2**31) <= int(text[:25]) < 2**31, "line")


class Saved:
    """The rules of a saved world, line by line."""

    def __init__(self):
        self.head, self.ids, self.cell, self.organism, self.is_ended = None, set(), -1, None, False

    def take(self, line):
        mark, *fields = line.split(" ")
        must(len(fields) == {"S": 22, "O": 11, "M": 34, "Z": 1}.get(mark, -1), "line")
        known = getattr(self, f"form_{mark}")(*fields)
        must(not self.is_ended and (mark == "S") == (self.head is None), "state")
        must((mark == "M") == (self.organism is not None), "state")
        getattr(self, f"take_{mark}")(*known)

    def form_S(self, version, width, height, update, next, seed, slices, death, age, *rest):
        must(version == "1", "line")
        cells = number(width, 257, 1) * number(height, 257, 1)
        number(update, MILLION + 1), number(seed, 2**63), number(slices, 1001, 1)
        for rate in rest[:6]:
            number(rate, MILLION + 1)
        truth(rest[6]), truth(rest[7]), number(rest[8], 101, 1), number(rest[9], 101, 1)
        least = number(rest[10], 8193, 8)
        greatest = number(rest[11], 8193, least)
        age = number(age, 1001, 1) if truth(death) else number(age, 1001, 1) and None
        return cells, number(next, 2**62 + 1, 1), age, least, greatest, number(rest[12], 8193, greatest)

    def take_S(self, *head):
        self.head = head

    def form_O(self, cell, id, merit, credited, age, inputs, gestation, first, second, third, genome):
        for tasks in (credited, gestation):
            number(tasks, 512)
        for low in (first, second, third):
            number(low, 2**24)
        must(ARE_LETTERS(genome), "line")
        return number(cell, WORD32), number(id), number(merit), number(age), number(inputs), genome

    def take_O(self, cell, id, merit, age, inputs, genome):
        cells, next, limit, least, greatest, _ = self.head
        must(self.cell < cell < cells and id < next and id not in self.ids, "state")
        must(1 <= merit <= 2**38 and least <= len(genome) <= greatest, "state")
        must(inputs <= age < 2**48 and (limit is None or age < limit * len(genome)), "state")
        self.cell, self.organism = cell, genome
        self.ids.add(id)

    def form_M(self, ax, bx, cx, active, ip, read, write, flow, pending, nops, *rest):
        for value in (ax, bx, cx, *rest[:20]):
            signed(value)
        truth(active)
        must(re.fullmatch("-|[abc]{1,10}", nops) and ARE_LETTERS(rest[20]) and ARE_LETTERS(rest[21]), "line")
        must(re.fullmatch("[01]+", rest[22]) and re.fullmatch("[01]+", rest[23]), "line")
        heads = [number(head, WORD32) for head in (ip, read, write, flow)]
        return heads, truth(pending), *map(len, rest[20:])

    def take_M(self, heads, pending, length, clean, executed, copied):
        must(length == clean == executed == copied, "state")
        most = min(self.head[-1], len(self.organism) * (6 if pending else 2))
        must(length <= most and max(heads) < length, "state")
        self.organism = None

    def form_Z(self, count):
        return (number(count),)

    def take_Z(self, count):
        must(count == len(self.ids), "state")
        self.is_ended = True


def fault_of_saved(data):
    saved = Saved()
    return fault_of_lines(data, saved.take, lambda: saved.is_ended)
