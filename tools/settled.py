"""The world of a log, read in stretches of updates, which several processes take apart at once.

A stretch needs nothing of what was before it: what its lines suppose of that is kept, and compared once it is there. Of who
is born only those are kept who live at the end of a stretch, and their ancestors; genomes are made of few of them.
"""

import math
from array import array
from contextlib import closing
from itertools import repeat
from typing import NamedTuple

from avida_log import ARE_CHANGES, IS_GENOME, Fault, Lines, Start, Update, applied, name_of, worlds_of
from processes import in_order

NOBODY = "-"
NO_PARENT = -1
# A task of a process ends where a stretch has to end, once it has the first of these numbers of bytes, and anywhere once it
# has the second.
ENOUGH_BYTES, MOST_BYTES = 4_000_000, 8_000_000


def columns_of(text, mark, count):
    """The columns of lines that all begin with this mark and have so many fields. Each has a line end before it."""
    fields = text.replace("\n", " ").split(" ")[1:]
    columns = [fields[at::count] for at in range(count)]
    lines = len(columns[0])
    if len(fields) != count * lines or columns[0].count(mark) != lines or text.count(f"\n{mark} ") != lines:
        raise ValueError(mark)
    return columns


class Stretch(NamedTuple):
    """What some updates change that follow each other.

    - updates, newborns: the counts of each update, and how many were born in it
    - first: the least id that was born, or None
    - before, after: of each cell that has a line, the id that stood there before the first of them, and the one after the
      last, as texts
    - elders: the ids of the parents who were born before these updates, as texts
    - ids, parents, records: of those born who live after the last update, and of their ancestors born in these, in the
      order of ids: the id, the parent's or NO_PARENT, and the record of birth, in one text with line ends between them. A
      founder's record is `@` and its genome, and a child's the changes, behind the copied letters and a colon where those
      aren't the parent's genome
    """

    updates: list
    newborns: list
    first: int | None
    before: dict
    after: dict
    elders: set
    ids: array
    parents: array
    records: str

    def births(self):
        """Of each who is kept its id, the parent's or NO_PARENT, and the record of birth."""
        return zip(self.ids, self.parents, self.records.split("\n"))


def record_of(above, base, changes):
    changes = "" if changes == "-" else changes
    if base == "=":
        return changes
    return f"@{base}" if above == NO_PARENT else f"{base}:{changes}"


def genome_of(parent, record):
    """The genome that a record of birth makes of the parent's."""
    if record[:1] == "@":
        return record[1:]
    base, _, changes = record.rpartition(":")
    return applied(parent, base or "=", changes or "-")


class Reader:
    """Takes a stretch apart, an update at a time. It raises a ValueError where a line is wrong, without saying which."""

    def __init__(self):
        self.updates, self.newborns, self.first = [], [], None
        # Of everybody who was born, in the order of ids.
        self.parents, self.bases, self.changes = [], [], []
        # The cells of those of them who live, and the cells that were left empty.
        self.cells, self.empty = {}, set()
        # Who stood in each cell before its first line, and so is gone; and which others from before had children.
        self.before, self.gone, self.elders = {}, set(), set()

    def take(self, text, due):
        """Takes the lines of an update: deaths, births, events and the counts. Each has a line end before it."""
        known = len(self.parents)
        counts, births = text.rfind("\nU "), text.find("\nB ")
        events = counts
        if text[text.rfind("\n", 0, counts) + 1] in "IXR":
            events = min(at for at in map(text.find, ("\nI ", "\nX ", "\nR ")) if at >= 0)
        births = events if births < 0 else births
        _, dead, died, graves = columns_of(text[:births], "D", 4)
        _, ids, parents, born, cells, overs, bases, changes = columns_of(text[births:events], "B", 8)
        if died.count(due) != len(died) or born.count(due) != len(born):
            raise ValueError(due)
        # Who dies in this update may be a parent in it.
        self.check_parents(parents)
        for id, cell in zip(dead, graves):
            self.leave(id, cell)
        self.settle(ids, cells, overs)
        self.parents += parents
        self.bases += bases
        self.changes += changes
        if events != counts:
            self.take_events(text[events + 1 : counts].split("\n"), due)
        update = Update.of(text[counts + 1 :].split(" "))
        if update.number != int(due):
            raise ValueError(update)
        self.updates.append(update)
        self.newborns.append(len(self.parents) - known)

    def check_parents(self, parents):
        elders = set(parents).difference(self.cells)
        if not elders.isdisjoint(self.gone):
            raise ValueError(elders)
        self.elders |= elders

    def settle(self, ids, cells, overs):
        """Puts newborns into their cells, each over who stands there then."""
        if not ids:
            return
        if self.first is None:
            self.first = int(ids[0])
        next_id = self.first + len(self.parents)
        if ids != list(map(str, range(next_id, next_id + len(ids)))):
            raise ValueError(ids)
        stood = list(map(self.cells.pop, overs, repeat(None)))
        self.cells.update(zip(ids, cells))
        for at in [at for at, its in enumerate(stood) if its is None]:
            # Nobody of an update before: it is somebody born in this one, or from before the stretch.
            stood[at] = self.cells.pop(overs[at], None)
            if stood[at] is None:
                self.begin(overs[at], cells[at])
                stood[at] = cells[at]
            elif int(overs[at]) >= next_id + at:
                raise ValueError(overs[at])
        if stood != cells:
            raise ValueError(overs)

    def begin(self, over, cell):
        """Notes who goes from a cell in which nobody of the stretch stands: somebody from before it, or nobody."""
        if over == NOBODY and cell in self.empty:
            self.empty.remove(cell)
        elif cell in self.before:
            raise ValueError(cell)
        else:
            self.before[cell] = over
            self.gone.add(over)

    def leave(self, id, cell):
        """Takes somebody out of a cell, which is empty then."""
        its = self.cells.pop(id, None)
        if id == NOBODY or its not in (None, cell):
            raise ValueError(cell)
        if its is None:
            self.begin(id, cell)
        self.empty.add(cell)

    def take_events(self, lines, due):
        """Takes I, X and R lines."""
        for line in lines:
            mark, *fields = line.split(" ")
            if mark == "I":
                id, update, cell, over, letters = fields
                if not IS_GENOME(letters):
                    raise ValueError(line)
                self.settle([id], [cell], [over])
                self.parents.append(NO_PARENT)
                self.bases.append(letters)
                self.changes.append("-")
            elif mark == "X":
                id, update, cell = fields
                self.leave(id, cell)
            elif mark == "R":
                update, _, _ = fields
            else:
                raise ValueError(line)
            if update != due:
                raise ValueError(line)

    def stretch(self):
        genomes, records = set(self.bases) - {"="}, set(self.changes) - {"-"}
        if not all(map(IS_GENOME, genomes)) or (records and not ARE_CHANGES(",".join(records))):
            raise ValueError(self.first)
        after = {cell: id for id, cell in self.cells.items()} | dict.fromkeys(self.empty, NOBODY)
        return Stretch(self.updates, self.newborns, self.first, self.before, after, self.elders, *self.kept())

    def kept(self):
        """Of those born who live, and of their ancestors born in the stretch, the ids, the parents and the records of birth."""
        parents, first = {}, self.first
        for id in map(int, self.cells):
            while id >= first and id not in parents:
                parents[id] = above = int(self.parents[id - first])
                id = above
        ids = sorted(parents)
        records = [record_of(parents[id], self.bases[id - first], self.changes[id - first]) for id in ids]
        return array("q", ids), array("q", map(parents.get, ids)), "\n".join(records)


def stretches_of(done, texts, step):
    """The stretches of updates whose lines are these texts, after so many others. An update that `step` divides ends one."""
    stretches, reader = [], Reader()
    for number, text in enumerate(texts, done + 1):
        reader.take("\n" + text, str(number))
        if number % step == 0:
            stretches.append(reader.stretch())
            reader = Reader()
    if reader.updates:
        stretches.append(reader.stretch())
    return stretches


def tasks_of(blocks, step):
    """The words of `stretches_of` for all blocks of a log, so many bytes of them at once."""
    done, texts, size = 0, [], 0
    for text in blocks:
        texts.append(text)
        size += len(text)
        if size >= MOST_BYTES or size >= ENOUGH_BYTES and (done + len(texts)) % step == 0:
            yield done, texts, step
            done, texts, size = done + len(texts), [], 0
    if texts:
        yield done, texts, step


class Settled:
    """Who stands in each cell after the stretches that were read.

    - holders: the id that stands in each cell, both as texts; NOBODY in an empty one
    - updates: the counts of each update
    - next_id: the id of who is born next
    - is_whole: whether the log has its end

    `founded` is called with the first line, `ended` with each stretch, and `finished` after the last. An update whose number
    `step` divides ends a stretch, and others may too.
    """

    def __init__(self, log, step=math.inf):
        self.step, self.updates, self.holders, self.next_id = step, [], {}, 1
        lines = Lines(log)
        try:
            blocks = lines.blocks()
            self.found(next(blocks))
            with closing(in_order(stretches_of, tasks_of(blocks, step))) as found:
                for stretches in found:
                    for stretch in stretches:
                        self.take(stretch)
            if lines.ended not in (None, len(self.updates)):
                raise ValueError(log)
            self.finished()
        except (ValueError, LookupError, OverflowError):
            # The other reader says what is wrong, and where, but takes the lines of an update in any order.
            for _ in worlds_of(log):
                pass
            raise Fault(f"{name_of(log)}: the lines of an update aren't in the order of docs/FORMATS.md") from None
        self.is_whole = lines.is_whole

    def found(self, text):
        start = Start.of(text.split(" "))
        self.width, self.height, self.founder = start.width, start.height, start.cell
        self.holders = {str(cell): NOBODY for cell in range(start.width * start.height)}
        if str(start.cell) not in self.holders:
            raise ValueError(text)
        self.holders[str(start.cell)] = "0"
        self.founded(start)

    def take(self, stretch):
        """Takes a stretch, which must fit what came before it."""
        holders = self.holders
        if stretch.first not in (None, self.next_id) or not stretch.before.items() <= holders.items():
            raise ValueError(stretch.first)
        if stretch.elders and not stretch.elders <= set(holders.values()) - {NOBODY}:
            raise ValueError(stretch.elders)
        holders.update(stretch.after)
        self.updates += stretch.updates
        self.next_id += sum(stretch.newborns)
        self.ended(stretch)

    def finished(self):
        pass

    def living(self):
        """The cell of each who lives, in the order of cells."""
        return {int(id): cell for cell, id in enumerate(self.holders.values()) if id != NOBODY}


class Ending(Settled):
    """The world after a log's last update, with its genomes."""

    def founded(self, start):
        self.genomes = {0: start.letters}

    def ended(self, stretch):
        known = self.genomes
        for id, above, record in stretch.births():
            known[id] = genome_of(known.get(above), record)
        self.genomes = {id: known[id] for id in self.living()}

    def rows(self):
        """Of each who lives its cell, its id and its genome, in the order of cells."""
        return [(cell, id, self.genomes[id]) for id, cell in self.living().items()]
