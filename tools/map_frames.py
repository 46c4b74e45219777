"""What a page of tools/map has of a log: the counts of each update, and the world cell by cell after some of them.

A page makes an organism's genome of its ancestor's in the frame before, and of the records of birth between them.
"""

import zlib
from array import array
from base64 import b64encode

from avida_log import TASKS, Update
from settled import NO_PARENT, Settled

# An organism's hue in its frame is from 1 to 127, and an empty cell has 0.
HUES = 127
# How far the hue of a child may be from its parent's, in parts of the circle, where their genomes differ.
DRIFT = 0.05
# What a frame has of a cell in place of an id: nobody, who stood there in the frame before, or this and so many ids on.
EMPTY, SAME, FIRST_NEW = 0, 1, 2
# So many births are kept between two frames, before those without descendants are dropped.
MOST_BORN = 200_000


def drifted(hue, id):
    """The hue of a child with another genome than its parent's: that of the parent, moved by what its id alone decides."""
    return (hue + DRIFT * (2 * ((id * 2654435761 % 2**32) / 2**32) - 1)) % 1


def length_after(length, own):
    """The length of a genome after this record of birth. A change without a place raises a ValueError."""
    if ":" in own:
        base, own = own.split(":")
        length = len(base)
    for change in own.split(",") if own else ():
        kind = change[0]
        place = int(change[1:] if kind == "d" else change[1:-1])
        if place > length or (place == length and kind != "i"):
            raise ValueError(change)
        if kind != "p":
            length += 1 if kind == "i" else -1
    return length


def packed(numbers):
    """Numbers of four bytes as text: first all lowest bytes, and so on, which deflates well."""
    data = array("I", numbers).tobytes()
    return packed_bytes(b"".join(data[at::4] for at in range(4)))


def packed_bytes(data):
    return b64encode(zlib.compress(data)).decode()


class Frames(Settled):
    """The counts of all updates of a log, and the cells of every so many, of its founding and of its last update."""

    def __init__(self, log, step):
        self.counts = []
        # Cell by cell of all frames: who stands there, where its ancestor stood in the frame before, and its hue.
        self.ids, self.sources, self.hues = array("I"), array("I"), bytearray()
        # Of each organism in its first frame: how far its parent's id lies below its own; the cell of the nearest ancestor
        # that is in this frame too; and the records of birth.
        self.parents, self.nearest, self.records = array("I"), array("I"), []
        # How many ids begin in each update.
        self.newborns = array("I")
        # Of who stands in the last frame, and then of those born since: the cell of the ancestor in that frame, or None
        # where there is none; the hue; the records of birth between that ancestor and it that aren't empty; the genome's
        # length; and who is nearest of it and its ancestors that are new in the next frame, or None.
        self.known = {}
        # The first id after the last frame; and of who was born since, as far as they are kept, the id, the parent's and the
        # record of birth. Once there are so many of them, some may be dropped.
        self.first, self.born, self.most = 0, [], MOST_BORN
        super().__init__(log, step)

    def founded(self, start):
        self.born.append((0, NO_PARENT, f"@{start.letters}"))
        self.keep(Update(0, 1, 0, 0, 1, len(start.letters), (0,) * len(TASKS)))

    def ended(self, stretch):
        self.newborns.extend(stretch.newborns)
        self.born += stretch.births()
        if len(self.updates) % self.step == 0:
            self.keep(self.updates[-1])
        elif len(self.born) > self.most:
            self.prune()

    def finished(self):
        if len(self.updates) % self.step:
            self.keep(self.updates[-1])

    def prune(self):
        """Drops who was born since the last frame and is neither alive nor an ancestor of somebody who is."""
        parents, needed = {id: above for id, above, _ in self.born}, set()
        for id in self.living():
            while id in parents and id not in needed:
                needed.add(id)
                id = parents[id]
        self.born = [birth for birth in self.born if birth[0] in needed]
        self.most = max(MOST_BORN, 2 * len(self.born))

    def keep(self, update):
        """Adds a frame: the world after this update."""
        self.counts.append([*update[:6], *update.tasks])
        first, cells, cell_of, now = self.first, len(self.holders), self.living(), {}
        ids, sources, hues = [EMPTY] * cells, [0] * cells, bytearray(cells)
        new, known = self.learn(cell_of), self.known
        for id, cell in cell_of.items():
            its = known[id]
            source, hue, _, length, _ = its
            if id < first:
                ids[cell], now[id] = SAME, its
            else:
                ids[cell], now[id] = FIRST_NEW + id - first, (cell, hue, "", length, None)
            sources[cell] = 0 if source is None else 1 + (source - cell) % cells
            hues[cell] = 1 + int(hue * HUES) % HUES
        self.ids.extend(ids)
        self.sources.extend(sources)
        self.hues += hues
        told = zip(*(new[id] for id in cell_of if id >= first))
        for column, values in zip((self.parents, self.nearest, self.records), told):
            column.extend(values)
        self.known, self.first, self.born = now, self.next_id, []

    def learn(self, cell_of):
        """Makes known who was born since the last frame. Gives of each that is in this one its parent, nearest and records."""
        known, new, cells = self.known, {}, len(self.holders)
        for id, above, own in self.born:
            if above == NO_PARENT:
                its = None, id * 0.382 % 1, own, len(own) - 1, None
                parent, before, nearest = 0, "", None
            else:
                its = known[above]
                source, hue, before, length, nearest = its
                parent = id - above
                if own:
                    its = source, drifted(hue, id), f"{before};{own}" if before else own, length_after(length, own), nearest
            if id in cell_of:
                new[id] = parent, 0 if nearest is None else 1 + (cell_of[nearest] - cell_of[id]) % cells, f"{before}/{own}"
                its = *its[:4], id
            known[id] = its
        return new
