"""Who descends from whom in a log: a tree, or several, of organisms or of genotypes, read in one pass.

    >>> from avida_log import TOP
    >>> tree = Descent(is_all=True).read(TOP / "examples" / "first_birth" / "output")
    >>> [(id, update, cell) for id, update, cell, _, _ in tree.births()], list(tree.parents), list(tree.ends)
    ([(0, 0, 0), (1, 13, 0)], [-1, 0], [13, -1])
    >>> "".join(newick_of(tree))
    '(0:0,1:13)0:0;'
"""

from array import array
from itertools import accumulate, compress

from avida_log import IS_GENOME, RECORDS, End, Fault, Lines, Misfit, Start, Update, applied, are_of_a_birth, cause_of, name_of

NOBODY, NO_END = -1, -1
# Who stands in an empty cell, as the log has it.
EMPTY = "-"
# The marks of the lines after which a log is whole so far.
MARKS_OF_ENDS = ("U", "L", "E")
# How many nodes are kept at least before those without living descendants are dropped.
LEAST_TO_DROP = 50_000
PARTS = 4096


class Descent:
    """The nodes of a log's trees, each after the one that it descends from. A node is known by its place in the columns.

    A node is an organism; with by_genome it is an organism and all its descendants with the same genome that descend from
    it through such ones alone. Unless is_all is set, only nodes that live and their ancestors are kept.

    - lines: the line of the log that brought the organism, or the first one of the genotype
    - parents: the place of the node that it descends from, or NOBODY for a founder
    - ends: the update in which the last one of it died, or NO_END while one lives
    - genomes, living, organisms: with by_genome, its letters, how many of it live, and how many ever lived

    It takes about 120 bytes a node, and 160 more for a genome of 100 letters.
    """

    def __init__(self, is_all=False, by_genome=False):
        self.is_all, self.by_genome = is_all, by_genome
        self.lines, self.parents, self.ends = [], array("q"), array("q")
        self.genomes, self.living, self.organisms = [], array("q"), array("q")
        # The node of each organism that lives, by its id as the log has it, and of each that died in this update, since a
        # child may still name it; and who stands in each cell.
        self.node_of, self.gone, self.holders = {}, [], []
        self.next_id, self.update, self.is_whole = 0, 0, False

    def read(self, path, until=None):
        """Takes a log up to its last whole update, or up to this one."""
        lines, held, most = Lines(path), [], LEAST_TO_DROP
        for line in lines:
            # An update that has no end doesn't count.
            held.append(line)
            if line[:1] not in MARKS_OF_ENDS:
                continue
            self.take(lines, held)
            held = []
            if self.update == until:
                break
            if not self.is_all and len(self.lines) > most:
                self.drop_others()
                most = max(2 * len(self.lines), LEAST_TO_DROP)
        for line in held:
            self.check_form(lines, line)
        if until is not None and self.update != until:
            raise Fault(f"{name_of(path)}: it has no update {until}: its last one is {self.update}")
        self.is_whole = lines.is_whole or until is not None
        if not self.is_all:
            self.drop_others()
        return self

    def check_form(self, lines, line):
        """Raises a Fault where a line of an update without an end has no form."""
        fields = line.split(" ")
        try:
            RECORDS[fields[0]].of(fields)
        except (ValueError, KeyError):
            raise Fault(f"{lines.where()}: here the log is cut, and before it a line is wrong: {cause_of(line)}") from None

    def take(self, lines, held):
        """Takes the lines of an update, of the founder, or of the end."""
        at, node_of, holders, update, due = 0, self.node_of, self.holders, self.update + 1, str(self.update + 1)
        try:
            for at, line in enumerate(held):
                mark = line[:1]
                if mark == "B":
                    _, id, parent, its_update, cell, over, base, changes = line.split(" ")
                    above = node_of.get(parent)
                    if above is None:
                        raise Misfit(f"its parent {parent} doesn't live")
                    if not are_of_a_birth(base, changes):
                        raise ValueError(line)
                    node = self.node_at(above, line, base, changes)
                elif mark == "I":
                    _, id, its_update, cell, over, letters = line.split(" ")
                    if not IS_GENOME(letters):
                        raise ValueError(line)
                    node = self.node_at(NOBODY, line, letters, "-")
                elif mark == "D" or mark == "X":
                    _, id, its_update, cell = line.split(" ")
                    if id == EMPTY:
                        raise ValueError(line)
                    over, node = id, None
                elif mark == "U":
                    self.end_update(line, update)
                    continue
                elif mark == "L":
                    self.found(line)
                    continue
                elif mark == "E":
                    self.end(line)
                    continue
                elif mark == "R":
                    continue
                else:
                    raise ValueError(line)
                if its_update != due:
                    raise Misfit(f"its update is {its_update}, and {due} is due")
                cell = int(cell)
                if not 0 <= cell < len(holders):
                    raise Misfit("its cell isn't in the world")
                stands = holders[cell]
                if stands != over:
                    raise Misfit(f"its line has {over} for who stood in cell {cell}, where {stands} stands")
                if stands != EMPTY:
                    self.leave(stands, update)
                if node is None:
                    holders[cell] = EMPTY
                    continue
                if int(id) != self.next_id:
                    raise Misfit(f"its organism is {id}, and the next one is {self.next_id}")
                self.next_id += 1
                holders[cell] = id
                node_of[id] = node
        except ValueError as why:
            lines.number -= len(held) - 1 - at
            raise lines.fault(why if isinstance(why, Misfit) else cause_of(line)) from None

    def node_at(self, above, line, base, changes):
        """The node of a newborn whose parent is of that node. It is a new one but where the genome is the same."""
        if self.by_genome:
            genome = applied(self.genomes[above] if above != NOBODY else None, base, changes)
            if above != NOBODY and genome == self.genomes[above]:
                self.living[above] += 1
                self.organisms[above] += 1
                self.ends[above] = NO_END
                return above
            self.genomes.append(genome)
            self.living.append(1)
            self.organisms.append(1)
        self.lines.append(line)
        self.parents.append(above)
        self.ends.append(NO_END)
        return len(self.lines) - 1

    def found(self, line):
        start = Start.of(line.split(" "))
        self.holders += [EMPTY] * (start.width * start.height)
        if not start.cell < len(self.holders):
            raise Misfit("its cell isn't in the world")
        self.holders[start.cell] = "0"
        self.node_of["0"], self.next_id = self.node_at(NOBODY, line, start.letters, "-"), 1

    def leave(self, id, update):
        node = self.node_of[id]
        self.gone.append(id)
        if self.by_genome:
            self.living[node] -= 1
            if self.living[node]:
                return
        self.ends[node] = update

    def end_update(self, line, due):
        self.update = Update.of(line.split(" ")).number
        if self.update != due:
            raise Misfit(f"its update is {self.update}, and {due} is due")
        for id in self.gone:
            del self.node_of[id]
        self.gone = []

    def end(self, line):
        last = End.of(line.split(" ")).updates
        if last != self.update:
            raise Misfit(f"its update is {last}, and the last one is {self.update}")

    def drop_others(self):
        """Drops the nodes that don't live and have no living descendants."""
        kept, parents = bytearray(len(self.lines)), self.parents
        for node in self.node_of.values():
            kept[node] = 1
        for node in range(len(kept) - 1, -1, -1):
            if kept[node] and parents[node] != NOBODY:
                kept[parents[node]] = 1
        place = array("q", accumulate(kept))
        self.parents = array("q", (NOBODY if above == NOBODY else place[above] - 1 for above in compress(parents, kept)))
        for name in ("ends", "living", "organisms"):
            setattr(self, name, array("q", compress(getattr(self, name), kept)))
        for name in ("lines", "genomes"):
            setattr(self, name, list(compress(getattr(self, name), kept)))
        self.node_of = {id: place[node] - 1 for id, node in self.node_of.items()}

    def lives(self, node):
        return self.ends[node] == NO_END

    def births(self):
        """The id, the update and the cell of birth, the base and the changes of each node: those of its first organism.

        A founder's base is its genome.
        """
        for line in self.lines:
            mark, *fields = line.split(" ")
            if mark == "B":
                id, _, update, cell, _, base, changes = fields
                yield int(id), int(update), int(cell), base, changes
            elif mark == "I":
                id, update, cell, _, letters = fields
                yield int(id), int(update), int(cell), letters, "-"
            else:
                yield 0, 0, int(fields[3]), fields[4], "-"


def newick_of(tree):
    """The text of a tree, or of several under one root that is called founders, in parts.

    A node stands at the update of its birth, and a branch is as long as the updates from its upper end to its lower. Tips
    are the nodes that live, or all of them. One that has children in the tree has itself as the first, at a distance of 0.
    """
    ids, origins = array("q"), array("q")
    for id, update, *_ in tree.births():
        ids.append(id)
        origins.append(update)
    count = len(ids)
    # The place after the last is that of a root above all founders, at update 0.
    origins.append(0)
    parents = array("q", (count if above == NOBODY else above for above in tree.parents))
    first, following = children_of(parents)
    root = count if following[first[count]] != NOBODY else first[count]

    def label(node):
        return f"{ids[node]}:{origins[node] - origins[parents[node]]}"

    parts, node = [], root
    while True:
        # Down to a node without children, and then up to one that has a next one.
        child = first[node]
        if child != NOBODY or node == root:
            parts.append("(")
            if node != count and (tree.is_all or tree.lives(node)):
                parts.append(f"{ids[node]}:0" + ("," if child != NOBODY else ")"))
        else:
            parts.append(label(node))
        if child != NOBODY:
            node = child
            continue
        while node != root and following[node] == NOBODY:
            node = parents[node]
            parts.append(f"){label(node)}" if node != root else ")")
        if node == root:
            break
        node = following[node]
        parts.append(",")
        if len(parts) > PARTS:
            yield "".join(parts)
            parts = []
    parts.append("founders;" if root == count else f"{ids[root]}:{origins[root]};")
    yield "".join(parts)


def children_of(parents):
    """The first child of each node, and the next child of the same parent. The root has the place after the last node."""
    first, following = array("q", [NOBODY]) * (len(parents) + 1), array("q", [NOBODY]) * (len(parents) + 1)
    for node in range(len(parents) - 1, -1, -1):
        following[node], first[parents[node]] = first[parents[node]], node
    return first, following
