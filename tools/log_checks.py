"""Checks of what the tools make of a log for other programs, which tools/check-tools runs.

Trees are read by DendroPy, Biopython and ape, and tables by pandas, where these are there or can be installed.
"""

import csv
import gzip
import io
import json
import os
import pty
import select
import shutil
import subprocess
import sys
from contextlib import suppress
from pathlib import Path

import debian
from avida_log import COLOURS, NO_TASK, TASKS, TOP, Births, Death, Progress, Update, applied, program, read_log, updates_of
from colour_checks import nearest
from debian import Left, has_r_package, python_with
from scripts import script

TOOLS = TOP / "tools"
PROGRAM = program()
NAME = "check-tools"
SECONDS_TO_INSTALL = 280
# The default world up to an update after most of its tasks have come.
LONG = "updates = 3000\nseed = 5\n"
# A module of Python, and the Debian package that has it.
MODULES = {"dendropy": "python3-dendropy", "Bio": "python3-biopython", "pandas": "python3-pandas"}
APE = "r-cran-ape"

# Each reader writes JSON: for each tip its label, how many branches it is from the root, its distance from there and the
# label of the node above it; and for each line of standard input the label of the latest common ancestor of its tips.
DENDROPY = """
import dendropy, json, sys
tree = dendropy.Tree.get(path=sys.argv[1], schema="newick", rooting="force-rooted")
tips = []
for leaf in tree.leaf_node_iter():
    above = list(leaf.ancestor_iter())
    tips.append([leaf.taxon.label, len(above), leaf.distance_from_root(), above[0].label])
latest = []
for line in sys.stdin:
    asked = set(line.split())
    common = tree.mrca(taxa=[leaf.taxon for leaf in tree.leaf_node_iter() if leaf.taxon.label in asked])
    # Of all tips DendroPy names the root, also where it has one child alone.
    while common.num_child_nodes() == 1:
        common = common.child_nodes()[0]
    latest.append(common.label or common.taxon.label)
json.dump([tips, latest], sys.stdout)
"""
BIOPYTHON = """
import json, sys
from Bio import Phylo
sys.setrecursionlimit(100000)
tree = Phylo.read(sys.argv[1], "newick")
# Biopython takes an inner node's number for a confidence.
label = lambda clade: clade.name or str(clade.confidence)
tips, below = [], [(tree.root, 0, 0, None)]
while below:
    clade, depth, length, above = below.pop()
    if clade.is_terminal():
        tips.append([label(clade), depth, length, above])
    below += [(child, depth + 1, length + child.branch_length, label(clade)) for child in clade.clades]
terminals = {clade.name: clade for clade in tree.get_terminals()}
latest = [label(tree.common_ancestor([terminals[name] for name in line.split()])) for line in sys.stdin]
json.dump([tips, latest], sys.stdout)
"""
APE_LINES = """
library(ape)
tree <- read.tree(commandArgs(TRUE)[1])
count <- Ntip(tree)
above <- tree$edge[match(seq_len(count), tree$edge[, 2]), 1]
lengths <- node.depth.edgelength(tree)[seq_len(count)]
tree$edge.length[] <- 1
depths <- node.depth.edgelength(tree)[seq_len(count)]
rows <- sprintf('["%s", %d, %.0f, "%s"]', tree$tip.label, depths, lengths, tree$node.label[above - count])
latest <- sapply(strsplit(readLines(file("stdin")), " "), function(asked) {
    tree$node.label[getMRCA(tree, which(tree$tip.label %in% asked)) - count]
})
cat('[[', paste(rows, collapse = ", "), '], [', paste0('"', latest, '"', collapse = ", "), ']]', sep = "")
"""
PANDAS = """
import json, sys
import pandas
rows = pandas.read_csv(sys.argv[1])
counts = [int(((rows.origin_time <= update) & (rows.destruction_time > update)).sum()) for update in range(int(sys.argv[2]) + 1)]
parents = rows.ancestor_list.str.strip("[]").map(lambda text: -1 if text == "none" else int(text))
births = rows.set_index("id").origin_time
kept = parents[parents >= 0]
json.dump([counts, str(rows.destruction_time.dtype), bool((births.loc[kept].values < rows.origin_time[parents >= 0].values).all())], sys.stdout)
"""


def ran(words, given=b"", **how):
    """Runs a tool, the program or a reader over a text."""
    how.setdefault("stdin" if hasattr(given, "fileno") else "input", given)
    return subprocess.run([str(word) for word in words], capture_output=True, **how)


class Logs:
    """The checks of this file, with the logs that they need in a folder."""

    def __init__(self, checks, room):
        self.checks, self.check, self.room = checks, checks.check, room

    def text_of(self, words, given=b"", **how):
        done = ran(words, given, **how)
        what = f"{Path(str(words[0])).name} {' '.join(map(str, words[1:]))[-60:]}"
        self.check(f"{what} ends with status 0 and says nothing", done.returncode == 0 and not done.stderr, done.stderr)
        return done.stdout.decode("utf-8")

    def made(self, name, config):
        log = self.room / f"{name}.log"
        if not log.exists():
            with open(log, "wb") as file:
                subprocess.run([PROGRAM, "run"], input=config.encode(), stdout=file, check=True)
        return log

    def all(self):
        self.events = self.made("events", (TOP / "examples/events/input").read_text())
        self.module()
        self.kinds_of_logs()
        self.tables()
        self.counts()
        self.avida_files()
        self.long_lines()
        self.progress()
        self.refusals()
        self.readers()

    # The module.

    def module(self):
        for name in ("avida_log", "descent", "colour_checks"):
            done = ran([sys.executable, "-m", "doctest", TOOLS / f"{name}.py"], cwd=TOOLS)
            self.check(f"the examples in {name}.py", done.returncode == 0, done.stdout)
        of_knockouts = script("knockouts")
        grounds = ({"no task": NO_TASK}, {"kept": of_knockouts.GREYS["kept"], "no divide": of_knockouts.NO_DIVIDE_COLOUR})
        for ground in grounds:
            for sight, (far, one, other) in nearest({**dict(zip(TASKS, COLOURS)), **ground}).items():
                self.check(f"the colours of {one} and {other}, the nearest for {sight}, stand apart", far >= 15, far)
        replayed = self.text_of([PROGRAM, "replay"], self.events.read_bytes())
        cells, genomes, counted = {}, {}, [0, 0]
        for record in read_log(self.events):
            if isinstance(record, Update):
                self.check(f"read_log: births and deaths of update {record.number}", counted == [record.births, record.deaths], counted)
                counted = [0, 0]
            elif hasattr(record, "id"):
                goes = record.id if not hasattr(record, "over") else record.over
                counted[1] += goes is not None
                cells.pop(record.cell, None)
                if hasattr(record, "over"):
                    is_birth = hasattr(record, "parent")
                    counted[0] += is_birth
                    cells[record.cell] = record.id
                    genomes[record.id] = record.genome(genomes[record.parent]) if is_birth else record.letters
            elif hasattr(record, "letters"):
                cells[record.cell], genomes[0] = 0, record.letters
        ours = "".join(f"{cell} {id} {genomes[id]}\n" for cell, id in sorted(cells.items()))
        self.check("read_log: who lives at the end is what replay says", ours == replayed, ours[:200])

    def kinds_of_logs(self):
        """A log that is whole, compressed, on standard input, in pieces or cut."""
        words, text = [TOOLS / "phylogeny"], self.events.read_bytes()
        whole = self.text_of([*words, self.events])
        packed = self.room / "packed"
        packed.write_bytes(gzip.compress(text))
        shutil.copy(packed, self.room / "events.log.gz")
        for name in (packed, self.room / "events.log.gz"):
            self.check(f"phylogeny of {name.name}", self.text_of([*words, name]) == whole)
        for given in (text, gzip.compress(text)):
            self.check("phylogeny of standard input", self.text_of([*words, "-"], given) == whole)
            self.check("phylogeny of a pipe by its name", self.text_of([*words, "/dev/stdin"], given) == whole)
        for name, more in (("tasks", []), ("lineage", ["360"]), ("plot", ["-o", self.room / "stdin.svg"]), ("map", ["-o", self.room / "stdin.html", "--title", "a"])):
            if name == "plot" and not shutil.which("gnuplot"):
                continue
            file = self.text_of([TOOLS / name, self.events, *more]).replace(str(self.events), "-")
            self.check(f"{name} of standard input", self.text_of([TOOLS / name, "-", *more], text) == file)
            piped = self.text_of([TOOLS / name, "/dev/stdin", *more], text).replace("/dev/stdin", "-")
            self.check(f"{name} of a pipe by its name", piped == file)
        self.pieces(whole, text)
        cut = self.room / "cut.log"
        cut.write_bytes(text[:-30])
        last = updates_of(cut)[-1].number
        done = ran([*words, cut])
        said = f"phylogeny: {cut} is cut; what stands after update {last} is left out\n"
        self.check("phylogeny of a cut log says where", (done.returncode, done.stderr.decode()) == (0, said), done.stderr)
        self.check("phylogeny of a cut log is that of its last whole update", done.stdout.decode() == self.text_of([*words, self.events, "--until", last]))
        damaged = self.room / "damaged.log.gz"
        damaged.write_bytes(packed.read_bytes()[:-3000])
        done = ran([*words, damaged])
        self.check("phylogeny of cut compressed bytes", done.returncode == 1 and b"its compressed bytes are cut or damaged" in done.stderr, done.stderr)

    def pieces(self, whole, text):
        """A folder of pieces is one log, whatever the files are called, and what isn't a piece is left out."""
        folder = self.room / "pieces"
        folder.mkdir()
        lines = text.splitlines(keepends=True)
        ends = [at + 1 for at, line in enumerate(lines) if line.startswith((b"U 40 ", b"U 70 "))]
        parts = [b"".join(lines[: ends[0]]) + b"E 40\n", b"".join(lines[ends[0] : ends[1]]) + b"E 70\n", b"".join(lines[ends[1] :])]
        (folder / "z.log").write_bytes(parts[0])
        (folder / "b.log.gz").write_bytes(gzip.compress(parts[1]))
        (folder / "a.log").write_bytes(parts[2])
        (folder / "world.saved").write_text("S 1 12 9\n")
        (folder / "next.log.part").write_text("U 3")
        self.check("phylogeny of a folder of pieces", self.text_of([TOOLS / "phylogeny", folder]) == whole)
        for name, more in (("lineage", ["360"]), ("tasks", []), ("counts", []), ("map", ["-o", self.room / "page.html", "--title", "a"])):
            file = self.text_of([TOOLS / name, self.events, *more]).replace(str(self.events), str(folder))
            page = (self.room / "page.html").read_text().replace(str(self.events), str(folder)) if name == "map" else None
            self.check(f"{name} of a folder of pieces", self.text_of([TOOLS / name, folder, *more]) == file)
            self.check(f"{name} of a folder writes the same page", name != "map" or (self.room / "page.html").read_text() == page)
        (folder / "b.log.gz").unlink()
        done = ran([TOOLS / "phylogeny", folder])
        self.check("a piece that is missing is told", b"a.log: it begins with update 71, and the piece before it ends with update 40" in done.stderr, done.stderr)
        (folder / "y.log").write_bytes(parts[0])
        done = ran([TOOLS / "phylogeny", folder])
        self.check("two beginnings in a folder are told", b"one file begins with an L line, and here y.log and z.log" in done.stderr, done.stderr)

    # Tables.

    def tables(self):
        """phylogeny's table against the program's tree and replay, and against the counts of each update."""
        kept = self.rows([self.events, "--genomes"])
        living = {row["id"]: row["sequence"] for row in kept if row["destruction_time"] == "inf"}
        replayed = dict(line.split()[1:] for line in self.text_of([PROGRAM, "replay"], self.events.read_bytes()).splitlines())
        self.check("phylogeny: who lives, with which genomes", living == replayed, set(living) ^ set(replayed))
        self.check("phylogeny: as many are kept as tree says", str(len(kept)) == self.tree(self.events)[2], len(kept))
        self.check("phylogeny: the lengths of genomes", all(int(row["length"]) == len(row["sequence"]) for row in kept))
        births = Births(self.events)
        genomes = {row["id"]: row["sequence"] for row in kept}
        for row in kept:
            above = births.parents[int(row["id"])]
            self.check(f"phylogeny: the parent of {row['id']}", row["ancestor_list"] == (f"[{above}]" if above >= 0 else "[none]"), row)
            if above >= 0:
                self.check(f"phylogeny: the record of {row['id']}", applied(genomes[str(above)], row["base"], row["changes"]) == row["sequence"], row)
        everybody = self.rows([self.events, "--all"])
        self.check("phylogeny --all: a row for everybody", [int(row["id"]) for row in everybody] == list(range(len(births.parents))))
        died = {str(record.id): str(record.update) for record in read_log(self.events, "D") if isinstance(record, Death)}
        told = {row["id"]: row["destruction_time"] for row in everybody if row["id"] in died}
        self.check("phylogeny --all: when somebody died of age", told == died, told)
        updates = updates_of(self.events)
        for update in updates:
            count = sum(int(row["origin_time"]) <= update.number < float(row["destruction_time"]) for row in everybody)
            self.check(f"phylogeny --all: who lived after update {update.number}", count == update.living, count)
        for update in updates[::10]:
            rows = self.rows([self.events, "--until", update.number])
            self.check(f"phylogeny --until {update.number}", sum(row["destruction_time"] == "inf" for row in rows) == update.living)
        self.genotypes(births)

    def genotypes(self, births):
        genomes = {}
        for id in range(len(births.parents)):
            for each, *_, letters in list(births.line_to(id))[-1:]:
                genomes[each] = letters
        firsts = {}
        for id, above in enumerate(births.parents):
            firsts[id] = firsts[above] if above >= 0 and genomes[id] == genomes[above] else id
        rows = self.rows([self.events, "--all", "--genotypes", "--genomes"])
        self.check("phylogeny --genotypes: who begins one", {int(row["id"]) for row in rows} == set(firsts.values()))
        counts = {str(first): sum(each == first for each in firsts.values()) for first in set(firsts.values())}
        self.check("phylogeny --genotypes: how many belong to each", {row["id"]: int(row["organisms"]) for row in rows} == counts)
        living = sum(int(row["living"]) for row in rows)
        self.check("phylogeny --genotypes: all who live belong to one", living == updates_of(self.events)[-1].living, living)
        self.check("phylogeny --genotypes: a parent has another genome", all(
            row["ancestor_list"] == "[none]" or row["sequence"] != genomes[int(row["ancestor_list"][1:-1])] for row in rows
        ))
        different = {row["sequence"] for row in rows if row["living"] != "0"}
        self.check("phylogeny --genotypes: as many genomes live as the log counts", len(different) == updates_of(self.events)[-1].genotypes)

    def rows(self, words):
        return list(csv.DictReader(io.StringIO(self.text_of([TOOLS / "phylogeny", *words]))))

    def tree(self, log):
        """What the command tree says: the depth of each who lives, the latest common ancestor, and how many are kept."""
        with open(log, "rb") as given:
            lines = [line.split() for line in self.text_of([PROGRAM, "tree"], given).splitlines()]
        depths = {fields[2]: int(fields[3]) for fields in lines if fields[0] == "T"}
        return depths, lines[-2][1], lines[-1][1]

    # Other programs.

    def readers(self):
        """The programs of others read what phylogeny writes, and agree with the command tree."""
        missing = lambda: sorted([package for name, package in MODULES.items() if not python_with(name)] + [APE] * (not has_r_package("ape")))
        try:
            debian.provide(missing, NAME, SECONDS_TO_INSTALL)
        except Left as why:
            self.checks.skip(f"readers of other programs: {why}")
        long = self.made("long", LONG)
        for log in (self.events, long):
            tree, truth = self.room / f"{log.stem}.nwk", Truth(log, *self.tree(log)[:2])
            tree.write_text(self.text_of([TOOLS / "phylogeny", log, "--format", "newick"]))
            for name, code in (("dendropy", DENDROPY), ("Bio", BIOPYTHON)):
                if python_with(name):
                    self.reads(name, [python_with(name), "-c", code, tree], truth)
            if has_r_package("ape"):
                self.reads("ape", ["Rscript", "-e", APE_LINES, tree], truth)
            if python_with("pandas"):
                self.pandas(log)

    def reads(self, name, words, truth):
        # Biopython searches the whole tree for each tip.
        sets = [truth.few] if name == "Bio" else [truth.few, truth.everyone]
        done = ran(words, "".join(" ".join(each) + "\n" for each in sets).encode())
        self.check(f"{name} reads the tree of {truth.name}", done.returncode == 0, done.stderr)
        if done.returncode:
            return
        tips, latest = json.loads(done.stdout)
        wanted = [truth.latest_of(each) for each in sets]
        self.check(f"{name}: the latest common ancestor of some and of all of {truth.name}", latest == wanted, (latest, wanted))
        # A tip that has children stands below itself, and founders may have a root above them.
        seen = {label: depth - (above == label) - truth.is_forest for label, depth, _, above in tips}
        self.check(f"{name}: the tips of {truth.name} are those who live, at the depths that tree says", seen == truth.depths)
        times = {label: length for label, _, length, _ in tips}
        self.check(f"{name}: a tip of {truth.name} is as far from the root as its update", times == truth.times)

    def pandas(self, log):
        table, updates = self.room / "all.csv", updates_of(log)
        table.write_text(self.text_of([TOOLS / "phylogeny", log, "--all"]))
        done = ran([python_with("pandas"), "-c", PANDAS, table, len(updates)])
        self.check(f"pandas reads the table of {log.stem}", done.returncode == 0, done.stderr)
        counts, kind, are_before = json.loads(done.stdout or "[[], 0, 0]")
        self.check(f"pandas: who lived after each update of {log.stem}", counts[1:] == [update.living for update in updates])
        self.check(f"pandas: times of {log.stem} are numbers, and parents come first", (kind, are_before) == ("float64", True), kind)

    def long_lines(self):
        """A line of descent of 200,000 organisms, each born over its parent: no tool calls itself at each of them."""
        log, count = self.room / "line.log", 200_000
        with open(log, "w") as file:
            file.write("L 2 1 1 0 wzcagcvf\n")
            for each in range(1, count + 1):
                file.write(f"B {each} {each - 1} {each} 0 {each - 1} = -\nU {each} 1 1 1 1 8 0 0 0 0 0 0 0 0 0\n")
            file.write(f"E {count}\n")
        tree = self.text_of([TOOLS / "phylogeny", log, "--format", "newick"])
        self.check("phylogeny: a tree as deep as a line of 200,000", tree.startswith("(" * count + f"{count}:1)") and tree.endswith(")0:0;\n"))
        self.check("phylogeny: the table of such a line", self.text_of([TOOLS / "phylogeny", log]).count("\n") == count + 2)
        tips = self.text_of([TOOLS / "phylogeny", log, "--format", "newick", "--all"])
        self.check("phylogeny --all takes less than 1 KB for each of them", self.memory_of([TOOLS / "phylogeny", log, "--all"]) < 1024 * count)
        self.check("phylogeny --all: everybody is a tip", tips.count("(") == count and tips.count(":0,") == count, tips[-100:])
        self.check("phylogeny --genotypes: one of them all", self.text_of([TOOLS / "phylogeny", log, "--genotypes", "--format", "newick"]) == "(0:0)0:0;\n")

    def memory_of(self, words):
        """The most bytes of memory that a tool holds while it runs."""
        code = "import resource, subprocess, sys; subprocess.run(sys.argv[1:], stdout=-3); print(resource.getrusage(resource.RUSAGE_CHILDREN).ru_maxrss)"
        return 1024 * int(self.text_of([sys.executable, "-c", code, *words]))

    # Counts.

    def counts(self):
        """counts against the U lines."""
        updates = updates_of(self.events)
        rows = list(csv.DictReader(io.StringIO(self.text_of([TOOLS / "counts", self.events]))))
        names = ["update", "living", "births", "deaths", "genotypes", "merit"]
        wanted = [[*map(str, update[:6]), *map(str, update.tasks)] for update in updates]
        tasks = [task.lower() for task in TASKS]
        self.check("counts: the header", list(rows[0]) == [*names, "mean_merit", *tasks], list(rows[0]))
        self.check("counts: what each U line has", [[row[name] for name in (*names, *tasks)] for row in rows] == wanted)
        means = [update.merit / update.living for update in updates]
        self.check("counts: mean merit", all(abs(float(row["mean_merit"]) / mean - 1) < 1e-9 for row, mean in zip(rows, means)))
        few = self.text_of([TOOLS / "counts", self.events, "--every", "50", "--format", "tsv"]).splitlines()
        self.check("counts --every 50, as TSV", [line.split("\t")[:6] for line in few[1:]] == [wanted[49][:6], wanted[99][:6]], few)
        mean = self.text_of([TOOLS / "counts", self.events, "--every", "50", "--average"]).splitlines()
        groups = [updates[:50], updates[50:100], updates[100:]]
        ours = [[line.split(",")[0], *map(float, line.split(",")[1:3])] for line in mean[1:]]
        by_hand = [[str(group[-1].number), *(sum(update[at] for update in group) / len(group) for at in (1, 2))] for group in groups]
        self.check("counts --average: means of 50, 50 and 20 updates", ours == by_hand, mean)
        cut = self.room / "short.log"
        cut.write_bytes(self.events.read_bytes()[:-30])
        self.check("counts of a cut log", self.text_of([TOOLS / "counts", cut]).count("\n") == len(updates_of(cut)) + 1)
        empty = self.room / "empty.log"
        empty.write_text("L 2 1 1 0 wzcagcvf\nD 0 1 0\nU 1 0 0 1 0 0 0 0 0 0 0 0 0 0 0\nE 1\n")
        self.check("counts of an empty world: no mean merit", self.text_of([TOOLS / "counts", empty]).endswith("\n1,0,0,1,0,0,,0,0,0,0,0,0,0,0,0\n"))

    def avida_files(self):
        """The values of Avida's files, counted here once more from the records and from the program's own commands."""
        data = self.room / "data"
        self.text_of([TOOLS / "avida-files", self.events, "-o", data, "--every", "40", "--traces", "120"])
        files = {name: self.columns(data / name) for name in ("count.dat", "tasks.dat", "average.dat", "dominant.dat")}
        updates = {update.number: update for update in updates_of(self.events)}
        # By Avida's column numbers.
        for at, what in ((3, "living"), (4, "genotypes"), (9, "births"), (10, "deaths"), (14, "living")):
            column = files["count.dat"][1][at - 1]
            self.check(f"count.dat, column {at}", column[1:] == [str(getattr(updates[update], what)) for update in (40, 80, 120)], column)
        for at in (2, 5, 16):
            name, column = files["count.dat"][0][at - 1], files["count.dat"][1][at - 1]
            self.check(f"count.dat: column {at} is left out by name", name.startswith("left out: number of ") and set(column) == {"nan"}, (name, column))
        for name, (names, columns) in files.items():
            self.check(f"{name}: the updates", columns[0] == ["0", "40", "80", "120"], columns[0])
            self.check(f"{name}: a name for each column", len(names) == len(columns) and names[0].lower() == "update", names)
        tasks = [list(column) for column in zip(*(map(str, updates[update].tasks) for update in (40, 80, 120)))]
        self.check("tasks.dat: the nine tasks", [column[1:] for column in files["tasks.dat"][1][1:]] == tasks)
        self.check("tasks.dat: Avida's names", files["tasks.dat"][0][1:] == "Not Nand And OrNot Or AndNot Nor Xor Equals".split())
        self.counted_again(files)
        self.traced(files)
        plain = self.room / "plain"
        self.text_of([TOOLS / "avida-files", "-", "-o", plain], self.events.read_bytes())
        names, columns = self.columns(plain / "average.dat")
        self.check("average.dat: a row for each hundredth update", columns[0] == ["0", "100"], columns[0])
        self.check("average.dat: without traces gestation time is left out", names[2] == "left out: Gestation Time" and set(columns[2]) == {"nan"}, names)

    def columns(self, path):
        """The names in a file's comments, and its columns."""
        lines = path.read_text().splitlines()
        names = [line.split(": ", 1) for line in lines if line.startswith("#") and line[1:].split(":")[0].strip().isdigit()]
        self.check(f"{path.name}: its columns are numbered", [int(number[1:]) for number, _ in names] == list(range(1, len(names) + 1)))
        rows = [line.split() for line in lines if line and line[0] != "#"]
        return [name for _, name in names], [list(column) for column in zip(*rows)]

    def counted_again(self, files):
        genomes, alive, mothers, true, divides, births = {}, {}, set(), set(), {}, 0
        rows = []
        for record in read_log(self.events):
            if hasattr(record, "letters"):
                id = getattr(record, "id", 0)
                genomes[id], alive[record.cell], divides[id] = record.letters, id, 0
            elif hasattr(record, "parent"):
                genomes[record.id], alive[record.cell] = record.genome(genomes[record.parent]), record.id
                mothers.add(record.parent)
                divides[record.parent] += 1
                divides[record.id] = divides[record.parent]
                if genomes[record.id] == genomes[record.parent]:
                    true.add(record.id)
                    births += 1
            elif hasattr(record, "cell"):
                del alive[record.cell]
            elif isinstance(record, Update):
                if record.number % 40 == 0:
                    ids = set(alive.values())
                    rows.append((births, len(true & ids), len(ids - mothers), sum(divides[id] for id in ids) / len(ids)))
                births = 0
        counts, average = files["count.dat"][1], files["average.dat"][1]
        seen = [tuple(map(float, row)) for row in zip(counts[10][1:], counts[11][1:], counts[12][1:], average[12][1:])]
        same = all(abs(one - other) <= 1e-5 * other for row, wanted in zip(seen, rows) for one, other in zip(row, wanted))
        self.check("count.dat and average.dat: breed true, without a birth, and generations", same and len(seen) == 3, (seen, rows))

    def traced(self, files):
        lines = self.text_of([PROGRAM, "replay"], self.events.read_bytes()).split()[2::3]
        found = {}
        for letters in set(lines):
            trace = self.text_of([PROGRAM, "trace", 20 * len(letters)], letters.encode()).splitlines()
            step = next((line.split() for line in trace if " divide " in line), None)
            if step:
                found[letters] = int(step[0]), *map(int, step[-4:-1])
        most = max(map(lines.count, lines))
        dominant = min(letters for letters in lines if lines.count(letters) == most)
        step, executed, copied, merit = found[dominant]
        wanted = [merit, step, merit / step, "nan", len(dominant), copied, executed, most]
        row = [column[-1] for column in files["dominant.dat"][1][1:9]]
        same = all(str(one) == other or abs(float(other) / one - 1) < 1e-5 for one, other in zip(wanted, row))
        self.check("dominant.dat: the trace of the most frequent genome", same, (wanted, row))
        divide = [found[letters] for letters in lines if letters in found]
        wanted = [sum(each[0] for each in divide) / len(divide), sum(each[3] / each[0] for each in divide) / len(lines)]
        row = [float(column[-1]) for column in files["average.dat"][1][2:4]]
        same = all(abs(one / other - 1) < 1e-5 for one, other in zip(wanted, row))
        self.check("average.dat: gestation time and fitness of all who live", same, (wanted, row))
        self.check("average.dat: no traces in other rows", files["average.dat"][1][2][:3] == ["389", "nan", "nan"], files["average.dat"][1][2])

    # Terminals and bad input.

    def progress(self):
        """On a terminal a tool says how much it has read, once that has taken a second, and then takes it away."""
        leader, follower = pty.openpty()
        text = self.events.read_bytes()
        given = subprocess.Popen([TOOLS / "phylogeny", "-"], stdin=subprocess.PIPE, stdout=subprocess.DEVNULL, stderr=follower)
        os.close(follower)
        said, at = b"", 0
        while not said and at < len(text):
            given.stdin.write(text[at : at + 200])
            given.stdin.flush()
            at += 200
            if select.select([leader], [], [], 0.2)[0]:
                said += os.read(leader, 1000)
        given.stdin.write(text[at:])
        given.stdin.close()
        # Linux ends the reading of a terminal that nobody holds any more by an error.
        with suppress(OSError):
            while block := os.read(leader, 1000):
                said += block
        os.close(leader)
        traced = Progress("traces", 5, "genomes")
        self.check("what is counted comes through", list(traced.over("abc")) == ["a", "b", "c"])
        self.check("how many of what are done", traced.share() == "3 of 5 genomes", traced.share())
        self.check("phylogeny ends well on a terminal", given.wait() == 0, said)
        self.check("phylogeny says on a terminal how much is read", b"\r\x1b[Kphylogeny: standard input: 0 MB, " in said and said.endswith(b"\r\x1b[K"), said)

    def refusals(self):
        """Each tool says what is wrong with a log in one line, with its name, its line and the cause."""
        good = "L 2 2 1 0 wzcagcvf\nB 1 0 1 1 - = p2q\nU 1 2 1 0 2 16 0 0 0 0 0 0 0 0 0\nB 2 1 2 0 0 = -\nU 2 2 1 1 1 16 0 0 0 0 0 0 0 0 0\nE 2\n"
        self.check("the good log of the wrong ones is good", ran([PROGRAM, "replay"], good.encode()).returncode == 0)
        log = self.room / "wrong.log"
        worlds = (["phylogeny", log], ["tasks", log], ["phylogeny", log, "--genotypes"], ["avida-files", log, "-o", self.room / "wrong"], ["map", log])
        all = (*worlds, ["counts", log], ["plot", log]) if shutil.which("gnuplot") else (*worlds, ["counts", log])
        for old, new, said, tools in (
            ("L 2 2 1 0", "A 2 2 1 0", "{log}: this isn't a log: its first line doesn't begin with L", all),
            (good, "", "{log}: this isn't a log: it is empty", all),
            (good, good[:9], "{log}: this log is cut in its first line", (*all, ["lineage", log, "0"])),
            (good, good.replace("\n", "\r\n"), "{log}: its lines end with CR LF, and those of a log with LF alone", (*all, ["lineage", log, "0"])),
            ("wzcagcvf", "wzcagcv", "{log}:1: its field letters is no genome: short 7", worlds),
            ("wzcagcvf", "wzcagcvF", "{log}:1: its field letters is no genome: letter at 7", worlds),
            ("L 2 2 1 0", "L 2 2 1 2", "{log}:1: its cell isn't in the world", worlds),
            ("B 1 0 1 1 - = p2q", "B 1 0 1 1 - =", "{log}:2: a B line has 7 fields after its mark, and this one has 6", worlds),
            ("B 1 0 1 1 - = p2q", "Q 1 0 1 1 - =", "{log}:2: no line of a log begins with 'Q'", worlds),
            ("B 1 0 1 1 - = p2q", "", "{log}:2: it is empty", worlds),
            ("B 1 0 1", "B 1 7 1", "{log}:2: its parent 7 doesn't live", worlds),
            ("1 1 - = p2q", "1 x - = p2q", "{log}:2: its field cell has 'x', which is no number", worlds),
            ("1 1 - = p2q", "1 9 - = p2q", "{log}:2: its cell isn't in the world", worlds),
            ("1 1 - = p2q", "1 1 - = p2q,", "{log}:2: its field changes has 'p2q,', which isn't as p50q,i7z,d12", worlds),
            ("1 1 - = p2q", "1 1 - wzc p2q", "{log}:2: its field base is no genome: short 3", worlds),
            ("1 1 - = p2q", "1 1 - = p8q", "{log}:2: the change p8q has no place in a genome of 8 letters", worlds[1:]),
            ("B 2 1 2 0 0", "B 2 1 2 0 -", "{log}:4: its line has - for who stood in cell 0, where 0 stands", worlds),
            ("B 2 1 2 0 0", "B 3 1 2 0 0", "{log}:4: its organism is 3, and the next one is 2", worlds),
            ("B 2 1 2 0 0", "B 2 1 3 0 0", "{log}:4: its update is 3, and 2 is due", worlds),
            ("B 2 1 2 0 0 = -", "D 0 2 0\nD 0 2 0", "{log}:5: organism 0 doesn't stand in cell 0", worlds[3:]),
            ("B 2 1 2 0 0 = -", "D 0 2 0\nD - 2 0", "{log}:5: its field id has '-', which is no number", worlds),
            ("U 2 2 1 1 1 16 0", "U 2 2 1 1 1 16 +0", "{log}:5: its field count of NOT has '+0', which is no number", all),
            ("U 2 2 1", "U 2 2 ä", "{log}:5: its field births has 'Ã¤', which is no number", all),
            ("E 2\n", "E 2\nE 2\n", "{log}:7: a line stands after the E line", all),
            ("E 2\n", "E 3\n", "{log}:6: its update is 3, and the last one is 2", worlds),
            ("E 2\n", "E x\n", "{log}:6: its field updates has 'x', which is no number", all),
        ):
            log.write_text(good.replace(old, new, 1), encoding="utf-8", newline="")
            for name, *words in tools:
                done = ran([TOOLS / name, *words])
                wanted = f"{name}: {said.format(log=log)}\n"
                self.check(f"{name}: {said}", (done.returncode, done.stderr.decode()) == (1, wanted), done.stderr.decode())
        log.write_text(good.replace("U 2", "I 3 2 1 1 wzcagcvf\nB 4 1 2 0 2 = -\nU 2"))
        for name in ("map", "tasks"):
            done = ran([TOOLS / name, log])
            said = f"{name}: {log}: the lines of an update aren't in the order of docs/FORMATS.md\n"
            self.check(f"{name}: a birth behind an event", (done.returncode, done.stderr.decode()) == (1, said), done.stderr)
        log.write_text(good.replace("p2q", "p8q"))
        done = ran([TOOLS / "phylogeny", log, "--genomes"])
        said = b"phylogeny: the line of organism 1: the change p8q has no place in a genome of 8 letters\n"
        self.check("phylogeny --genomes: a change without a place", (done.returncode, done.stderr) == (1, said), done.stderr)
        self.check("avida-files of a wrong log leaves no file", not list((self.room / "wrong").iterdir()))
        self.wrong_words()
        if os.path.exists("/dev/full"):
            with open("/dev/full", "w") as full:
                done = subprocess.run([TOOLS / "counts", self.events], stdout=full, stderr=subprocess.PIPE)
            said = b"counts: its output: No space left on device\n"
            self.check("counts onto a full disk says so", (done.returncode, done.stderr) == (1, said), done.stderr)

    def wrong_words(self):
        for name in ("phylogeny", "counts", "avida-files"):
            done = ran([TOOLS / name, "--help"])
            self.check(f"{name} --help", done.returncode == 0 and f"usage: {name}".encode() in done.stdout, done.stderr)
        for words, said in (
            (["phylogeny", self.events, "--until", 121], f"{self.events}: it has no update 121: its last one is 120"),
            (["phylogeny", self.events, "--until", -1], "--until -1: updates are counted from 0"),
            (["phylogeny", self.events, "--genomes", "--format", "newick"], "--genomes is a column of the table, and a tree has none"),
            (["phylogeny", TOP / "tools"], "tools: in a folder of one log one file begins with an L line, and here no file"),
            (["phylogeny", "no/such"], "no/such: No such file or directory"),
            (["counts", "no/such"], "no/such: No such file or directory"),
            (["counts", self.events, "--every", 0], "--every 0: it is at least 1"),
            (["plot", self.events, "--points", 0], "--points 0: it is at least 2"),
            (["map", self.events, "--frames", 1], "--frames 1: it is at least 2"),
            (["tasks", "/dev/null"], "/dev/null: this isn't a log: it is empty"),
            (["lineage", "/dev/null", 0], "/dev/null: this isn't a log: it is empty"),
            (["avida-files", "no/such", "-o", self.room / "none"], "no/such: No such file or directory"),
            (["avida-files", self.events, "-o", self.events], f"{self.events}: File exists"),
            (["avida-files", self.events, "--every", 0], "--every 0: it is at least 1"),
            (["avida-files", self.events, "--every", 40, "--traces", 50], "--traces 50: it is a multiple of --every, 40"),
        ):
            done = ran([TOOLS / words[0], *words[1:]])
            wanted = done.returncode == 1 and said in done.stderr.decode() and done.stderr.count(b"\n") == 1
            self.check(f"{words[0]}: {said}", wanted, done.stderr)


class Truth:
    """What the command tree and the log itself say of who lives at a log's end."""

    def __init__(self, log, depths, common):
        self.name, self.depths, self.common = log.stem, depths, common
        self.is_forest = common == "-"
        self.births = Births(log)
        self.everyone = list(depths)
        self.few = self.everyone if len(self.everyone) < 200 else self.everyone[:: len(self.everyone) // 12]
        origins = {str(record.id): record.update for record in read_log(log, "BI")} | {"0": 0}
        # A single founder is the root itself.
        root = 0 if self.is_forest else origins[str(self.births.ids_to(int(self.everyone[0]))[0])]
        self.times = {id: origins[id] - root for id in self.everyone}

    def latest_of(self, ids):
        """The latest common ancestor: of all the one that tree says, and of some the last one of all their lines."""
        if ids is self.everyone and not self.is_forest:
            return self.common
        shared = set.intersection(*(set(self.births.ids_to(int(id))) for id in ids))
        return str(max(shared)) if shared else "founders"
