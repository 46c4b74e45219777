#!/usr/bin/env python3
"""The steps of a sweep, which the Snakefile beside it puts in order.

    sweep.py check SWEEP                    names what is wrong with a sweep's file
    sweep.py stage FOLDER SIZE UPDATE       makes the stages of one run up to an update
    sweep.py run FOLDER SIZE KEEP           makes the log and the tables of one run from FOLDER/configuration.toml
    sweep.py summary SWEEP                  makes the tables and the plots over those runs of a sweep that are finished

SIZE is the number of updates of a stage, or 0 for runs in one piece. KEEP is logs, births or counts: what is kept.

A file gets its name only when it is whole, so a step can be killed at any point. What README.md says of the files
holds at any time.
"""

import fcntl
import gzip
import json
import math
import os
import re
import shutil
import statistics
import subprocess
import sys
import time
import zlib
from contextlib import contextmanager, suppress
from itertools import chain
from pathlib import Path
from typing import NamedTuple

try:
    import tomllib
except ImportError:
    sys.exit("sweep.py: it needs Python 3.11 or later")

TOOLS = Path(__file__).resolve().parent.parent.parent / "tools"
sys.path.insert(0, str(TOOLS))

from avida_log import COLOURS, TASKS, Births, Fault, Lines, Update, first_updates, program, run, thinned  # noqa: E402
from firsts import firsts_of  # noqa: E402
from scripts import script  # noqa: E402
from settled import Ending  # noqa: E402
from traces import gestation_of  # noqa: E402

check_config, staged_run = script("check-config"), script("staged-run")

COUNTS = ("update", "living", "births", "deaths", "genotypes", "merit", *(task.lower() for task in TASKS))
NAME = re.compile(r"[A-Za-z0-9_-]+")
PARTS = ("base", "settings", "seeds", "stage", "keep")
KEEPS = ("logs", "births", "counts")
MOST_UPDATES = 1_000_000
POINTS = 200
BLOCK = 1 << 20


# The file of a sweep.


class Run(NamedTuple):
    """One world of a sweep: the name of its setting, its seed, its folder, the text of its configuration, the number of
    updates of a stage, or 0, and what is kept of it."""

    setting: str
    seed: int
    folder: Path
    configuration: str
    stage: int
    keep: str

    def name(self):
        return f"{self.setting}, seed {self.seed}"

    def document(self):
        return tomllib.loads(self.configuration)

    def updates(self):
        return staged_run.updates_of(self.document())

    def ends(self):
        """The last updates of its stages."""
        return [stage.end for stage in staged_run.stages_of(self.document(), self.stage)] if self.stage else []

    def mark(self, end):
        """The file that says that the stage with this end is made."""
        return self.folder / "marks" / str(end)

    def updates_done(self):
        if self.is_finished():
            return self.updates()
        return max((end for end in self.ends() if self.mark(end).exists()), default=0)

    def memory(self):
        """The megabytes that its largest step may take: docs/GUIDE.md, "Limits in practice"."""
        document, ends = self.document(), self.ends() or [self.updates()]
        cells = math.prod(document.get(key, check_config.KEYS[key][1]) for key in ("width", "height"))
        longest = max(end - begin for begin, end in zip([0, *ends], ends))
        # A world, the genomes of a stage, and the births of the whole run, which a line of descent needs.
        needed = 250 + cells * (7.5e-3 + 6e-6 * longest + 6e-7 * self.updates())
        return 100 * math.ceil(needed / 100)

    def table(self, name):
        """The rows of one of the run's tables, without its header."""
        return [line.split("\t") for line in (self.folder / name).read_text().splitlines()[1:]]

    def is_finished(self):
        """Whether the tables over all runs can have it."""
        return all((self.folder / name).exists() for name in TABLES[:2])

    def is_whole(self):
        return all((self.folder / name).exists() for name in TABLES)

    def fault(self, begun):
        """Why the run isn't finished, in a line: what its step wrote, or Slurm, since the call began."""
        fault, job = (self.lines_since(begun, name) for name in ("fault.txt", "slurm.txt"))
        told = fault or [line for line in job if line.startswith("slurmstepd")]
        if told:
            return told[-1]
        return f"it was stopped; its job says more in {self.folder / 'slurm.txt'}" if job else "it was stopped"

    def lines_since(self, begun, name):
        path = self.folder / name
        is_new = path.exists() and path.stat().st_mtime >= begun
        return path.read_text(errors="replace").splitlines() if is_new else []


TABLES = ("counts.tsv", "tasks.tsv", "line.txt")


def in_toml(value):
    """A value as TOML has it, in one line."""
    if isinstance(value, bool):
        return str(value).lower()
    if isinstance(value, str):
        return json.dumps(value, ensure_ascii=False).replace("\x7f", "\\u007f")
    if isinstance(value, list):
        return "[" + ", ".join(map(in_toml, value)) + "]"
    if isinstance(value, dict):
        return "{ " + ", ".join(f"{key_in_toml(key)} = {in_toml(each)}" for key, each in value.items()) + " }"
    return value.isoformat() if hasattr(value, "isoformat") else repr(value)


def key_in_toml(key):
    return key if NAME.fullmatch(key) else in_toml(key)


def table_of(value, what):
    if not isinstance(value, dict):
        raise Fault(f"{what} is {check_config.kind_of(value)}, and must be a table")
    if "seed" in value:
        raise Fault(f"{what} has the key seed: the seeds of a sweep stand in seeds")
    return value


def seeds_of(value):
    if isinstance(value, dict):
        if sorted(value) != ["first", "last"] or any(type(each) is not int for each in value.values()):
            raise Fault("seeds is a list of whole numbers, or { first = 1, last = 40 }")
        value = list(range(value["first"], value["last"] + 1))
    if not isinstance(value, list) or any(type(seed) is not int for seed in value):
        raise Fault("seeds is a list of whole numbers, or { first = 1, last = 40 }")
    if not value:
        raise Fault("seeds has no seed")
    twice = next((seed for at, seed in enumerate(value) if seed in value[:at]), None)
    if twice is not None:
        raise Fault(f"seeds has {twice} twice")
    return value


def stage_of(value):
    if type(value) is not int or not 1 <= value <= MOST_UPDATES:
        raise Fault(f"stage is {value!r}: it is a number of updates from 1 to {MOST_UPDATES:,}")
    return value


def keep_of(value):
    if value not in KEEPS:
        raise Fault(f"keep is {value!r}: it is {', '.join(KEEPS[:-1])} or {KEEPS[-1]}")
    return value


def runs_of(path):
    """The runs of a sweep, once each of their configurations is known to be good. Their folders go by the file's name."""
    try:
        document = tomllib.loads(Path(path).read_text(encoding="utf-8"))
    except OSError as error:
        raise Fault(f"{path}: {error.strerror}") from None
    except (tomllib.TOMLDecodeError, UnicodeDecodeError) as error:
        raise Fault(f"{path}: this isn't TOML: {error}") from None
    name = Path(path).stem
    if not NAME.fullmatch(name):
        raise Fault(f"{path}: the file's name, which the folder of the results gets, has letters, digits, _ and -")
    try:
        return list(checked_runs(document, Path(name)))
    except Fault as fault:
        raise Fault(f"{path}: {fault}") from None


def checked_runs(document, folder):
    unknown = next((key for key in document if key not in PARTS), None)
    if unknown is not None:
        raise Fault(f"no part is called {unknown}: a sweep has {', '.join(PARTS)}")
    missing = next((key for key in ("settings", "seeds") if key not in document), None)
    if missing is not None:
        raise Fault(f"{missing} is missing")
    base, seeds = table_of(document.get("base", {}), "base"), seeds_of(document["seeds"])
    stage = stage_of(document["stage"]) if "stage" in document else 0
    keep = keep_of(document.get("keep", KEEPS[0]))
    if not isinstance(document["settings"], dict) or not document["settings"]:
        raise Fault("settings has a table for each setting, as [settings.plain]")
    for name, keys in document["settings"].items():
        if not NAME.fullmatch(name):
            raise Fault(f"setting {name!r}: a name has letters, digits, _ and -")
        whole = {**base, **table_of(keys, f"setting {name}")}
        for seed in seeds:
            text = "".join(f"{key_in_toml(key)} = {in_toml(value)}\n" for key, value in {**whole, "seed": seed}.items())
            try:
                check_config.check(text.encode("utf-8"))
            except check_config.Refused as refused:
                which = f"setting {name}, seed {seed}" if seed != seeds[0] else f"setting {name}"
                raise Fault(f"{which}: {refused.why} (bad input: {refused.reason})") from None
            yield Run(name, seed, folder / name / str(seed), text, stage, keep)


def write(path, text):
    """Writes a file, which gets its name once it is whole."""
    part = path.with_name(f"{path.name}.part")
    part.write_text(text, encoding="utf-8")
    os.replace(part, path)


def write_table(path, header, rows):
    write(path, "".join("\t".join(map(str, row)) + "\n" for row in chain([header], rows)))


def write_configurations(runs):
    """Writes each run's configuration. One that is there already stays, so nothing is made anew because of it."""
    for each in runs:
        path = each.folder / "configuration.toml"
        if not path.exists() or path.read_text(encoding="utf-8") != each.configuration:
            path.parent.mkdir(parents=True, exist_ok=True)
            write(path, each.configuration)


# One run.


@contextmanager
def held(folder):
    """Holds a folder against the same step of another call, which may still go on where that call was killed."""
    handle = os.open(folder, os.O_RDONLY)
    try:
        # Where a file system has no locks, two steps may do the same work, and they write the same bytes.
        with suppress(OSError):
            fcntl.flock(handle, fcntl.LOCK_EX)
        yield
    finally:
        os.close(handle)


def updates_of_whole(log, last):
    """The U lines of a log that ends with the E line of this update, or None: a log that isn't whole."""
    found, line = [], ""
    try:
        with gzip.open(log, "rt", encoding="ascii", newline="\n") as file:
            for line in file:
                if line.startswith("U "):
                    found.append(Update.of(line.split()))
    except (OSError, EOFError, ValueError, zlib.error):
        return None
    return found if line == f"E {last}\n" and len(found) == last else None


def make_log(folder, last):
    """Runs the world of a folder. The log is compressed as it comes."""
    end = b""
    with open(folder / "log.toml", "rb") as given, open(folder / "log.part", "wb") as part:
        # Without a name and a time, so that equal logs are equal files.
        with gzip.GzipFile("", "wb", 5, part, mtime=0) as file:
            with subprocess.Popen([program(), "run"], stdin=given, stdout=subprocess.PIPE, stderr=subprocess.PIPE) as ran:
                while block := ran.stdout.read1(BLOCK):
                    file.write(block)
                    end = (end + block)[-64:]
                told = ran.stderr.read().decode(errors="replace").strip()
        part.flush()
        os.fsync(part)
    if ran.returncode:
        status = f"signal {-ran.returncode}" if ran.returncode < 0 else f"status {ran.returncode}"
        raise Fault(f"{told or 'the program ended'} ({status})")
    if not end.endswith(f"\nE {last}\n".encode()):
        raise Fault("the program wrote no whole log")
    os.replace(folder / "log.part", folder / "log.gz")


def whole_log(folder):
    """Makes the log of a folder, where there is none of its present configuration. Gives the log's U lines."""
    log, made_from = folder / "log.gz", folder / "log.toml"
    text = (folder / "configuration.toml").read_text(encoding="utf-8")
    last = tomllib.loads(text).get("updates", check_config.KEYS["updates"][1])
    if log.exists() and made_from.exists() and made_from.read_text(encoding="utf-8") == text:
        updates = updates_of_whole(log, last)
        if updates is not None:
            return updates
    log.unlink(missing_ok=True)
    write(made_from, text)
    make_log(folder, last)
    updates = updates_of_whole(log, last)
    if updates is None:
        raise Fault("log.gz isn't the log that the program wrote")
    return updates


def make_stages(folder, size, until=MOST_UPDATES):
    """Makes the stages of a folder up to an update, where there are none of its present configuration."""
    stages, text = folder / "stages", (folder / "configuration.toml").read_text(encoding="utf-8")
    made_from = [(stages / "configuration.toml", text), (stages / "stage", f"{size}\n")]
    if any(path.exists() and path.read_text(encoding="utf-8") != value for path, value in made_from):
        shutil.rmtree(stages)
    words = [TOOLS / "staged-run", folder / "configuration.toml", "--stage", size, "-o", stages, "--jobs", 1, "--until", until]
    told = subprocess.run([sys.executable, *map(str, words)], capture_output=True, text=True, env=os.environ | {"AVIDA": program()})
    if told.returncode:
        raise Fault((told.stderr.strip().splitlines() or ["it was stopped"])[-1].removeprefix("staged-run: "))


class Made(NamedTuple):
    """The log of a run, the configuration that it was made from, its U lines, and where its saved worlds are."""

    log: Path
    configuration: Path
    updates: list
    worlds: Path | None


def made_of(folder, size):
    """Makes what is missing of a run's log."""
    if not size:
        updates = whole_log(folder)
        return Made(folder / "log.gz", folder / "log.toml", updates, None)
    make_stages(folder, size)
    log = folder / "stages" / "log"
    updates = [Update.of(line.split()) for line in Lines(log, "U")]
    return Made(log, folder / "stages" / "configuration.toml", updates, folder / "stages" / "worlds")


def telling(updates):
    """Of a run's updates those that first count a task, and the last one, which is all that a line of descent asks for."""
    firsts = set(first_updates(updates))
    return [update for update in updates[:-1] if update.number in firsts] + updates[-1:]


def line_of_equ(made):
    """The line of descent of one organism that does EQU, as the lines of tools/lineage.

    It is the organism in the least cell at the end whose trace shows EQU, and where there is none the first organism
    that was ever credited with it.
    """
    at, updates = TASKS.index("EQU"), made.updates
    if not any(update.tasks[at] for update in updates):
        return ""
    built = program()
    living = Ending(made.log).rows() if updates[-1].tasks[at] else []
    who = next((id for _, id, letters in living if "EQU" in gestation_of(built, letters).tasks), None)
    if who is None:
        who = firsts_of(built, made.log, updates, made.configuration, ("EQU",), made.worlds)["EQU"].birth.id
    return "".join(" ".join(map(str, ("P", *fields))) + "\n" for fields in Births(made.log).line_to(who))


def keep_only(folder, made, keep):
    """Removes what isn't kept of a run whose tables are made."""
    if keep == "births":
        with open(folder / "births.part", "wb") as part:
            with gzip.GzipFile("", "wb", 5, part, mtime=0) as file:
                file.writelines(f"{line}\n".encode("ascii") for line in Lines(made.log, "LBIUE"))
            part.flush()
            os.fsync(part)
        os.replace(folder / "births.part", folder / "births.gz")
    if keep != "logs":
        for name in ("log.gz", "log.toml"):
            (folder / name).unlink(missing_ok=True)
        shutil.rmtree(folder / "stages", ignore_errors=True)


@contextmanager
def step_in(folder):
    """A step in a run's folder. Where it fails, the reason stands in the folder too."""
    with held(folder):
        (folder / "fault.txt").unlink(missing_ok=True)
        try:
            yield
        except (Fault, OSError) as fault:
            with suppress(OSError):
                write(folder / "fault.txt", f"{fault}\n")
            raise Fault(f"{folder}: {fault}") from None


def stage_one(folder, size, update):
    with step_in(folder):
        make_stages(folder, size, update)


def run_one(folder, size, keep):
    with step_in(folder):
        made = made_of(folder, size)
        updates = made.updates
        ends = updates[-1].tasks if updates else len(TASKS) * (0,)
        write_table(folder / "counts.tsv", COUNTS, ((*update[:-1], *update.tasks) for update in updates))
        rows = zip(TASKS, (first or "-" for first in first_updates(updates)), ends)
        write_table(folder / "tasks.tsv", ("task", "first_update", "counted_at_end"), rows)
        # Of a long run all updates together take some 100 MB.
        made = made._replace(updates=telling(updates))
        del updates, rows
        write(folder / "line.txt", line_of_equ(made))
        keep_only(folder, made, keep)


# All runs.


class Course(NamedTuple):
    """What the plots need of a run: for each point its update, its mean merit, and for each task how often it was there."""

    updates: list
    merits: list
    shares: list


def course_of(each):
    groups, _ = thinned([Update.of(["U", *row]) for row in each.table("counts.tsv")], POINTS)
    return Course(
        [group[-1].number for group in groups],
        [group[-1].mean_merit() for group in groups],
        [[sum(update.tasks[at] > 0 for update in group) / len(group) for at in range(len(TASKS))] for group in groups],
    )


def spread_of(values):
    """The least value, the lower quartile, the median, the upper quartile and the greatest value."""
    low, middle, high = statistics.quantiles(values, n=4, method="inclusive") if len(values) > 1 else 3 * values
    return [f"{value:.6g}" for value in (min(values), low, middle, high, max(values))]


def row_of(each):
    """The row of a run in the table of all runs."""
    counts, tasks = each.table("counts.tsv"), each.table("tasks.tsv")
    line = (each.folder / "line.txt").read_text().splitlines() if each.is_whole() else []
    living, genotypes, merit = (int(counts[-1][COUNTS.index(what)]) if counts else 0 for what in ("living", "genotypes", "merit"))
    births = sum(int(row[COUNTS.index("births")]) for row in counts)
    mean = f"{merit / living:.6g}" if living else "-"
    of_line = (line[-1].split()[1], len(line)) if line else ("-", "-")
    return (each.setting, each.seed, len(counts), births, living, genotypes, mean, *(row[1] for row in tasks), tasks[-1][2], *of_line)


RUNS = ("setting", "seed", "updates", "births", "living", "genotypes", "mean_merit", *COUNTS[6:], "equ_at_end", "equ_organism", "its_line")
SHARE_KEY = "set rmargin at screen 0.88\nunset key"
MERIT_KEY = "set key left top vertical Left reverse samplen 1.4 spacing 1"
SETTINGS = ("setting", "seeds", *COUNTS[6:], "equ_at_end", "equ_earliest", "in_seed", "equ_median")


def row_of_setting(name, rows):
    """In how many seeds each task came, in how many EQU is done at the end, and when it came."""
    firsts = [[int(row[RUNS.index(task)]) for row in rows if row[RUNS.index(task)] != "-"] for task in COUNTS[6:]]
    equ = min(((int(row[RUNS.index("equ")]), row[1]) for row in rows if row[RUNS.index("equ")] != "-"), default=("-", "-"))
    at_end = sum(int(row[RUNS.index("equ_at_end")]) > 0 for row in rows)
    return (name, len(rows), *map(len, firsts), at_end, *equ, f"{statistics.median(firsts[-1]):g}" if firsts[-1] else "-")


def summary(path):
    runs = runs_of(path)
    folder = runs[0].folder.parent.parent
    finished = [each for each in runs if each.is_finished()]
    if not finished:
        raise Fault(f"{path}: no run is finished")
    rows, settings, shares, merits = [], [], [], []
    for name in dict.fromkeys(each.setting for each in finished):
        of_setting = [each for each in finished if each.setting == name]
        rows += (own := [row_of(each) for each in of_setting])
        settings.append(row_of_setting(name, own))
        courses = [course_of(each) for each in of_setting]
        for at, update in enumerate(courses[0].updates):
            means = [sum(values) / len(courses) for values in zip(*(course.shares[at] for course in courses))]
            shares.append((name, update, *(f"{mean:.6g}" for mean in means)))
            found = [course.merits[at] for course in courses if course.merits[at] is not None]
            if found:
                merits.append((name, update, *spread_of(found)))
    write_table(folder / "shares.tsv", ("setting", "update", *COUNTS[6:]), shares)
    write_table(folder / "merits.tsv", ("setting", "update", "least", "lower_quartile", "median", "upper_quartile", "greatest"), merits)
    if merits:
        draw(folder / "shares.svg", settings, shares, share_panel, SHARE_KEY)
        bounds = min(float(row[2]) for row in merits), max(float(row[6]) for row in merits)
        draw(folder / "merits.svg", settings, merits, merit_panel, f"{MERIT_KEY}\nset yrange [{bounds[0] / 2:g}:{bounds[1] * 2:g}]")
    write_table(folder / "settings.tsv", SETTINGS, settings)
    write_table(folder / "runs.tsv", RUNS, rows)
    left_out = len(runs) - len(finished)
    if left_out:
        print(f"{path}: {len(finished)} of {len(runs)} runs are finished, and the tables have these")


def share_panel(name, seeds, is_first, points):
    """The commands and the points of a setting's panel: the share of seeds that have each task."""
    plots = ", ".join(f"'-' using 1:2 with lines lw 1.8 lc rgb '{colour}'" for colour in COLOURS)
    # gnuplot breaks a key that is higher than its panel.
    names = "".join(
        f"set label {at + 1} '— {task}' at graph 1.02, {1 - 0.125 * at} tc rgb '{colour}'\n" for at, (task, colour) in enumerate(zip(TASKS, COLOURS))
    )
    lines = [[f"{row[1]} {row[2 + at]}\n" for row in points] for at in range(len(TASKS))]
    title = f"{name}: the share of {seeds} seeds that have each task" if seeds > 1 else f"{name}: one seed"
    begun = f"{names if is_first else 'unset label'}\nset title '{title}'\nset yrange [0:1.02]\nplot {plots}\n"
    return begun + "".join("".join(each) + "e\n" for each in lines)


def merit_panel(name, seeds, is_first, points):
    """The same of the mean merit: the seed in the middle, half of the seeds around it, and all of them."""
    keys = ("least to greatest", "middle half of the seeds", "median") if is_first else ("", "", "")
    titles = [f"title '{key}'" if key else "notitle" for key in keys]
    plots = (
        f"'-' using 1:2:3 with filledcurves fc rgb '#e3e8ee' {titles[0]}, "
        f"'-' using 1:2:3 with filledcurves fc rgb '#a9bdd3' {titles[1]}, "
        f"'-' using 1:2 with lines lw 2 lc rgb '#0072B2' {titles[2]}"
    )
    lines = [[f"{row[1]} {row[low]} {row[high]}\n" for row in points] for low, high in ((2, 6), (3, 5), (4, 4))]
    title = f"{name}: mean merit of {seeds} seeds" if seeds > 1 else f"{name}: mean merit of one seed"
    return (
        f"set title '{title}'\nset logscale y\nset format y '10^{{%L}}'\n"
        f"plot {plots}\n" + "".join("".join(each) + "e\n" for each in lines)
    )


def draw(path, settings, points, panel, key):
    """Draws a panel for each setting, one below the other."""
    part = path.with_name(f"{path.name}.part")
    last = max(int(row[1]) for row in points)
    parts = [
        f"set terminal svg size 900,{60 + 240 * len(settings)} font 'Helvetica,13' background rgb 'white'\n"
        f"set output {json.dumps(str(part))}\nset multiplot layout {len(settings)},1\nset border 3 lc rgb '#666666'\n"
        "set tics nomirror tc rgb '#333333'\nset grid ytics lc rgb '#e4e4e4' lt 1\nset lmargin 9\n"
        f"set xrange [0:{last}]\n{key}\n"
    ]
    for at, (name, seeds, *_) in enumerate(settings):
        if at == len(settings) - 1:
            parts.append("set xlabel 'update'\n")
        own = [row for row in points if row[0] == name]
        if own:
            parts.append(panel(name, seeds, at == 0, own))
    drawn = subprocess.run(["gnuplot"], input="".join(parts) + "unset multiplot\n", text=True, capture_output=True)
    if drawn.returncode:
        raise Fault(f"gnuplot: {drawn.stderr.strip()[-300:]}")
    os.replace(part, path)


def unfinished(runs, begun):
    """Names each run that isn't finished, and why."""
    named = [f"sweep: {each.name()}: {each.fault(begun)}" for each in runs if not each.is_whole()]
    return "\n".join([*named, f"sweep: {len(named)} of {len(runs)} runs aren't finished; the same command again runs these alone"])


def time_of(seconds):
    return f"{seconds / 3600:.1f} h" if seconds >= 5400 else f"{seconds / 60:.0f} min" if seconds >= 90 else f"{seconds:.0f} s"


class SweepProgress:
    """How far a sweep is, as a line for standard error."""

    def __init__(self, runs):
        self.runs, self.begun, self.before = runs, time.monotonic(), sum(each.updates_done() for each in runs)
        self.work = sum(each.updates() for each in runs)

    def told(self):
        done, spent = sum(each.updates_done() for each in self.runs), time.monotonic() - self.begun
        finished = sum(each.is_whole() for each in self.runs)
        text = f"sweep: {finished} of {len(self.runs)} runs, {100 * done // max(1, self.work)} % of their updates"
        if done > self.before:
            rate = (done - self.before) / spent
            text += f", {rate:,.0f} updates/s, {time_of((self.work - done) / rate)} left"
        return text


def main():
    steps = {
        "check": (runs_of, str),
        "stage": (stage_one, Path, int, int),
        "run": (run_one, Path, int, str),
        "summary": (summary, str),
    }
    step, *kinds = steps.get(sys.argv[1] if len(sys.argv) > 1 else "", (None,))
    if len(sys.argv) != 2 + len(kinds) or not step:
        print(__doc__, file=sys.stderr)
        return 2
    step(*(kind(word) for kind, word in zip(kinds, sys.argv[2:])))
    return 0


if __name__ == "__main__":
    run(main)
