"""Who was first to be credited with a task.

An organism is credited with a task at a divide, for itself and for its child. A log only counts who is credited after
each update, so the world of the update in which a count rises above 0 is made again, by `save` of the configuration
cut to that update. Its `O` lines have each organism's credited set (docs/FORMATS.md, "Saved worlds").
"""

import gzip
import json
import os
from concurrent.futures import ThreadPoolExecutor
from pathlib import Path
from typing import NamedTuple

from avida_log import TASKS, Births, Fault, Progress, answer, first_updates
from scripts import script


class Credited(NamedTuple):
    """An organism of a saved world: its id, its credited set as a number, the low 24 bits of its inputs, its genome."""

    id: int
    tasks: int
    inputs: tuple
    letters: str


class Saved(NamedTuple):
    """What is read of a saved world. The merit is the sum over all who live."""

    update: int
    next_id: int
    merit: int
    living: list

    @classmethod
    def of(cls, text):
        living, merit = [], 0
        for line in text.splitlines():
            fields = line.split(" ")
            if fields[0] == "S":
                update, next_id = map(int, fields[4:6])
            elif fields[0] == "O":
                living.append(Credited(int(fields[2]), int(fields[4]), tuple(map(int, fields[8:11])), fields[11]))
                merit += int(fields[3])
        return cls(update, next_id, merit, living)


class Birth(NamedTuple):
    """The birth of an organism as tools/lineage writes it. A founder has `-` for parent, base and changes."""

    id: int
    parent: str
    update: str
    cell: str
    base: str
    changes: str
    letters: str

    @property
    def record(self):
        return f"{self.base} {self.changes}"


class First(NamedTuple):
    """The first organism credited with a task, and of its line of descent the last birth that changed the genome."""

    task: str
    update: int
    birth: Birth
    change: Birth


def in_toml(value):
    """A value of a configuration that the program accepts, in one line."""
    if isinstance(value, bool):
        return str(value).lower()
    if isinstance(value, str):
        return json.dumps(value)
    if isinstance(value, list):
        return "[" + ", ".join(map(in_toml, value)) + "]"
    if isinstance(value, dict):
        return "{ " + ", ".join(f"{key} = {in_toml(each)}" for key, each in value.items()) + " }"
    return str(value)


class Configuration:
    """A configuration, which can be cut to an earlier end.

    `worlds` is a folder of its saved worlds, as tools/staged-run makes them: a world is then made from the last one before it.
    """

    def __init__(self, path, worlds=None):
        tool = script("check-config")
        try:
            given = Path(path).read_bytes()
            tool.check(given)
        except OSError as error:
            raise Fault(f"{path}: {error.strerror}") from None
        except tool.Refused as refused:
            raise Fault(f"{path}:{refused.line}: {refused.why}") from None
        self.path, self.worlds = path, worlds and Path(worlds)
        self.document, _ = tool.document_of(given)

    def cut_to(self, update):
        """The text of the same configuration that ends after this update. Later events are left out."""
        events = [event for event in self.document.get("event", []) if event["update"] <= update]
        keys = self.document | {"updates": update, "event": events}
        return "".join(f"{key} = {in_toml(value)}\n" for key, value in keys.items())

    def saved(self, program, update):
        return Saved.of(self.world_after(program, update))

    def world_after(self, program, update):
        """The text of the saved world after an update."""
        ends = [int(path.stem) for path in self.worlds.glob("*.gz") if path.stem.isdigit()] if self.worlds else []
        end = max((end for end in ends if end <= update), default=None)
        if end is None:
            return answer([program, "save"], self.cut_to(update).encode("utf-8"))
        with gzip.open(self.worlds / f"{end}.gz") as file:
            text = file.read()
        return answer([program, "advance", update - end], text) if update > end else text.decode("ascii")


def check_same(log, path, births, update, saved):
    """A Fault where a saved world isn't that of this U line."""
    found = (saved.update, len(saved.living), saved.merit)
    counts = tuple(sum(each.tasks >> at & 1 for each in saved.living) for at in range(len(TASKS)))
    is_same = found == (update.number, update.living, update.merit) and counts == update.tasks
    if not is_same or saved.next_id > len(births.parents):
        raise Fault(f"{path} isn't the configuration of {log}: after update {update.number} its world is another one")


def born_in(births, update, saved):
    """The ids of an update's births in the order of placing."""
    ids, id = [], saved.next_id
    while len(ids) < update.births:
        id -= 1
        if births.parents[id] >= 0:
            ids.append(id)
    return ids[::-1]


def first_of(births, at, update, saved):
    """The first organism credited with task number `at`, from 0, in the update in which its count rises above 0.

    Who did it divided in this update, and may have died in it, so that only its child is there. Of several who did it
    the one whose child was placed first is taken.
    """
    born = born_in(births, update, saved)
    order = {births.parents[id]: place for place, id in reversed(list(enumerate(born)))}
    new = set(born)
    credited = [each.id for each in saved.living if each.tasks >> at & 1]
    who = {births.parents[id] if id in new else id for id in credited}
    line = [Birth(*fields) for fields in births.line_to(min(who, key=lambda id: (order.get(id, len(born)), id)))]
    change = next((birth for birth in reversed(line) if birth.record != "= -"), line[0])
    return First(TASKS[at], update.number, line[-1], change)


def firsts_of(program, log, updates, path, tasks=TASKS, worlds=None):
    """The First of each of these tasks that is ever counted in a log, whose U lines and whose configuration are given.

    `worlds` is a folder of saved worlds, where there is one.
    """
    configuration, births = Configuration(path, worlds), Births(log)
    wanted = {at: first for at, first in enumerate(first_updates(updates)) if first and TASKS[at] in tasks}
    by_number = {update.number: update for update in updates}
    numbers = sorted(set(wanted.values()))
    with ThreadPoolExecutor(os.cpu_count()) as pool:
        saved = pool.map(lambda number: configuration.saved(program, number), numbers)
        made = dict(zip(numbers, Progress("runs up to a first update", len(numbers), "runs").over(saved)))
    for number in numbers:
        check_same(log, path, births, by_number[number], made[number])
    return {TASKS[at]: first_of(births, at, by_number[number], made[number]) for at, number in wanted.items()}


def inputs_of(program, path, firsts):
    """The inputs of the organism of each of these Firsts, which are those of the world after the update of its birth."""
    configuration = Configuration(path)
    births = {int(first.birth.update) for first in firsts.values()}
    with ThreadPoolExecutor(os.cpu_count()) as pool:
        worlds = dict(zip(births, pool.map(lambda update: configuration.saved(program, update), births)))
    living = {update: {each.id: each for each in saved.living} for update, saved in worlds.items()}
    return {task: living[int(first.birth.update)][first.birth.id].inputs for task, first in firsts.items()}


def stays_from(updates, at):
    """The update from which on the count of a task is never 0 again, or None."""
    found = None
    for update in updates:
        if not update.tasks[at]:
            found = None
        elif found is None:
            found = update.number
    return found


def half_from(updates, at):
    """The first update after which at least half of the living are counted for a task, or None."""
    return next((update.number for update in updates if update.tasks[at] and 2 * update.tasks[at] >= update.living), None)
