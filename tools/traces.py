"""What a trace shows of a genome: its first divide, its merit and its tasks.

A trace runs a genome alone and without errors, with the inputs 0x0F0F0F0F, 0x33333333 and 0x55555555, or with those
that are given, and with the default rules of a divide (docs/MACHINE.md). It takes as many steps as the default age limit
allows, 20 a letter.
"""

import os
from concurrent.futures import ThreadPoolExecutor
from typing import NamedTuple

from avida_log import TASKS, Progress, answer

STEPS_A_LETTER, MOST_STEPS = 20, 1000000


class Gestation(NamedTuple):
    """What a trace shows up to the first viable divide: that step, from 1, or None; the tasks done; and the merit, or None."""

    step: int
    tasks: tuple
    merit: int = None

    @property
    def names(self):
        return " ".join(self.tasks) or "-"


def words_of(letters, inputs=None):
    """The words of a genome's trace, perhaps with the low 24 bits of its inputs."""
    steps = min(STEPS_A_LETTER * len(letters), MOST_STEPS)
    return ["trace", str(steps), *(["--inputs", ",".join(map(str, inputs))] if inputs else [])]


def text_of(program, letters, inputs=None):
    """A genome's trace. A line has its step's number, place, name, AX, BX and CX, and what the step did."""
    return answer([program, *words_of(letters, inputs)], letters.encode("ascii"))


def lines_of(program, letters, inputs=None):
    """The fields of each step of a genome's trace."""
    return [line.split(" ") for line in text_of(program, letters, inputs).splitlines()]


def step_of(task, program, letters, inputs=None):
    """The first step of a genome's trace that does a task, from 1, or None."""
    lines = lines_of(program, letters, inputs)
    return next((int(fields[0]) for fields in lines if fields[6:7] == [task]), None)


def gestation_of(program, letters):
    before, divides, after = text_of(program, letters).partition(" divide ")
    tasks = tuple(task for task in TASKS if f" {task}\n" in before)
    if not divides:
        return Gestation(None, tasks)
    return Gestation(int(before[before.rfind("\n") + 1 :].split(" ", 1)[0]), tasks, int(after.split(maxsplit=3)[2]))


def gestations_of(program, genomes):
    """The gestation of each of these genomes."""
    progress = Progress("traces", len(genomes), "genomes")
    with ThreadPoolExecutor(os.cpu_count()) as pool:
        return dict(zip(genomes, progress.over(pool.map(lambda letters: gestation_of(program, letters), genomes))))
