"""The answers that docs/FORMATS.md allows, for the checks that run the program on hostile streams and inputs."""

import re
import tempfile
from collections import Counter

from avida_log import worlds_of

DONE, BAD_WORDS, BAD_INPUT, READ_FAULT, WRITE_FAULT, NO_MEMORY = 0, 2, 3, 4, 5, 6

FAULT_LINES = {
    DONE: b"",
    BAD_WORDS: b"avida: bad words\n",
    READ_FAULT: b"avida: read fault\n",
    WRITE_FAULT: b"avida: write fault\n",
    NO_MEMORY: b"avida: no memory\n",
}

NUMBER = rb"(0|[1-9][0-9]*)"
GENOME_REASON = rb"(letter at %s|short [0-7]|long [1-9][0-9]{3,6})" % NUMBER
CONFIG_REASON = rb"(toml|key [!-~]{0,64}|kind [a-z_]+|ancestor %s|range [a-z_]+ -?%s|event %s)" % (GENOME_REASON, NUMBER, NUMBER)
LOG_REASON = rb"(line|order|parent|change|unended) [1-9][0-9]*"
SAVED_REASON = rb"(line|state|unended) [1-9][0-9]*"

# The reasons for which a command rejects its input, beside `too long`.
REASONS = {
    "trace": GENOME_REASON,
    "trace --org": rb"(name in line [1-9][0-9]*|short [0-7]|long [1-9][0-9]{3,6})",
    "landscape": GENOME_REASON,
    "run": CONFIG_REASON,
    "save": CONFIG_REASON,
    "lineage": CONFIG_REASON + rb"|cell %s" % NUMBER,
    "assay": CONFIG_REASON + rb"|cells %s" % NUMBER,
    "replay": LOG_REASON,
    "upgrade": LOG_REASON,
    "tree": LOG_REASON,
    "resume": SAVED_REASON + rb"|updates [1-9][0-9]*",
    "advance": SAVED_REASON + rb"|updates [1-9][0-9]*",
}


def reason_of(words, errors):
    """The reason of the line that tells of a rejected input, if the command has such a reason, else None."""
    kind = "trace --org" if "--org" in words else words[0]
    told = re.fullmatch(rb"avida: bad input: (too long|%s)\n" % REASONS.get(kind, rb"(?!)"), errors)
    return told and told[1].decode()


# The first letters of the lines with which a piece of an output ends.
PIECE_ENDS = {"run": b"LUE", "resume": b"UE", "save": b"SMZ", "advance": b"SMZ"}


def pieces_of(words, output):
    """The pieces in which a command writes an output, or None where their ends are left open."""
    if words[0] in ("bench", "assay"):
        return [output] if output else []
    if words[0] not in PIECE_ENDS:
        return None
    pieces = [b""]
    for line in output.splitlines(keepends=True):
        pieces[-1] += line
        if line[0] in PIECE_ENDS[words[0]]:
            pieces.append(b"")
    return pieces[:-1]


def pictures_of(log):
    """The watch line of each update of a log's bytes, the founding first."""
    with tempfile.NamedTemporaryFile() as file:
        file.write(log)
        file.flush()
        return [picture_of(world) for world in worlds_of(file.name)]


def picture_of(world):
    living = Counter(world.genomes[id] for id in world.cells if id is not None)
    letters, count = min(living.items(), key=lambda genome: (-genome[1], genome[0]), default=("-", 0))
    told = world.update
    if told is None:
        return f"W 0 1 1 {len(letters)} 1 {letters}\n".encode()
    return f"W {told.number} {told.living} {told.genotypes} {told.merit} {count} {letters}\n".encode()


def fault_of_watch(text, pictures, looks, whole):
    """What is wrong with the lines of a watcher, or None. Where `whole`, the last update has its line."""
    update_of = {line: update for update, line in enumerate(pictures)}
    lines = text.splitlines(keepends=True)
    part = b"" if not lines or lines[-1].endswith(b"\n") else lines.pop()
    at = -1
    for line in lines:
        if update_of.get(line, -1) <= at:
            return f"no picture of an update after {at}: {line[:60]}"
        at = update_of[line]
    if part and (whole or not any(picture.startswith(part) for picture in pictures[at + 1 :])):
        return f"no start of a picture after {at}: {part[:60]}"
    if whole and at != len(pictures) - 1:
        return f"the last line is that of update {at} and not of {len(pictures) - 1}"
    return f"{len(lines)} lines with {looks} looks" if len(lines) > looks + 1 else None
