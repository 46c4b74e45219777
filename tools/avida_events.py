"""The events of Avida's events.cfg: the founder, the last update, and the events of a configuration."""

import re
from pathlib import Path
from typing import NamedTuple

from avida_cfg import MILLION, Finding, Line, Reader, is_same, parts_of, whole_of
from avida_log import LETTER_OF, Fault, fault_of_length
from avida_settings import FIXED, FIXED_FORMS, QUIET_ACTIONS, TRANSLATED

# A configuration's events; and so many are looked at, to take the first of them.
MOST_EVENTS, MOST_LOOKED_AT = 1000, 100000


def letters_of_organism(made, path, asked):
    """The letters of a genome by names. The names are the same here."""
    made.take_file(path)
    letters = []
    for line in Reader().lines(path, asked):
        if len(line.words) > 1 or line.words[0] not in LETTER_OF:
            raise line.fault("this is no instruction of this world's set")
        letters.append(LETTER_OF[line.words[0]])
    fault = fault_of_length(letters)
    if fault:
        raise Fault(f"{path}: a genome has 8 to 8192 letters, and this one has {len(letters)}")
    return "".join(letters)


TRIGGERS = {"u": "update", "update": "update", "i": "begin", "immediate": "begin", "g": "generation", "generation": "generation"}
TRIGGERS |= {"b": "births", "births": "births", "o": "births", "org_id": "births"}
TIME = re.compile(r"(begin|\d+)(?::(\d+|all|once)(?::(end|\d+))?)?")


class Action(NamedTuple):
    """An action of events.cfg: its line, the trigger, when it happens, its name and its arguments."""

    line: Line
    trigger: str
    first: int
    step: int
    last: int
    name: str
    given: list

    @classmethod
    def of(cls, line):
        words = list(line.words)
        if words[0] not in TRIGGERS:
            raise line.fault(f"an event begins with u, g or i, and not with {words[0]}")
        trigger = TRIGGERS[words.pop(0)]
        time = TIME.fullmatch(words[0]) if words else None
        first, step, last = 0, 0, None
        if time:
            words.pop(0)
            first = 0 if time[1] == "begin" else int(time[1])
            step = {None: 0, "once": 0, "all": 1}.get(time[2]) if not (time[2] or "").isdigit() else int(time[2])
            last = int(time[3]) if (time[3] or "").isdigit() else None
        elif trigger != "begin":
            raise line.fault("behind the trigger belongs a time: 100, begin, or start:interval:end")
        if not words:
            raise line.fault("an action belongs behind the time")
        return cls(line, trigger, first, step, last, words[0], words[1:])

    def updates(self, end):
        """When it happens, up to the end of the run."""
        if not self.step:
            return [self.first]
        last = end if self.last is None else min(end, self.last)
        return range(self.first, last + 1, self.step)

    def number(self, place, default):
        """A whole number among its arguments."""
        return whole_of(self.line, self.given[place], f"argument {place + 1}") if place < len(self.given) else default


class World(NamedTuple):
    """What events need to know of the world."""

    width: int
    height: int
    updates: int
    folder: Path
    start: Line
    organism: Path

    @property
    def cells(self):
        return self.width * self.height


def cell_of(action, number, world):
    if not 0 <= number < world.cells:
        raise action.line.fault(f"cell {number} isn't in a world of {world.width} by {world.height} cells")
    return number


def genome_of(made, action, world):
    """The genome that an action injects. --organism names that of the first one."""
    if action.name == "InjectSequence":
        letters = (action.given[0] if action.given else "").rsplit(",", 1)[-1]
        if not letters or set(letters) - set(LETTER_OF.values()):
            raise action.line.fault("a sequence has the letters a to z")
        return letters
    if world.organism is not None:
        return letters_of_organism(made, world.organism, None)
    names = action.given[:1] or (world.start.words[1:2] if world.start else [])
    if not names or names[0] in ("-", "START_ORGANISM"):
        raise action.line.fault("it names no organism: --organism names one")
    path = world.folder / names[0].strip('"')
    if not path.exists():
        raise action.line.fault(f"{path}: No such file or directory; --organism names another")
    return letters_of_organism(made, path, action.line)


def cells_of(action, world):
    """The cells into which an action injects."""
    if action.name == "InjectAll":
        return range(world.cells)
    if action.name == "Inject":
        return [cell_of(action, action.number(1, 0), world)]
    first, end = action.number(1, 0), action.number(2, -1)
    first = max(first, 0)
    end = first + 1 if end < 0 else end
    if end <= first:
        raise action.line.fault(f"the last cell, {end}, isn't above the first, {first}")
    return range(cell_of(action, first, world), cell_of(action, end - 1, world) + 1)


def add_event(made, action, update, **keys):
    if len(made.events) == MOST_LOOKED_AT:
        raise action.line.fault(f"up to this line there are more than {MOST_LOOKED_AT} events, and {MOST_EVENTS} are allowed")
    made.events.append({"kind": keys.pop("kind"), "update": max(update, 1), **keys, "from": action.line})


def inject(made, action, world, updates):
    letters, cells = genome_of(made, action, world), cells_of(action, world)
    if action.number(2 if action.name == "Inject" else 3, -1) != -1:
        made.change(action.line, "a founder's merit is its length here")
    for update in updates:
        rest = list(cells)
        if "ancestor" not in made.keys:
            made.set("ancestor", letters, f"{action.line.text} ({action.line.where})")
            made.set("founder_cell", rest.pop(0), f"the same line ({action.line.where})")
            if update > 0:
                made.change(action.line, "a run always begins with its founder, so this one stands there from update 0 on")
        if rest and update == 0:
            made.change(action.line, "only one founder stands there at the start, and the others come at the end of update 1")
        for cell in rest[: MOST_EVENTS + 1]:
            add_event(made, action, update, kind="inject", cell=cell, letters=letters)


def kill_rectangle(made, action, world, updates):
    left, top, right, bottom = (action.number(place, 0) for place in range(4))
    if not (0 <= left <= right < world.width and 0 <= top <= bottom < world.height):
        raise action.line.fault(f"the rectangle isn't one of a world of {world.width} by {world.height} cells")
    rows = [(row * world.width + left, row * world.width + right) for row in range(top, bottom + 1)]
    if (left, right) == (0, world.width - 1):
        rows = [(rows[0][0], rows[-1][1])]
    clear(made, action, rows, updates)


def clear(made, action, ranges, updates):
    for update in updates:
        if update == 0:
            made.change(action.line, "it comes at the end of update 1 here")
        for first, last in ranges:
            add_event(made, action, update, kind="clear", first=first, last=last)


def set_rate(made, action, name, word, updates):
    key, kind, *_ = TRANSLATED.get(name, (None, None))
    if kind != "ppm":
        form = next((each for each in FIXED_FORMS if re.fullmatch(each[0], name)), None)
        fixed = FIXED.get(name) or (form[1:] if form else None)
        if fixed is None or not any(is_same(word, value) for value in fixed[0]):
            made.change(action.line, fixed[1] if fixed else "only the six rates of errors change in a run here")
        return
    ppm = parts_of(made, action.line, word, "ppm")
    for update in updates:
        if update == 0:
            made.set(key, ppm, f"{action.line.text} ({action.line.where})")
        else:
            add_event(made, action, update, kind="rate", name=key, ppm=ppm)


def change_rates(made, action, updates):
    if action.name == "ZeroMuts":
        for name, (_, kind, *_) in TRANSLATED.items():
            if kind == "ppm":
                set_rate(made, action, name, "0", updates)
        return
    if len(action.given) < 2:
        raise action.line.fault("a name and a value belong behind it")
    if any(action.number(place, -1) != -1 for place in (2, 3)):
        made.change(action.line, "a rate is that of the whole world here")
        return
    set_rate(made, action, action.given[0], action.given[1], updates)


def end_of(made, actions, path):
    """The update at which the run ends."""
    ends = [action for action in actions if action.name == "Exit" and action.trigger == "update"]
    if not ends:
        made.changes.append(Finding(str(path), "no Exit", "a run has a last update here: set updates, which is 100 now"))
        made.set("updates", 100, f"{path} has no Exit")
        return 100
    action = min(ends, key=lambda each: each.first)
    if action.first > MILLION:
        made.change(action.line, f"at most {MILLION} updates here, so it is that many")
    made.set("updates", min(action.first, MILLION), f"{action.line.text} ({action.line.where})")
    return made.keys["updates"]


def translate_events(made, path, world):
    made.take_file(path)
    actions = [Action.of(line) for line in Reader().lines(path)]
    world = world._replace(updates=end_of(made, actions, path))
    for action in actions:
        if re.fullmatch(QUIET_ACTIONS, action.name):
            made.nothing(action.line, "a log has every update", action.name)
        elif action.name == "Exit" and action.trigger == "update":
            continue
        elif action.trigger not in ("update", "begin"):
            made.change(action.line, f"an event happens at an update here, and not by {action.trigger}")
        elif action.first > world.updates:
            made.nothing(action.line, f"it would come after the last update, {world.updates}")
        else:
            translate_action(made, action, world)
            # The option names the organism of the first injection.
            world = world._replace(organism=None) if action.name.startswith("Inject") else world
    made.events.sort(key=lambda event: event["update"])
    more = len(made.events) - MOST_EVENTS
    if more > 0:
        line = made.events[MOST_EVENTS]["from"]
        made.change(line, f"a configuration has at most {MOST_EVENTS} events, and the {more} after these are left out")
        del made.events[MOST_EVENTS:]
    if any(event["update"] > world.updates for event in made.events):
        raise Fault(f"{path}: the run ends at update {world.updates}, before its first event can happen")


def translate_action(made, action, world):
    updates = action.updates(world.updates)
    if action.name in ("Inject", "InjectAll", "InjectRange", "InjectSequence"):
        inject(made, action, world, updates)
    elif action.name == "KillRectangle":
        kill_rectangle(made, action, world, updates)
    elif action.name in ("KillProb", "Apocalypse") and action.given and is_same(action.given[0], "1"):
        clear(made, action, [(0, world.cells - 1)], updates)
    elif action.name in ("SetMutProb", "SetConfig", "ZeroMuts"):
        change_rates(made, action, updates)
    else:
        made.change(action.line, "this action isn't here")
