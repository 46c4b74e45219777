"""What tools/check-tools checks of the page that tools/map writes: what its data say, and what a browser shows of it.

The page is shown by chromium, where that is installed. What somebody would do with it is done by a script at its end.
"""

import json
import os
import random
import re
import shutil
import signal
import struct
import subprocess
import zlib
from base64 import b64decode
from html import unescape
from pathlib import Path
from unittest import mock

import processes
import settled
from avida_log import INSTRUCTIONS, TASKS, TOP, Fault, applied, program, updates_of, worlds_of
from scripts import script
from traces import gestations_of

TOOLS = TOP / "tools"
EMPTY = bytes([20, 24, 29])

# What a visitor does: begins on the founder's cell, goes by keys, chooses, finds, lets go. What the page then has stands
# in one element at the end.
VISIT = """<script>(async () => {
  const seen = {}, wait = () => new Promise((done) => setTimeout(done, 30));
  const settle = async () => { for (let i = 0; i < 40; i++) await wait(); };
  const press = (key, shiftKey) => world.dispatchEvent(new KeyboardEvent("keydown", { key, shiftKey, bubbles: true }));
  const its = () => Object.fromEntries([...document.querySelectorAll("[id^=its-]")].map((each) => [each.id.slice(4), each.textContent]));
  while (!picture) await wait();
  await settle();
  seen.first = its();
  seen.valuetext = at("slider").getAttribute("aria-valuetext");
  // A window of chromium is 500 pixels wide at least.
  document.documentElement.style.width = "390px";
  window.dispatchEvent(new Event("resize"));
  await settle();
  seen.wide = Math.max(...[...document.querySelectorAll("body, body *")].map((each) => each.getBoundingClientRect().right));
  for (const mode of ["descents", "genotypes", "tasks", "merit", "age"]) {
    await pickMode(mode);
    const pixels = world.getContext("2d").getImageData(0, 0, world.width, world.height).data, colours = new Set();
    for (let i = 0; i < pixels.length; i += 4) colours.add(pixels.slice(i, i + 3).join());
    seen[mode] = { says: at("says").textContent, colours: colours.size, ends: [at("least").textContent, at("greatest").textContent], ramp: !at("legend").hidden };
  }
  seen.tab = [world.tabIndex, world.getAttribute("role"), world.getAttribute("aria-label")];
  press("Escape");
  await settle();
  seen.gone = [at("chosen").hidden, at("plot-line").hidden];
  cursor = 0;
  press("ArrowLeft");
  press("ArrowUp");
  seen.corner = at("cell").textContent;
  press("ArrowRight", true);
  seen.far = at("cell").textContent;
  cursor = %(cell)d;
  press("Enter");
  await settle();
  seen.entered = its();
  seen.said = at("cell").textContent;
  const box = world.getBoundingClientRect(), place = seenAt(%(cell)d);
  await letGo();
  for (const type of ["pointerdown", "pointerup"]) {
    const where = { clientX: box.left + (place.x + 0.5) * box.width / width, clientY: box.top + (place.y + 0.5) * box.height / height };
    world.setPointerCapture = () => {};
    world.dispatchEvent(new PointerEvent(type, { ...where, pointerId: 1, bubbles: true }));
  }
  await settle();
  seen.clicked = its();
  await find("%(dead)d");
  seen.dead = [at("cell").textContent, its().id];
  await find("99999999");
  seen.nobody = at("cell").textContent;
  const idsWith = (holds) => counts.map((_, k) => [...Array(cells).keys()].map((cell) => k * cells + cell).filter((i) => ids[i] && holds(i)).map((i) => ids[i] - 1));
  seen.lasting = idsWith((i) => lasting[order[i]]);
  await find("%(elder)d");
  seen.below = idsWith(isBelowChosen);
  await pick(lastFrame);
  seen.elder = its().now;
  const told = document.createElement("script");
  told.type = "application/json";
  told.id = "seen";
  told.textContent = JSON.stringify(seen).replaceAll("<", "\\\\u003c");
  document.body.append(told);
})();</script>
"""


class Screen:
    """The pixels of a picture that a browser wrote: PNG with eight bits a colour."""

    def __init__(self, path):
        data, at, packed = path.read_bytes(), 8, b""
        while at < len(data):
            (size,) = struct.unpack(">I", data[at : at + 4])
            kind, body = data[at + 4 : at + 8], data[at + 8 : at + 8 + size]
            if kind == b"IHDR":
                self.width, self.height, _, colour = struct.unpack(">IIBB", body[:10])
            packed += body if kind == b"IDAT" else b""
            at += size + 12
        step = 4 if colour == 6 else 3
        raw, long = zlib.decompress(packed), self.width * step
        before = bytearray(long)
        self.rows = []
        for y in range(self.height):
            way, row = raw[y * (long + 1)], bytearray(raw[y * (long + 1) + 1 : (y + 1) * (long + 1)])
            for x in range(long) if way else ():
                left, up, corner = (row[x - step], before[x], before[x - step]) if x >= step else (0, before[x], 0)
                near = min((abs(up - corner), 0, left), (abs(left - corner), 1, up), (abs(left + up - 2 * corner), 2, corner))[2]
                row[x] = (row[x] + (0, left, up, (left + up) // 2, near)[way]) % 256
            self.rows.append([bytes(row[x : x + 3]) for x in range(0, long, step)])
            before = row


def line_of(parents, id):
    """An organism and its ancestors."""
    line = {id}
    while id in parents:
        id = parents[id]
        line.add(id)
    return line


class Page:
    """The data of a page, unpacked as the page does it."""

    def __init__(self, path):
        self.text = path.read_text(encoding="utf-8")
        self.data = json.loads(re.search(r'<script type="application/json" id="data">(.*?)</script>', self.text, re.S)[1])
        self.cells = self.data["width"] * self.data["height"]

    def bytes(self, name):
        return zlib.decompress(b64decode(self.data[name]))

    def numbers(self, name):
        data = self.bytes(name)
        count = len(data) // 4
        return [sum(data[at + count * part] << 8 * part for part in range(4)) for at in range(count)]

    def frames(self):
        """Of each frame its update, and of each cell None or its id, its genome and its parent's id, or None for a founder."""
        ids, sources, parents, newborns = map(self.numbers, ("ids", "sources", "parents", "newborns"))
        records, before, first = iter(self.bytes("records").decode().split("\n")), [None] * self.cells, 0
        for number, counts in enumerate(self.data["counts"]):
            now = [None] * self.cells
            for cell in range(self.cells):
                code, source = ids[number * self.cells + cell], sources[number * self.cells + cell]
                if code == 1:
                    now[cell] = before[cell]
                elif code:
                    id, letters = first + code - 2, before[(cell + source - 1) % self.cells][1] if source else ""
                    for record in filter(None, next(records).replace("/", ";").split(";")):
                        base, _, changes = record.lstrip("@").rpartition(":") if record[0] != "@" else (record[1:], "", "")
                        letters = applied(letters, base or "=", changes or "-")
                    above = parents.pop(0)
                    now[cell] = (id, letters, id - above if above else None)
            yield counts[0], now
            before, first = now, 1 + sum(newborns[: counts[0]])


class Maps:
    """The checks of this file, with the pages that they need in a folder."""

    def __init__(self, checks, room):
        self.checks, self.check, self.room = checks, checks.check, room

    def made(self, log, name, *words):
        page = self.room / name
        done = subprocess.run([TOOLS / "map", log, "-o", page, *map(str, words)], capture_output=True)
        self.check(f"map of {log.name} ends with status 0", done.returncode == 0 and done.stdout.decode() == f"{page}\n", done.stderr)
        return page

    def all(self):
        log = self.room / "events.log"
        last = updates_of(log)[-1]
        for name, words in (("events.html", ["--title", "a <b> & c"]), ("thin.html", ["--frames", 5])):
            self.data_of(log, Page(self.made(log, name, *words)), name, last)
        self.processes(log)
        browser = next(filter(None, map(shutil.which, ("chromium", "chromium-browser", "google-chrome"))), None)
        if not browser:
            return self.checks.skip("the page of tools/map in a browser, as chromium isn't installed (a Debian package)")
        self.how = [browser, "--headless", "--no-sandbox", "--disable-gpu", "--disable-dev-shm-usage", "--hide-scrollbars"]
        self.how += [f"--user-data-dir={self.room / 'browser'}", "--virtual-time-budget=30000"]
        self.machine()
        self.shown(log, last)
        self.visit(log, last)

    def data_of(self, log, page, name, last):
        numbers = [counts[0] for counts in page.data["counts"]]
        wanted = list(range(last.number + 1)) if name == "events.html" else [0, 30, 60, 90, 120]
        self.check(f"map: the updates of {name}", numbers == wanted, numbers)
        self.check(f"map: the counts of the last U line in {name}", page.data["counts"][-1] == [*last[:6], *last.tasks])
        frames = dict(page.frames())
        for world in worlds_of(log):
            number = world.update.number if world.update else 0
            if number not in frames:
                continue
            cells = [None if id is None else (id, world.genomes[id], world.parents[id]) for id in world.cells]
            self.check(f"map: id, genome and parent of each cell of {name} after update {number}", frames[number] == cells)

    def processes(self, log):
        """However many processes read a log, wherever it is cut, the page and who lives are the same, and no process is left."""
        make, seen = script("map").page_of, {}
        for count, size in ((1, settled.MOST_BYTES), (2, settled.MOST_BYTES), (2, 3000), (5, 1)):
            with mock.patch.object(processes, "processors", lambda: count), mock.patch.object(settled, "MOST_BYTES", size):
                seen[count, size] = *(make(str(log), "a", frames) for frames in (5, 201)), settled.Ending(log).rows()
        self.check("map: several processes make the page of one, and find the same living", len(set(map(str, seen.values()))) == 1)
        with mock.patch.object(processes, "processors", lambda: 2):
            self.results()
        try:
            left = os.waitpid(-1, os.WNOHANG)
        except ChildProcessError:
            left = None
        self.check("processes: none is left", left is None, left)

    def results(self):
        """What two processes hand on of nine tasks: results, a fault, nothing where one is killed; or only the first is taken."""
        def work(number, wrong=None, killed=None):
            if number == wrong:
                raise ValueError(number)
            if number == killed:
                os.kill(os.getpid(), signal.SIGKILL)
            return number * number

        for wrong, killed, wanted in ((None, None, ""), (4, None, "ValueError: 4"), (None, 4, "Fault: a process at work was killed")):
            seen, told = [], ""
            try:
                seen.extend(processes.in_order(work, ((number, wrong, killed) for number in range(9))))
            except (ValueError, Fault) as fault:
                told = f"{type(fault).__name__}: {fault}"
            squares = [number * number for number in range(4 if wanted else 9)]
            self.check(f"processes: what comes of nine tasks, with {wanted or 'no fault'}", (seen, told) == (squares, wanted), (seen, told))
        self.check("processes: who takes the first result alone", next(processes.in_order(work, ((number,) for number in range(9)))) == 0)

    def dump(self, page, width=1060):
        done = subprocess.run([*self.how, f"--window-size={width},900", "--dump-dom", f"file://{page}"], capture_output=True)
        self.check(f"chromium shows {str(page)[-40:]}", done.returncode == 0, done.stderr)
        return done.stdout.decode("utf-8")

    def machine(self):
        """The page's machine against the program's traces, of genomes that were changed and of random ones."""
        rng, letters = random.Random(5), [chr(ord("a") + place) for place in range(len(INSTRUCTIONS))]
        genomes = {"".join(rng.choices(letters, k=rng.choice((8, 30, 100)))) for _ in range(60)}
        known = [(TOP / "examples" / name / "input").read_text().strip() for name in ("ancestor", "increments")]
        for genome in known:
            for _ in range(60):
                changed = list(genome)
                for _ in range(rng.choice((1, 2, 6))):
                    changed[rng.randrange(len(changed))] = rng.choice(letters)
                genomes.add("".join(changed))
        found = gestations_of(program(), sorted(genomes | set(known)))
        script = (TOOLS / "map_machine.js").read_text(encoding="utf-8")
        told = f'document.body.textContent = JSON.stringify({json.dumps(list(found))}.map((each) => MACHINE.trace(each)))'
        page = self.room / "machine.html"
        page.write_text(f"<!doctype html><body><script>{script}</script><script>{told}</script>", encoding="utf-8")
        seen = json.loads(unescape(re.search("<body>(.*)</body>", self.dump(page), re.S)[1]))
        for (genome, wanted), its in zip(found.items(), seen):
            self.check(f"map: the trace of {genome[:20]}", its == {"step": wanted.step, "merit": wanted.merit, "tasks": list(wanted.tasks)}, (genome, its))
        self.check("map: some of these genomes divide, and some don't", len({each.step is None for each in found.values()}) == 2)

    def shown(self, log, last):
        page = self.room / "events.html"
        text = self.dump(page)
        table = dict(re.findall(r'id="count-([\w-]+)">([\d,]+)<', text))
        wanted = {"update": last.number, "living": last.living, "births": last.births, "deaths": last.deaths, "genotypes": last.genotypes}
        wanted |= dict(zip(TASKS, last.tasks)) | {"mean-merit": round(last.merit / last.living)}
        self.check("map: a browser shows the counts of the last U line", table == {name: f"{it:,}" for name, it in wanted.items()}, table)
        self.check("map: a browser shows the title as it is", "<h1 id=\"title\">a &lt;b&gt; &amp; c</h1>" in text)
        self.check("map: a whole log isn't called thinned", "Every update is shown." in text)
        self.check("map: a thinned log is called so", "This log is thinned: every 30th of its 120 updates" in self.dump(self.room / "thin.html"))
        subprocess.run([*self.how, "--window-size=700,420", f"--screenshot={self.room / 'page.png'}", f"file://{page}"], capture_output=True)
        screen = Screen(self.room / "page.png")
        # The middle of the picture is within the world, which is 612 pixels wide below the page's head.
        colours = {pixel for row in screen.rows[150:400:5] for pixel in row[40:600:5]}
        self.check("map: a screenshot of the world has colours and the dark of empty cells", len(colours) >= 4 and EMPTY in colours, colours)

    def visit(self, log, last):
        """What somebody sees who goes over a page by keys, by a click and by an id, on a screen of 390 pixels."""
        replayed = subprocess.run([program(), "replay"], stdin=log.open(), capture_output=True, check=True).stdout.decode()
        living = {int(cell): (int(id), letters) for cell, id, letters in map(str.split, replayed.splitlines())}
        cell, (id, letters) = max(living.items(), key=lambda each: each[1][0])
        births = [line.split() for line in log.open() if line.startswith("B ")]
        frames = [list(world.cells) for world in worlds_of(log) if not world.update or world.update.number % 30 == 0]
        dead = next(int(fields[1]) for fields in births if not any(int(fields[1]) in frame for frame in frames))
        parents = {int(fields[1]): int(fields[2]) for fields in births}
        # Somebody of the second frame with descendants at the end.
        lines = {each: line_of(parents, each) for frame in frames for each in frame if each is not None}
        elder = next(each for each in frames[1] if each and any(each in lines[who] for who in frames[-1] if who is not None))
        page = self.room / "visit.html"
        text = (self.room / "thin.html").read_text(encoding="utf-8")
        page.write_text(text.replace("</body>", VISIT % {"cell": cell, "dead": dead, "elder": elder} + "</body>"), encoding="utf-8")
        found = re.search('id="seen">(.*?)</script>', self.dump(f"{page}#merit&id={id}", 390), re.S)
        self.check("map: a visit of the page comes to its end", found)
        if not found:
            return
        seen = json.loads(found[1])
        self.check_visit(seen, log, last, living, (cell, id, letters, dead))
        alive = [[who for who in frame if who is not None] for frame in frames]
        lasting = {each for who in alive[-1] for each in lines[who]}
        self.check("map: who has descendants at the end", seen["lasting"] == [[who for who in frame if who in lasting] for frame in alive], seen["lasting"])
        below = [[who for who in frame if elder in lines[who]] for frame in alive]
        self.check(f"map: who descends from organism {elder}", seen["below"] == below, seen["below"])
        told = f"after update {last.number}: {len(below[-1])} of {last.living} living descend from it"
        self.check("map: how many descend from it", seen["elder"].startswith(told), seen["elder"])

    def check_visit(self, seen, log, last, living, chosen):
        cell, id, letters, dead = chosen
        line = subprocess.run([TOOLS / "lineage", log, str(id)], capture_output=True, check=True).stdout.decode().splitlines()
        _, _, parent, update, _, base, changes, _ = line[-1].split()
        its, trace = seen["first"], gestations_of(program(), [letters])[letters]
        place = f"cell {cell} (column {cell % 12}, row {cell // 12})"
        wanted = {
            "id": str(id),
            "genome": letters,
            "parent": parent,
            "born": f"in update {update} into {place}",
            "age": f"{last.number - int(update)} updates after update {last.number}",
            "changes": changes if base == "=" else f"{base} was copied, then {changes}",
            "genotype": f"{sum(each == letters for _, each in living.values())} of {last.living} have its genome after update {last.number}",
            "trace": f"divides at step {trace.step} with merit {trace.merit}" if trace.step else "no divide",
            "tasks": " ".join(trace.tasks) or "none",
            "command": f"tools/lineage {log} {id}",
            "now": f"after update {last.number}: it lives",
        }
        for name, told in wanted.items():
            self.check(f"map: {name} of the organism that the address names", its[name] == told, its[name])
        self.check("map: Enter tells of the same organism", seen["entered"] == its, seen["entered"])
        self.check("map: that it is chosen is said", seen["said"] == f"{place}: organism {id} is chosen", seen["said"])
        self.check("map: a click tells of the same organism", seen["clicked"] == its, seen["clicked"])
        self.check("map: the slider says its update", seen["valuetext"] == f"update {last.number} of {last.number}", seen["valuetext"])
        self.check("map: the page keeps within 390 pixels", seen["wide"] <= 390, seen["wide"])
        self.check("map: the world has a place in the order of keys, a role and a label", seen["tab"] == [0, "application", "The world, cell by cell"], seen["tab"])
        self.check("map: Escape lets go", seen["gone"] == [True, True], seen["gone"])
        told = {at: f"organism {living[at][0]}" if at in living else "nobody" for at in (107, 105)}
        self.check("map: keys go over the edge of the world", seen["corner"] == f"cell 107 (column 11, row 8): {told[107]}", seen["corner"])
        self.check("map: with Shift ten cells", seen["far"] == f"cell 105 (column 9, row 8): {told[105]}", seen["far"])
        self.check("map: who is in no frame", f"organism {dead} was born in update" in seen["dead"][0] and "tools/lineage" in seen["dead"][0], seen["dead"])
        self.check("map: an id that nobody has", "no organism 99999999: the ids go from 0 to" in seen["nobody"], seen["nobody"])
        by_trace = gestations_of(program(), sorted({each for _, each in living.values()}))
        merits = [by_trace[each].merit for _, each in living.values() if by_trace[each].merit]
        self.check("map: the ends of the merits are those of the traces", seen["merit"]["ends"] == [str(min(merits)), str(max(merits))], seen["merit"])
        self.check("map: the sum of the merits by traces and by the log", all(f"{it:,}" in seen["merit"]["says"] for it in (sum(merits), last.merit)), seen["merit"])
        none = sum(not by_trace[each].tasks for _, each in living.values())
        self.check("map: how many do no task", f"{none} none" in seen["tasks"]["says"], seen["tasks"])
        for mode, least in (("descents", 5), ("genotypes", 3), ("tasks", 2), ("merit", 4), ("age", 4)):
            self.check(f"map: the world by {mode} has colours", seen[mode]["colours"] >= least, seen[mode])
            self.check(f"map: the ramp is there by {mode} where it is needed", seen[mode]["ramp"] == (mode in ("merit", "age")), seen[mode])
