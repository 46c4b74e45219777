"""What tools/check-tools tries of tools/commands.txt: its lines are those of the tools, and shells complete by them."""

import os
import pty
import re
import select
import shutil
import signal
import subprocess
import time

import debian
from avida_log import TASKS, TOP
from debian import Left

SECONDS_TO_INSTALL = 170
# How a shell begins without anybody's files, and how it reads the completions.
SHELLS = {
    "bash": (["bash", "--norc", "--noprofile", "-i"], ". <(tools/completions bash)"),
    "zsh": (["zsh", "-f", "-i"], "autoload -U compinit && compinit -u -D && . <(tools/completions zsh)"),
}
# What is typed, and what is seen once the key Tab was hit twice.
TYPED = [
    ("./avida re", "replay"),
    ("./avida re", "resume"),
    ("./avida run --wo", "--workers"),
    ("./avida trace --o", "--org"),
    ("./avida --unproved lands", "landscape"),
    ("./avida run < examples/world/inp", "examples/world/input"),
    ("tools/phylogeny --format ne", "newick"),
    ("tools/knockouts --task EQ", "EQU"),
    ("tools/plot --ti", "--title"),
    ("tools/plot examples/world/inp", "examples/world/input"),
    ("tools/completions fi", "fish"),
]


def lines_of_table():
    """The fields of each line of the table."""
    lines = (TOP / "tools/commands.txt").read_text(encoding="utf-8").splitlines()
    return [[field.strip() for field in line.split("|")] for line in lines if line and line[0] != "#"]


def tools_of_table():
    """Each tool of the table, with its options, and whether they take a value."""
    found, options = {}, None
    for kind, name, *_ in lines_of_table():
        if kind in ("command", "tool"):
            options = found.setdefault(name, {}) if kind == "tool" else {}
        elif kind in ("option", "flag"):
            options[name] = kind == "option"
    return found


def usage_of(tool):
    """The options that a tool's usage names, and whether they take a value."""
    said = subprocess.run([TOP / "tools" / tool, "--help"], capture_output=True, text=True).stdout
    usage = re.match(r"usage: .*(\n .*)*", said)
    return {name: bool(value) for name, value in re.findall(r"[\[|] ?(--?[a-z][a-z-]*)( [A-Z\[{])?", usage[0])} if usage else None


def tables(check):
    """The lines of the tools and of the keys against what they are about."""
    tools = tools_of_table()
    here = {it.name for it in (TOP / "tools").iterdir() if os.access(it, os.X_OK) and it.is_file()}
    wanted = {it for it in here if not it.startswith("check-")} - {"draw-architecture"} | {"check-config"}
    check("tools/commands.txt has each tool", set(tools) == wanted, set(tools) ^ wanted)
    for tool, options in tools.items():
        said = usage_of(tool)
        check(f"tools/commands.txt has the options of {tool}", said is not None and {**said, "-h": False} == {**options, "-h": False}, f"{said} / {options}")
    lists = [line[3] for line in lines_of_table() if line[0] == "option" and line[2].startswith("TASK")]
    check("tools/commands.txt has the nine tasks", lists and all(it.upper().split() == [task.upper() for task in TASKS] for it in lists), lists)


def keys(check, known):
    """The keys of a configuration, each with its numbers, against those of tools/check-config."""
    ours = {line[1]: line[2] for line in lines_of_table() if line[0] == "key"}
    check("tools/commands.txt has each key of a configuration", list(ours) == list(known), ours)
    for key, (kind, _, *bounds) in known.items():
        least, _, greatest = ours.get(key, "").partition("..")
        # What depends on other keys is looked at by tools/check-config alone.
        same = all(callable(it) or str(it) == text for it, text in zip(bounds, (least, greatest))) if kind == "an integer" else not greatest
        check(f"tools/commands.txt has the bounds of {key}", same, ours.get(key))


class Shell:
    """A shell before a terminal, to which lines are typed."""

    def __init__(self, name):
        words, begin = SHELLS[name]
        self.child, self.terminal = pty.fork()
        if self.child == 0:
            os.chdir(TOP)
            os.environ.update(TERM="dumb", PS1="$ ", HISTFILE="/dev/null")
            os.execvp(words[0], words)
        self.shows(begin + "; echo rea''dy\n", "ready\r")

    def shows(self, keys, wanted, seconds=20):
        """Types keys, and gives what is seen until what is wanted is there, without bells."""
        seen, until = "", time.monotonic() + seconds
        while self.read(0.2):
            pass
        os.write(self.terminal, keys.encode())
        while wanted not in seen and time.monotonic() < until:
            seen += self.read(0.1).replace("\a", "")
        return seen

    def read(self, seconds):
        """What is seen now, or within so many seconds."""
        is_seen = select.select([self.terminal], [], [], seconds)[0]
        return os.read(self.terminal, 65536).decode("utf-8", "replace") if is_seen else ""

    def end(self):
        os.kill(self.child, signal.SIGKILL)
        os.waitpid(self.child, 0)
        os.close(self.terminal)


def completions(checks):
    """What the shells complete that are here, or that may be installed."""
    missing = lambda: [it for it in ("zsh", "fish") if not shutil.which(it)]
    try:
        debian.provide(missing, checks.name, SECONDS_TO_INSTALL)
    except Left as why:
        checks.skip(f"completions of shells: {why}")
    for name in SHELLS:
        if not shutil.which(name):
            continue
        shell = Shell(name)
        for typed, wanted in TYPED:
            # Control and U forgets what was typed before.
            seen = shell.shows(f"\x15{typed}\t\t", wanted)
            checks.check(f"{name} completes {typed}", wanted in seen, repr(seen))
        shell.end()
    if shutil.which("fish"):
        for typed, wanted in TYPED:
            words = ["fish", "-N", "-c", f"tools/completions fish | source; complete -C '{typed}'"]
            seen = subprocess.run(words, cwd=TOP, capture_output=True, text=True)
            checks.check(f"fish completes {typed}", wanted in seen.stdout and not seen.stderr, f"{seen.stdout} {seen.stderr}")
