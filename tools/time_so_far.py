"""Runs a program, and says on a terminal from five seconds on how long it has been at work.

./avida calls it for commands that write nothing before their end. How far they are can't be seen from outside. What the
program reads and writes stays as it is, and this ends as the program does.
"""

import os
import selectors
import signal
import subprocess
import sys
import time
from contextlib import suppress

SOON, BLOCK = 5, 1 << 16


class Line:
    """The line of a terminal that tells the time, as long as nothing else is written."""

    def __init__(self, command):
        self.command, self.begun, self.is_shown, self.is_over = command, time.monotonic(), False, False

    def tell(self):
        seconds = int(time.monotonic() - self.begun)
        if seconds >= SOON and not self.is_over and in_foreground():
            told = f"{seconds // 60} min {seconds % 60:02} s" if seconds >= 60 else f"{seconds} s"
            os.write(2, f"\r\033[Kavida: {self.command} is at work, {told} so far".encode())
            self.is_shown = True

    def end(self):
        if self.is_shown:
            os.write(2, b"\r\033[K")
        self.is_shown, self.is_over = False, True


def in_foreground():
    """Whether nobody types other commands into this terminal meanwhile."""
    try:
        return os.tcgetpgrp(2) == os.getpgrp()
    except OSError:
        # A terminal without a shell.
        return True


def copy(streams, line):
    """Writes what comes from each of these to where it belongs, until all end."""
    with selectors.DefaultSelector() as ready:
        for stream, target in streams:
            ready.register(stream, selectors.EVENT_READ, target)
        while ready.get_map():
            came = ready.select(1)
            for key, _ in came:
                block = os.read(key.fd, BLOCK)
                line.end()
                if not block:
                    ready.unregister(key.fileobj)
                while block:
                    block = block[os.write(key.data, block) :]
            if not came:
                line.tell()


def main():
    line = Line(sys.argv[2])
    # Only what goes to a terminal has to wait until the line is away.
    ran = subprocess.Popen(sys.argv[1:], stdout=subprocess.PIPE if os.isatty(1) else None, stderr=subprocess.PIPE)
    for number in (signal.SIGINT, signal.SIGTERM, signal.SIGHUP):
        signal.signal(number, lambda number, _: ran.send_signal(number))
    copy([(stream, target) for stream, target in ((ran.stdout, 1), (ran.stderr, 2)) if stream], line)
    status = ran.wait()
    if status < 0:
        with suppress(OSError):
            signal.signal(-status, signal.SIG_DFL)
        os.kill(os.getpid(), -status)
    sys.exit(status)


if __name__ == "__main__":
    main()
