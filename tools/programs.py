"""Programs that a tool runs side by side. They all end when one fails or the user stops the call."""

import os
import signal
import subprocess
import threading
from concurrent.futures import ThreadPoolExecutor
from contextlib import contextmanager

from avida_log import Fault


class Ended(Exception):
    """Another program failed or the user stopped the call."""


def processors():
    """How many processors this process may use."""
    return len(os.sched_getaffinity(0)) if hasattr(os, "sched_getaffinity") else os.cpu_count() or 1


class Programs:
    """Runs of the built program, each begun in a thread of its own."""

    def __init__(self, built):
        self.built, self.at_work, self.lock, self.is_over = built, set(), threading.Lock(), False

    def end(self):
        with self.lock:
            self.is_over = True
            for ran in self.at_work:
                ran.kill()

    @contextmanager
    def threads(self, count):
        """So many threads that begin programs. None of these is left at the end."""
        pool = ThreadPoolExecutor(count)
        try:
            yield pool
        finally:
            self.end()
            pool.shutdown(cancel_futures=True)

    @contextmanager
    def begun(self, words):
        with self.lock:
            if self.is_over:
                raise Ended
            words = [self.built, *map(str, words)]
            ran = subprocess.Popen(words, stdin=subprocess.PIPE, stdout=subprocess.PIPE, stderr=subprocess.PIPE)
            self.at_work.add(ran)
        try:
            yield ran
        finally:
            with self.lock:
                self.at_work.discard(ran)
                ran.kill()
            for stream in (ran.stdin, ran.stdout, ran.stderr):
                stream.close()
            ran.wait()

    def answer(self, words, given):
        """What the program writes for these words and this input, as text. Where it ends with another status than 0, a Fault."""
        with self.begun(words) as ran:
            output, told = ran.communicate(given)
        if self.is_over:
            raise Ended
        if ran.returncode:
            raise Fault(f"{words[0]}: {told.decode(errors='replace').strip() or ending_of(ran.returncode)}")
        return output.decode("ascii")


def ending_of(status):
    """How a program ended that said nothing, in words."""
    return f"it was killed by {signal_of(-status)}" if status < 0 else f"status {status}"


def signal_of(number):
    try:
        return signal.Signals(number).name
    except ValueError:
        return f"signal {number}"


def answers_of(built, words_of, items):
    """What the program answers to the words and the input that `words_of` gives for each item, in the order of the items."""
    programs = Programs(built)
    with programs.threads(processors()) as pool:
        yield from pool.map(lambda item: programs.answer(*words_of(item)), items)
