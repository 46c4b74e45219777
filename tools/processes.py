"""Work that several processes do at once, task by task, with the results in order."""

import gc
import os
import pickle
import signal
from collections import deque
from itertools import starmap

from avida_log import Fault

# More processes at once gain little, and each takes memory.
MOST_PROCESSES = 8


def processors():
    """How many processors there are for this process."""
    return len(os.sched_getaffinity(0)) if hasattr(os, "sched_getaffinity") else os.cpu_count() or 1


class Worker:
    """A process that does one task after the other. Once this process ends, however it does, so does that."""

    def __init__(self, work):
        its_tasks, tasks = os.pipe()
        results, its_results = os.pipe()
        try:
            self.id = os.fork()
        except OSError as error:
            raise Fault(f"no process can be started: {error.strerror}") from None
        if self.id == 0:
            os.close(tasks)
            os.close(results)
            serve(work, its_tasks, its_results)
        os.close(its_tasks)
        os.close(its_results)
        self.tasks, self.results = tasks, open(results, "rb")

    def begin(self, words):
        """Hands on a task. The process must have none, so that neither waits for the other to read."""
        told = memoryview(pickle.dumps(words, pickle.HIGHEST_PROTOCOL))
        try:
            while told:
                told = told[os.write(self.tasks, told) :]
        except BrokenPipeError:
            raise Fault("a process at work was killed") from None

    def result(self):
        try:
            result, fault = pickle.load(self.results)
        except (EOFError, pickle.UnpicklingError):
            raise Fault("a process at work was killed") from None
        if fault is not None:
            raise fault
        return result

    def end(self):
        os.kill(self.id, signal.SIGKILL)
        os.waitpid(self.id, 0)
        os.close(self.tasks)
        self.results.close()


def serve(work, tasks, results):
    """Does the tasks that come, and hands on what each of them gives, or its fault. Then this process ends, whatever happens."""
    try:
        # An interrupt is for the process that began this one, which then ends it.
        signal.signal(signal.SIGINT, signal.SIG_IGN)
        gc.disable()
        with open(tasks, "rb") as tasks, open(results, "wb") as results:
            while True:
                words = pickle.load(tasks)
                try:
                    answer = work(*words), None
                except Exception as fault:
                    answer = None, fault
                pickle.dump(answer, results, pickle.HIGHEST_PROTOCOL)
                results.flush()
    finally:
        os._exit(0)


def in_order(work, tasks):
    """What the work makes of the words of each task, in the order of the tasks. A fault is raised where its result would be."""
    most, workers = min(MOST_PROCESSES, processors()), deque()
    if most == 1:
        yield from starmap(work, tasks)
        return
    try:
        for words in tasks:
            if len(workers) < most:
                workers.append(Worker(work))
                workers[-1].begin(words)
                continue
            result = workers[0].result()
            workers[0].begin(words)
            workers.rotate(-1)
            yield result
        for worker in workers:
            yield worker.result()
    finally:
        for worker in workers:
            worker.end()
