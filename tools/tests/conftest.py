"""What the tests of the tools share. tools/check-tests runs them."""

import os
import subprocess
import sys
from pathlib import Path

import pytest

TOOLS = Path(__file__).resolve().parent.parent
sys.path.insert(0, str(TOOLS))
# A tool begins the program many times, and looks for it once a call where nothing names it.
if "AVIDA" not in os.environ:
    from avida_log import program

    os.environ["AVIDA"] = program()

# Nothing that a test calls works longer, in seconds.
LONGEST = 120


@pytest.fixture
def call(tmp_path):
    """Calls a tool in a folder of the test's own."""

    def called(name, *words, given=b"", **how):
        words = [str(TOOLS / name), *map(str, words)]
        return subprocess.run(words, input=given, capture_output=True, cwd=tmp_path, timeout=LONGEST, **how)

    return called


@pytest.fixture
def avida():
    """What the program writes for these words and this input."""

    def answered(*words, given=b""):
        ran = subprocess.run([os.environ["AVIDA"], *map(str, words)], input=given, capture_output=True, timeout=LONGEST)
        assert ran.returncode == 0, ran.stderr
        return ran.stdout

    return answered


@pytest.fixture
def example():
    """A file of examples/, as bytes."""
    return lambda name: (TOOLS.parent / "examples" / name).read_bytes()
