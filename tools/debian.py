"""What a check needs of Debian: whether it is there, and how it is installed, where that may be."""

import os
import shutil
import signal
import subprocess
import sys
import time
from contextlib import contextmanager
from pathlib import Path

PATH = f"{os.environ['PATH']}:/usr/sbin:/sbin"
LIMITS = "-q -y -o Acquire::http::Timeout=10 -o Acquire::Retries=0 -o DPkg::Lock::Timeout=20 -o Dpkg::Use-Pty=0".split()


class Left(Exception):
    """Why a part of a check is left out."""


def finish(words, until, **how):
    """Runs a command until a time at most, and then ends it with all that it began. Its status, or None."""
    ran = subprocess.Popen(words, stdin=subprocess.DEVNULL, stdout=subprocess.DEVNULL, stderr=subprocess.DEVNULL, start_new_session=True, **how)
    try:
        return ran.wait(max(1, until - time.monotonic()))
    except subprocess.TimeoutExpired:
        os.killpg(ran.pid, signal.SIGTERM)
        time.sleep(1)
        return None
    finally:
        if ran.poll() is None:
            os.killpg(ran.pid, signal.SIGKILL)
            ran.wait()


@contextmanager
def no_service_begun():
    """Keeps what is installed meanwhile from beginning its services."""
    policy = Path("/usr/sbin/policy-rc.d")
    is_ours = not policy.exists()
    try:
        if is_ours:
            policy.write_text("#!/bin/sh\nexit 101\n")
            policy.chmod(0o755)
        yield
    finally:
        if is_ours:
            policy.unlink(missing_ok=True)


def install(packages, name, seconds=170):
    """Installs packages for the check of this name, without a question, in so many seconds. Raises Left where that can't be done."""
    if os.geteuid() != 0 or not shutil.which("apt-get"):
        raise Left("only root can install them, with apt-get")
    print(f"{name}: installing {' '.join(packages)}", flush=True)
    until = time.monotonic() + seconds
    environment = dict(os.environ, DEBIAN_FRONTEND="noninteractive", NEEDRESTART_SUSPEND="1", PATH=PATH)
    get = ["apt-get", *LIMITS, "--no-install-recommends", "install"]
    try:
        with no_service_begun():
            for words in (["dpkg", "--configure", "-a"], ["apt-get", *LIMITS, "update"], [*get, "-d", *packages], [*get, *packages]):
                status = finish(words, until, env=environment)
                if status is None:
                    raise Left(f"{words[0]} didn't install them within {seconds} seconds")
                # A list that can't be brought up to date may do as it is.
                if status and "update" not in words:
                    raise Left(f"{words[0]} couldn't install them")
    except OSError as error:
        raise Left(error.strerror) from None


def provide(missing, name, seconds=170):
    """Installs what `missing()` names. Raises Left where something of it is still missing then, or can't be installed."""
    packages = missing()
    if not packages:
        return
    try:
        install(packages, name, seconds)
    except Left as why:
        raise Left(f"missing packages, {' '.join(packages)}: {why}") from None
    if missing():
        raise Left(f"missing packages, {' '.join(missing())}: apt-get installed them elsewhere")


def python_with(*modules):
    """A Python that has these modules, or None: the one that runs this, or Debian's own."""
    for python in (sys.executable, "/usr/bin/python3"):
        words = [python, "-c", f"import {', '.join(modules)}"]
        if os.path.exists(python) and subprocess.run(words, capture_output=True).returncode == 0:
            return python
    return None


def has_r_package(name):
    words = ["Rscript", "-e", f"library({name})"]
    return bool(shutil.which("Rscript")) and subprocess.run(words, capture_output=True).returncode == 0
