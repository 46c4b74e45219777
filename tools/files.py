"""Files that a tool writes: looked at before the work, whole before they have their names; and texts as one line shows them."""

import errno
import os
import shutil
import tempfile
from contextlib import contextmanager
from pathlib import Path

from avida_log import STANDARD_INPUT, Fault

# In so many first bytes of a file the mark of the tool that made it is looked for.
START = 4096
# What is left out of a log's name where an output is called after it.
LOG_SUFFIXES = (".gz", ".log", ".landscape", ".tsv", ".txt")


def shown(text):
    """A text without line ends and other characters that a terminal obeys: those are shown as escapes."""
    return "".join(each if each.isprintable() else each.encode("unicode_escape").decode("ascii") for each in str(text))


def without_controls(text):
    """A text for a picture: characters that none shows are spaces."""
    return "".join(each if each.isprintable() else " " for each in str(text))


def beside(path, suffix):
    """The name of an output that is called after its input: the same, but for its suffix.

    A suffix that no kind of input has is a part of the name, so that seed.1 and seed.2 have outputs of their own.

    >>> beside("worlds/seed5.log.gz", ".svg"), beside("seed.1", ".svg"), beside("log/", ".svg")
    ('worlds/seed5.svg', 'seed.1.svg', 'log.svg')
    """
    path = Path(path)
    if not path.name:
        raise IsADirectoryError(errno.EISDIR, os.strerror(errno.EISDIR), str(path))
    name = path.name
    for known in LOG_SUFFIXES:
        if name.endswith(known) and name != known:
            name = name.removesuffix(known)
    return str(path.with_name(name + suffix))


def add_force(words):
    """The option that lets a tool replace a file that it didn't make."""
    words.add_argument("--force", action="store_true", help="replace a file there, whoever made it")


class Output:
    """A file that a tool will write, looked at before the work.

    It is refused where it is an input or lies in a folder that is one, where no file can be made, and, unless `force` is
    set, where a file stands that the tool didn't make. What the tool made has `mark` among its first bytes, or is empty.

        output = Output(given.file, [given.log], b"made by map", given.force)
        with output.written() as file:
            file.write(page)

    What is written has its name once it is whole. What is no plain file, as a device or a pipe, is written as it is.
    """

    def __init__(self, path, inputs=(), mark=None, force=False):
        self.path, self.mark, self.force = str(path), mark, force
        if self.path in ("", STANDARD_INPUT):
            raise Fault(f"-o {self.path!r}: an output has a name")
        try:
            self.target = Path(path).resolve()
            self.is_plain = self.target.is_file() or not self.target.exists()
            if not self.is_plain:
                if self.target.is_dir():
                    raise IsADirectoryError(errno.EISDIR, os.strerror(errno.EISDIR), self.path)
                return
            self.refuse_inputs(inputs)
            self.is_there = self.target.exists()
            if self.is_there:
                self.refuse_others()
            # A file without a name, which leaves nothing behind.
            with tempfile.TemporaryFile(dir=self.target.parent):
                pass
        except OSError as error:
            raise Fault(f"{self.path}: {error.strerror}") from None
        except ValueError:
            raise Fault(f"{self.path!r}: it can't be the name of a file") from None

    def refuse_inputs(self, inputs):
        for each in inputs:
            if each is None or str(each) == STANDARD_INPUT or not os.path.exists(each):
                continue
            if self.target.exists() and os.path.samefile(each, self.target):
                raise Fault(f"{self.path}: this is an input: give the output another name")
            if os.path.isdir(each) and Path(each).resolve() in self.target.parents:
                raise Fault(f"{self.path}: it lies in {each}, which is read: write it to another folder")

    def refuse_others(self):
        if not self.force and self.target.stat().st_size:
            with open(self.target, "rb") as file:
                is_ours = self.mark is not None and self.mark in file.read(START)
            if not is_ours:
                raise Fault(f"{self.path}: there is such a file already, which this tool didn't make: --force replaces it")
        if not os.access(self.target, os.W_OK):
            raise PermissionError(errno.EACCES, os.strerror(errno.EACCES), self.path)

    @contextmanager
    def written(self, encoding="utf-8"):
        """The file to write, of bytes where `encoding` is None."""
        how = {"mode": "w" if encoding else "wb", "encoding": encoding}
        try:
            if not self.is_plain:
                with open(self.path, **how) as file:
                    yield file
                return
            with part_in(self.target.parent, **how) as file:
                yield file
                file.flush()
                self.place(Path(file.name))
        except OSError as error:
            raise OSError(error.errno, error.strerror, self.path) from None

    def place(self, part):
        """Gives a part that is whole its name."""
        if self.is_there:
            shutil.copymode(self.target, part)
            os.replace(part, self.target)
            return
        part.chmod(0o666 & ~umask())
        try:
            # This doesn't replace what came there meanwhile.
            os.link(part, self.target)
        except FileExistsError:
            raise Fault(f"{self.path}: while this was at work, such a file came: --force replaces it") from None
        except OSError:
            # A file system without second names.
            os.replace(part, self.target)


@contextmanager
def part_in(folder, **how):
    """A new file under a name that nobody can foretell, which is gone afterwards unless it has got another name."""
    file = tempfile.NamedTemporaryFile(dir=folder, prefix=".", suffix=".part", delete=False, **how)
    try:
        with file:
            yield file
    finally:
        Path(file.name).unlink(missing_ok=True)


def umask():
    """What permissions a new file doesn't get."""
    mask = os.umask(0o077)
    os.umask(mask)
    return mask


def is_plain(path):
    """Whether a plain file stands here, or nothing."""
    return Path(path).is_file() or not Path(path).exists()


def written(path, encoding="utf-8"):
    return Output(path, force=True).written(encoding)
