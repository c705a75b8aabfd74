"""Reading and writing of files, with plain words for what goes wrong."""
import errno
import os
import stat
import sys
from contextlib import contextmanager, suppress

STANDARD = "-"              # standard input or output in place of a file
MOST_TEXT = 16 * 2 ** 20    # bytes; the text of the largest month is a hundredth of that


CHECK = "tools/sheet check"


class Trouble(Exception):
    """What keeps the work from being done: the file, the line or key, and the reason; a line for each fault."""

    def __init__(self, *lines, lister=CHECK):
        super().__init__(*lines)
        self.lines, self.lister = lines, lister     # lister: the command that prints all lines

    def __str__(self):
        more = len(self.lines) - 1
        return self.lines[0] + (f" (and {more} more; {self.lister} lists them all)" if more else "")


def name_of(path):
    return "standard input" if path == STANDARD else str(path)


def reason_of(error):
    return getattr(error, "strerror", None) or str(error)


# ------------------------------------------------------------------ reading


def read_bytes(path, most):
    """The first bytes of a file, at most so many."""
    try:
        if path == STANDARD:
            return sys.stdin.buffer.read(most) if sys.stdin else b""
        with open(path, "rb") as file:
            return file.read(most)
    except (OSError, ValueError) as error:
        raise Trouble(f"{name_of(path)}: cannot be read: {reason_of(error)}") from None


def read_text(path):
    """A text file in UTF-8, with or without a byte order mark."""
    content = read_bytes(path, MOST_TEXT + 1)
    if len(content) > MOST_TEXT:
        raise Trouble(f"{path}: has more than {MOST_TEXT} bytes, too many for a text")
    try:
        return content.decode("utf-8-sig")
    except UnicodeDecodeError as error:
        line = content.count(b"\n", 0, error.start) + 1
        raise Trouble(f"{path}, line {line}: is not text in UTF-8") from None


# ------------------------------------------------------------------ writing


def check_new(paths, inputs, force):
    """Nothing that exists is to be written over unless force is given; an input and a folder never."""
    for path in paths:
        if path == STANDARD:
            continue
        if os.path.isdir(path) or path.endswith(os.sep):
            raise Trouble(f"{path}: is a folder, and a file is to be written; give the name of one in it")
        for used in inputs:
            if os.path.exists(path) and os.path.exists(used) and os.path.samefile(path, used):
                raise Trouble(f"{path}: is read here, so it is not written over")
        if os.path.lexists(path) and not force:
            raise Trouble(f"{path}: exists; --force writes over it")


class NewFile:
    """A file that is written beside its place, and put there once it is whole."""

    def __init__(self, path, content, force):
        self.given, self.content, self.force = path, content, force
        self.path = os.path.realpath(path)     # a link stays, and what it leads to is written
        self.before = os.stat(path) if os.path.exists(path) else None
        self.beside = self.old = None    # names beside it: what is new, and a second name of what it replaces
        self.placed = False

    def write(self):
        if not self.given:
            raise FileNotFoundError(errno.ENOENT, os.strerror(errno.ENOENT))
        if self.before and not os.access(self.given, os.W_OK):
            raise PermissionError(errno.EACCES, os.strerror(errno.EACCES))
        if self.before and not stat.S_ISREG(self.before.st_mode):
            return     # a device or a pipe, where nothing can be lost
        flags = os.O_WRONLY | os.O_CREAT | os.O_EXCL
        self.beside, number = name_beside(self.path, lambda name: os.open(name, flags, 0o666))
        with os.fdopen(number, "wb") as file:
            if self.before:
                keep_owner_and_mode(number, self.before)
            file.write(self.content)

    def place(self):
        if self.beside is None:
            with open(self.given, "wb") as file:
                file.write(self.content)
        elif self.force:
            if self.before:
                with suppress(OSError):     # not every file system has second names
                    self.old, _ = name_beside(self.path, lambda name: os.link(self.path, name))
            os.replace(self.beside, self.path)
        else:
            place_where_none_is(self.beside, self.path)
        self.placed = self.beside is not None

    def take_back(self):
        if self.placed and self.old:
            os.replace(self.old, self.path)
        elif self.placed and not self.before:
            os.unlink(self.path)

    def clear(self):
        """Removes what is left beside the file."""
        for name in (self.beside, self.old):
            if name and os.path.lexists(name):
                os.unlink(name)


def name_beside(path, make):
    """The first name beside a path under which something can be made, and what was made."""
    number = 0
    while True:
        name = os.path.join(os.path.dirname(path), f".new-{os.getpid()}-{number}")
        try:
            return name, make(name)
        except FileExistsError:
            number += 1


def keep_owner_and_mode(number, before):
    with suppress(OSError):     # only root gives a file away, and not every file system has modes
        os.fchown(number, before.st_uid, before.st_gid)
    with suppress(OSError):
        os.fchmod(number, stat.S_IMODE(before.st_mode))


def place_where_none_is(beside, path):
    """Puts a file where none is; one that came there meanwhile stays."""
    try:
        os.link(beside, path)
    except FileExistsError:
        raise
    except OSError:
        if os.path.lexists(path):
            raise FileExistsError from None
        os.rename(beside, path)


def write_files(files, force):
    """Writes files, names with bytes: each one whole, and all or none; over one that exists only if force is given."""
    new = []
    try:
        for path, content in files.items():
            with told(path):
                new.append(NewFile(path, content, force))
                new[-1].write()
        for path, file in zip(files, new):
            with told(path):
                file.place()
    except BaseException:
        for file in new:
            with suppress(OSError):
                file.take_back()
        raise
    finally:
        for file in new:
            with suppress(OSError):
                file.clear()


@contextmanager
def told(path):
    """Says in plain words what keeps a file from being written. A pipe that nobody reads any more needs no words."""
    try:
        yield
    except FileExistsError:
        raise Trouble(f"{path}: exists; --force writes over it") from None
    except BrokenPipeError:
        raise
    except (OSError, ValueError) as error:
        raise Trouble(f"{path}: cannot be written: {reason_of(error)}") from None
