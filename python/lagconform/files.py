"""Files of the user's: what a run reads, and what it writes in the end, whatever ended it."""

from __future__ import annotations

import os
import signal
import stat
import sys
from contextlib import contextmanager, suppress
from typing import Callable, Iterator, Optional, Sequence, TextIO

from .refusals import Refused

# No list of known fails is longer, and no JSON of a run.
LONGEST, MOST_OF_A_RUN = 1 << 20, 1 << 28
# What the file of an option is.
WANTED = {
    "--known": "a text with a line for each known fail, as `RX-08 reported to its maker`, or with none",
    "--pics": "a text with a line for each item that the device claims to have or not, as `active yes`",
    "--resume": "the JSON that --json of an earlier run wrote; a first run goes without --resume",
    "--tests": "a file of Python that makes a lagconform.model.Group and its tests",
    "--memory": "a file of Python with a class Device, or a shared library: the stack",
}
# The signals that end a run.
ENDS = signal.SIGINT, signal.SIGTERM


def unread(option: str, path: str, why: OSError) -> Refused:
    """That the file of an option can't be read: where it was looked for, and what it is to be."""
    folder = "" if os.path.isabs(path) else f" in {os.getcwd()}"
    return Refused(f"{option} {path}: {why.strerror}{folder}. It has to be {WANTED[option]}")


def read_text(option: str, path: str, longest: int = LONGEST) -> str:
    """The text of the file of an option."""
    try:
        with open(os.open(path, os.O_RDONLY | os.O_NONBLOCK | os.O_CLOEXEC), "rb") as it:
            if not stat.S_ISREG(os.fstat(it.fileno()).st_mode) and not are_same(path, os.devnull):
                raise Refused(f"{path} is no regular file")
            octets = it.read(longest + 1)
    except OSError as why:
        raise unread(option, path, why) from why
    if len(octets) > longest:
        raise Refused(f"{path} has more than {longest} octets")
    try:
        return octets.decode("utf-8")
    except UnicodeDecodeError as why:
        raise Refused(f"{path} is no text in UTF-8: octet {why.start} is {octets[why.start]:02x}") from why


def import_beside(path: str) -> None:
    """Lets a file of Python import what stands beside it, as `python FILE` does."""
    folder = os.path.dirname(os.path.realpath(path))
    if folder not in sys.path:
        sys.path.insert(0, folder)


def check_writable(paths: Sequence[Optional[str]]) -> None:
    """Refuses a report that could not be written."""
    for path in filter(None, paths):
        folder = os.path.dirname(os.path.realpath(path))
        if not os.path.isdir(folder):
            raise Refused(f"{path} can't be written: there is no folder {folder}")
        if os.path.isdir(path):
            raise Refused(f"{path} can't be written: it is a folder")
        if not os.access(path if os.path.exists(path) else folder, os.W_OK):
            raise Refused(f"{path} can't be written: no right to, or the file system is read-only")


def are_same(path: str, other: str) -> bool:
    """Whether both paths lead to one file."""
    return os.path.realpath(path) == os.path.realpath(other)


def written(path: str, make: Callable[[], bytes]) -> bool:
    """Writes what is made into a file; answers whether it stands there. What keeps it from that is told."""
    try:
        put(path, make())
    except Exception as why:  # another file may go well
        reason = why.strerror if isinstance(why, OSError) else f"{type(why).__name__}: {why}"
        tell(f"lagconform: {path} was not written: {reason}", to=sys.stderr)
        return False
    return True


def put(path: str, octets: bytes) -> None:
    """Puts octets into a file. Another one, with its owner and rights, takes the place of a regular one at once: whoever ends this process leaves all
    of the old octets there, or all of the new ones. Where none may be made beside it, they go into the file itself."""
    place = os.path.realpath(path)
    beside = f"{place}.lagconform"
    with suppress(OSError):
        now = os.stat(place)
        if stat.S_ISREG(now.st_mode):
            try:
                with open(beside, "wb") as out:
                    os.fchown(out.fileno(), now.st_uid, now.st_gid)
                    os.fchmod(out.fileno(), stat.S_IMODE(now.st_mode))
                    out.write(octets)
                os.replace(beside, place)
                return
            finally:
                with suppress(OSError):
                    os.unlink(beside)
    with open(path, "wb") as out:
        out.write(octets)


def tell(*lines: str, to: Optional[TextIO] = None) -> None:
    """Prints lines, if there is somebody still who reads them."""
    out = to or sys.stdout
    try:
        print(*lines, sep="\n", file=out, flush=True)
    except OSError:
        with suppress(OSError, ValueError):  # what waits in it would be tried again at the end
            nowhere = os.open(os.devnull, os.O_WRONLY)
            os.dup2(nowhere, out.fileno())
            os.close(nowhere)


@contextmanager
def undisturbed() -> Iterator[None]:
    """SIGINT and SIGTERM do nothing inside."""
    before = {it: signal.signal(it, signal.SIG_IGN) for it in ENDS}
    try:
        yield
    finally:
        for it, old in before.items():
            signal.signal(it, signal.SIG_DFL if old is None else old)
