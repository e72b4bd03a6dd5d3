"""What the programs of this package share: lines, messages, progress, and endings without a traceback."""
import argparse
import os
import re
import signal
import sys
from typing import Callable

from .programs import ENDED, exit_at_ending, handle_ending
from .values import MAX_NUMBER, StoreError

DIGITS = re.compile("[0-9]{1,20}")
SIZE = re.compile("([0-9]{1,20})([KMGT]?)")
CONTROLS = re.compile(r"[\x00-\x1f\x7f-\x9f]")
ESCAPES = {"\\": "\\\\", "\n": "\\n", "\r": "\\r"}
FAILED = 3
"""The exit status when reading, writing or the connection fails."""


def number(least: int, most: int) -> Callable[[str], int]:
    """A function that reads an argument: a number in a range."""

    def read(text: str) -> int:
        if not DIGITS.fullmatch(text) or not least <= int(text) <= most:
            raise argparse.ArgumentTypeError(f"{text!r} is not a number from {least} to {most}")
        return int(text)

    return read


def size(text: str) -> int:
    """An argument that is a number of bytes, also in KiB, MiB, GiB or TiB: `512M`."""
    found = SIZE.fullmatch(text)
    value = int(found[1]) << {"": 0, "K": 10, "M": 20, "G": 30, "T": 40}[found[2]] if found else MAX_NUMBER + 1
    if value > MAX_NUMBER:
        raise argparse.ArgumentTypeError(f"{text!r} is not a size, such as 1000, 512M or 4G")
    return value


def check_line(address: str, name: str) -> str:
    """A line of 64 digits, two spaces and the name, as `b3store check` and `b3sum` read it."""
    escaped = "".join(ESCAPES.get(letter, letter) for letter in name)
    return ("\\" if escaped != name else "") + f"{address}  {escaped}"


def one_line(text: str) -> str:
    """A text in which control characters, such as the newlines of a file's name, are escaped."""
    return CONTROLS.sub(lambda found: repr(found[0])[1:-1], text)


def report(text: str, name: str = "b3store") -> None:
    """Writes a line after a program's name to standard error, if that can be written to. Bytes of names that are not text are escaped."""
    try:
        sys.stderr.write(f"{name}: {one_line(text)}\n".encode("utf-8", "backslashreplace").decode("utf-8"))
        sys.stderr.flush()
    except OSError:
        drop_output(2)


def error_text(fault: BaseException) -> str:
    """An error in a few words, without its class and number."""
    if isinstance(fault, OSError) and fault.strerror:
        return fault.strerror[:1].lower() + fault.strerror[1:]
    return "out of memory" if isinstance(fault, MemoryError) else str(fault) or type(fault).__name__


def fault_text(fault: BaseException) -> str:
    """An error in a few words, after the file that it is about."""
    name = getattr(fault, "filename", None)
    return error_text(fault) if name is None else f"{os.fsdecode(name) if isinstance(name, bytes) else name or repr(name)}: {error_text(fault)}"


def count_text(count: int, noun: str) -> str:
    """A number of things: `1 key`, `2 keys`."""
    return f"{count} {noun}" if count == 1 else f"{count} {noun}s"


def finish(run: Callable[[], int]) -> int:
    """Runs a program, and returns its exit status. What it raises ends it with a message, and never with a traceback. A signal that ends it raises SystemExit,
    so that it removes an incomplete file first."""
    if not open_standard_files():
        report("cannot write: standard output is closed")
        return FAILED
    if hasattr(sys.stdout, "reconfigure"):
        # names have the bytes that the command line has, whatever PYTHONIOENCODING says
        sys.stdout.reconfigure(encoding=sys.getfilesystemencoding(), errors="surrogateescape")
    exit_at_ending()
    status = status_of(run)
    # while the interpreter ends, what a handler raises would be shown with a traceback
    handle_ending(signal.SIG_DFL)
    return status


def status_of(run: Callable[[], int]) -> int:
    """The exit status of a program, which an error ends with a message."""
    try:
        try:
            return run()
        finally:
            # also after a help, from which it doesn't return
            sys.stdout.flush()
    except SystemExit as end:
        if end.code in ENDED:
            drop_output()
        return int(end.code or 0)
    except BrokenPipeError:
        pass
    except OSError as fault:
        report("cannot write: " + error_text(fault) if fault.filename is None else fault_text(fault))
    except (StoreError, MemoryError, ValueError) as fault:
        report(error_text(fault))
    drop_output()
    return FAILED


def open_standard_files() -> bool:
    """Opens /dev/null in place of each standard stream that is closed, so that no connection gets its number, and returns whether standard output was
    open."""
    number = 0
    while number <= 2:
        number = os.open(os.devnull, os.O_RDWR)
    os.close(number)
    if sys.stderr is None:
        sys.stderr = open(2, "w", closefd=False)
    return sys.stdout is not None


def drop_output(number: int = 1) -> None:
    """Drops what could not be written to standard output or error, so that the interpreter doesn't try again when it ends."""
    os.dup2(os.open(os.devnull, os.O_WRONLY), number)
