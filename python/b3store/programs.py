"""How the programs of this package start: `b3store-client` and `b3store-server`, which pip installs; Ctrl-C until a program handles it; and the signals that
end a server.

While modules are imported, Python would raise KeyboardInterrupt in the middle of an import, and print a traceback. This module imports little itself, and the
package nothing before it."""
import contextlib
import signal
import sys

from . import TYPE_CHECKING

if TYPE_CHECKING:
    from typing import Any, Iterator

ENDING = (signal.SIGTERM, signal.SIGINT, signal.SIGHUP, signal.SIGQUIT)
"""The signals that end a program."""
ENDED = tuple(128 + number for number in ENDING)
"""The exit statuses of a program that they have ended."""
OTHERS = (signal.SIGUSR1, signal.SIGUSR2, signal.SIGALRM, signal.SIGVTALRM, signal.SIGPROF, signal.SIGIO)
"""Signals that would end a program at once. A server ignores them, as everything in its store would be lost."""


def end_at_once() -> None:
    """Lets Ctrl-C end the process at once, without a traceback, unless it is ignored, as in a background job, or handled by the process."""
    if signal.getsignal(signal.SIGINT) is signal.default_int_handler:
        signal.signal(signal.SIGINT, signal.SIG_DFL)


def handle_ending(handler: "Any") -> None:
    """Sets the handler of the signals that end a program, but for those that are ignored, as by `nohup` or in the background of a shell."""
    for number in ENDING:
        if signal.getsignal(number) is not signal.SIG_IGN:
            signal.signal(number, handler)


def exit_at_ending() -> None:
    """Lets the first signal that ends a program raise SystemExit, with 128 and its number. Later ones have no effect, so that they interrupt nothing that is
    tidied up."""

    def end(number: int, _: "Any") -> None:
        handle_ending(signal.SIG_IGN)
        sys.exit(128 + number)

    handle_ending(end)


@contextlib.contextmanager
def signals_held() -> "Iterator[None]":
    """Holds these signals back, so that none interrupts what is made until it is noted that it has to be removed."""
    held = signal.pthread_sigmask(signal.SIG_BLOCK, ENDING)
    try:
        yield
    finally:
        signal.pthread_sigmask(signal.SIG_SETMASK, held)


def client() -> int:
    end_at_once()
    from .__main__ import run
    from .console import finish

    return finish(run)


def server() -> int:
    end_at_once()
    from .server import main

    return main()
