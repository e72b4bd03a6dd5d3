"""What the cases of this folder and of tests/clients share."""
import contextlib
import os
import pickle
import signal
import sys
import threading

TOP = os.path.dirname(os.path.dirname(os.path.dirname(os.path.abspath(__file__))))
sys.path[1:1] = [os.path.join(TOP, "tests", "common"), os.path.join(TOP, "python"), os.path.join(TOP, "examples")]
from b3store import Ended, Refused
from judging import check, wait_until

PROGRAM = os.path.abspath(sys.argv[1]) if len(sys.argv) > 1 else os.path.join(TOP, "target", "b3store")
SECONDS = 60
ABC = "6437b3ac38465133ffb63b75273a8db548c558465d79db03fd359c6cd5bd9d85"
EMPTY = "af1349b9f5f9a1a6a0404dea36dcc9499bcb25c9adc112b7cc9a93cae41f3262"
FOUR = "37392008a949c4879f190a4ce54e354782bc88564a9534a882b3d42448f96168"


def readable_by_others(folder):
    """The paths of a folder, and of what is in it, that other users may read, write or enter."""
    paths = [folder] + [os.path.join(place, name) for place, folders, names in os.walk(folder) for name in folders + names]
    return [path for path in paths if os.stat(path).st_mode & 0o077]


def refusal(call, *words):
    """The name and the value of a call's refusal, or what it returns."""
    try:
        return call(*words)
    except Refused as refused:
        return refused.number, refused.value


def raised(call, *words):
    """The type of what a call raises."""
    try:
        call(*words)
    except Exception as fault:
        return type(fault)
    return None


def ended(call, *words):
    """What the Ended says that a call raises, if its copy by pickle says the same; else None."""
    try:
        call(*words)
    except Ended as fault:
        return str(fault) if str(pickle.loads(pickle.dumps(fault))) == str(fault) else None
    return None


def in_threads(call, count):
    """What a call returns or raises in each of several threads that make it at once."""
    found = []

    def work(number):
        try:
            found.append(call(number))
        except Exception as fault:
            found.append(type(fault))

    workers = [threading.Thread(target=work, args=(number,), daemon=True) for number in range(count)]
    for worker in workers:
        worker.start()
    for worker in workers:
        worker.join(SECONDS)
    return found


@contextlib.contextmanager
def forked(work):
    """What a function returns, a text, in a new process, which lives until the block is left."""
    reading, writing = os.pipe()
    child = os.fork()
    if child == 0:
        signal.alarm(SECONDS)
        try:
            os.write(writing, work().encode())
            signal.pause()
        finally:
            os._exit(0)
    os.close(writing)
    try:
        with open(reading, "rb", 0) as told:
            yield told.read(1000).decode()
    finally:
        os.kill(child, signal.SIGKILL)
        os.waitpid(child, 0)


class Interrupted(Exception):
    """What a signal's handler raises."""


def interrupt(*_):
    raise Interrupted


@contextlib.contextmanager
def alarms(handler=interrupt):
    """Handles SIGALRM within a block."""
    before = signal.signal(signal.SIGALRM, handler)
    try:
        yield
    finally:
        # without its handler, an alarm that is still due would end the tests
        signal.setitimer(signal.ITIMER_REAL, 0)
        signal.signal(signal.SIGALRM, before)


def interrupted_calls(call, seconds):
    """Calls a function until it is interrupted, and returns how often."""
    calls = 0
    try:
        # Python drops an exception that comes while it frees an object
        signal.setitimer(signal.ITIMER_REAL, seconds, 1)
        while True:
            call()
            calls += 1
    except Interrupted:
        return calls
    finally:
        signal.setitimer(signal.ITIMER_REAL, 0)
