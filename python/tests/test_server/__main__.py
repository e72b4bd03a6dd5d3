"""python3 python/tests/test_server PROGRAM [CASE..]: runs b3store.server over PROGRAM, and talks to it. The last line is `N passed, M failed`.
Words after PROGRAM run only the cases whose names contain one of them. A case is a function of one of the modules whose name doesn't begin with _."""
import importlib
import inspect
import os
import signal
import sys

sys.dont_write_bytecode = True
TESTS = os.path.dirname(os.path.dirname(os.path.abspath(__file__)))
sys.path[1:1] = [TESTS, os.path.join(os.path.dirname(os.path.dirname(TESTS)), "tests", "common")]
from judging import judged
from python_needed import OF_PACKAGE, end_where_older

MODULES = ("connections", "ends", "saves", "logs", "following", "storm")


def cases(words):
    """Each case by its name."""
    for module in MODULES:
        for name, case in [*vars(importlib.import_module(module)).items()]:
            if inspect.isfunction(case) and case.__module__ == module and not name.startswith("_"):
                name = f"the server: {name.replace('_', ' ')}"
                if not words or any(word in name for word in words):
                    yield name, case


def main():
    end_where_older(OF_PACKAGE)
    if len(sys.argv) < 2:
        sys.exit(__doc__)
    # as in a terminal: what is started in the background, or by nohup, would let the servers ignore them
    signal.signal(signal.SIGINT, signal.default_int_handler)
    for number in signal.SIGHUP, signal.SIGQUIT:
        signal.signal(number, signal.SIG_DFL)
    return judged(cases(sys.argv[2:]))


if __name__ == "__main__":
    sys.exit(main())
