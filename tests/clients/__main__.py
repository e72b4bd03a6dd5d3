"""python3 tests/clients [PROGRAM] (default target/b3store): runs the tests of the Python package (python/tests), and of the programs that use it: examples/backup.py,
examples/cache.py, and, if nginx and ccache are installed, several caches behind nginx and bench/ccache. The last line is `N passed, M failed`.
"""
import os
import signal
import sys

sys.dont_write_bytecode = True
TOP = os.path.dirname(os.path.dirname(os.path.dirname(os.path.abspath(__file__))))
sys.path[1:1] = [os.path.join(TOP, "python", "tests"), os.path.join(TOP, "tests", "common")]
import backups
import cache_disk
import caches
import cases as package
import many
from judging import judged
from python_needed import end_where_older

MODULES = (backups, caches, cache_disk, many)
CASES = (*package.CASES, *((f"{module.__name__}: {case.__name__.replace('_', ' ')}", case) for module in MODULES for case in module.CASES))

if __name__ == "__main__":
    end_where_older()
    # a shell starts what it doesn't wait for with these ignored, nohup with SIGHUP, and the programs tried here would inherit that
    signal.signal(signal.SIGINT, signal.default_int_handler)
    for number in signal.SIGHUP, signal.SIGQUIT:
        signal.signal(number, signal.SIG_DFL)
    sys.exit(judged(CASES))
