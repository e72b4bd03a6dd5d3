"""python3 python/tests [PROGRAM] (default target/b3store): the tests of the Python package, over target/libb3store.so.1 or the library that B3STORE_LIBRARY
names. The last line is `N passed, M failed`."""
import os
import sys

sys.dont_write_bytecode = True
sys.path.insert(1, os.path.join(os.path.dirname(os.path.dirname(os.path.dirname(os.path.abspath(__file__)))), "tests", "common"))
from cases import CASES
from judging import judged
from python_needed import OF_PACKAGE, end_where_older

if __name__ == "__main__":
    end_where_older(OF_PACKAGE)
    sys.exit(judged(CASES))
