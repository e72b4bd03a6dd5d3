"""Which Python the programs of tests need."""
import sys

LEAST = (3, 9)
OF_PACKAGE = (3, 8)
"""What the Python package and its tests need."""


def end_where_older(least=LEAST):
    """Ends the program with one line where Python is older."""
    if sys.version_info < least:
        sys.exit("%s needs Python %d.%d or later, and this is %d.%d" % ((sys.argv[0],) + least + sys.version_info[:2]))


if __name__ == "__main__":
    end_where_older()
