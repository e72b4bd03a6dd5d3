"""python3 tests/random PROGRAM [--cases N] [--seed S]: runs the program on random scripts, sessions, journals, check files, uploads and
inputs of `sum`, and compares its output with that of the second implementation, tests/second_reading, which was written from
docs/PROTOCOL.md and docs/FORMATS.md.

A case that differs is printed after FAILED with its seed; `--cases 1 --seed S` runs it again. The last line is
`N passed, M failed`.
"""
import argparse
import functools
import os
import random
import subprocess
import sys
import tempfile

sys.dont_write_bytecode = True
TESTS = os.path.dirname(os.path.dirname(os.path.abspath(__file__)))
sys.path[1:1] = [os.path.join(TESTS, "common"), os.path.join(TESTS, "second_reading")]
import checks
import journals
import scripts
import sessions
import sums
import uploads
from judging import judged
from python_needed import end_where_older

KINDS = (scripts, sessions, journals, checks, uploads, sums)
SECONDS = 60


def differences(program, folder, kind, seed):
    """What the program does otherwise in the case of a seed."""
    words, data, wanted, status = kind.case(random.Random(seed))
    run = subprocess.run([program] + words, input=data, capture_output=True, cwd=folder, timeout=SECONDS)
    differs = kind.differs(run.stdout, wanted, data) if kind is uploads else run.stdout != wanted
    errors = kind.errors(data, wanted) if hasattr(kind, "errors") else b""
    if not differs and run.returncode == status and run.stderr == errors:
        return []
    return [f"input {data!r}\nwanted {status} {wanted!r}\nanswered {run.returncode} {run.stdout!r} {run.stderr!r}"]


def count(text):
    """A number of cases, of which there is one at least."""
    if int(text) < 1:
        raise argparse.ArgumentTypeError("there is one case at least")
    return int(text)


def main():
    end_where_older()
    parser = argparse.ArgumentParser(description=__doc__.split("\n\n")[0])
    parser.add_argument("program")
    parser.add_argument("--cases", type=count, default=500)
    parser.add_argument("--seed", type=int, default=1)
    options = parser.parse_args()
    program = os.path.abspath(options.program)
    with tempfile.TemporaryDirectory() as folder:
        for name, content in checks.FILES.items():
            with open(os.path.join(os.fsencode(folder), name), "wb") as file:
                file.write(content)
        cases = [(seed, KINDS[seed % len(KINDS)]) for seed in range(options.seed, options.seed + options.cases)]
        return judged((f"{kind.__name__}, seed {seed}", functools.partial(differences, program, folder, kind, seed)) for seed, kind in cases)


if __name__ == "__main__":
    sys.exit(main())
