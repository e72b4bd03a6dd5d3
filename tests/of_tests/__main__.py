"""python3 tests/of_tests: tests that tests/growths, tests/failures, tests/random, tests/sessions, tests/memory, tests/logs, tests/parted, tests/program,
tests/pages, tests/clients, tests/install, tests/b3sum, tests/c and tests/store_c fail when they must: with `true` or `cat` instead of the program, with
libraries that do nothing, if no growth of memory can be made to fail, and without a C compiler or a test program. tests/program and tests/clients are tried
with `cat` alone. Each must end with status 1 and a last line `N passed, M failed`, where M is not 0; and where each test asks something of the program, N
must be 0.

A stand-in program (stand_in.c) gives the answers that tests/growths expects, and its memory grows once. With it tests/growths passes, unless it
is linked statically, so that this growth can't be made to fail. The last line is `N passed, M failed`, which counts these trials. A C compiler,
`cc`, is needed.
"""
import os
import re
import shutil
import subprocess
import sys
import tempfile
import threading
from concurrent.futures import ThreadPoolExecutor

sys.dont_write_bytecode = True
TESTS = os.path.dirname(os.path.dirname(os.path.abspath(__file__)))
sys.path[1:1] = [os.path.join(TESTS, name) for name in ("common", "growths", "second_reading")]
from commands import Answer, cases
from python_needed import end_where_older
from session import answer_of, requests_of
from store import Store
from test_programs import PASSED, crates_with_growths

SECONDS = 1200
STAND_IN = os.path.join(TESTS, "of_tests", "stand_in.c")
INSTALL, B3SUM = (os.path.join(TESTS, name) for name in ("install", "b3sum"))
NOT_THE_STORE = ("true", "cat")
ANSWERS = "cat"
"""The one of these over which tests/program and tests/clients are tried, as it also answers: over both these two would take half of the time of all trials."""

FEW_CASES = 50


def row_of(words, answer, is_test, refusal=Answer(3, b"", b"")):
    """A row of the stand-in's table."""
    said = "".join(f"{word} " for word in words).encode()
    texts = ['"' + "".join(f"\\{byte:03o}" for byte in text) + '"' for text in (said, answer.stdout, answer.stderr, refusal.stdout)]
    numbers = f"{answer.status}, {int(is_test)}, {len(answer.stdout)}, {len(answer.stderr)}"
    return f"{{{texts[0]}, {numbers}, {texts[1]}, {texts[2]}, {refusal.status}, {len(refusal.stdout)}, {texts[3]}}},\n"


def refusal_of(case):
    """What the stand-in answers a command whose growth is refused: of `serve` its first line is refused, and the session goes on."""
    if case.words[1] != "serve" or "--load" in case.words:
        return Answer(3, case.refusal if case.refusal.endswith(b"\n") else case.refusal and b"refused U5\n", b"")
    store = Store()
    return Answer(0, case.refusal + b"".join(answer_of(store, *request) for request in list(requests_of(case.data))[1:]), b"")


def build_stand_in(path, tests, *flags):
    """Whether a stand-in could be built that is the program, and a test program that has these tests."""
    listed = Answer(0, "".join(f"{name}: test\n" for name in tests).encode(), b"")
    rows = [row_of(case.words[1:], case.answer, False, refusal_of(case)) for case in cases("")]
    rows += [row_of(["--list"], listed, True)] + [row_of([name], PASSED, True) for name in tests]
    with open(path + ".table", "w", encoding="utf-8") as table:
        table.writelines(rows)
    words = ["cc", *flags, f'-DANSWERS="{path}.table"', "-o", path, STAND_IN]
    return shutil.which("cc") is not None and subprocess.run(words, stderr=subprocess.DEVNULL).returncode == 0


def put_test_programs(folder, program):
    """Puts a program as each test program that tests/growths looks for, below a folder, and gives that."""
    for crate in crates_with_growths():
        os.makedirs(os.path.join(folder, crate, "out"))
        shutil.copy(program, os.path.join(folder, crate, "out", f"{crate}_tests"))
    return folder


def run_tests(words, path):
    """The status of a program of tests, the two numbers of its last line, and all that it reported."""
    try:
        run = subprocess.run(
            ["bash" if words[0] == INSTALL else sys.executable, *words], stdin=subprocess.DEVNULL, stdout=subprocess.PIPE, stderr=subprocess.STDOUT, timeout=SECONDS,
            env={**os.environ, "PATH": path},
        )
    except subprocess.TimeoutExpired:
        return None, 0, 0, "it did not end"
    text = run.stdout.decode(errors="replace")
    found = re.search(r"(?:^|\n)(\d+) passed, (\d+) failed\n$", text)
    passed, failed = map(int, found.groups()) if found else (0, 0)
    return run.returncode, passed, failed, text


class Trials:
    """Runs the programs of tests, and counts which of them ended as they must."""

    def __init__(self):
        self.passed = self.failed = 0
        self.lock = threading.Lock()

    def note(self, name, ended, faults):
        status, passed, failed, text = ended
        with self.lock:
            print(f"{name}: status {status}, {passed} passed, {failed} failed")
            if faults:
                print(f"FAILED {name}: {', '.join(faults)}; it ends with {text[-400:]!r}")
            self.failed += bool(faults)
            self.passed += not faults

    def passes(self, name, words):
        ended = run_tests(words, os.environ["PATH"])
        self.note(name, ended, [] if ended[0] == 0 and ended[1] > 0 and ended[2] == 0 else ["it did not pass"])

    def fails(self, name, words, reports="", wanted=None, may_pass=False, path=os.environ["PATH"]):
        """It must fail and report why, with that number of failures if one is wanted; if none is wanted, no test may pass, unless some ask nothing of the
        program."""
        status, passed, failed, text = ended = run_tests(words, path)
        faults = [] if status == 1 and failed > 0 else ["it did not fail"]
        if wanted is None and passed and not may_pass:
            faults.append("tests passed")
        if wanted not in (None, failed):
            faults.append(f"{wanted} are to fail")
        if not re.search(f"(?m)^FAILED .*{reports}", text):
            faults.append(f"it does not report that {reports}")
        self.note(name, ended, faults)


def try_growths(trials, folder):
    growths = os.path.join(TESTS, "growths")
    tests = ["growths::first", "growths::second"]
    right, unlisted, linked, ending = (os.path.join(folder, name) for name in ("right", "unlisted", "linked", "ending"))
    is_static = build_stand_in(linked, tests, "-static")
    is_built = is_static or build_stand_in(linked, tests, "-DGROW=alloca")
    if not is_built or not build_stand_in(right, tests) or not build_stand_in(unlisted, []) or not build_stand_in(ending, tests, "-DENDS=1"):
        trials.note("growths", (1, 0, 1, ""), ["no C compiler builds the stand-in"])
        return
    crates = {path: put_test_programs(path + ".crates", path) for path in (right, unlisted, linked)}
    empty = os.path.join(folder, "empty")
    os.mkdir(empty)
    trials.passes("growths over the stand-in", [growths, right, "--crates", crates[right]])
    trials.passes("growths over the stand-in alone", [growths, right, "--program-alone"])
    trials.fails("growths over a stand-in that refuses no command", [growths, ending, "--program-alone"], "no run reports", 5)
    count = len(crates_with_growths())
    trials.fails("growths without test programs", [growths, right, "--crates", empty], "can't be run", count)
    trials.fails("growths and test programs that list none", [growths, right, "--crates", crates[unlisted]], "it lists no test", count)
    how = "linked statically" if is_static else "that never grows, since cc -static builds none"
    trials.fails(f"growths over a stand-in {how}", [growths, linked, "--crates", crates[linked]], "no growth was refused")
    trials.fails("growths without a compiler", [growths, right, "--crates", crates[right]], "there is no C compiler", path=empty)
    trials.fails("failures without a compiler", [os.path.join(TESTS, "failures"), right], "there is no C compiler", path=empty)


def try_program(trials, name):
    program = shutil.which(name)
    growths, failures, random, memory = (os.path.join(TESTS, folder) for folder in ("growths", "failures", "random", "memory"))
    trials.fails(f"growths over {name}", [growths, program, "--program-alone"], "where no growth is refused")
    trials.fails(f"failures over {name}", [failures, program])
    trials.fails(f"random over {name}", [random, program, "--cases", str(FEW_CASES)])
    trials.fails(f"sessions over {name}", [os.path.join(TESTS, "sessions"), program, "--program-alone", "--commands", "1000"])
    for test in "logs", "parted":
        trials.fails(f"{test} over {name}", [os.path.join(TESTS, test), program])
    trials.fails(f"memory over {name}", [memory, program], "it answered")
    trials.fails(f"pages over {name}", [os.path.join(TESTS, "pages"), program], may_pass=True)
    if name == ANSWERS:
        trials.fails(f"program over {name}", [os.path.join(TESTS, "program"), program], may_pass=True)
        trials.fails(f"clients over {name}", [os.path.join(TESTS, "clients"), program], may_pass=True)
    trials.fails(f"install over {name}", [INSTALL, program], "the program answers", 1)
    if shutil.which("b3sum"):
        trials.fails(f"b3sum over {name}", [B3SUM, program], may_pass=True)


def put_nothing(folder, name):
    """Puts a library whose functions do nothing, and report that all is well, into a folder: that of the header of this name."""
    source, made, archive = (os.path.join(folder, f"{name}.{end}") for end in ("c", "o", "a"))
    with open(os.path.join(os.path.dirname(TESTS), "include", f"{name}.h"), encoding="utf-8") as header:
        names = re.findall(rf"(?m)^uint32_t ({name}_\w+)\(", header.read())
    with open(source, "w", encoding="utf-8") as file:
        file.writelines(f"unsigned {name}(void) {{ return 0; }}\n" for name in names)
    subprocess.run(["cc", "-fPIC", "-c", source, "-o", made], check=True)
    subprocess.run(["ar", "rc", archive, made], check=True)
    return archive


def try_libraries(trials, folder):
    b3, b3store = (put_nothing(folder, name) for name in ("b3", "b3store"))
    trials.fails("c over a library that does nothing", [os.path.join(TESTS, "c", "run"), b3], may_pass=True)
    trials.fails("store_c over a library that does nothing", [os.path.join(TESTS, "store_c", "run"), b3store, b3], may_pass=True)


def main():
    end_where_older()
    trials = Trials()
    with tempfile.TemporaryDirectory() as folder, ThreadPoolExecutor() as pool:
        try_growths(trials, folder)
        try_libraries(trials, folder)
        runs = [pool.submit(try_program, trials, name) for name in NOT_THE_STORE]
        for run in runs:
            run.result()
    print(f"{trials.passed} passed, {trials.failed} failed")
    return 1 if trials.failed else 0


if __name__ == "__main__":
    sys.exit(main())
