"""The commands that tests/growths runs, each with its input and with its answer where no growth is refused, which the second
reading gives."""
import re
import typing

from blake3 import address_of, keyed, output_of
from check_files import check_answer
from journal import ANSWERS, HEADER
from script import answers_of, call_of, pattern
from session import answer_of, requests_of, session_of
from store import Refused, Store

OBJECT = pattern(0, 2049)
ADDRESS = address_of(OBJECT)
LONG = pattern(0, 9 << 20)
LONG_ADDRESS = "8516f8a0ae9a7a21cdd69df13aaa9b2a22a499848fb3185cea4cae496ce4d91a"
"""What `b3sum` says of it: an input of several blocks, which the second reading takes minutes to hash."""
KEY = bytes(range(32))
DOOR = "door"
"""A named pipe, at which no client comes."""
LOG = b"tenant 4096\nfileas 0 %s 2049\n%stenant 5\nfileas 0 %s 3\nabcforget 0 %s\nlimit 0 3000\n" % (ADDRESS.encode(), OBJECT, *[address_of(b"abc").encode()] * 2)
FILES = {"object": OBJECT, "abc": b"abc", "key": KEY, "log": LOG}
FROB = b"error: unexpected argument '--frob' found\n"
HELP = b"Hash and check files, and serve a store that keeps each content once, in memory, until its process ends\n\nUsage: "
SIGNED = b"b3store: --length takes a number from 1 to 65536, without a sign; see b3store sum --help\n"
SCRIPT = f"""tenant 4096
tenant 4096
begin 0 2049
put 0 1024 p:1024
put 0 0 p:1024
put 0 2048 p:1
seal 0
open 1 4096
put 1 0 p:2048
fix 1 2049
put 1 2048 p:1
sealas 1 {ADDRESS}
fetch 1 {ADDRESS}
list 0
usage 1
forget 0 {ADDRESS}
begin 0 3
put 2 0 x:616263
abort 2
limit 1 5000
stat
journal
"""

SESSION = f"""tenant 4096
open 0 4096
putb 0 0 2048
{"a" * 2048}uploads 0
put 0 2048 x:61
{"f" * 3000}
fix 0 2049
seal 0
has 0 {address_of(b"a" * 2049)}
fetchb 0 {address_of(b"a" * 2049)} 1000 1040
list 0
objects 0 0 9
redo 0 9
tenants
counts
entries 3
entries 1 2
file 0 1025
{"b" * 1025}""".encode()


class Answer(typing.NamedTuple):
    """The status, standard output, and how standard error begins, which is all of it where that is empty."""

    status: int
    stdout: bytes
    stderr: bytes


class Case(typing.NamedTuple):
    """A run: its words and its input, its answer where no growth is refused, what may stand on standard output where the run
    ended when out of memory, and what else where it went on; and how a refusal begins that one of the runs at least must report."""

    words: list
    data: bytes
    answer: Answer
    may_have_written: typing.Callable
    may_answer: typing.Callable = lambda answer: False
    refusal: bytes = b""
    may_end: typing.Callable = lambda run: False
    """Whether it may also end so."""


def is_beginning_by_the_model(answer):
    """Whether these are the answers to a prefix of the script, of which some commands were refused memory."""
    store, lines = Store(), answer.decode(errors="replace").splitlines()
    for line in SCRIPT.splitlines():
        if not lines:
            return True
        if lines[0] == "refused S14":
            lines.pop(0)
            continue
        name, values = call_of(line)
        try:
            reported = getattr(store, name)(*values)
        except Refused as refused:
            reported = [f"refused {refused}"]
        if lines[: len(reported)] != reported[: len(lines)]:
            return False
        lines = lines[len(reported) :]
    return not lines


def is_by_the_model(answer):
    """Whether these are the answers to the session, of which some were refused memory."""
    store = Store()
    for line, taken in requests_of(SESSION):
        if answer.startswith(b"refused S14\n"):
            answer = answer[len(b"refused S14\n") :]
            continue
        wanted = answer_of(store, line, taken)
        if not answer.startswith(wanted):
            return False
        answer = answer[len(wanted) :]
    return not answer


def wrote_nothing(answer):
    return answer == b""


def lines_of(text):
    """Whether an answer is some of the first lines of a text."""
    return lambda answer: text.startswith(answer) and answer[-1:] in (b"", b"\n")


def stopped_in_its_log(run):
    """Of `serve --load log`, that a line of the log was refused memory."""
    said = re.fullmatch(rb"b3store: log: line \d+, at byte \d+, is answered: refused S14\n", run.stderr)
    return bool(said) and (run.returncode, run.stdout) == (1, b"")


def reported_a_refusal(answer):
    return answer in (b"", b"refused U5\n", b"refused U1 S14\n")


def good(text):
    """Of a command that ends well."""
    return Answer(0, text.encode(), b"")


def usage(prefix):
    """Of words that the program doesn't take: their text is reported whole, or out of memory in its place."""
    return Answer(2, b"", prefix)


def read(reported):
    """Of an engine over all its input, by what the second reading says: the output, and the status."""
    output, status = reported
    return Answer(status, output, b"")


def cases(program):
    answers, status, store = answers_of(SCRIPT)
    journal = HEADER + b"\n" + "".join(f"{entry}\n" for entry in store.journal).encode()
    check = f"{ADDRESS}  object\n{ADDRESS}  absent\n{ADDRESS}  abc\n".encode()
    digests = {name.encode(): address_of(content).encode() for name, content in FILES.items()}
    script = Answer(status, "".join(f"{answer}\n" for answer in answers).encode(), b"")
    yield Case([program, "sum"], OBJECT, good(f"{ADDRESS}  -\n"), wrote_nothing)
    yield Case([program, "sum", "--length", "100"], OBJECT, good(output_of(OBJECT, 100).hex() + "\n"), wrote_nothing)
    yield Case([program, "sum", "--threads", "3"], LONG, good(f"{LONG_ADDRESS}  -\n"), wrote_nothing)
    yield Case([program, "sum", "--length", "+4"], OBJECT, usage(SIGNED), wrote_nothing)
    yield Case([program, "sum", "--frob"], OBJECT, usage(FROB), wrote_nothing)
    yield Case([program, "--help"], OBJECT, usage(HELP), wrote_nothing)
    report = read(check_answer(check, digests))
    yield Case([program, "check"], check, report, lines_of(report.stdout))
    lines = f"{ADDRESS}  object\n{address_of(b'abc')}  abc\n"
    yield Case([program, "sum", "object", "abc"], b"", good(lines), lines_of(lines.encode()))
    yield Case([program, "sum", "--files-from", "-"], b"object\n\nabc", good(lines), lines_of(lines.encode()))
    digits = output_of(OBJECT, 4, keyed(KEY)).hex()
    yield Case([program, "sum", "--key-file", "key", "--length", "4", "object"], b"", good(f"{digits}\n"), wrote_nothing)
    yield Case([program, "audit"], journal, read(ANSWERS["audit"](journal)), wrote_nothing)
    yield Case([program, "migrate"], journal, read(ANSWERS["migrate"](journal)), wrote_nothing)
    yield Case([program, "run"], SCRIPT.encode(), script, is_beginning_by_the_model, refusal=b"refused S14\n")
    for words in ["serve"], ["serve", "--at", DOOR, "--sessions", "1"]:
        yield Case([program, *words], SESSION, read(session_of(SESSION)), wrote_nothing, is_by_the_model, b"refused S14\n")
    log = read((session_of(LOG + b"list 0\n")[0][len(session_of(LOG)[0]) :], 0))
    yield Case([program, "serve", "--load", "log"], b"list 0\n", log, wrote_nothing, lambda answer: answer == b"refused S14\n", may_end=stopped_in_its_log)
    for words, parts in (["--workers", "1"], 1), (["--workers", "3", "--part-chunks", "1"], 3):
        accounts = good(f"{ADDRESS}  -\naccepted {len(OBJECT)} {parts}\n")
        yield Case([program, "upload", *words], OBJECT, accounts, reported_a_refusal, refusal=b"refused U")
