"""The commands that tests/failures runs, each with a small input, its answer, and how it may end after a read that fails."""
import typing

from blake3 import address_of, keyed, output_of
from check_files import check_answer
from explaining import script_errors
from journal import ANSWERS, HEADER
from script import answers_of
from session import answers_within, session_of

ABC, EMPTY = address_of(b"abc"), address_of(b"")
KEY = bytes(range(32))
LINES = f"{ABC}  abc\n{EMPTY}  empty\n".encode()
LIST = b"abc\nempty\n"
LOG = b"tenant 9\nfileas 0 %s 3\nabclimit 0 3\n" % ABC.encode()
FILES = {"abc": b"abc", "empty": b"", "key": KEY, "lines": LINES, "list": LIST, "log": LOG}
CANNOT_READ = b"b3store: cannot read\n"
SIGNED = b"b3store: --length takes a number from 1 to 65536, without a sign; see b3store sum --help\n"
VERSION = b"b3store 1.0.0 (proved with a Rattle kit of logic dac8208d650f15bf)\n"
SCRIPT = b"tenant 4096\nbegin 0 3\nput 0 0 x:616263\nseal 0\nfrob\nlist 0\nfetch 0 %s\njournal\n" % ABC.encode()
SESSION = b"tenant 4096\nbegin 0 3\nputb 0 0 3\nabcseal 0\nfrob\nfetchb 0 %s\nuploads 0\nfile 0 3\nabcredo 0 9\nentries 2\n" % ABC.encode()
JOURNAL = HEADER + b"\ntenant 0 4096\nbegin 0 0 3\nput 0 0 3\nseal 0 %s new\n" % ABC.encode()


class Answer(typing.NamedTuple):
    """The status, standard output and standard error."""

    status: int
    stdout: bytes
    stderr: bytes = b""


class Case(typing.NamedTuple):
    """A run: its words and its input, its answer, and a call that gives the ways in which it may end where the read of a number fails."""

    words: list
    data: bytes
    answer: Answer
    after_read: typing.Optional[typing.Callable]


def stopped(output=b"", errors=b""):
    return Answer(3, output, errors + CANNOT_READ)


def nothing_read(number):
    return [stopped()]


def files_read(list_bytes, whole, others):
    """Of a run that reads so many bytes first, and then files: while the first are read it stops; then a file is read again, or the run ends in one of
    the other ways."""
    return lambda number: [stopped()] if number <= list_bytes else [whole, *others, *([stopped()] if list_bytes else [])]


def unreadable(name):
    return b"b3store: %s: it can't be read\n" % name


def summed(lines):
    """How `sum` of some files ends where one of them can't be read."""
    names = [line.split(b"  ")[1].strip() for line in lines]
    return [Answer(1, b"".join(lines[:at] + lines[at + 1 :]), unreadable(name)) for at, name in enumerate(names)]


def checked(unread=None):
    """The report on the check lines, where a file can't be read."""
    digests = {b"abc": ABC.encode(), b"empty": EMPTY.encode()}
    report, status = check_answer(LINES, {**digests, **({unread: None} if unread else {})})
    return Answer(status, report, unreadable(unread) if unread else b"")


def script_answers(count):
    """The answers to the lines that end within so many bytes of the script, and what is said of them."""
    text = SCRIPT[: SCRIPT.rfind(b"\n", 0, count) + 1].decode()
    return "".join(answer + "\n" for answer in answers_of(text)[0]).encode(), script_errors(text)


def cases(program):
    def case(words, data, answer, after_read=nothing_read):
        return Case([program, *words], data, answer, after_read)

    lines = LINES.splitlines(keepends=True)
    yield case(["sum"], b"abc", Answer(0, f"{ABC}  -\n".encode()))
    yield case(["sum", "--length", "40"], b"abc", Answer(0, output_of(b"abc", 40).hex().encode() + b"\n"))
    whole = Answer(0, LINES)
    yield case(["sum", "--threads", "1", "abc", "empty"], b"", whole, files_read(0, whole, summed(lines)))
    removed = Answer(1, LINES, b"b3store: removed: no such file\n")
    yield case(["sum", "abc", "removed", "empty"], b"", removed, None)
    yield case(["sum", "--files-from", "-"], LIST, whole, files_read(len(LIST), whole, summed(lines)))
    yield case(["sum", "--files-from", "list"], b"", whole, files_read(len(LIST), whole, summed(lines)))
    keyed_line = output_of(b"abc", 32, keyed(KEY)).hex().encode() + b"  abc\n"
    whole = Answer(0, keyed_line)
    yield case(["sum", "--key-file", "key", "abc"], b"", whole, files_read(len(KEY), whole, summed([keyed_line])))
    reports = checked(), [checked(b"abc"), checked(b"empty")]
    yield case(["check"], LINES, checked(), files_read(len(LINES), *reports))
    yield case(["check", "--threads", "1", "lines"], b"", checked(), files_read(len(LINES), *reports))
    run = Answer(1, *script_answers(len(SCRIPT)))
    yield case(["run"], SCRIPT, run, lambda number: [stopped(*script_answers(number - 1))])
    output, status = session_of(SESSION)
    yield case(["serve"], SESSION, Answer(status, output), lambda number: [stopped(answers_within(SESSION, number - 1))])
    yield case(["serve", "--load", "log"], b"", Answer(0, b""), nothing_read)
    for word, answer_of in ANSWERS.items():
        output, status = answer_of(JOURNAL)
        yield case([word], JOURNAL, Answer(status, output))
    upload = f"{ABC}  -\naccepted 3 1\n".encode()
    yield case(["upload"], b"abc", Answer(0, upload))
    journal = JOURNAL.replace(b"tenant 0 4096", b"tenant 0 1099511627776")
    yield case(["upload", "--journal"], b"abc", Answer(0, upload + journal))
    yield case(["sum", "--length", "+4"], b"", Answer(2, b"", SIGNED), None)
    yield case(["--version"], b"", Answer(0, VERSION), None)
