"""`python -m b3store`, also installed as `b3store-client`: uses a server's store from a shell (docs/USE.md)."""
from .programs import end_at_once

if __name__ == "__main__":
    end_at_once()

import argparse
import contextlib
import errno
import functools
import itertools
import os
import stat
import sys
from typing import Any, BinaryIO, Callable, Iterator, List, Optional, Tuple

from . import __version__
from .client import Client
from .console import check_line, error_text, finish, number, one_line, report, size
from .transfers import parts_of
from .values import MAX_NUMBER, MAX_UPLOAD_LEN, PART_LEN, Filed, Refused, check_address

MISSING = 1
MAX_IN_MEMORY = 1 << 26
"""How many bytes of a file whose length isn't known are kept in memory."""
NUMBER = number(0, MAX_NUMBER)
Formatter: Any = functools.partial(argparse.RawDescriptionHelpFormatter, width=80)
"""The layout of a help. To find the width of a terminal, argparse would import much, at each start."""
EPILOG = """\
examples:
  b3store-client --socket /run/b3store/socket put FILE
  tar c DIR | b3store-client put -
  b3store-client get ADDRESS -o FILE

exit status: 0 done; 1 an object is missing, a file to put can't be read, or the store refused a command; 2 usage error;
3 writing or the connection failed
"""


def put(store: Client, words: Any) -> int:
    """Stores files, and prints a line for each."""
    tenant, status = tenant_of(store, words), 0
    for name in words.files:
        try:
            filed = put_file(store, tenant, name, words.max_len)
        except (Refused, OSError) as fault:
            status = miss(f"{name or repr(name)}: {error_text(fault)}")
        else:
            print(check_line(filed.address, name), flush=True)
    return status


def put_file(store: Client, tenant: int, name: str, max_len: Optional[int]) -> Filed:
    """Stores one file. One whose length isn't known, such as a pipe, is read to its end first, so that no more is reserved than it has; with a maximum, this is
    reserved, and the file is stored as it is read."""
    if name == "-" and sys.stdin is None:
        raise OSError(errno.EBADF, "standard input is closed")
    with contextlib.ExitStack() as ending:
        file: Any = ending.enter_context(open(0 if name == "-" else name, "rb", buffering=0, closefd=name != "-"))
        if max_len is not None or stat.S_ISREG(os.fstat(file.fileno()).st_mode):
            return store.upload(file, tenant, max_len=max_len)
        import tempfile

        copy = ending.enter_context(tempfile.SpooledTemporaryFile(MAX_IN_MEMORY))
        for part in parts_of(file):
            copy.write(part)
        length = copy.tell()
        copy.seek(0)
        return store.upload(copy, tenant, length)


def get(store: Client, words: Any) -> Optional[int]:
    """Writes an object's bytes, or a range of them."""
    tenant, (start, length) = tenant_of(store, words), words.range
    try:
        end = max(start, min(store.size(tenant, words.address), start + length))
        with output_to(words.output, words.follow) as write:
            room = memoryview(bytearray(min(PART_LEN, end - start)))
            for at in range(start, end, PART_LEN):
                piece = room[: end - at]
                store._read_into(tenant, words.address, piece, at, piece.nbytes)
                write(piece)
    except Refused as fault:
        return miss(f"{words.address}: {fault}")
    return None


@contextlib.contextmanager
def output_to(path: str, follows: bool) -> Iterator[Callable[[memoryview], Any]]:
    """A function that writes to a file, or to standard output. A regular file gets its name when all is written, so that no half of one is left. A pipe or a
    device is written to as it is. A link is an error, unless it is followed: someone else may have made it."""
    if path == "-":
        yield sys.stdout.buffer.write
        return
    path = os.path.realpath(path) if follows else path
    try:
        old = os.lstat(path) if os.path.lexists(path) else None
        if old is not None and stat.S_ISLNK(old.st_mode):
            raise OSError(errno.ELOOP, "it is a link: --follow writes to what it leads to, and - to standard output")
        if old is None or stat.S_ISREG(old.st_mode):
            with replacing(path, old) as file:
                yield file.write
        else:
            with open(path, "wb", opener=lambda name, flags: os.open(name, flags | os.O_NOFOLLOW)) as file:
                yield file.write
    except OSError as fault:
        raise type(fault)(fault.errno, fault.strerror, path) from None


@contextlib.contextmanager
def replacing(path: str, old: Optional[os.stat_result]) -> Iterator[BinaryIO]:
    """A new file in the folder of a path, which gets this name once it is written, with the owner, the group and the mode of the file that it replaces, as far
    as the system allows it: what the old group may do is not for another one."""
    aside = os.path.join(os.path.dirname(path), f".{os.urandom(8).hex()}.part")
    try:
        with open(aside, "xb", opener=lambda name, flags: os.open(name, flags, 0o600 if old else 0o666)) as file:
            if old:
                with contextlib.suppress(OSError):
                    os.fchown(file.fileno(), old.st_uid, old.st_gid)
                with contextlib.suppress(OSError):
                    os.fchmod(file.fileno(), old.st_mode & (0o777 if os.fstat(file.fileno()).st_gid == old.st_gid else 0o707))
            yield file
        os.replace(aside, path)
    except BaseException:
        # a signal can come before it is made, or when it has its name
        with contextlib.suppress(OSError):
            os.unlink(aside)
        raise


def has(store: Client, words: Any) -> int:
    """Prints the address and the length of each named object that the tenant holds."""
    tenant, status = tenant_of(store, words), 0
    for address in words.addresses:
        length = store.has(tenant, address)
        if length is None:
            status = MISSING
        else:
            print(address, length)
    return status


def rm(store: Client, words: Any) -> int:
    """Stops holding objects for the tenant."""
    tenant, status = tenant_of(store, words), 0
    for address in words.addresses:
        try:
            store.forget(tenant, address)
        except Refused as fault:
            status = miss(f"{address}: {fault}")
    return status


def ls(store: Client, words: Any) -> None:
    """Prints the address and the length of each object that the tenant holds."""
    for row in store.list(tenant_of(store, words)).items():
        print(*row)


def tenants(store: Client, _: Any) -> None:
    for number, usage in store.tenants().items():
        print(f"tenant {number}", named(usage))


def journal(store: Client, words: Any) -> None:
    for entry in itertools.islice(store.journal(words.start), min(words.count, sys.maxsize)):
        print(one_line(entry))


def named(values: Any) -> str:
    """The values of a tuple, each after its name."""
    return " ".join(f"{name} {value}" for name, value in values._asdict().items())


def tenant_of(store: Client, words: Any) -> int:
    """The requested tenant: by default the first one, which is opened if there is none."""
    if "tenant" in words:
        return int(words.tenant)
    tenants = store.tenants()
    # another client may open one at the same time: both use the first
    return min(tenants) if tenants else min([store.tenant(), *store.tenants()])


def miss(text: str) -> int:
    """Reports what could not be done, and returns the exit status."""
    report(text)
    return MISSING


def address_argument(text: str) -> str:
    try:
        return check_address(text)
    except ValueError as fault:
        raise argparse.ArgumentTypeError(str(fault)) from None


def range_argument(text: str) -> Tuple[int, int]:
    start, colon, length = text.partition(":")
    if not colon:
        raise argparse.ArgumentTypeError(f"{text!r} is not FROM:LEN")
    return NUMBER(start or "0"), NUMBER(length or str(MAX_UPLOAD_LEN))


def add_common(parser: argparse.ArgumentParser, has_tenant: bool) -> None:
    """Adds the options that commands have before or after the command's name."""
    parser.add_argument("--socket", default=argparse.SUPPRESS, metavar="PATH", help="connect to this Unix-domain socket (default: B3STORE_SOCKET)")
    if has_tenant:
        parser.add_argument(
            "-T", "--tenant", type=NUMBER, default=argparse.SUPPRESS, metavar="N",
            help="use this tenant (default: the first, opened with a limit of half of this machine's memory if there is none)",
        )


def add_command(commands: Any, work: Callable[[Client, Any], Optional[int]], name: str, purpose: str, has_tenant: bool = True) -> Callable[..., Any]:
    """Adds a command, and returns a function that adds an argument to it."""
    parser = commands.add_parser(name, help=purpose, description=purpose[0].upper() + purpose[1:] + ".", formatter_class=Formatter)
    parser.set_defaults(work=work, has_tenant=has_tenant)
    add_common(parser, has_tenant)
    return parser.add_argument  # type: ignore[no-any-return]


def make_parser() -> argparse.ArgumentParser:
    parser = argparse.ArgumentParser("b3store-client", description="Use the store of a running b3store server.", epilog=EPILOG, formatter_class=Formatter)
    parser.add_argument("--version", action="version", version=f"b3store-client {__version__}")
    add_common(parser, True)
    commands = parser.add_subparsers(required=True, dest="command", metavar="COMMAND")
    add = add_command(commands, put, "put", "store files, and print their addresses")
    add("files", nargs="+", metavar="FILE", help="a file; - is standard input")
    add("--max-len", type=size, metavar="SIZE", help="reserve SIZE bytes, as 4G, and store the file as it is read (default for a pipe: read it first)")
    add = add_command(commands, get, "get", "write an object's bytes")
    add("address", type=address_argument, metavar="ADDRESS")
    add("-o", "--output", default="-", metavar="FILE", help="write to this file (default: -, standard output)")
    add("--follow", action="store_true", help="if FILE is a link, write to what it leads to")
    range_help = "write LEN bytes, starting at byte FROM; without LEN, all bytes from there on"
    add("--range", type=range_argument, default=(0, MAX_UPLOAD_LEN), metavar="FROM:LEN", help=range_help)
    add = add_command(commands, has, "has", "print which of these objects the tenant holds, with their lengths")
    add("addresses", nargs="+", type=address_argument, metavar="ADDRESS")
    add_command(commands, ls, "ls", "print the address and length of each object that the tenant holds")
    add = add_command(commands, rm, "rm", "stop holding objects for the tenant")
    add("addresses", nargs="+", type=address_argument, metavar="ADDRESS")
    opening = "open a tenant, which can't be closed, and print its number"
    limit: Any = {"type": size, "metavar": "LIMIT", "help": "how many bytes it may hold, as 512M or 4G"}
    add_command(commands, lambda store, words: print(store.tenant(words.limit)), "tenant", opening, False)("limit", **limit)
    add_command(commands, lambda store, words: store.limit(tenant_of(store, words), words.limit), "limit", "change the tenant's limit")("limit", **limit)
    using = "print what the tenant uses and reserves, and its limit"
    add_command(commands, lambda store, words: print(named(store.usage(tenant_of(store, words)))), "usage", using)
    add_command(commands, lambda store, _: print(named(store.stat())), "stat", "print what the store contains", False)
    add_command(commands, tenants, "tenants", "print what each tenant uses and reserves, and its limit", False)
    add = add_command(commands, journal, "journal", "print the journal's entries", False)
    add("--from", dest="start", type=NUMBER, default=0, metavar="N", help="start at entry N (default 0)")
    add("--count", type=NUMBER, default=MAX_NUMBER, metavar="N", help="print up to N entries")
    return parser


def run(arguments: Optional[List[str]] = None) -> int:
    """Runs the program, and lets exceptions pass."""
    parser = make_parser()
    words = parser.parse_args(arguments)
    if "tenant" in words and not words.has_tenant:
        parser.error(f"{words.command} takes no --tenant")
    path = getattr(words, "socket", os.environ.get("B3STORE_SOCKET"))
    # an empty one is the value of an unset variable
    if not path:
        parser.error("no server is named: use --socket PATH, or set B3STORE_SOCKET")
    with Client(path) as store:
        try:
            return int(words.work(store, words) or 0)
        except Refused as fault:
            return miss(str(fault))


if __name__ == "__main__":
    sys.exit(finish(run))
