"""The values of a store's commands: constants, errors, what commands return, and the checks of their arguments."""
import functools
import operator
import os
import re
from typing import Any, List, NamedTuple, Optional, Union

Buffer = Any
"""bytes, or any object with a contiguous buffer: bytearray, memoryview, array, mmap, a numpy array."""

CHUNK_LEN = 1024
"""Each part starts at a multiple of this, and its length is a multiple of this too, unless it is an upload's last part."""
MAX_PART_LEN, MAX_UPLOAD_LEN, MAX_LIMIT = 1 << 24, 1 << 44, 1 << 46
"""The maximum length of a part and of an upload, and the maximum limit of a tenant, in bytes."""
MAX_NUMBER, MAX_SESSIONS = (1 << 64) - 1, 64
"""The maximum of every number that a command takes, and of a store's sessions."""
PART_LEN, RANGE_LEN = 1 << 20, 1 << 18
"""The length of the parts that an upload is split into, and the default length of the ranges in which an object is read."""
MAX_REDONE = 1 << 12
"""The maximum number of entries that one answer of `redo` is for."""

FILED = "(new|known) A L"
ADDRESS = re.compile("[0-9a-fA-F]{64}")

REFUSALS = {
    "S1": "there is no such tenant",
    "S2": "there are already as many tenants as allowed",
    "S3": "the limit is above 2^46 bytes",
    "S4": "the new limit is below the tenant's use and reservation",
    "S5": "the upload's length or bound is above 2^44 bytes, or its end is above its bound",
    "S6": "the tenant has too few bytes left",
    "S7": "there is no such open upload",
    "S8": "the part was made for an upload of another length or bound, or of the other kind",
    "S9": "a byte of the part is covered already",
    "S10": "a byte of the upload is not covered",
    "S11": "the content has another address",
    "S12": "the tenant holds no such object",
    "S13": "the journal is full",
    "S14": "out of memory",
    "S15": "the part, or the end, does not agree with what the upload holds",
    "S16": "the upload's end is not fixed",
    "F2": "the part has no bytes",
    "F3": "the part's offset is not a multiple of 1024",
    "F4": "the part ends past the upload's bound",
    "F5": "the part's length is not a multiple of 1024, and it doesn't end with the upload",
    "F6": "the part has more than 2^24 bytes",
}
"""What each refusal means, as docs/PROTOCOL.md says."""


class StoreError(Exception):
    """The base class of the errors of this package."""


class Refused(StoreError):
    """The store refused a command, which changed nothing. The connection can still be used."""

    def __init__(self, number: str, value: Union[int, str, None] = None, label: Optional[str] = None) -> None:
        super().__init__(number, value, label)
        self.number = number
        """The name of the refusal, such as `S6`; `REFUSALS` has its meaning."""
        self.value = value
        """What the refusal carries: a number, an address, or None."""
        self.label = label
        """What `value` is, such as `free`."""

    def __str__(self) -> str:
        meaning = REFUSALS.get(self.number, "the command was refused")
        return f"{self.number}: {meaning}" + ("" if self.value is None else f" ({self.label} {self.value})")


class Ended(StoreError):
    """The connection to a server can't be used any more, and every later call raises the same error. Either the server has ended, or it sent something that is
    not an answer, or an exception interrupted a command."""


class Held(NamedTuple):
    """What an upload holds after a part."""

    bytes: int
    missing: Optional[int]
    """The smallest offset that is missing, or None."""


class Filed(NamedTuple):
    """An object that was filed."""

    is_new: bool
    """False if the store already had this object."""
    address: str
    length: int


class Usage(NamedTuple):
    """A tenant's bytes."""

    used: int
    reserved: int
    limit: int


class Totals(NamedTuple):
    """What a store contains."""

    objects: int
    bytes: int
    uploads: int
    held: int
    """The bytes that open uploads cover."""
    parts: int
    """The number of parts that open uploads have."""


class Counts(NamedTuple):
    """How many entries a store's journal has and how many tenants there are, and what the store contains."""

    entries: int
    tenants: int
    objects: int
    bytes: int
    uploads: int
    held: int
    parts: int


class OpenUpload(NamedTuple):
    """An upload that is neither sealed nor aborted."""

    number: int
    bound: int
    end: Optional[int]
    """Its end, or None while that is not fixed."""
    held: int


class ObjectRow(NamedTuple):
    """An object that a tenant holds."""

    address: str
    length: int


class ObjectPage(NamedTuple):
    """Some of the objects that a tenant holds."""

    next: int
    """The number to ask for the following ones from."""
    objects: List[ObjectRow]


class Redone(NamedTuple):
    """What redoes some entries of the journal."""

    next: int
    """The number of the entry after them."""
    lines: bytes
    """Lines of a session, and the bytes that follow some of them: what `Store.run_lines` takes."""


def half_of_memory() -> int:
    """Half of this machine's memory, in bytes: by default, what a server's store may take, and the limit of a tenant."""
    return os.sysconf("SC_PHYS_PAGES") * os.sysconf("SC_PAGE_SIZE") // 2


def check_number(name: str, value: Any, min_value: int = 0, max_value: int = MAX_NUMBER) -> int:
    """Returns an argument that must be an integer in a range. Raises TypeError or ValueError."""
    if type(value) is int and min_value <= value <= max_value:
        return value
    try:
        number = int(operator.index(value))
    except TypeError:
        raise TypeError(f"{name} must be an integer, not {type(value).__name__}") from None
    if not min_value <= number <= max_value:
        raise ValueError(f"{name} must be from {min_value} to {max_value}")
    return number


def check_address(value: Any) -> str:
    """Returns an argument that must be an object's address. Raises TypeError or ValueError."""
    if not isinstance(value, str):
        raise TypeError(f"an address must be a str, not {type(value).__name__}")
    if not ADDRESS.fullmatch(value):
        raise ValueError(f"an address has 64 hexadecimal digits, unlike {value[:100]!r}")
    return str.__str__(value)


def check_bytes(content: Any) -> memoryview:
    """Returns a view of the bytes of an argument that must have a contiguous buffer. Raises TypeError."""
    try:
        view = memoryview(content)
        # a view of no bytes may have a shape that can't be cast
        return view.cast("B") if view.nbytes else memoryview(bytearray())
    except TypeError:
        raise TypeError(f"content must be bytes or a contiguous buffer, not {type(content).__name__}") from None


def check_room(room: Any) -> memoryview:
    """Returns a view of an argument that must be a writable buffer. Raises TypeError."""
    view = check_bytes(room)
    if view.readonly:
        raise TypeError("the buffer to read into must be writable")
    return view


@functools.lru_cache(maxsize=None)
def pattern_of(form: str) -> "re.Pattern[str]":
    """The pattern of an answer's form."""
    return re.compile(form.replace("N", "([0-9]{1,20})").replace("L", "([0-9]{1,14})").replace("A", "([0-9a-f]{64})"))


def parse(form: str, line: str) -> List[Any]:
    """The values in a line of an answer, which has a form: a pattern in which N is for a number, L for an object's length, and A for an address. Raises
    ValueError for any other line."""
    found = pattern_of(form).fullmatch(line)
    if not found:
        raise ValueError(f"{line[:60]!r} has another form than {form!r}")
    # an address may have digits alone
    return [int(text) if text and text.isdigit() and len(text) < 64 else text for text in found.groups()]
