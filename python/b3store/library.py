"""The library libb3store: where it is, and what its calls take and return (include/b3store.h)."""
import ctypes
import os
import re
import stat
import struct
from typing import Any, List, Sequence, Tuple

from .values import Refused, StoreError

FILE = "libb3store.so.1"
LAYOUTS = re.compile("(?s)(/.*)/(?:share/doc/b3store/python|lib/python3[^/]*/[^/]*-packages)/b3store")
"""Where `./install` and pip put the package, below a prefix."""
LEVEL = "x86-64-v3"
FLAGS_OF_LEVEL = {"abm", "avx", "avx2", "bmi1", "bmi2", "f16c", "fma", "movbe", "xsave"}


def has_level() -> bool:
    """Whether this machine's processors are of the level for which a prefix may have a faster library."""
    try:
        with open("/proc/cpuinfo", encoding="ascii", errors="replace") as file:
            return FLAGS_OF_LEVEL <= set(next((line for line in file if line.startswith("flags")), "").split())
    except OSError:
        return False


def paths() -> List[str]:
    """The paths at which the library is looked for, in this order: the one that is set; in the package; below the package's prefix, or in the clone that the
    package is in; where the loader finds it."""
    if given := os.environ.get("B3STORE_LIBRARY"):
        return [given]
    package = os.path.dirname(os.path.realpath(__file__))
    installed = LAYOUTS.fullmatch(package)
    top = installed[1] if installed else os.path.dirname(os.path.dirname(package))
    folders = [*[f"lib/glibc-hwcaps/{LEVEL}"] * has_level(), "lib"] if installed else ["target"]
    # in a folder such as /tmp, another user could make them
    is_safe = not os.stat(top).st_mode & stat.S_IWOTH
    return [os.path.join(package, FILE), *(os.path.join(top, folder, FILE) for folder in folders if is_safe), FILE]


def load(functions: Sequence[str]) -> Tuple[Any, Any]:
    """The library that has these functions, twice: calls of the first let other threads run, and those of the second don't. Raises OSError."""
    faults = []
    for path in paths():
        try:
            found = ctypes.CDLL(path), ctypes.PyDLL(path)
            for function in functions:
                getattr(found[0], function)
            return found
        except (AttributeError, OSError) as fault:
            faults.append(str(fault))
    raise OSError(f"there is no libb3store ({'; '.join(faults)}): install it by `./install`, or set B3STORE_LIBRARY to its path")


U64, SIZE, Handle = ctypes.c_uint64, ctypes.c_size_t, ctypes.c_void_p
NONE = (1 << 64) - 1
"""The number of no upload."""


class PyBuffer(ctypes.Structure):
    """Python's own description of a buffer."""

    _fields_ = [("at", ctypes.c_void_p), ("others", ctypes.c_void_p * 9)]


# not attributes of `pythonapi`: all modules of a process share those, and set the types of their arguments
get_buffer, release_buffer, new_bytes = map(ctypes.pythonapi.__getitem__, ("PyObject_GetBuffer", "PyBuffer_Release", "PyBytes_FromStringAndSize"))
get_buffer.argtypes = [ctypes.py_object, ctypes.POINTER(PyBuffer), ctypes.c_int]
release_buffer.argtypes, release_buffer.restype = [ctypes.POINTER(PyBuffer)], None
new_bytes.argtypes, new_bytes.restype = [ctypes.c_void_p, ctypes.c_ssize_t], ctypes.py_object


def address_of(view: memoryview) -> int:
    """Where the bytes of a view are. They stay there as long as the view exists."""
    buffer = PyBuffer()
    try:
        get_buffer(view, buffer, 0)
        return buffer.at or 0
    finally:
        release_buffer(buffer)


class Result:
    """The memory for what a call stores."""

    def __init__(self, form: str) -> None:
        self._form = struct.Struct(form)
        self._room = ctypes.create_string_buffer(self._form.size)
        self.at = ctypes.byref(self._room)

    def read(self) -> Any:
        """The fields that were stored."""
        return self._form.unpack(self._room)


SEALED, WHY, PROGRESS, BOUND = "=32sI", "=Q32s", "=QQI4x", "=QI4x"
"""The forms of what calls store: a filed object, what a refusal carries, what an upload holds, and for which uploads its parts are prepared."""

WRONG_ADDRESS, FIRST_OF_PARTS, LAST_OF_PARTS, NO_PART_MEMORY, CLOSED, ANSWER_LOST = 11, 33, 38, 41, 64, 68
LABELS = {4: "use", 6: "free", 9: "at", 10: "missing", 15: "end"}
"""What the number of a refusal is."""


def refusal_of(answer: int, number: int = 0, address: bytes = b"") -> Exception:
    """The error for what a call answers, other than 0, and for what the refusal carries."""
    if answer == WRONG_ADDRESS:
        return Refused("S11", address.hex(), "found")
    if answer in LABELS:
        return Refused(f"S{answer}", number, LABELS[answer])
    if answer < FIRST_OF_PARTS:
        return Refused(f"S{answer}")
    if answer <= LAST_OF_PARTS:
        return Refused(f"F{answer - FIRST_OF_PARTS + 1}")
    others = {NO_PART_MEMORY: Refused("S14"), CLOSED: ValueError("the store is closed, or was opened before a fork"), ANSWER_LOST: MemoryError()}
    return others.get(answer) or StoreError(f"the library answers {answer}")
