"""BLAKE3 with the library libb3store, and with the interface of hashlib's objects.

    >>> from b3store.hashing import blake3
    >>> blake3(b"abc").hexdigest()
    '6437b3ac38465133ffb63b75273a8db548c558465d79db03fd359c6cd5bd9d85'

`./install` installs the library; the environment variable B3STORE_LIBRARY names another one, which may be libb3. Without one, importing this module raises
ImportError. Hashing more than 4 KiB lets other threads run."""
import ctypes
import sys
from typing import Any, BinaryIO, Optional

from .library import SIZE, U64, address_of, load
from .transfers import parts_of
from .values import Buffer, check_bytes, check_number

SMALL_LEN = 1 << 12
"""Up to this many bytes are kept, and hashed by one call that keeps the interpreter's lock."""
HASH_LEN, KEY_LEN, START = 32, 32, 0
HASH, KEYED_HASH, DERIVE_KEY = range(3)
FAULTS = {1: "the output has the wrong length", 2: "the key has the wrong length", 3: "the bytes are past the output's end"}

try:
    WHOLE = tuple(f"b3_{name}_counted" for name in ("hash", "keyed_hash", "derive_key", "extended"))
    library, small_library = load((*WHOLE, "b3_hasher_init", "b3_hasher_update", "b3_hasher_extended"))
except OSError as fault:
    raise ImportError(str(fault)) from None

Hasher: Any = ctypes.c_uint64 * 946
"""The memory of a hasher, whose fields are the library's."""
Output: Any = ctypes.c_char * HASH_LEN

small_hash: Any = small_library.b3_hash_counted
small_hashes: Any = {KEYED_HASH: small_library.b3_keyed_hash_counted, DERIVE_KEY: small_library.b3_derive_key_counted}
OUTPUT_SIZE = SIZE(HASH_LEN)
SMALL_COUNT = ctypes.byref(U64())
"""All calls that keep the interpreter's lock can share it."""


def call(function: Any, *words: Any) -> None:
    """Calls a function of the library with its own count. Raises ValueError if it reports a fault."""
    answer = function(*words, ctypes.byref(U64()))
    if answer:
        raise ValueError(FAULTS[answer])


class blake3:  # named as hashlib's classes are
    """The hash of the bytes given to it and to `update`: the keyed one with a `key` of 32 bytes, a derived key with a `context`, a str. Raises
    TypeError or ValueError for anything else. Threads that share one have to take turns."""

    __slots__ = ("_mode", "_word", "_kept", "_hasher")
    name = "blake3"
    digest_size = HASH_LEN
    block_size = 64

    def __init__(self, data: Buffer = b"", *, key: Optional[Buffer] = None, context: Optional[str] = None) -> None:
        if key is None and context is None:
            self._mode, self._word = HASH, b""
        else:
            self._mode, self._word = keyed(key, context)
        self._hasher: Any = None
        if type(data) is bytes and len(data) <= SMALL_LEN:
            self._kept = data
        else:
            self._kept = b""
            self.update(data)

    def copy(self) -> "blake3":
        """Returns a copy, which is updated on its own."""
        other = blake3.__new__(blake3)
        other._mode, other._word, other._kept = self._mode, self._word, self._kept
        other._hasher = None if self._hasher is None else Hasher.from_buffer_copy(self._hasher)
        return other

    __copy__ = copy

    def update(self, data: Buffer) -> None:
        """Adds bytes after those of earlier calls. Raises TypeError."""
        if self._hasher is None:
            if type(data) is bytes and len(self._kept) + len(data) <= SMALL_LEN:
                self._kept += data
                return
            check_bytes(data)
            hasher = Hasher()
            call(library.b3_hasher_init, hasher, self._mode, self._word, SIZE(len(self._word)))
            call(library.b3_hasher_update, hasher, self._kept, SIZE(len(self._kept)))
            self._hasher, self._kept = hasher, b""
        view = check_bytes(data)
        call(library.b3_hasher_update, self._hasher, ctypes.c_void_p(address_of(view)), SIZE(view.nbytes))

    def digest(self, length: int = HASH_LEN, *, position: int = 0) -> bytes:
        """Returns the hash, or `length` bytes of the extended output from a position on. Raises TypeError or ValueError."""
        if self._hasher is None and length is HASH_LEN and position is START:
            out, kept = Output(), self._kept
            if self._mode:
                fault = small_hashes[self._mode](self._word, SIZE(len(self._word)), kept, SIZE(len(kept)), out, OUTPUT_SIZE, SMALL_COUNT)
            else:
                fault = small_hash(kept, SIZE(len(kept)), out, OUTPUT_SIZE, SMALL_COUNT)
            if fault:
                raise ValueError(FAULTS[fault])
            return bytes(out.raw)
        length, position = check_number("length", length, 0, sys.maxsize), check_number("position", position)
        out = ctypes.create_string_buffer(max(length, 1))
        if self._hasher is not None:
            call(library.b3_hasher_extended, self._hasher, U64(position), out, SIZE(length))
        else:
            word, kept = self._word, self._kept
            call(library.b3_extended_counted, self._mode, word, SIZE(len(word)), kept, SIZE(len(kept)), U64(position), out, SIZE(length))
        return out.raw[:length]

    def hexdigest(self, length: int = HASH_LEN, *, position: int = 0) -> str:
        """Returns the same as hexadecimal digits."""
        return self.digest(length, position=position).hex()


def keyed(key: Optional[Buffer], context: Optional[str]) -> Any:
    """The mode of a key or of a context, and its bytes."""
    if key is not None and context is not None:
        raise ValueError("give a key or a context, not both")
    if key is not None:
        word = bytes(check_bytes(key))
        if len(word) != KEY_LEN:
            raise ValueError(f"a key has {KEY_LEN} bytes, and not {len(word)}")
        return KEYED_HASH, word
    if not isinstance(context, str):
        raise TypeError(f"a context must be a str, not {type(context).__name__}")
    return DERIVE_KEY, context.encode()


def file_digest(file: BinaryIO) -> bytes:
    """Returns the hash of a file's bytes from its position on. Raises OSError, BlockingIOError if it is not in blocking mode and has no bytes, and TypeError if
    it doesn't return bytes."""
    if not hasattr(file, "read"):
        raise TypeError(f"a file must be open for reading bytes, unlike {type(file).__name__}")
    hasher = blake3()
    for part in parts_of(file):
        hasher.update(part)
    return hasher.digest()
