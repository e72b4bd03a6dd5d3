"""A plain BLAKE3 in its three modes, written from its specification alone. Slow: about two milliseconds for a KiB."""
import struct

IV = (0x6A09E667, 0xBB67AE85, 0x3C6EF372, 0xA54FF53A, 0x510E527F, 0x9B05688C, 0x1F83D9AB, 0x5BE0CD19)
ORDER = (2, 6, 3, 10, 7, 0, 4, 13, 1, 11, 12, 5, 9, 14, 15, 8)
COLUMNS = ((0, 4, 8, 12), (1, 5, 9, 13), (2, 6, 10, 14), (3, 7, 11, 15))
DIAGONALS = ((0, 5, 10, 15), (1, 6, 11, 12), (2, 7, 8, 13), (3, 4, 9, 14))
CHUNK_START, CHUNK_END, PARENT, ROOT, KEYED_HASH, DERIVE_KEY_CONTEXT, DERIVE_KEY_MATERIAL = (1 << bit for bit in range(7))
MASK = 0xFFFFFFFF
HASH = (IV, 0)
known = {}


def turned(word, by):
    return (word >> by | word << (32 - by)) & MASK


def mix(v, places, x, y):
    a, b, c, d = places
    v[a] = (v[a] + v[b] + x) & MASK
    v[d] = turned(v[d] ^ v[a], 16)
    v[c] = (v[c] + v[d]) & MASK
    v[b] = turned(v[b] ^ v[c], 12)
    v[a] = (v[a] + v[b] + y) & MASK
    v[d] = turned(v[d] ^ v[a], 8)
    v[c] = (v[c] + v[d]) & MASK
    v[b] = turned(v[b] ^ v[c], 7)


def compressed(value, block, counter, flags):
    """The sixteen words of a compression of a block of at most 64 bytes."""
    words = struct.unpack("<16I", block.ljust(64, b"\0"))
    v = list(value) + list(IV[:4]) + [counter & MASK, counter >> 32, len(block), flags]
    for _ in range(7):
        for at, places in enumerate(COLUMNS + DIAGONALS):
            mix(v, places, words[2 * at], words[2 * at + 1])
        words = tuple(words[at] for at in ORDER)
    return tuple(v[at] ^ v[at + 8] for at in range(8)) + tuple(v[at + 8] ^ value[at] for at in range(8))


# A mode is its key words, and the flag that each of its compressions has. A node is what its last compression takes, before it is
# known whether the node is the root.


def keyed(key):
    """The keyed mode, with a key of 32 bytes."""
    return struct.unpack("<8I", key), KEYED_HASH


def derived(context):
    """The derive mode, in this context."""
    return struct.unpack("<8I", output_of(context, 32, (IV, DERIVE_KEY_CONTEXT))), DERIVE_KEY_MATERIAL


def chunk_node(data, number, mode):
    blocks = [data[at : at + 64] for at in range(0, len(data), 64)] or [b""]
    (value, flag), start = mode, CHUNK_START
    for block in blocks[:-1]:
        value, start = compressed(value, block, number, flag | start)[:8], 0
    return value, blocks[-1], number, flag | start | CHUNK_END


def tree_node(data, number, mode):
    if len(data) <= 1024:
        return chunk_node(data, number, mode)
    side = 1024
    while 2 * side < len(data):
        side *= 2
    left = compressed(*tree_node(data[:side], number, mode))[:8]
    right = compressed(*tree_node(data[side:], number + side // 1024, mode))[:8]
    return mode[0], struct.pack("<16I", *left, *right), 0, mode[1] | PARENT


def output_of(data, length, mode=HASH):
    """The first bytes of the extended output of bytes."""
    value, block, _, flags = tree_node(data, 0, mode)
    rows = (compressed(value, block, at, flags | ROOT) for at in range(-(-length // 64)))
    return b"".join(struct.pack("<16I", *row) for row in rows)[:length]


def address_of(data):
    """The hash of bytes, as 64 digits."""
    if data not in known:
        known[data] = output_of(data, 32).hex()
    return known[data]
