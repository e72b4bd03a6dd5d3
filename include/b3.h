/* BLAKE3. An example in ten lines:
 *
 *     #include <b3.h>
 *     #include <stdio.h>
 *     int main(void) {
 *         uint8_t hash[B3_HASH_LEN];
 *         b3_hash((const uint8_t *)"abc", 3, hash);
 *         for (size_t i = 0; i < sizeof hash; i++)
 *             printf("%02x", hash[i]);
 *         puts("");
 *         return 0;
 *     }
 *
 * Build it with `cc abc.c $(pkg-config --cflags --libs b3) -o abc`.
 *
 * The library is proved: for every input, each call writes what the specification of BLAKE3 defines (O'Connor, Aumasson, Neves and
 * Wilcox-O'Hearn, 2020; the sections below are those of this specification). docs/PROOF.md says what is proved and what isn't.
 *
 * A call returns B3_DONE or a number that says what is wrong, or nothing if nothing can be wrong. If several things are wrong, it returns
 * the first in the order stated at the call. If it returns anything but B3_DONE, nothing that was passed to it has changed.
 *
 * Bytes are passed as a pointer and a length, which may be 0. No pointer may be null, even if the length is 0. What a call writes, the
 * output and the count, must not overlap anything else that is passed to it. A call allocates nothing, keeps no state, and accesses
 * only what is passed to it, so calls may run at the same time if none writes what another one reads or writes.
 *
 * `compressions` is a count that the caller owns. A successful call adds the number of compressions that it made; the count saturates
 * at 2^64-1. If you don't need it, pass B3_NO_COUNT: this pointer must not be null either, since the proofs are about references, which
 * are never null. For bytes that are all in memory there are calls without a count. */
#ifndef B3_H
#define B3_H

#include <stddef.h>
#include <stdint.h>

/* The version of this header. A program that was built with it can run with any library of the same major version that isn't older. */
#define B3_VERSION "1.0.0"
#define B3_VERSION_MAJOR 1
#define B3_VERSION_MINOR 0
#define B3_VERSION_PATCH 0
#define B3_VERSION_NUMBER (1000000 * B3_VERSION_MAJOR + 1000 * B3_VERSION_MINOR + B3_VERSION_PATCH)

/* For `compressions`, if you don't need the count. The pointer is valid at least until the call returns. */
#ifdef __cplusplus
struct b3_no_count {
    uint64_t count;
    operator uint64_t *() { return &count; }
};
#define B3_NO_COUNT (b3_no_count())
#else
#define B3_NO_COUNT (&(uint64_t){0})
#endif

#ifdef __cplusplus
extern "C" {
#endif

/* Returns the version of the library that runs, in the form of B3_VERSION_NUMBER. */
uint32_t b3_version(void);

/* What a call returns. */
#define B3_DONE 0         /* Success. */
#define B3_BAD_OUTPUT 1   /* The output doesn't have the length that the call writes. */
#define B3_BAD_KEY 2      /* There is no such mode, or the key doesn't have the length that the mode requires. */
#define B3_BAD_POSITION 3 /* The requested bytes extend past the 2^64-1 bytes of the output. */
#define B3_BAD_SUBTREE 4  /* The bytes are not a subtree at this place of an input of fewer than 2^64 bytes. */
#define B3_BAD_HASHER 5   /* `hasher` is not a hasher. */

/* The modes (section 2.3). */
#define B3_HASH 0       /* hash, with a key of no bytes */
#define B3_KEYED_HASH 1 /* keyed_hash, with a key of B3_KEY_LEN bytes */
#define B3_DERIVE_KEY 2 /* derive_key, with a context of any length in place of the key */

#define B3_HASH_LEN 32    /* the bytes of a hash */
#define B3_KEY_LEN 32     /* the bytes of a key */
#define B3_CHUNK_LEN 1024 /* the bytes of a chunk (section 2.4) */

/* ---- Bytes that are all in memory
 *
 * Each call has a form without a count, an inline function that makes the counted call with B3_NO_COUNT. */

/* Writes the hash of `bytes` (sections 2.1 to 2.5). With a count: B3_BAD_OUTPUT if `out_len` is not B3_HASH_LEN. */
uint32_t b3_hash_counted(const uint8_t *bytes, size_t len, uint8_t *out, size_t out_len, uint64_t *compressions);
static inline void b3_hash(const uint8_t *bytes, size_t len, uint8_t out[B3_HASH_LEN]) {
    b3_hash_counted(bytes, len, out, B3_HASH_LEN, B3_NO_COUNT);
}

/* Writes the keyed hash of `bytes` (section 2.3). With a count: B3_BAD_KEY if `key_len` is not B3_KEY_LEN; B3_BAD_OUTPUT if `out_len` is
 * not B3_HASH_LEN. */
uint32_t b3_keyed_hash_counted(const uint8_t *key, size_t key_len, const uint8_t *bytes, size_t len, uint8_t *out, size_t out_len,
                               uint64_t *compressions);
static inline void b3_keyed_hash(const uint8_t key[B3_KEY_LEN], const uint8_t *bytes, size_t len, uint8_t out[B3_HASH_LEN]) {
    b3_keyed_hash_counted(key, B3_KEY_LEN, bytes, len, out, B3_HASH_LEN, B3_NO_COUNT);
}

/* Writes the key derived from the key material `bytes` in a context (section 2.3). A context is a text that only one application uses,
 * for one purpose, such as "example.com 2026-11-26 session tokens". With a count: B3_BAD_OUTPUT if `out_len` is not B3_HASH_LEN. */
uint32_t b3_derive_key_counted(const uint8_t *context, size_t context_len, const uint8_t *bytes, size_t len, uint8_t *out,
                               size_t out_len, uint64_t *compressions);
static inline void b3_derive_key(const uint8_t *context, size_t context_len, const uint8_t *bytes, size_t len,
                                 uint8_t out[B3_HASH_LEN]) {
    b3_derive_key_counted(context, context_len, bytes, len, out, B3_HASH_LEN, B3_NO_COUNT);
}

/* Writes `out_len` bytes of the extended output of `bytes` (section 2.6), starting at byte `position`, in the mode B3_HASH,
 * B3_KEYED_HASH or B3_DERIVE_KEY with its key or context. The first 32 bytes of the output are the hash. B3_BAD_POSITION if the sum of
 * `position` and `out_len` exceeds 2^64-1; B3_BAD_KEY if there is no such mode or its key has another length. */
uint32_t b3_extended_counted(uint32_t mode, const uint8_t *key, size_t key_len, const uint8_t *bytes, size_t len, uint64_t position,
                             uint8_t *out, size_t out_len, uint64_t *compressions);
static inline uint32_t b3_extended(uint32_t mode, const uint8_t *key, size_t key_len, const uint8_t *bytes, size_t len,
                                   uint64_t position, uint8_t *out, size_t out_len) {
    return b3_extended_counted(mode, key, key_len, bytes, len, position, out, out_len, B3_NO_COUNT);
}

/* ---- Bytes that arrive in pieces
 *
 * A hasher takes bytes as they arrive, in pieces of any length. This hashes a file, if `read_piece` returns the number of bytes that it
 * read, and 0 at the end:
 *
 *     b3_hasher hasher;
 *     b3_hasher_init(&hasher, B3_HASH, key, 0, &count);
 *     while ((len = read_piece(piece)) > 0)
 *         b3_hasher_update(&hasher, piece, len, &count);
 *     b3_hasher_finalize(&hasher, hash, B3_HASH_LEN, &count);
 *
 * Pieces of 64 KiB or more are hashed the fastest. All updates and the final call together make the compressions of the hash.
 *
 * To reset a hasher, call b3_hasher_init again. To reset it without hashing its context again, copy the hasher after b3_hasher_init,
 * and assign the copy: `hasher = fresh;`. */

/* A hasher, in the caller's own memory. It owns no other memory, so there is nothing to free. A copy of the struct is an independent
 * hasher of the same bytes. A hasher contains the key of the mode and bytes of the input: treat it as a secret if they are secret. Its
 * fields are private to the library. */
typedef struct b3_hasher {
    uint32_t key[8];
    uint32_t flag;
    struct {
        struct {
            struct {
                uint32_t level;
                struct {
                    uint32_t chaining_value[8];
                    uint32_t block_words[16];
                    uint64_t counter;
                    uint32_t block_len;
                    uint8_t flags;
                } top;
            } places[54];
            uint32_t len;
        } subtrees;
        uint64_t whole;
        struct {
            uint32_t len;
            uint8_t places[1024];
        } tail;
    } kept;
} b3_hasher;

/* Initializes a hasher, or resets it: it has been given no bytes, in the mode B3_HASH, B3_KEYED_HASH or B3_DERIVE_KEY with its key or
 * context (section 2.3). The previous contents of `hasher` don't matter. B3_BAD_KEY if there is no such mode or its key has another
 * length. */
uint32_t b3_hasher_init(b3_hasher *hasher, uint32_t mode, const uint8_t *key, size_t key_len, uint64_t *compressions);

/* Gives bytes to the hasher, after those that it was given before; fewer than 2^64 in all (sections 2.1, 2.4 and 2.5). B3_BAD_HASHER if
 * `hasher` has contents that no hasher can have, for example because b3_hasher_init never initialized it. That is not always noticed;
 * if it isn't, the hash has no meaning, but no call accesses memory that wasn't passed to it. */
uint32_t b3_hasher_update(b3_hasher *hasher, const uint8_t *bytes, size_t len, uint64_t *compressions);

/* Writes the hash of all bytes that the hasher was given. The hasher doesn't change, and can be given more bytes. B3_BAD_OUTPUT if
 * `out_len` is not B3_HASH_LEN; B3_BAD_HASHER as above. */
uint32_t b3_hasher_finalize(const b3_hasher *hasher, uint8_t *out, size_t out_len, uint64_t *compressions);

/* Writes `out_len` bytes of the extended output of all bytes that the hasher was given (section 2.6), starting at byte `position`. The
 * hasher doesn't change. B3_BAD_POSITION if the sum of `position` and `out_len` exceeds 2^64-1; B3_BAD_HASHER as above. */
uint32_t b3_hasher_extended(const b3_hasher *hasher, uint64_t position, uint8_t *out, size_t out_len, uint64_t *compressions);

/* ---- The tree node by node, for the caller's own threads (sections 2.1, 2.4 and 2.5)
 *
 * An input is split into chunks of 1024 bytes, of which the last may be shorter. 2^k chunks are a subtree, and so are the chunks after
 * them if they are at most 2^k and end the input: the two are the children of one parent. Every node but the root has a chaining value;
 * the root of more than one chunk has the hash.
 *
 * The key is that of the mode keyed_hash, B3_KEY_LEN bytes, or a key of no bytes for the mode hash; all nodes of a tree have the same
 * key. A key of any other length is B3_BAD_KEY. There are no such calls for the mode derive_key.
 *
 * No call starts threads, and only one thread at a time may update a hasher. To hash bytes in memory by several threads, split them
 * into spans. Below, SPAN is B3_CHUNK_LEN times a power of two, such as 1 << 20; there are `len` bytes, more than SPAN; and `values`
 * has room for a b3_value for each span. With `cc -fopenmp` the threads of OpenMP hash the spans, otherwise one thread does. Any other
 * threads can hash them too, in any order:
 *
 *     size_t n = (len + SPAN - 1) / SPAN;
 *     #pragma omp parallel for
 *     for (size_t i = 0; i < n; i++) {
 *         size_t start = i * SPAN, span_len = len - start < SPAN ? len - start : SPAN;
 *         b3_subtree(key, key_len, bytes + start, span_len, start / B3_CHUNK_LEN, &values[i], B3_NO_COUNT);
 *     }
 *     for (; n > 2; n = (n + 1) / 2)
 *         for (size_t i = 0; i < n; i += 2)
 *             if (i + 1 < n)
 *                 b3_parent(key, key_len, values[i], values[i + 1], &values[i / 2], B3_NO_COUNT);
 *             else
 *                 values[i / 2] = values[i];
 *     b3_root(key, key_len, values[0], values[1], hash, B3_HASH_LEN, B3_NO_COUNT);
 *
 * The second loop replaces pairs of neighbours by their parents, until two nodes are left. */

/* The chaining value of a node: the first 8 words of its compression (section 2.4). */
typedef struct b3_value {
    uint32_t words[8];
} b3_value;

/* Writes the chaining value of the subtree `bytes`, which `number` chunks precede. B3_BAD_KEY by the rule above; B3_BAD_SUBTREE if
 * `number` is not a multiple of the smallest power of two that is at least the number of chunks of `bytes`, if there are no bytes and
 * `number` is not 0, or if `number` chunks and `bytes` are 2^64 bytes or more. It makes as many compressions as the hash of `bytes`.
 *
 * No call can check whether a shorter last chunk, or a number of chunks that is not a power of two, is really at the end of the input:
 * anywhere else, the chaining value is not that of a node of the tree. */
uint32_t b3_subtree(const uint8_t *key, size_t key_len, const uint8_t *bytes, size_t len, uint64_t number, b3_value *value,
                    uint64_t *compressions);

/* Writes the chaining value of the parent of two nodes with these chaining values. B3_BAD_KEY by the rule above. It makes one
 * compression. */
uint32_t b3_parent(const uint8_t *key, size_t key_len, b3_value left, b3_value right, b3_value *value, uint64_t *compressions);

/* Writes the hash of the input whose root is the parent of two nodes with these chaining values. B3_BAD_KEY by the rule above;
 * B3_BAD_OUTPUT if `out_len` is not B3_HASH_LEN. It makes one compression. An input of one chunk has no such root: use b3_hash or
 * b3_keyed_hash. */
uint32_t b3_root(const uint8_t *key, size_t key_len, b3_value left, b3_value right, uint8_t *out, size_t out_len,
                 uint64_t *compressions);

#ifdef __cplusplus
}
#endif

#endif
