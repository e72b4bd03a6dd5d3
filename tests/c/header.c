/* Runs the code in the comments of include/b3.h but the first, which the program `run` takes from there: hasher.inc and threads.inc. Writes the
 * hash of standard input, of more than SPAN bytes, by a hasher and then by threads. */
#include "b3.h"
#include <stdio.h>
#include <string.h>

enum { PIECE = 1 << 16, SPAN = 16 * B3_CHUNK_LEN, MOST = 1 << 22 };

static const uint8_t key[1];
static uint8_t input[MOST];
static size_t input_len, read_so_far;

static size_t read_piece(uint8_t *piece) {
    size_t left = input_len - read_so_far, len = left < PIECE ? left : PIECE;
    memcpy(piece, input + read_so_far, len);
    read_so_far += len;
    return len;
}

static void hash_by_hasher(uint8_t *hash) {
    static uint8_t piece[PIECE];
    uint64_t count = 0;
    size_t len;
#include "hasher.inc"
}

static void hash_by_threads(const uint8_t *bytes, size_t len, uint8_t *hash) {
    static b3_value values[MOST / SPAN];
    size_t key_len = 0;
#include "threads.inc"
}

int main(void) {
    uint8_t hash[B3_HASH_LEN];
    input_len = fread(input, 1, MOST, stdin);
    for (int way = 0; way < 2; way++) {
        if (way == 0)
            hash_by_hasher(hash);
        else
            hash_by_threads(input, input_len, hash);
        for (size_t j = 0; j < sizeof hash; j++)
            printf("%02x", hash[j]);
        puts("");
    }
    return 0;
}
