/* What calls.c and hashers.c share. Standard input has a line for each length of an input of the bytes 0, 1, .., 250, 0, ..: the length, and
 * 131 bytes of the extended output in the modes hash, keyed_hash and derive_key, in hexadecimal digits. The arguments are the key, of 32
 * characters, and the context. Inputs and outputs end where memory ends, so that a byte too far is a fault. The last line that is
 * written is `N passed, M failed`. */
#include "b3.h"
#include <pthread.h>
#include <stdio.h>
#include <stdlib.h>
#include <string.h>
#include <sys/mman.h>
#include <unistd.h>

enum { MOST = 102400, TOLD = 131, THREADS = 2, ROUNDS = 200 };

static const uint8_t *key, *context;
static size_t context_len;
static uint8_t *input_end, *output_end;
static long passed, failed;

static void shows(int holds, const char *what, size_t len) {
    if (holds) {
        passed++;
    } else {
        failed++;
        printf("FAILED %s of %zu\n", what, len);
    }
}

/* Where so many bytes end and nothing can be read or written after them. */
static uint8_t *end_of_memory(size_t bytes) {
    size_t page = (size_t)sysconf(_SC_PAGESIZE), room = (bytes + page - 1) / page * page;
    uint8_t *start = mmap(NULL, room + page, PROT_READ | PROT_WRITE, MAP_PRIVATE | MAP_ANONYMOUS, -1, 0);
    if (start == MAP_FAILED || mprotect(start + room, page, PROT_NONE) != 0) {
        perror("end_of_memory");
        exit(1);
    }
    return start + room;
}

static uint8_t *input_of(size_t len) {
    uint8_t *input = input_end - len;
    for (size_t i = 0; i < len; i++)
        input[i] = (uint8_t)(i % 251);
    return input;
}

static uint64_t chunks_of(size_t len) { return len <= B3_CHUNK_LEN ? 1 : (len + B3_CHUNK_LEN - 1) / B3_CHUNK_LEN; }

/* The compressions of a hash: one for each block, and one for each parent. */
static uint64_t work_of(size_t len) { return (len <= 64 ? 1 : (len + 63) / 64) + chunks_of(len) - 1; }

/* Those of a part of the extended output: one for each block that it touches. */
static uint64_t touched(size_t at, size_t len) { return len == 0 ? 0 : (at + len - 1) / 64 - at / 64 + 1; }

/* The key or context of a mode. */
static const uint8_t *key_of(uint32_t mode) { return mode == B3_DERIVE_KEY ? context : key; }

static size_t key_len_of(uint32_t mode) { return mode == B3_DERIVE_KEY ? context_len : mode == B3_KEYED_HASH ? B3_KEY_LEN : 0; }

/* The compressions that lead to a mode. */
static uint64_t mode_work(uint32_t mode) { return mode == B3_DERIVE_KEY ? work_of(context_len) : 0; }

/* Takes the arguments. */
static int start(int argc, char **argv) {
    if (argc != 3 || strlen(argv[1]) != B3_KEY_LEN)
        return 0;
    key = (const uint8_t *)argv[1];
    context = (const uint8_t *)argv[2];
    context_len = strlen(argv[2]);
    input_end = end_of_memory(MOST);
    output_end = end_of_memory(TOLD);
    return 1;
}

/* Reads the next line, if there is one. */
static int read_reported(size_t *len, uint8_t reported[3][TOLD]) {
    if (scanf("%zu", len) != 1 || *len > MOST)
        return 0;
    for (int i = 0; i < 3 * TOLD; i++) {
        unsigned byte;
        if (scanf("%2x", &byte) != 1)
            exit(1);
        reported[i / TOLD][i % TOLD] = (uint8_t)byte;
    }
    return 1;
}

/* What a thread hashes, and whether it was always the same. */
struct task {
    const uint8_t *input, *reported;
    uint32_t mode;
    int same;
};

/* Lets two threads hash at once, by the modes hash and keyed_hash. */
static void by_threads(void *(*hash_often)(void *), uint8_t reported[3][TOLD], const char *what) {
    const uint8_t *input = input_of(MOST);
    pthread_t thread[THREADS];
    struct task tasks[THREADS];
    for (uint32_t i = 0; i < THREADS; i++) {
        tasks[i] = (struct task){input, reported[i % 2], i % 2, 0};
        if (pthread_create(&thread[i], NULL, hash_often, &tasks[i]) != 0)
            exit(1);
    }
    for (int i = 0; i < THREADS; i++) {
        pthread_join(thread[i], NULL);
        shows(tasks[i].same, what, MOST);
    }
}

static int ends(void) {
    printf("%ld passed, %ld failed\n", passed, failed);
    return failed != 0;
}
