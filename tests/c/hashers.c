/* Calls the functions of include/b3.h that take a hasher, as C does. */
#include "reported.h"

enum { RANDOM_STATES = 10000, BYTE_BY_BYTE = 8193 };

/* Hashers end where memory ends, too. */
static b3_hasher *hasher, *copy;

_Static_assert(sizeof(b3_hasher) == 7568, "the length that examples in other languages have");

/* Lengths of pieces, which are taken in turn. */
struct cuts {
    const char *name;
    size_t pieces[4];
};

static const struct cuts CUTS[] = {
    {"at once", {MOST}},
    {"byte by byte", {1}},
    {"odd pieces", {1, 3, 500, 77}},
    {"about a block", {63, 64, 65, 128}},
    {"about a chunk", {1023, 1024, 1025, 2048}},
    {"below 64 chunks", {65535, 1}},
    {"above 64 chunks", {65537, 1}},
    {"falling pieces", {65536, 16384, 2048, 1}},
};

/* Gives an input piece by piece. No update is refused. */
static int give(b3_hasher *to, const struct cuts *cuts, const uint8_t *input, size_t len, uint64_t *count) {
    int done = 1;
    for (size_t at = 0, i = 0; at < len; i++) {
        size_t piece = cuts->pieces[i % 4] ? cuts->pieces[i % 4] : cuts->pieces[0];
        piece = piece < len - at ? piece : len - at;
        done &= b3_hasher_update(to, input + at, piece, count) == B3_DONE;
        at += piece;
    }
    return done;
}

static int finds(const b3_hasher *of, const uint8_t *reported, uint64_t *count) {
    uint8_t *out = output_end - B3_HASH_LEN;
    return b3_hasher_finalize(of, out, B3_HASH_LEN, count) == B3_DONE && memcmp(out, reported, B3_HASH_LEN) == 0;
}

/* Each way of cutting an input gives its hash, by as many compressions as at once. */
static void cut_calls(const uint8_t *input, size_t len, uint8_t reported[3][TOLD]) {
    for (size_t i = 0; i < sizeof CUTS / sizeof *CUTS; i++)
        for (uint32_t mode = 0; mode < 3; mode++) {
            uint64_t count = 5;
            if (CUTS[i].pieces[0] == 1 && CUTS[i].pieces[1] == 0 && len > BYTE_BY_BYTE)
                continue;
            memset(hasher, 0xa5, sizeof *hasher);
            int same = b3_hasher_init(hasher, mode, key_of(mode), key_len_of(mode), &count) == B3_DONE;
            same &= give(hasher, &CUTS[i], input, len, &count) && finds(hasher, reported[mode], &count);
            shows(same && count == 5 + mode_work(mode) + work_of(len), CUTS[i].name, len);
        }
}

static void read_calls(const uint8_t *input, size_t len, uint8_t reported[3][TOLD]) {
    for (uint32_t mode = 0; mode < 3; mode++) {
        uint64_t before = 0;
        b3_hasher_init(hasher, mode, key_of(mode), key_len_of(mode), &before);
        int same = give(hasher, &CUTS[2], input, len, &before);
        for (size_t at = 0; at <= TOLD; at += 13)
            for (size_t more = 0; at + more <= TOLD; more += 37) {
                uint64_t count = before;
                uint8_t *out = output_end - more;
                same &= b3_hasher_extended(hasher, at, out, more, &count) == B3_DONE && memcmp(out, reported[mode] + at, more) == 0 &&
                        count == mode_work(mode) + work_of(len) - 1 + touched(at, more);
            }
        shows(same, "b3_hasher_extended", len);
    }
}

/* A copy goes its own way, and a hasher goes on after its hash. */
static void copies(const uint8_t *input, size_t len, uint8_t reported[3][TOLD]) {
    for (uint32_t mode = 0; mode < 3; mode++) {
        uint64_t count = 0, again = 0;
        uint8_t first[32];
        b3_hasher_init(hasher, mode, key_of(mode), key_len_of(mode), &count);
        *copy = *hasher;
        give(hasher, &CUTS[2], input, len, &count);
        /* a new one in its place, or a copy of a new one, which makes no compressions */
        int same = b3_hasher_init(hasher, mode, key_of(mode), key_len_of(mode), &count) == B3_DONE;
        same &= give(copy, &CUTS[2], input, len, &again) && finds(copy, reported[mode], &again) && again == work_of(len);
        b3_hasher_update(hasher, input, len / 2, &count);
        memcpy(copy, hasher, sizeof *copy);
        b3_extended(mode, key_of(mode), key_len_of(mode), input, len / 2, 0, first, 32);
        same &= finds(hasher, first, &count);
        b3_hasher_update(hasher, input + len / 2, len - len / 2, &count);
        same &= finds(hasher, reported[mode], &count) && finds(copy, first, &count) && finds(hasher, reported[mode], &count);
        same &= b3_hasher_update(copy, input, 0, &count) == B3_DONE && finds(copy, first, &count);
        shows(same, "a hasher and its copies", len);
    }
}

/* Whether a call answers so, and leaves hasher, output and count as they were. */
#define REFUSED(wanted, call)                                                                                                              \
    do {                                                                                                                                   \
        uint64_t count = 7;                                                                                                                \
        memset(out, 0xa5, sizeof out);                                                                                                     \
        memcpy(copy, hasher, sizeof *copy);                                                                                                \
        int kept = (call) == (wanted) && count == 7 && memcmp(copy, hasher, sizeof *copy) == 0;                                            \
        for (size_t i = 0; i < sizeof out; i++)                                                                                            \
            kept &= out[i] == 0xa5;                                                                                                        \
        shows(kept, #call, 0);                                                                                                             \
    } while (0)

static void refused_everywhere(void) {
    uint8_t out[65];
    REFUSED(B3_BAD_HASHER, b3_hasher_update(hasher, key, 32, &count));
    REFUSED(B3_BAD_HASHER, b3_hasher_update(hasher, key, 0, &count));
    REFUSED(B3_BAD_HASHER, b3_hasher_finalize(hasher, out, 32, &count));
    REFUSED(B3_BAD_OUTPUT, b3_hasher_finalize(hasher, out, 31, &count));
    REFUSED(B3_BAD_HASHER, b3_hasher_extended(hasher, 0, out, 65, &count));
    REFUSED(B3_BAD_POSITION, b3_hasher_extended(hasher, UINT64_MAX, out, 1, &count));
}

static void refusals(void) {
    uint8_t out[65];
    uint64_t some = 0;
    size_t lens[] = {0, 1, 31, 33, 64};
    memset(hasher, 0x5a, sizeof *hasher);
    for (size_t i = 0; i < sizeof lens / sizeof *lens; i++) {
        REFUSED(B3_BAD_KEY, b3_hasher_init(hasher, B3_KEYED_HASH, key, lens[i], &count));
        REFUSED(B3_BAD_KEY, b3_hasher_init(hasher, 3, key, lens[i], &count));
        REFUSED(B3_BAD_KEY, b3_hasher_init(hasher, UINT32_MAX, key, lens[i], &count));
        if (lens[i] > 0)
            REFUSED(B3_BAD_KEY, b3_hasher_init(hasher, B3_HASH, key, lens[i], &count));
    }
    b3_hasher_init(hasher, B3_HASH, key, 0, &some);
    b3_hasher_update(hasher, key, 32, &some);
    for (size_t i = 0; i < sizeof lens / sizeof *lens; i++)
        REFUSED(B3_BAD_OUTPUT, b3_hasher_finalize(hasher, out, lens[i], &count));
    REFUSED(B3_BAD_POSITION, b3_hasher_extended(hasher, UINT64_MAX - 31, out, 32, &count));
    shows(b3_hasher_extended(hasher, UINT64_MAX - 32, out, 32, &some) == B3_DONE, "the output's end", 32);
    uint32_t *places[] = {&hasher->flag, &hasher->kept.subtrees.len, &hasher->kept.tail.len}, firsts[] = {65, 55, 1025};
    for (size_t i = 0; i < 3; i++) {
        uint32_t was = *places[i];
        *places[i] = firsts[i];
        refused_everywhere();
        *places[i] = UINT32_MAX;
        refused_everywhere();
        *places[i] = firsts[i] - 1;
        memcpy(copy, hasher, sizeof *copy);
        shows(b3_hasher_update(copy, key, 32, &some) == B3_DONE, "the greatest number", i);
        *places[i] = was;
    }
    memset(hasher, 0xff, sizeof *hasher);
    refused_everywhere();
}

static uint64_t next_random(uint64_t *state) {
    *state ^= *state << 13;
    *state ^= *state >> 7;
    *state ^= *state << 17;
    return *state;
}

/* Memory that never was a hasher is answered, whether its lengths are possible or not, and no call reads or writes beyond it. */
static void random_states(void) {
    uint64_t random = 88172645463325252, done = 0, refused = 0, others = 0;
    const uint8_t *input = input_of(MOST);
    for (int i = 0; i < RANDOM_STATES; i++) {
        for (size_t j = 0; j < sizeof *hasher; j += 8) {
            uint64_t word = next_random(&random);
            memcpy((uint8_t *)hasher + j, &word, 8);
        }
        if (i % 4 != 0) {
            hasher->flag %= 65;
            hasher->kept.subtrees.len %= 55;
            hasher->kept.tail.len %= 1025;
        }
        uint64_t count = next_random(&random);
        size_t len = next_random(&random) % (i % 16 == 1 ? MOST : 3000);
        uint32_t answer = b3_hasher_update(hasher, input, len, &count);
        done += answer == B3_DONE;
        refused += answer == B3_BAD_HASHER;
        uint32_t then = b3_hasher_finalize(hasher, output_end - 32, 32, &count);
        uint32_t last = b3_hasher_extended(hasher, count, output_end - 100, 100, &count);
        others += then != answer || (last != answer && last != B3_BAD_POSITION);
    }
    shows(done >= RANDOM_STATES / 4 * 3 && done + refused == RANDOM_STATES && refused > 0 && others == 0, "states of random bytes", RANDOM_STATES);
}

static void *hash_often(void *of) {
    struct task *task = of;
    task->same = 1;
    for (int i = 0; i < ROUNDS; i++) {
        b3_hasher mine;
        uint8_t out[32];
        uint64_t count = 0;
        b3_hasher_init(&mine, task->mode, key_of(task->mode), key_len_of(task->mode), &count);
        give(&mine, &CUTS[i % 2 ? 6 : 7], task->input, MOST, &count);
        b3_hasher_finalize(&mine, out, 32, &count);
        task->same &= memcmp(out, task->reported, 32) == 0 && count == work_of(MOST);
    }
    return NULL;
}

int main(int argc, char **argv) {
    if (!start(argc, argv))
        return 2;
    hasher = (b3_hasher *)(void *)(end_of_memory(sizeof *hasher) - sizeof *hasher);
    copy = (b3_hasher *)(void *)(end_of_memory(sizeof *copy) - sizeof *copy);
    size_t len;
    static uint8_t reported[3][TOLD];
    while (read_reported(&len, reported)) {
        const uint8_t *input = input_of(len);
        cut_calls(input, len, reported);
        read_calls(input, len, reported);
        copies(input, len, reported);
        if (len == MOST)
            by_threads(hash_often, reported, "a thread's hasher");
    }
    refusals();
    random_states();
    return ends();
}
