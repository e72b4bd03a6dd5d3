/* Calls each function of include/b3.h but those of hashers, as C does. */
#include "reported.h"

static size_t left_of(size_t len) {
    size_t left = B3_CHUNK_LEN;
    while (2 * left < len)
        left *= 2;
    return left;
}

/* The chaining value of a tree, chunk by chunk. */
static b3_value value_of(const uint8_t *k, size_t k_len, const uint8_t *bytes, size_t len, uint64_t number, uint64_t *count) {
    b3_value value;
    if (len <= B3_CHUNK_LEN) {
        b3_subtree(k, k_len, bytes, len, number, &value, count);
        return value;
    }
    size_t left = left_of(len);
    b3_value first = value_of(k, k_len, bytes, left, number, count);
    b3_value second = value_of(k, k_len, bytes + left, len - left, number + left / B3_CHUNK_LEN, count);
    b3_parent(k, k_len, first, second, &value, count);
    return value;
}

/* Whether the last 32 bytes of the output are these. They are cleared for the next call. */
static int wrote(const uint8_t *wanted) {
    int same = memcmp(output_end - B3_HASH_LEN, wanted, B3_HASH_LEN) == 0;
    memset(output_end - B3_HASH_LEN, 0, B3_HASH_LEN);
    return same;
}

/* The calls that count compressions, and those that don't, write the same. */
static void whole_calls(const uint8_t *input, size_t len, uint8_t reported[3][TOLD]) {
    uint64_t counts[3] = {5, 0, 0};
    uint8_t *out = output_end - B3_HASH_LEN;
    int same = b3_hash_counted(input, len, out, 32, &counts[0]) == B3_DONE && wrote(reported[0]);
    same &= b3_keyed_hash_counted(key, 32, input, len, out, 32, &counts[1]) == B3_DONE && wrote(reported[1]);
    same &= b3_derive_key_counted(context, context_len, input, len, out, 32, &counts[2]) == B3_DONE && wrote(reported[2]);
    shows(same && counts[0] == 5 + work_of(len) && counts[1] == work_of(len) && counts[2] == work_of(context_len) + work_of(len), "a counted hash", len);
    b3_hash(input, len, out);
    same = wrote(reported[0]);
    b3_keyed_hash(key, input, len, out);
    same &= wrote(reported[1]);
    b3_derive_key(context, context_len, input, len, out);
    shows(same && wrote(reported[2]), "a hash", len);
}

static void extended_calls(const uint8_t *input, size_t len, uint8_t reported[3][TOLD]) {
    for (uint32_t mode = 0; mode < 3; mode++) {
        uint8_t *all = output_end - TOLD;
        int same = b3_extended(mode, key_of(mode), key_len_of(mode), input, len, 0, all, TOLD) == B3_DONE && memcmp(all, reported[mode], TOLD) == 0;
        for (size_t at = 0; at <= TOLD; at += 13)
            for (size_t more = 0; at + more <= TOLD; more += 37) {
                uint64_t count = 0;
                uint8_t *out = output_end - more;
                same &= b3_extended_counted(mode, key_of(mode), key_len_of(mode), input, len, at, out, more, &count) == B3_DONE &&
                        memcmp(out, reported[mode] + at, more) == 0 &&
                        count == mode_work(mode) + work_of(len) - 1 + touched(at, more);
            }
        shows(same, "the extended output", len);
    }
}

static void node_calls(const uint8_t *input, size_t len, uint8_t reported[3][TOLD]) {
    for (int keyed = 0; keyed < 2; keyed++) {
        size_t k_len = keyed ? 32 : 0, left = left_of(len);
        uint64_t count = 0, once = 0;
        b3_value first = value_of(key, k_len, input, left, 0, &count), at_once;
        b3_value second = value_of(key, k_len, input + left, len - left, left / B3_CHUNK_LEN, &count);
        uint8_t *out = output_end - B3_HASH_LEN;
        shows(b3_root(key, k_len, first, second, out, 32, &count) == B3_DONE && memcmp(out, reported[keyed], 32) == 0 && count == work_of(len),
              "b3_root", len);
        shows(b3_subtree(key, k_len, input + left, len - left, left / B3_CHUNK_LEN, &at_once, &once) == B3_DONE &&
                  memcmp(&at_once, &second, sizeof second) == 0 && once == work_of(len - left),
              "b3_subtree", len);
    }
}

/* Whether a call answers so, and leaves output and count as they were. */
#define REFUSED(wanted, call)                                                                                                              \
    do {                                                                                                                                   \
        uint64_t count = 7;                                                                                                                \
        b3_value value = mark;                                                                                                             \
        memset(out, 0xa5, sizeof out);                                                                                                     \
        int kept = (call) == (wanted) && count == 7 && memcmp(&value, &mark, sizeof mark) == 0;                                            \
        for (size_t i = 0; i < sizeof out; i++)                                                                                            \
            kept &= out[i] == 0xa5;                                                                                                        \
        shows(kept, #call, 0);                                                                                                             \
    } while (0)

static void refusals(void) {
    const b3_value mark = {{1, 2, 3, 4, 5, 6, 7, 8}};
    const uint8_t *input = input_of(4096);
    uint8_t out[65];
    size_t lens[] = {0, 1, 31, 33, 64};
    for (size_t i = 0; i < sizeof lens / sizeof *lens; i++) {
        REFUSED(B3_BAD_OUTPUT, b3_hash_counted(input, 3, out, lens[i], &count));
        REFUSED(B3_BAD_OUTPUT, b3_keyed_hash_counted(key, 32, input, 3, out, lens[i], &count));
        REFUSED(B3_BAD_KEY, b3_keyed_hash_counted(key, lens[i], input, 3, out, lens[i], &count));
        REFUSED(B3_BAD_OUTPUT, b3_derive_key_counted(context, context_len, input, 3, out, lens[i], &count));
        REFUSED(B3_BAD_OUTPUT, b3_root(key, 32, mark, mark, out, lens[i], &count));
        REFUSED(B3_BAD_KEY, b3_extended_counted(B3_KEYED_HASH, key, lens[i], input, 3, 0, out, 32, &count));
        if (lens[i] > 0) {
            REFUSED(B3_BAD_KEY, b3_extended_counted(B3_HASH, key, lens[i], input, 3, 0, out, 32, &count));
            REFUSED(B3_BAD_KEY, b3_subtree(key, lens[i], input, 1024, 0, &value, &count));
            REFUSED(B3_BAD_KEY, b3_parent(key, lens[i], mark, mark, &value, &count));
            REFUSED(B3_BAD_KEY, b3_root(key, lens[i], mark, mark, out, 31, &count));
        }
    }
    REFUSED(B3_BAD_KEY, b3_extended_counted(3, key, 32, input, 3, 0, out, 32, &count));
    REFUSED(B3_BAD_KEY, b3_extended_counted(UINT32_MAX, key, 0, input, 3, 0, out, 32, &count));
    REFUSED(B3_BAD_POSITION, b3_extended_counted(B3_HASH, key, 0, input, 3, UINT64_MAX - 31, out, 32, &count));
    REFUSED(B3_BAD_POSITION, b3_extended_counted(3, key, 0, input, 3, UINT64_MAX, out, 1, &count));
    REFUSED(B3_BAD_KEY, b3_extended(3, key, 32, input, 3, 0, out, 32));
    REFUSED(B3_BAD_POSITION, b3_extended(B3_HASH, key, 0, input, 3, UINT64_MAX, out, 1));
    REFUSED(B3_BAD_SUBTREE, b3_subtree(key, 0, input, 0, 1, &value, &count));
    REFUSED(B3_BAD_SUBTREE, b3_subtree(key, 0, input, 2048, 1, &value, &count));
    REFUSED(B3_BAD_SUBTREE, b3_subtree(key, 32, input, 2049, 2, &value, &count));
    REFUSED(B3_BAD_SUBTREE, b3_subtree(key, 0, input, 1024, (uint64_t)1 << 54, &value, &count));
    REFUSED(B3_BAD_SUBTREE, b3_subtree(key, 0, input, 1024, ((uint64_t)1 << 54) - 1, &value, &count));
    REFUSED(B3_BAD_SUBTREE, b3_subtree(key, 0, input, 1, UINT64_MAX, &value, &count));
}

/* The last places that are accepted. */
static void borders(void) {
    const uint8_t *input = input_of(1024);
    uint64_t count = UINT64_MAX - 1;
    uint8_t out[32];
    b3_value value;
    shows(b3_extended_counted(B3_HASH, key, 0, input, 3, UINT64_MAX - 32, out, 32, &count) == B3_DONE && count == UINT64_MAX,
          "the output's end", 3);
    shows(b3_extended_counted(B3_HASH, key, 0, input, 3, UINT64_MAX, out, 0, &count) == B3_DONE, "nothing at the output's end", 3);
    shows(b3_subtree(key, 0, input, 1023, ((uint64_t)1 << 54) - 1, &value, &count) == B3_DONE, "the last chunk of all", 1023);
}

static void version(void) {
    char text[32];
    snprintf(text, sizeof text, "%d.%d.%d", B3_VERSION_MAJOR, B3_VERSION_MINOR, B3_VERSION_PATCH);
    shows(b3_version() == B3_VERSION_NUMBER && strcmp(text, B3_VERSION) == 0, "the version", B3_VERSION_NUMBER);
}

static void *hash_often(void *of) {
    struct task *task = of;
    task->same = 1;
    for (int i = 0; i < ROUNDS; i++) {
        uint8_t out[32];
        uint64_t count = 0;
        if (task->mode)
            b3_keyed_hash_counted(key, 32, task->input, MOST, out, 32, &count);
        else
            b3_hash_counted(task->input, MOST, out, 32, &count);
        task->same &= memcmp(out, task->reported, 32) == 0 && count == work_of(MOST);
    }
    return NULL;
}

int main(int argc, char **argv) {
    if (!start(argc, argv))
        return 2;
    size_t len;
    static uint8_t reported[3][TOLD];
    while (read_reported(&len, reported)) {
        const uint8_t *input = input_of(len);
        whole_calls(input, len, reported);
        extended_calls(input, len, reported);
        if (len > B3_CHUNK_LEN)
            node_calls(input, len, reported);
        if (len == MOST)
            by_threads(hash_often, reported, "a thread's hash");
    }
    refusals();
    borders();
    version();
    return ends();
}
