// clients SIZE COUNT: files COUNT contents of SIZE bytes by libb3store, and reads each into one buffer, three times, each in a new store. It prints the
// least nanoseconds of processor time of both. The first store gets memory from the system, and the others get what it has freed.
#include <b3store.h>
#include <stdio.h>
#include <stdlib.h>
#include <string.h>
#include <time.h>

static uint64_t now(void) {
    struct timespec at;
    clock_gettime(CLOCK_PROCESS_CPUTIME_ID, &at);
    return (uint64_t)at.tv_sec * 1000000000 + (uint64_t)at.tv_nsec;
}

static uint64_t lesser(uint64_t a, uint64_t b) { return a < b ? a : b; }

int main(int count_of_words, char **words) {
    size_t size = strtoull(words[count_of_words - 2], 0, 10), count = strtoull(words[count_of_words - 1], 0, 10), copied;
    uint8_t *contents = malloc(size * count), *room = malloc(size);
    b3store_sealed *filed = calloc(count, sizeof *filed);
    b3store_why why;
    uint64_t tenant, left, work = 0, put = UINT64_MAX, get = UINT64_MAX;
    int is_wrong = 0;
    memset(contents, 7, size * count);
    memset(room, 0, size);
    for (size_t i = 0; i < count; i++) memcpy(contents + i * size, &i, sizeof i);
    for (int turn = 0; turn < 3; turn++) {
        b3store store = B3STORE_CLOSED;
        is_wrong |= b3store_open(&store, 1, B3STORE_MAX_ENTRIES, 1) || b3store_open_tenant(&store, 1ull << 40, &tenant, &why);
        uint64_t start = now();
        for (size_t i = 0; i < count; i++) is_wrong |= b3store_file(&store, tenant, contents + i * size, size, filed + i, &left, &why, &work) != 0;
        put = lesser(put, now() - start);
        start = now();
        for (size_t i = 0; i < count; i++) {
            b3store_object object = B3STORE_CLOSED;
            is_wrong |= b3store_fetch(&store, tenant, &filed[i].address, &object, &why) || b3store_read(&object, 0, room, size, &copied);
            b3store_close(&object);
        }
        get = lesser(get, now() - start);
        b3store_close(&store);
    }
    printf("%llu %llu\n", (unsigned long long)put, (unsigned long long)get);
    return is_wrong;
}
