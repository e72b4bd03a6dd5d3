/* threads ROUNDS: eight threads prepare parts and read objects, without a lock, while one puts the parts, and closes the store before the last
 * objects are read. Each call on the store is made under this program's lock, as the header demands. Two threads at a time file the same content,
 * so that they read and close handles of one object. */
#include "b3store.h"
#include <pthread.h>
#include <stdio.h>
#include <stdlib.h>
#include <string.h>

enum { THREADS = 8, MAX_ROUNDS = 50, PARTS = 3, PART = 1 << 15, LAST = 77, LEN = (PARTS - 1) * PART + LAST };

/* What a thread gives to the one that puts, and gets back. */
struct turn {
    b3store_part parts[PARTS];
    b3store_address address;
    int is_prepared, is_filed;
};

static int rounds;
static b3store store = B3STORE_CLOSED;
static struct turn turns[THREADS];
static pthread_mutex_t lock = PTHREAD_MUTEX_INITIALIZER;
static pthread_cond_t changed = PTHREAD_COND_INITIALIZER;
static pthread_barrier_t together;

static void shows(int holds, int line, const char *what) {
    if (holds) return;
    printf("threads.c:%d: %s\n", line, what);
    exit(1);
}
#define SHOWS(holds) shows(holds, __LINE__, #holds)

static void prepare(struct turn *turn, const uint8_t *bytes) {
    for (int i = 0; i < PARTS; i++) {
        uint64_t work = 0, offset = (uint64_t)i * PART;
        SHOWS(b3store_prepare(&turn->parts[i], LEN, false, offset, bytes + offset, i < PARTS - 1 ? PART : LAST, &work) == 0 && work > 0);
    }
}

/* Has the parts of a turn put, and fetches the object. */
static void file(struct turn *turn, uint64_t tenant, b3store_object *object) {
    b3store_why why;
    SHOWS(pthread_mutex_lock(&lock) == 0);
    turn->is_prepared = 1;
    pthread_cond_broadcast(&changed);
    while (!turn->is_filed) pthread_cond_wait(&changed, &lock);
    turn->is_filed = 0;
    SHOWS(b3store_fetch(&store, tenant, &turn->address, object, &why) == 0);
    pthread_mutex_unlock(&lock);
}

/* Waits until all threads have their last object, and then until the store is closed. */
static void wait_for_close(void) {
    pthread_barrier_wait(&together);
    pthread_barrier_wait(&together);
}

static void *prepare_and_read(void *number) {
    uint64_t tenant = (uint64_t)(size_t)number;
    uint8_t *bytes = malloc(LEN), *room = malloc(LEN);
    for (int round = 0; round < rounds; round++) {
        b3store_object object = B3STORE_CLOSED;
        size_t copied = 0;
        for (int i = 0; i < LEN; i++) bytes[i] = (uint8_t)(i * 7 + round * 5 + (int)tenant / 2);
        prepare(&turns[tenant], bytes);
        file(&turns[tenant], tenant, &object);
        if (round == rounds - 1) wait_for_close();
        SHOWS(b3store_read(&object, 0, room, LEN, &copied) == 0 && copied == LEN && memcmp(room, bytes, LEN) == 0);
        SHOWS(b3store_close(&object) == 0);
    }
    free(bytes), free(room);
    return NULL;
}

/* Puts the parts of a turn, the last part first, and seals their upload. */
static void put(struct turn *turn, uint64_t tenant) {
    b3store_why why;
    b3store_progress held;
    b3store_sealed sealed;
    uint64_t upload, work = 0;
    SHOWS(b3store_begin(&store, tenant, LEN, &upload, &why) == 0);
    for (int i = PARTS - 1; i >= 0; i--) SHOWS(b3store_put(&store, upload, &turn->parts[i], &held, &why, &work) == 0 && held.is_whole == (i == 0));
    SHOWS(b3store_seal(&store, upload, &sealed, &why, &work) == 0);
    turn->address = sealed.address;
    turn->is_prepared = 0, turn->is_filed = 1;
    pthread_cond_broadcast(&changed);
}

static void put_all(void) {
    for (int left = THREADS * rounds; left > 0;) {
        SHOWS(pthread_mutex_lock(&lock) == 0);
        for (uint64_t tenant = 0; tenant < THREADS; tenant++) {
            if (turns[tenant].is_prepared) put(&turns[tenant], tenant), left--;
        }
        if (left > 0) pthread_cond_wait(&changed, &lock);
        pthread_mutex_unlock(&lock);
    }
}

int main(int argc, char **argv) {
    pthread_t threads[THREADS];
    b3store_totals_of totals;
    b3store_why why;
    uint64_t tenant;
    rounds = argc == 2 ? atoi(argv[1]) : 0;
    SHOWS(rounds > 0 && rounds <= MAX_ROUNDS);
    SHOWS(b3store_open(&store, THREADS, 1 << 20, 1) == 0 && pthread_barrier_init(&together, NULL, THREADS + 1) == 0);
    for (int i = 0; i < THREADS; i++) SHOWS(b3store_open_tenant(&store, 1 << 30, &tenant, &why) == 0 && tenant == (uint64_t)i);
    for (int i = 0; i < THREADS; i++) SHOWS(pthread_create(&threads[i], NULL, prepare_and_read, (void *)(size_t)i) == 0);
    put_all();
    pthread_barrier_wait(&together);
    SHOWS(b3store_totals(&store, &totals) == 0 && totals.objects == (uint64_t)rounds * THREADS / 2 && totals.uploads == 0);
    SHOWS(b3store_close(&store) == 0);
    pthread_barrier_wait(&together);
    for (int i = 0; i < THREADS; i++) SHOWS(pthread_join(threads[i], NULL) == 0);
    printf("%d objects\n", rounds * THREADS / 2);
    return 0;
}
