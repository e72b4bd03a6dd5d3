/* Puts objects and gets them back in this process, by several threads at once: in a store of libb3store, or in a table of SQLite in memory.

     embed calls - THREADS BYTES COUNT     prepares each object without the lock that the threads share; begins, puts and seals with it
     embed file - THREADS BYTES COUNT      files each object in one call, with the lock
     embed sqlite - THREADS BYTES COUNT    hashes each object without the lock, and inserts it under its hash with it

   COUNT is each thread's number of objects. It prints the seconds of the puts and of the gets, as bench/sessions.c does. */
#include <b3.h>
#include <b3store.h>
#include <pthread.h>
#include <sqlite3.h>
#include <stdio.h>
#include <stdlib.h>
#include <string.h>
#include <time.h>

struct thread {
    pthread_t thread;
    int number;
    uint8_t *bytes, *room;
    b3store_address *addresses;
};

static const char *kind;
static size_t len, count;
static b3store store = B3STORE_CLOSED;
static sqlite3_stmt *insert, *select_one;
static pthread_mutex_t lock = PTHREAD_MUTEX_INITIALIZER;
static pthread_barrier_t together;

static void must(int holds, const char *what) {
    if (holds) return;
    fprintf(stderr, "%s failed\n", what);
    exit(1);
}

static double now(void) {
    struct timespec time;
    clock_gettime(CLOCK_MONOTONIC, &time);
    return (double)time.tv_sec + 1e-9 * (double)time.tv_nsec;
}

static void put_by_calls(struct thread *t, b3store_sealed *sealed) {
    b3store_part part = B3STORE_CLOSED;
    b3store_progress held;
    b3store_why why;
    uint64_t upload, work = 0;
    must(!b3store_prepare(&part, len, false, 0, t->bytes, len, &work), "prepare");
    pthread_mutex_lock(&lock);
    must(!b3store_begin(&store, 0, len, &upload, &why) && !b3store_put(&store, upload, &part, &held, &why, &work), "put");
    must(!b3store_seal(&store, upload, sealed, &why, &work), "seal");
    pthread_mutex_unlock(&lock);
}

static void put_by_file(struct thread *t, b3store_sealed *sealed) {
    b3store_why why;
    uint64_t left, work = 0;
    pthread_mutex_lock(&lock);
    must(!b3store_file(&store, 0, t->bytes, len, sealed, &left, &why, &work), "file");
    pthread_mutex_unlock(&lock);
}

static void put_by_sqlite(struct thread *t, b3store_sealed *sealed) {
    b3_hash(t->bytes, len, sealed->address.bytes);
    pthread_mutex_lock(&lock);
    sqlite3_bind_blob(insert, 1, sealed->address.bytes, B3_HASH_LEN, SQLITE_STATIC);
    sqlite3_bind_blob64(insert, 2, t->bytes, len, SQLITE_STATIC);
    must(sqlite3_step(insert) == SQLITE_DONE && sqlite3_reset(insert) == SQLITE_OK, "insert");
    pthread_mutex_unlock(&lock);
}

static void get_from_store(struct thread *t, const b3store_address *address) {
    b3store_object object = B3STORE_CLOSED;
    b3store_why why;
    size_t copied;
    pthread_mutex_lock(&lock);
    must(!b3store_fetch(&store, 0, address, &object, &why), "fetch");
    pthread_mutex_unlock(&lock);
    must(!b3store_read(&object, 0, t->room, len, &copied) && copied == len && !b3store_close(&object), "read");
}

static void get_from_sqlite(struct thread *t, const b3store_address *address) {
    pthread_mutex_lock(&lock);
    sqlite3_bind_blob(select_one, 1, address->bytes, B3_HASH_LEN, SQLITE_STATIC);
    must(sqlite3_step(select_one) == SQLITE_ROW && (size_t)sqlite3_column_bytes(select_one, 0) == len, "select");
    memcpy(t->room, sqlite3_column_blob(select_one, 0), len);
    sqlite3_reset(select_one);
    pthread_mutex_unlock(&lock);
}

static void *put_and_get(void *given) {
    struct thread *t = given;
    int is_sqlite = strcmp(kind, "sqlite") == 0, is_file = strcmp(kind, "file") == 0;
    pthread_barrier_wait(&together);
    for (size_t number = 0; number < count; number++) {
        b3store_sealed sealed;
        memcpy(t->bytes, &number, sizeof number);
        memcpy(t->bytes + sizeof number, &t->number, sizeof t->number);
        is_sqlite ? put_by_sqlite(t, &sealed) : is_file ? put_by_file(t, &sealed) : put_by_calls(t, &sealed);
        t->addresses[number] = sealed.address;
    }
    pthread_barrier_wait(&together);
    for (size_t number = 0; number < count; number++) {
        is_sqlite ? get_from_sqlite(t, &t->addresses[number]) : get_from_store(t, &t->addresses[number]);
    }
    pthread_barrier_wait(&together);
    return NULL;
}

/* As quick as SQLite is without a file: it keeps no journal, and begins no transaction for each object. */
static void open_sqlite(void) {
    sqlite3 *base;
    must(sqlite3_open(":memory:", &base) == SQLITE_OK, "open");
    must(sqlite3_exec(base, "PRAGMA journal_mode=OFF; CREATE TABLE objects(address BLOB PRIMARY KEY, content BLOB); BEGIN", 0, 0, 0) == SQLITE_OK, "create");
    must(sqlite3_prepare_v2(base, "INSERT INTO objects VALUES(?, ?)", -1, &insert, 0) == SQLITE_OK, "prepare");
    must(sqlite3_prepare_v2(base, "SELECT content FROM objects WHERE address = ?", -1, &select_one, 0) == SQLITE_OK, "prepare");
}

int main(int words, char **word) {
    must(words == 6, "usage: embed calls|file|sqlite - THREADS BYTES COUNT: this");
    int threads = atoi(word[3]);
    double times[3];
    uint64_t tenant;
    b3store_why why;
    kind = word[1], len = strtoull(word[4], NULL, 10), count = strtoull(word[5], NULL, 10);
    struct thread *all = calloc((size_t)threads, sizeof *all);
    open_sqlite();
    must(!b3store_open(&store, 1, B3STORE_MAX_ENTRIES, 1) && !b3store_open_tenant(&store, 1ull << 46, &tenant, &why), "open");
    pthread_barrier_init(&together, NULL, (unsigned)threads + 1);
    for (int i = 0; i < threads; i++) {
        all[i] = (struct thread){.number = i, .bytes = malloc(len), .room = malloc(len), .addresses = malloc(count * sizeof(b3store_address))};
        for (size_t at = 0; at < len; at++) all[i].bytes[at] = (uint8_t)(at * 2654435761u >> 13), all[i].room[at] = 0;
        pthread_create(&all[i].thread, NULL, put_and_get, &all[i]);
    }
    for (int at = 0; at < 3; at++) pthread_barrier_wait(&together), times[at] = now();
    for (int i = 0; i < threads; i++) pthread_join(all[i].thread, NULL);
    printf("%f %f\n", times[1] - times[0], times[2] - times[1]);
    return 0;
}
