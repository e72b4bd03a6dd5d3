/* store LIMIT FILE..: keeps files of less than 64 MiB in a store, for a tenant with LIMIT bytes, reads them back, and writes their addresses. Four
 * threads prepare the parts of a file. cc -O2 store.c $(pkg-config --cflags --libs b3store) -pthread -o store */
#include <b3store.h>
#include <pthread.h>
#include <stdio.h>
#include <stdlib.h>
#include <string.h>

enum { THREADS = 4, CHUNK_LEN = 1024, MAX_LEN = THREADS << 24 };

static uint8_t bytes[MAX_LEN], room[MAX_LEN];
static b3store store = B3STORE_CLOSED;
static b3store_why why;

struct quarter {
    b3store_part part;
    uint64_t total, offset, len;
    uint32_t answer;
};

/* This uses no store, so the threads need no lock. */
static void *prepare(void *given) {
    struct quarter *at = given;
    at->answer = b3store_prepare(&at->part, at->total, false, at->offset, bytes + at->offset, at->len, &(uint64_t){0});
    return NULL;
}

static uint32_t file(uint64_t tenant, uint64_t len, b3store_sealed *sealed) {
    pthread_t threads[THREADS];
    struct quarter quarters[THREADS];
    uint64_t upload, work = 0, count = 0, max_len = (len / (THREADS * CHUNK_LEN) + 1) * CHUNK_LEN;
    uint32_t answer = b3store_begin(&store, tenant, len, &upload, &why);
    if (answer) return answer;
    for (uint64_t offset = 0; offset < len; offset += max_len, count++) {
        quarters[count] = (struct quarter){B3STORE_CLOSED, len, offset, len - offset < max_len ? len - offset : max_len, 0};
        if (pthread_create(&threads[count], NULL, prepare, &quarters[count])) abort();
    }
    for (uint64_t i = 0; i < count; i++) {
        pthread_join(threads[i], NULL);
        if (!answer) answer = quarters[i].answer;
        if (!answer) answer = b3store_put(&store, upload, &quarters[i].part, &(b3store_progress){0}, &why, &work);
        b3store_close(&quarters[i].part); /* unless it was put */
    }
    if (!answer) answer = b3store_seal(&store, upload, sealed, &why, &work);
    if (answer) b3store_abort(&store, upload, &(b3store_why){0});
    return answer;
}

/* Files what a file has, reads it back, and writes its address. Whether it could. */
static bool keep(uint64_t tenant, const char *name) {
    b3store_sealed sealed;
    b3store_object object = B3STORE_CLOSED;
    FILE *stream = fopen(name, "rb");
    size_t copied = 0, len = stream ? fread(bytes, 1, MAX_LEN, stream) : 0;
    if (!stream || ferror(stream)) return perror(name), false;
    fclose(stream);
    uint32_t answer = file(tenant, len, &sealed);
    if (answer == B3STORE_OVER_QUOTA) return fprintf(stderr, "%s: the tenant has too few bytes left: %ju\n", name, (uintmax_t)why.number), false;
    if (!answer) answer = b3store_fetch(&store, tenant, &sealed.address, &object, &why);
    if (answer) return fprintf(stderr, "%s: %s\n", name, b3store_text_of(answer)), false;
    b3store_read(&object, 0, room, MAX_LEN, &copied);
    b3store_close(&object);
    for (int i = 0; i < 32; i++) printf("%02x", sealed.address.bytes[i]);
    printf("  %s\n", name);
    return copied == len && memcmp(room, bytes, len) == 0;
}

int main(int argc, char **argv) {
    uint64_t tenant, limit = argc > 1 ? strtoull(argv[1], NULL, 10) : 0;
    int status = 0;
    if (b3store_open(&store, 1, B3STORE_MAX_ENTRIES, 1) || b3store_open_tenant(&store, limit, &tenant, &why)) return 2;
    for (int i = 2; i < argc; i++)
        if (!keep(tenant, argv[i])) status = 1;
    b3store_close(&store);
    return fflush(stdout) ? 1 : status;
}
