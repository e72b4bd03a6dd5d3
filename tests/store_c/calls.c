/* Makes every call of include/b3store.h, and again with each allocation refused in turn: then a
 * refused call has changed nothing, is made again, and no memory is lost. A fetch allocates no room for the object's bytes, and uploads take as
 * many compressions as one hash of their bytes. Writes the number of allocations that were refused. */
#include "b3store.h"
#include <stdio.h>
#include <stdlib.h>
#include <string.h>

static long allocations, refused_one = -1, blocks;
static size_t allocated;
void *__real_malloc(size_t size);
void *__real_realloc(void *block, size_t size);
void __real_free(void *block);
void *__wrap_malloc(size_t size);
void *__wrap_realloc(void *block, size_t size);
void __wrap_free(void *block);

void *__wrap_malloc(size_t size) {
    if (allocations++ == refused_one) return NULL;
    blocks++;
    allocated += size;
    return __real_malloc(size);
}

void *__wrap_realloc(void *block, size_t size) {
    if (allocations++ == refused_one) return NULL;
    if (block == NULL) blocks++;
    return __real_realloc(block, size);
}

void __wrap_free(void *block) {
    if (block != NULL) blocks--;
    __real_free(block);
}

enum { LEN = 5000, FIRST = 2048 };
static uint8_t bytes[LEN], room[LEN + 10];
static long refusals;

static void shows(int holds, int line, const char *what) {
    if (holds) return;
    printf("calls.c:%d: %s, when allocation %ld is refused\n", line, what, refused_one);
    exit(1);
}
#define SHOWS(holds) shows(holds, __LINE__, #holds)

/* Whether a call ran out of memory, and is to be made again. */
static int lacked(uint32_t answer) {
    if (answer != B3STORE_NO_MEMORY && answer != B3STORE_NO_PART_MEMORY) return 0;
    refusals++;
    return 1;
}
#define WORKS(call)                       \
    do {                                  \
        uint32_t answer;                  \
        do answer = (call);               \
        while (lacked(answer));           \
        SHOWS(answer == B3STORE_DONE);    \
    } while (0)

static b3store store = B3STORE_CLOSED;
static b3store_why why;
static b3store_sealed sealed;
static uint64_t tenant, upload, work;

/* The text that a handle keeps is this. */
static void has_text(b3store_text *text, const char *wanted) {
    uint64_t len = 0;
    size_t copied = 0;
    SHOWS(b3store_len(text, &len) == 0 && len == strlen(wanted));
    SHOWS(b3store_read(text, 0, room, sizeof room, &copied) == 0 && copied == len && memcmp(room, wanted, len) == 0);
    SHOWS(b3store_close(text) == 0);
}

static void handles_and_tenants(void) {
    b3store_tenant_usage usage;
    SHOWS(b3store_open(&store, 0, 1, 1) == B3STORE_BAD_LIMITS && b3store_open(&store, 1, 1, 17) == B3STORE_BAD_LIMITS);
    WORKS(b3store_open(&store, 3, 100, B3STORE_MAX_WORKERS));
    WORKS(b3store_open_tenant(&store, 20000, &tenant, &why));
    SHOWS(tenant == 0);
    WORKS(b3store_open_tenant(&store, 1, &tenant, &why));
    SHOWS(tenant == 1);
    WORKS(b3store_set_limit(&store, 1, LEN, &why));
    WORKS(b3store_usage(&store, 1, &usage, &why));
    SHOWS(usage.used == 0 && usage.reserved == 0 && usage.limit == LEN);
}

/* Uploads in parts, of a fixed and of an open length, for the tenant. */
static void uploads(uint64_t of, bool is_open) {
    b3store_part part = B3STORE_CLOSED;
    b3store_progress held = {1, 1, 1};
    b3store_bound plan;
    if (is_open) WORKS(b3store_begin_open(&store, of, LEN, &upload, &why));
    else WORKS(b3store_begin(&store, of, LEN, &upload, &why));
    WORKS(b3store_plan(&store, upload, &plan, &why));
    SHOWS(plan.bound == LEN && plan.is_open == is_open);
    SHOWS(b3store_prepare(&part, LEN, is_open, 1, bytes, 10, &work) == B3STORE_OFF_ALIGN && part.at == NULL);
    WORKS(b3store_prepare(&part, LEN, is_open, FIRST, bytes + FIRST, LEN - FIRST, &work));
    SHOWS(b3store_put(&store, 77, &part, &held, &why, &work) == B3STORE_NO_UPLOAD && part.at != NULL);
    WORKS(b3store_put(&store, upload, &part, &held, &why, &work));
    SHOWS(part.at == NULL && held.held == LEN - FIRST && !held.is_whole && held.missing == 0);
    SHOWS(b3store_seal(&store, upload, &sealed, &why, &work) == B3STORE_INCOMPLETE && why.number == 0);
    WORKS(b3store_prepare(&part, LEN, is_open, 0, bytes, FIRST, &work));
    WORKS(b3store_put(&store, upload, &part, &held, &why, &work));
    SHOWS(held.held == LEN && held.is_whole == 1 && held.missing == 0);
    WORKS(b3store_fix(&store, upload, LEN, &why));
}

static void lists(void) {
    b3store_rows list = B3STORE_CLOSED;
    b3store_listed_object objects[3];
    b3store_listed_upload open[3];
    b3store_tenant_usage usages[3];
    size_t copied = 9;
    WORKS(b3store_list(&store, 0, &list, &why));
    SHOWS(b3store_object_rows(&list, 0, objects, 3, &copied) == 0 && copied == 1 && objects[0].len == LEN);
    SHOWS(memcmp(&objects[0].address, &sealed.address, 32) == 0 && b3store_close(&list) == 0);
    WORKS(b3store_begin(&store, 0, 7, &upload, &why));
    WORKS(b3store_uploads(&store, 0, &list, &why));
    SHOWS(b3store_upload_rows(&list, 0, open, 3, &copied) == 0 && copied == 1 && open[0].upload == upload && open[0].bound == 7 && open[0].held == 0);
    SHOWS(open[0].is_fixed == 1 && open[0].end == 7 && b3store_close(&list) == 0);
    WORKS(b3store_abort(&store, upload, &why));
    WORKS(b3store_tenants(&store, &list, &why));
    SHOWS(b3store_tenant_rows(&list, 1, usages, 3, &copied) == 0 && copied == 1 && usages[0].used == LEN && usages[0].limit == LEN);
    SHOWS(b3store_tenant_rows(&list, UINT64_MAX, usages, 3, &copied) == 0 && copied == 0 && b3store_close(&list) == 0);
}

static void objects(b3store_object *object) {
    b3store_address other = sealed.address;
    uint64_t len = 0;
    size_t before;
    other.bytes[0] ^= 1;
    WORKS(b3store_has(&store, 1, &sealed.address, &len, &why));
    SHOWS(len == LEN);
    SHOWS(b3store_fetch(&store, 1, &other, object, &why) == B3STORE_NOT_HELD && object->at == NULL);
    before = allocated;
    WORKS(b3store_fetch(&store, 1, &sealed.address, object, &why));
    SHOWS(allocated - before < LEN / 2);
    WORKS(b3store_forget(&store, 0, &sealed.address, &why));
}

static void lines(void) {
    static const char cut[] = "usage 1\nnothing\nputb 5 0 3\nabcputb 5 0 4\nabc";
    b3store_text text = B3STORE_CLOSED;
    uint64_t entries = 0;
    uint32_t answer;
    do {
        answer = b3store_lines(&store, (const uint8_t *)cut, sizeof cut - 1, &text, &work);
        if (answer == B3STORE_ANSWER_LOST) refusals++, SHOWS(b3store_close(&text) == 0);
    } while (lacked(answer) || answer == B3STORE_ANSWER_LOST);
    SHOWS(answer == B3STORE_TRUNCATED);
    has_text(&text, "used 5000 reserved 0 limit 5000\nbad\nrefused S7\n");
    WORKS(b3store_entries(&store, &entries));
    SHOWS(entries > 3);
    WORKS(b3store_journal(&store, 1, 2, &text, &why));
    has_text(&text, "tenant 1 1\nlimit 1 5000\n");
}

/* Bytes in one call, and none. */
static void file(void) {
    b3store_sealed first, second;
    b3store_totals_of totals;
    uint64_t left = 0;
    uint32_t answer;
    do answer = b3store_file(&store, 7, bytes, 3, &first, &left, &why, &work);
    while (lacked(answer));
    SHOWS(answer == B3STORE_NO_TENANT && left == B3STORE_NONE_LEFT);
    WORKS(b3store_file(&store, 0, bytes, LEN, &first, &left, &why, &work));
    SHOWS(left == B3STORE_NONE_LEFT && first.is_new == 0 && memcmp(&first.address, &sealed.address, 32) == 0);
    WORKS(b3store_file(&store, 0, bytes, 0, &second, &left, &why, &work));
    SHOWS(second.is_new == 1 && left == B3STORE_NONE_LEFT);
    WORKS(b3store_totals(&store, &totals));
    SHOWS(totals.objects == 2 && totals.object_bytes == LEN && totals.uploads == 0 && totals.held_bytes == 0 && totals.parts == 0);
}

static void run(long nth) {
    b3store_object object = B3STORE_CLOSED;
    b3store_sealed first;
    b3store_address other;
    size_t copied = 0;
    allocations = 0, refused_one = nth, work = 0;
    handles_and_tenants();
    uploads(0, false);
    WORKS(b3store_seal(&store, upload, &sealed, &why, &work));
    SHOWS(sealed.is_new == 1);
    first = sealed;
    uploads(1, true);
    other = sealed.address;
    other.bytes[0] ^= 1;
    SHOWS(b3store_seal_as(&store, upload, &other, &sealed, &why, &work) == B3STORE_WRONG_ADDRESS && memcmp(&why.address, &first, 32) == 0);
    WORKS(b3store_seal_as(&store, upload, &first.address, &sealed, &why, &work));
    SHOWS(sealed.is_new == 0 && memcmp(&sealed.address, &first.address, 32) == 0);
    lists();
    objects(&object);
    lines();
    file();
    SHOWS(b3store_close(&store) == 0);
    /* the object outlives the store */
    memset(room, 1, sizeof room);
    SHOWS(b3store_read(&object, 10, room, sizeof room, &copied) == 0 && copied == LEN - 10 && memcmp(room, bytes + 10, copied) == 0 && room[copied] == 1);
    SHOWS(b3store_close(&object) == 0);
    refused_one = -1;
    SHOWS(blocks == 0);
}

/* An upload of two parts, the last one first, takes as many compressions as one hash of its 1025 bytes: 15 and 0 to prepare, 2 to put, 1 to seal. */
static void compressions(bool is_open) {
    b3store_part part = B3STORE_CLOSED;
    b3store_progress held;
    uint64_t bound = is_open ? 4096 : 1025;
    WORKS(b3store_open(&store, 1, 100, 1));
    WORKS(b3store_open_tenant(&store, bound, &tenant, &why));
    if (is_open) WORKS(b3store_begin_open(&store, tenant, bound, &upload, &why));
    else WORKS(b3store_begin(&store, tenant, bound, &upload, &why));
    work = 0;
    WORKS(b3store_prepare(&part, bound, is_open, 1024, bytes, 1, &work));
    WORKS(b3store_put(&store, upload, &part, &held, &why, &work));
    SHOWS(work == 0);
    WORKS(b3store_prepare(&part, bound, is_open, 0, bytes, 1024, &work));
    SHOWS(work == 15);
    WORKS(b3store_put(&store, upload, &part, &held, &why, &work));
    SHOWS(work == 17);
    WORKS(b3store_seal(&store, upload, &sealed, &why, &work));
    SHOWS(work == 18 && b3store_close(&store) == 0);
}

int main(void) {
    long all, nth;
    compressions(false);
    compressions(true);
    for (int i = 0; i < LEN; i++) bytes[i] = (uint8_t)(i * 31 + i / 256);
    run(-1);
    all = allocations;
    SHOWS(refusals == 0);
    for (nth = 0; nth < all; nth++) {
        run(nth);
        SHOWS(refusals == nth + 1);
    }
    for (int i = 0; i < 32; i++) printf("%02x", sealed.address.bytes[i]);
    printf(" %ld\n", all);
    return 0;
}
