/* A store of objects under their BLAKE3 hashes, in the memory of the program that calls it. An example:
 *
 *     #include <b3store.h>
 *     #include <stdio.h>
 *     int main(void) {
 *         b3store store = B3STORE_CLOSED;
 *         b3store_why why;
 *         b3store_sealed sealed;
 *         uint64_t tenant, left, work = 0;
 *         uint32_t answer = b3store_open(&store, B3STORE_MAX_TENANTS, B3STORE_MAX_ENTRIES, B3STORE_MAX_WORKERS);
 *         if (!answer) answer = b3store_open_tenant(&store, 1 << 20, &tenant, &why);
 *         if (!answer) answer = b3store_file(&store, tenant, (const uint8_t *)"abc", 3, &sealed, &left, &why, &work);
 *         for (size_t i = 0; !answer && i < 32; i++) printf("%02x", sealed.address.bytes[i]);
 *         puts(answer ? b3store_text_of(answer) : "");
 *         return b3store_close(&store) || answer;
 *     }
 *
 * Build it with `cc abc.c $(pkg-config --cflags --libs b3store) -o abc`. docs/USE.md and docs/PROTOCOL.md explain what a store does.
 *
 * The library is proved: each call changes a store as the model of the store defines, and reports what the model reports. docs/PROOF.md
 * says what is proved and what isn't.
 *
 * What the caller owes. A handle begins as B3STORE_CLOSED and is changed by the calls below alone; it isn't copied and then used twice, and
 * b3store_close frees what it keeps. Each handle is given to one call at a time: calls from several threads on one handle need a lock, and
 * what one thread hands to another is ordered by a lock, by the start or the join of a thread, or by a sequentially consistent atomic. A
 * pointer is valid for its length and never null, even if the length is 0, and what a call writes overlaps nothing else that it is given.
 * No call is made from a signal handler, or in the child of a fork of a program with threads. The program's malloc, realloc and free belong
 * together, and malloc aligns to 16 bytes. Every other mistake, such as a closed handle, is reported.
 *
 * A call returns B3STORE_DONE (0), or a number that says why not. Then the handles and the results are unchanged, except where the call
 * says otherwise. `why` gets what a refusal carries, as B3STORE_OVER_QUOTA says, and is otherwise unchanged. `work` is a count of
 * compressions that the caller owns: it grows by those that the call makes, and saturates at 2^64-1. */
#ifndef B3STORE_H
#define B3STORE_H

#include <stdbool.h>
#include <stddef.h>
#include <stdint.h>

/* The version of this header. A program that was built with it can run with any library of the same major version that isn't older. */
#define B3STORE_VERSION "1.0.0"

#ifdef __cplusplus
extern "C" {
#endif

/* ---- What calls return, in `answer`, and store in `why`
 *
 * b3store_text_of says what each means, and docs/PROTOCOL.md what to do. */

#define B3STORE_DONE 0
#define B3STORE_NO_TENANT 1        /* S1 */
#define B3STORE_TENANTS_FULL 2     /* S2 */
#define B3STORE_LIMIT_TOO_LARGE 3  /* S3 */
#define B3STORE_BELOW_USE 4        /* S4; why->number is what the tenant uses and reserves */
#define B3STORE_TOO_LONG 5         /* S5 */
#define B3STORE_OVER_QUOTA 6       /* S6; why->number is how many are left */
#define B3STORE_NO_UPLOAD 7        /* S7 */
#define B3STORE_WRONG_PLAN 8       /* S8 */
#define B3STORE_OVERLAP 9          /* S9; why->number is the lowest such offset */
#define B3STORE_INCOMPLETE 10      /* S10; why->number is the lowest such offset */
#define B3STORE_WRONG_ADDRESS 11   /* S11; why->address is the content's */
#define B3STORE_NOT_HELD 12        /* S12 */
#define B3STORE_JOURNAL_FULL 13    /* S13 */
#define B3STORE_NO_MEMORY 14       /* S14 */
#define B3STORE_PAST_LAST 15       /* S15; why->number is the offset that the upload reaches */
#define B3STORE_NOT_FIXED 16       /* S16 */
#define B3STORE_PLAN_TOO_LONG 33   /* F1 */
#define B3STORE_EMPTY_PART 34      /* F2 */
#define B3STORE_OFF_ALIGN 35       /* F3 */
#define B3STORE_PAST_END 36        /* F4 */
#define B3STORE_RAGGED 37          /* F5 */
#define B3STORE_PART_TOO_LONG 38   /* F6 */
#define B3STORE_NO_PART_MEMORY 41  /* F9 */
#define B3STORE_NO_VALUE 64
#define B3STORE_IS_OPEN 65
#define B3STORE_BAD_LIMITS 66
#define B3STORE_TRUNCATED 67
#define B3STORE_ANSWER_LOST 68
#define B3STORE_TOO_MANY_LINES 69

/* A sentence that says what an answer means. */
static inline const char *b3store_text_of(uint32_t answer) {
    switch (answer) {
    case B3STORE_DONE: return "success";
    case B3STORE_NO_TENANT: return "there is no such tenant";
    case B3STORE_TENANTS_FULL: return "there are already as many tenants as allowed";
    case B3STORE_LIMIT_TOO_LARGE: return "the limit is above 2^46 bytes";
    case B3STORE_BELOW_USE: return "the new limit is below the tenant's use and reservation";
    case B3STORE_TOO_LONG: return "the upload's length or bound is above 2^44 bytes, or its end is above its bound";
    case B3STORE_OVER_QUOTA: return "the tenant has too few bytes left";
    case B3STORE_NO_UPLOAD: return "there is no such open upload";
    case B3STORE_WRONG_PLAN: return "the part was made for an upload of another length or bound, or of the other kind";
    case B3STORE_OVERLAP: return "a byte of the part is covered already";
    case B3STORE_INCOMPLETE: return "a byte of the upload is not covered";
    case B3STORE_WRONG_ADDRESS: return "the content has another address";
    case B3STORE_NOT_HELD: return "the tenant holds no such object";
    case B3STORE_JOURNAL_FULL: return "the journal is full";
    case B3STORE_NO_MEMORY: return "out of memory";
    case B3STORE_PAST_LAST: return "the part, or the end, does not agree with what the upload holds";
    case B3STORE_NOT_FIXED: return "the upload's end is not fixed";
    case B3STORE_PLAN_TOO_LONG: return "an upload has at most 2^44 bytes";
    case B3STORE_EMPTY_PART: return "the part has no bytes";
    case B3STORE_OFF_ALIGN: return "the part's offset is not a multiple of 1024";
    case B3STORE_PAST_END: return "the part ends past the upload's bound";
    case B3STORE_RAGGED: return "the part's length is not a multiple of 1024, and it doesn't end with the upload";
    case B3STORE_PART_TOO_LONG: return "the part has more than 2^24 bytes";
    case B3STORE_NO_PART_MEMORY: return "out of memory for the part";
    case B3STORE_NO_VALUE: return "the handle is closed, or keeps another kind of value";
    case B3STORE_IS_OPEN: return "the handle is open already";
    case B3STORE_BAD_LIMITS: return "no store has these limits";
    case B3STORE_TRUNCATED: return "the lines end within the bytes after a line";
    case B3STORE_ANSWER_LOST: return "out of memory for the answer to a line";
    case B3STORE_TOO_MANY_LINES: return "too many lines";
    default: return "unknown answer";
    }
}

typedef struct b3store_address {
    uint8_t bytes[32];
} b3store_address;

typedef struct b3store_why {
    uint64_t number;
    b3store_address address;
} b3store_why;

/* ---- Handles
 *
 * A handle keeps a value, or is closed. The call that gives it a value needs a closed handle. All kinds of handles have the same layout, so
 * that b3store_close, b3store_read and b3store_len take any. */

#define B3STORE_CLOSED {0}

typedef struct b3store { void *at; } b3store;               /* a store */
typedef struct b3store_part { void *at; } b3store_part;     /* a part of an upload, hashed */
typedef struct b3store_object { void *at; } b3store_object; /* an object's bytes, which stay even if the store is closed */
typedef struct b3store_text { void *at; } b3store_text;     /* a text: the answers to lines, or entries of the journal */
typedef struct b3store_rows { void *at; } b3store_rows;     /* a list, as it was when it was made */

#define B3STORE_MAX_TENANTS 65536ull
#define B3STORE_MAX_ENTRIES 4294967296ull
#define B3STORE_MAX_WORKERS 16ull

/* Makes an empty store with these limits of tenants and journal entries; each is at least 1 and at most the maximum above. `workers` has no
 * effect on this library. B3STORE_IS_OPEN, B3STORE_BAD_LIMITS, B3STORE_NO_MEMORY. */
uint32_t b3store_open(b3store *store, uint64_t tenants, uint64_t entries, uint64_t workers);

/* Frees what a handle of any kind keeps, and closes it. B3STORE_NO_VALUE if it is closed already. */
uint32_t b3store_close(void *handle);

/* ---- Tenants. Each has a limit for the bytes of the objects that it holds and of its open uploads. */

/* Opens a tenant, and stores its number: 0, 1, and so on. Refusals: 2, 3, 13, 14. */
uint32_t b3store_open_tenant(b3store *store, uint64_t limit, uint64_t *tenant, b3store_why *why);

/* Sets a tenant's limit. Refusals: 1, 3, 4, 13, 14. */
uint32_t b3store_set_limit(b3store *store, uint64_t tenant, uint64_t limit, b3store_why *why);

typedef struct b3store_tenant_usage {
    uint64_t used, reserved, limit; /* in bytes */
} b3store_tenant_usage;

/* Stores a tenant's use, reservation and limit. Refusal: 1. */
uint32_t b3store_usage(b3store *store, uint64_t tenant, b3store_tenant_usage *usage, b3store_why *why);

/* ---- Filing in one call */

typedef struct b3store_sealed {
    b3store_address address; /* the hash of the content */
    uint32_t is_new;         /* 1 if no object was filed there before, otherwise 0 */
} b3store_sealed;

#define B3STORE_NONE_LEFT UINT64_MAX

/* Files up to 2^24 bytes for a tenant: begins an upload, puts the bytes, and seals it. If a step after the begin is refused, the upload is
 * aborted. Stores in `left` the number of the upload if its abort is refused too, otherwise B3STORE_NONE_LEFT. B3STORE_PART_TOO_LONG or
 * B3STORE_PLAN_TOO_LONG if there are more bytes, B3STORE_NO_PART_MEMORY, B3STORE_NO_VALUE: then only `work` may change. Refusals: 1, 5, 6, 13, 14. */
uint32_t b3store_file(b3store *store, uint64_t tenant, const uint8_t *bytes, size_t len, b3store_sealed *sealed, uint64_t *left,
                      b3store_why *why, uint64_t *work);

/* ---- Uploads in parts */

/* Begins an upload of `len` bytes, and stores its number. Its bytes are reserved. Refusals: 1, 5, 6, 13, 14. */
uint32_t b3store_begin(b3store *store, uint64_t tenant, uint64_t len, uint64_t *upload, b3store_why *why);

/* Begins an upload of at most `max_len` bytes, whose length is fixed by b3store_fix or by a part whose length isn't a multiple of 1024.
 * Refusals: 1, 5, 6, 13, 14. */
uint32_t b3store_begin_open(b3store *store, uint64_t tenant, uint64_t max_len, uint64_t *upload, b3store_why *why);

/* Copies and hashes the bytes of a part at `offset`, for uploads of `bound` bytes or, if `is_open`, of at most `bound` bytes. A closed handle
 * keeps it. It uses no store: any number of threads may prepare parts, each into its own handle, without a lock. Answers 33 to 38 say why
 * the bytes aren't such a part; B3STORE_NO_PART_MEMORY, B3STORE_IS_OPEN. */
uint32_t b3store_prepare(b3store_part *part, uint64_t bound, bool is_open, uint64_t offset, const uint8_t *bytes, size_t len, uint64_t *work);

typedef struct b3store_progress {
    uint64_t held;     /* the bytes that the upload holds */
    uint64_t missing;  /* the lowest offset that it doesn't hold, or 0 if is_whole */
    uint32_t is_whole; /* 1 if it holds all, otherwise 0 */
} b3store_progress;

/* Puts a part to an open upload. The bytes are moved, and the handle of the part is closed; after a refusal it still keeps the part.
 * Refusals: 7, 8, 9, 15, 13, 14. B3STORE_NO_VALUE if a handle keeps no such value. */
uint32_t b3store_put(b3store *store, uint64_t upload, b3store_part *part, b3store_progress *held, b3store_why *why, uint64_t *work);

typedef struct b3store_bound {
    uint64_t bound;   /* the upload's length, or its maximum length if is_open */
    uint32_t is_open; /* 1 if it was begun by b3store_begin_open, otherwise 0 */
} b3store_bound;

/* Stores for which uploads parts have to be prepared to be put to this one. Refusal: 7. */
uint32_t b3store_plan(b3store *store, uint64_t upload, b3store_bound *plan, b3store_why *why);

/* Fixes the length of an upload that was begun without one. Refusals: 7, 5, 15, 13, 14. */
uint32_t b3store_fix(b3store *store, uint64_t upload, uint64_t len, b3store_why *why);

/* Seals a complete upload: its content is filed at its address, or its tenant joins the holders of the object that is filed there.
 * Refusals: 7, 16, 10, 6, 13, 14. */
uint32_t b3store_seal(b3store *store, uint64_t upload, b3store_sealed *sealed, b3store_why *why, uint64_t *work);

/* Seals a complete upload as b3store_seal does, if its content has this address. Refusals: 7, 16, 10, 11, 6, 13, 14. */
uint32_t b3store_seal_as(b3store *store, uint64_t upload, const b3store_address *address, b3store_sealed *sealed, b3store_why *why,
                         uint64_t *work);

/* Aborts an upload, and frees what it holds. Refusals: 7, 13, 14. */
uint32_t b3store_abort(b3store *store, uint64_t upload, b3store_why *why);

/* ---- Objects */

/* Has a closed handle keep an object that a tenant holds. Refusals: 1, 12, 14. B3STORE_IS_OPEN. */
uint32_t b3store_fetch(b3store *store, uint64_t tenant, const b3store_address *address, b3store_object *object, b3store_why *why);

/* Copies up to `len` bytes of an object or a text, starting at `from`, and stores how many. The other bytes of `room` are unchanged. It uses
 * no store. B3STORE_NO_VALUE if the handle keeps neither. */
uint32_t b3store_read(void *handle, uint64_t from, uint8_t *room, size_t len, size_t *copied);

/* Stores the length of an object or a text. It uses no store. B3STORE_NO_VALUE if the handle keeps neither. */
uint32_t b3store_len(void *handle, uint64_t *len);

/* Stores the length of an object that a tenant holds. Refusals: 1, 12. */
uint32_t b3store_has(b3store *store, uint64_t tenant, const b3store_address *address, uint64_t *len, b3store_why *why);

/* Removes a tenant from the holders of an object; without holders it is removed. Refusals: 1, 12, 13, 14. */
uint32_t b3store_forget(b3store *store, uint64_t tenant, const b3store_address *address, b3store_why *why);

/* ---- Lists. A closed handle keeps the list. Its rows are copied in pages: up to `len` of them, starting at row `from`, and how many is
 * stored; the other rows are unchanged. Copying uses no store. B3STORE_NO_VALUE if the handle keeps no list of that kind. */

typedef struct b3store_listed_object {
    b3store_address address;
    uint64_t len;
} b3store_listed_object;

typedef struct b3store_listed_upload {
    uint64_t upload;   /* its number */
    uint64_t bound;    /* its length, or its maximum length if it was begun without one */
    uint64_t end;      /* its end, or 0 */
    uint64_t held;     /* the bytes that it holds */
    uint32_t is_fixed; /* 1 if its end is fixed, otherwise 0 */
} b3store_listed_upload;

/* The objects that a tenant holds, in filing order. Refusals: 1, 14. B3STORE_IS_OPEN. */
uint32_t b3store_list(b3store *store, uint64_t tenant, b3store_rows *list, b3store_why *why);
uint32_t b3store_object_rows(b3store_rows *list, uint64_t from, b3store_listed_object *rows, size_t len, size_t *copied);

/* The open uploads of a tenant, by number. Refusals: 1, 14. B3STORE_IS_OPEN. */
uint32_t b3store_uploads(b3store *store, uint64_t tenant, b3store_rows *list, b3store_why *why);
uint32_t b3store_upload_rows(b3store_rows *list, uint64_t from, b3store_listed_upload *rows, size_t len, size_t *copied);

/* All tenants, by number. Refusal: 14. B3STORE_IS_OPEN. */
uint32_t b3store_tenants(b3store *store, b3store_rows *list, b3store_why *why);
uint32_t b3store_tenant_rows(b3store_rows *list, uint64_t from, b3store_tenant_usage *rows, size_t len, size_t *copied);

/* ---- Sums, the journal, and lines */

typedef struct b3store_totals_of {
    uint64_t objects, object_bytes;      /* filed objects, and the sum of their lengths */
    uint64_t uploads, held_bytes, parts; /* open uploads, and the bytes and parts that they hold */
} b3store_totals_of;

uint32_t b3store_totals(b3store *store, b3store_totals_of *totals);

/* Stores the number of entries of the journal, one for each accepted command. */
uint32_t b3store_entries(b3store *store, uint64_t *count);

/* Has a closed handle keep the text of up to `count` entries of the journal, starting at entry `from`, which counts from 0; docs/FORMATS.md
 * describes their lines. Refusal: 14. B3STORE_IS_OPEN. */
uint32_t b3store_journal(b3store *store, uint64_t from, uint64_t count, b3store_text *text, b3store_why *why);

/* Runs the lines of a session on the store, as `b3store serve` does (docs/PROTOCOL.md), with the bytes after a line, and has a closed handle
 * keep the text of their answers. B3STORE_TRUNCATED if the lines end within the bytes after a line: then a `putb` isn't run and a `file` is
 * aborted, though the lines before it are run; B3STORE_ANSWER_LOST if there is no memory for an answer: the lines up to that one were run, and
 * the text is cut off. In both cases the handle keeps the text. B3STORE_NO_VALUE, B3STORE_IS_OPEN, B3STORE_NO_MEMORY: no line was run. */
uint32_t b3store_lines(b3store *store, const uint8_t *lines, size_t len, b3store_text *answers, uint64_t *work);

#ifdef __cplusplus
}
#endif

#endif
