/* Disturbs and counts the growths of the process that it is preloaded into. It answers null to the one whose number, counted from 1, the environment
   variable GROWTH has, and then writes a byte to the file descriptor in DISTURBED. When the process ends by `exit` or `_exit`, it writes how many bytes
   were asked for, in decimal digits and a newline, to the file descriptor in COUNTED_TOLD. */
#include <errno.h>
#include <stdatomic.h>
#include <stddef.h>
#include <stdio.h>
#include <stdlib.h>
#include <sys/syscall.h>
#include <unistd.h>

extern void *__libc_malloc(size_t);
extern void *__libc_calloc(size_t, size_t);
extern void *__libc_realloc(void *, size_t);
extern void *__libc_memalign(size_t, size_t);

static atomic_long growths;
static atomic_ulong counted;
static long refused_growth;
static int disturbed, told;

static long number_in(const char *name, long otherwise) {
    const char *text = getenv(name);
    return text ? atol(text) : otherwise;
}

__attribute__((constructor)) static void begin(void) {
    refused_growth = number_in("GROWTH", 0);
    disturbed = number_in("DISTURBED", -1);
    told = number_in("COUNTED_TOLD", -1);
}

static _Noreturn void end(int status) {
    for (;;) {
        syscall(SYS_exit_group, status);
    }
}

__attribute__((destructor)) static void report(void) {
    char digits[32];
    int length = snprintf(digits, sizeof digits, "%lu\n", atomic_load(&counted));
    if (told >= 0 && write(told, digits, length) != length) {
        end(99);
    }
}

/* No destructor runs where a process ends by this. */
_Noreturn void _exit(int status) {
    report();
    end(status);
}

static int is_refused(size_t size) {
    atomic_fetch_add(&counted, size);
    if (refused_growth == 0 || atomic_fetch_add(&growths, 1) + 1 != refused_growth) {
        return 0;
    }
    if (write(disturbed, "x", 1) != 1) {
        end(99);
    }
    errno = ENOMEM;
    return 1;
}

void *malloc(size_t size) { return is_refused(size) ? NULL : __libc_malloc(size); }

void *calloc(size_t count, size_t size) { return is_refused(count * size) ? NULL : __libc_calloc(count, size); }

void *realloc(void *old, size_t size) { return is_refused(size) ? NULL : __libc_realloc(old, size); }

void *aligned_alloc(size_t alignment, size_t size) { return is_refused(size) ? NULL : __libc_memalign(alignment, size); }

int posix_memalign(void **found, size_t alignment, size_t size) {
    void *memory = is_refused(size) ? NULL : __libc_memalign(alignment, size);
    if (memory == NULL) {
        return ENOMEM;
    }
    *found = memory;
    return 0;
}
