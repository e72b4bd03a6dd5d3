/* Lets each call of one kind, read or write, move one byte at most, and fails one of them with EIO; the calls after it succeed again. The
   environment variable FAILING_CALL has the kind and FAILING_NUMBER the number of the call that fails, counted from 1. The writes that count are
   those to the file descriptor in FAILING_DESCRIPTOR; the reads are all but those of the system's own files below /proc. When the call fails, a
   byte goes to the file descriptor in DISTURBED. */
#define _GNU_SOURCE
#include <errno.h>
#include <stdatomic.h>
#include <stdlib.h>
#include <string.h>
#include <sys/syscall.h>
#include <sys/uio.h>
#include <sys/vfs.h>
#include <unistd.h>

#define PROC_MAGIC 0x9fa0

static atomic_long calls;
static long failing_number;
static int fails_reads, fails_writes, descriptor, seen;

static int number_in(const char *name) {
    const char *text = getenv(name);
    return text ? atoi(text) : -1;
}

__attribute__((constructor)) static void begin(void) {
    const char *kind = getenv("FAILING_CALL");
    failing_number = number_in("FAILING_NUMBER");
    descriptor = number_in("FAILING_DESCRIPTOR");
    seen = number_in("DISTURBED");
    fails_reads = kind && strcmp(kind, "read") == 0;
    fails_writes = kind && strcmp(kind, "write") == 0;
}

static int is_own_file(int file) {
    struct statfs found;
    return syscall(SYS_fstatfs, file, &found) != 0 || found.f_type != PROC_MAGIC;
}

/* How many bytes a call that counts may move, or -1 where it fails. */
static ssize_t allowed(size_t count) {
    if (atomic_fetch_add(&calls, 1) + 1 != failing_number) {
        return count > 0;
    }
    if (syscall(SYS_write, seen, "x", 1) != 1) {
        _exit(99);
    }
    errno = EIO;
    return -1;
}

ssize_t write(int file, const void *bytes, size_t count) {
    if (fails_writes && file == descriptor) {
        ssize_t most = allowed(count);
        return most < 0 ? most : syscall(SYS_write, file, bytes, most);
    }
    return syscall(SYS_write, file, bytes, count);
}

ssize_t writev(int file, const struct iovec *parts, int count) {
    for (int at = 0; at < count; at++) {
        if (parts[at].iov_len > 0) {
            return write(file, parts[at].iov_base, parts[at].iov_len);
        }
    }
    return write(file, "", 0);
}

ssize_t read(int file, void *bytes, size_t count) {
    if (fails_reads && is_own_file(file)) {
        ssize_t most = allowed(count);
        return most < 0 ? most : syscall(SYS_read, file, bytes, most);
    }
    return syscall(SYS_read, file, bytes, count);
}

ssize_t pread64(int file, void *bytes, size_t count, off_t offset) {
    if (fails_reads && is_own_file(file)) {
        ssize_t most = allowed(count);
        return most < 0 ? most : syscall(SYS_pread64, file, bytes, most, offset);
    }
    return syscall(SYS_pread64, file, bytes, count, offset);
}

ssize_t pread(int file, void *bytes, size_t count, off_t offset) { return pread64(file, bytes, count, offset); }
