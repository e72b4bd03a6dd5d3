/* The program bin/b3store, if ./install installs b3store for two levels of processors: it runs ../libexec/b3store/LEVEL/b3store, from its own
 * folder, for the level that fits this processor. `upload` keeps its whole input in memory: with huge pages it has fewer page faults. */
#include <cpuid.h>
#include <stdio.h>
#include <stdlib.h>
#include <string.h>
#include <unistd.h>

enum { PATH_ROOM = 4096 };
static const char huge_pages[] = "glibc.malloc.hugetlb=1:glibc.malloc.top_pad=67108864:glibc.malloc.mmap_threshold=33554432";

/* Whether this processor, and the system for its registers, has what belongs to x86-64-v3. */
static int has_v3(void) {
    unsigned eax, ebx, ecx = 0, edx, features, extended = 0, more = 0;
    const unsigned wanted = bit_FMA | bit_MOVBE | bit_F16C;
    if (!__builtin_cpu_supports("avx2") || !__get_cpuid(1, &eax, &ebx, &ecx, &edx))
        return 0;
    features = ecx;
    if (__get_cpuid_count(7, 0, &eax, &ebx, &ecx, &edx))
        extended = ebx;
    if (__get_cpuid(0x80000001, &eax, &ebx, &ecx, &edx))
        more = ecx;
    return (features & wanted) == wanted && (extended & bit_BMI) && (extended & bit_BMI2) && (more & bit_LZCNT);
}

int main(int argc, char **argv) {
    char path[PATH_ROOM] = "/proc/self/exe", place[PATH_ROOM];
    ssize_t len = readlink(path, place, sizeof place);
    char *name = len > 0 && len < PATH_ROOM ? memrchr(place, '/', (size_t)len) : NULL;
    if (argc > 1 && strcmp(argv[1], "upload") == 0)
        setenv("GLIBC_TUNABLES", huge_pages, 0);
    if (name != NULL && snprintf(path, sizeof path, "%.*s/../libexec/b3store/%s/b3store", (int)(name - place), place,
                                 has_v3() ? "x86-64-v3" : "x86-64-v2") < PATH_ROOM)
        execv(path, argv);
    fputs("b3store: cannot run ", stderr);
    perror(path);
    return 127;
}
