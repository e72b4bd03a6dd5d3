/* A b3sum: writes the hash of each file that it is given, or of standard input.
 *
 *     cc -O2 sum.c $(pkg-config --cflags --libs b3) -o sum */
#include <b3.h>
#include <stdio.h>
#include <string.h>

static void hash_stream(FILE *stream, uint8_t hash[B3_HASH_LEN]) {
    static uint8_t piece[1 << 16];
    uint64_t count = 0;
    size_t len;
    b3_hasher hasher;
    b3_hasher_init(&hasher, B3_HASH, piece, 0, &count);
    while ((len = fread(piece, 1, sizeof piece, stream)) > 0)
        b3_hasher_update(&hasher, piece, len, &count);
    b3_hasher_finalize(&hasher, hash, B3_HASH_LEN, &count);
}

int main(int argc, char **argv) {
    int status = 0;
    for (int i = argc > 1 ? 1 : 0; i < (argc > 1 ? argc : 1); i++) {
        const char *name = i > 0 ? argv[i] : "-";
        FILE *stream = strcmp(name, "-") == 0 ? stdin : fopen(name, "rb");
        uint8_t hash[B3_HASH_LEN];
        int is_read = 0;
        if (stream != NULL) {
            hash_stream(stream, hash);
            is_read = !ferror(stream);
        }
        if (is_read) {
            for (size_t j = 0; j < sizeof hash; j++)
                printf("%02x", hash[j]);
            printf("  %s\n", name);
        } else {
            perror(name);
            status = 1;
        }
        if (stream != NULL && stream != stdin)
            fclose(stream);
    }
    if (fflush(stdout) != 0 || ferror(stdout)) {
        perror("standard output");
        status = 1;
    }
    return status;
}
