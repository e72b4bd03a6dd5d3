/* Answers the words of a table, ANSWERS, as the program does, or as a test program does. It grows once, and where that is refused it
   reports a refusal, if the table has one for the words, or else out of memory; of a test it passes then too. With ENDS it refuses nothing. */
#include <alloca.h>
#include <stdlib.h>
#include <string.h>
#include <unistd.h>

#ifndef ENDS
#define ENDS 0
#endif
#ifndef GROW
#define GROW malloc
#endif

struct answer {
    const char *words;
    int status, is_test;
    size_t output_bytes, fault_bytes;
    const char *output, *fault;
    int status_of_refusal;
    size_t refusal_bytes;
    const char *refusal;
};

static const struct answer answers[] = {
#include ANSWERS
};

static int report(int status, const char *output, size_t output_bytes, const char *fault, size_t fault_bytes) {
    int is_reported = write(1, output, output_bytes) == (ssize_t)output_bytes;
    return is_reported && write(2, fault, fault_bytes) == (ssize_t)fault_bytes ? status : 99;
}

int main(int count, char **words) {
    static const char no_memory[] = "b3store: out of memory\n";
    char said[1000] = "";
    volatile char *grown = GROW(1);
    for (int at = 1; at < count; at++) {
        strcat(strcat(said, words[at]), " ");
    }
    for (size_t at = 0; at < sizeof answers / sizeof answers[0]; at++) {
        const struct answer *found = &answers[at];
        if (strcmp(said, found->words) != 0) {
            continue;
        }
        if (grown == NULL && !found->is_test) {
            int is_going_on = !ENDS && found->status_of_refusal != 3;
            return report(ENDS ? 3 : found->status_of_refusal, found->refusal, ENDS ? 0 : found->refusal_bytes, no_memory,
                          is_going_on ? 0 : sizeof no_memory - 1);
        }
        return report(found->status, found->output, found->output_bytes, found->fault, found->fault_bytes);
    }
    return 99;
}
