/* Prints the reports of batches: reports FILE.. */
#include <stdio.h>
#include <stdlib.h>

#include "vjobs.h"

/* The bytes of a file and their number, or null. */
static uint8_t *bytes_of(const char *name, size_t *len) {
    FILE *file = fopen(name, "rb");
    if (!file) return NULL;
    uint8_t *bytes = NULL;
    size_t room = 0, got = 1;
    for (*len = 0; got; *len += got) {
        if (*len == room) {
            uint8_t *more = realloc(bytes, room = 2 * room + 4096);
            if (!more) break;
            bytes = more;
        }
        got = fread(bytes + *len, 1, room - *len, file);
    }
    int failed = ferror(file) || got;
    fclose(file);
    if (!failed) return bytes;
    free(bytes);
    return NULL;
}

/* Prints the report of a batch, in a buffer that grows once if it is too small. Returns the answer of the call. */
static uint32_t print_report(const uint8_t *batch, size_t len) {
    size_t cap = 64, needed;
    uint8_t *out = malloc(cap);
    if (!out) return VJOBS_NO_MEMORY;
    uint32_t answer = vjobs_run(batch, len, VJOBS_MOST_WORDS, out, cap, &needed);
    if (answer == VJOBS_TOO_SMALL) {
        free(out);
        if (!(out = malloc(cap = needed))) return VJOBS_NO_MEMORY;
        answer = vjobs_run(batch, len, VJOBS_MOST_WORDS, out, cap, &needed);
    }
    if (answer <= VJOBS_BATCH_REFUSED) fwrite(out, 1, needed, stdout);
    free(out);
    return answer;
}

int main(int count, char **names) {
    uint32_t worst = 0;
    for (int i = 1; i < count; i++) {
        size_t len;
        uint8_t *batch = bytes_of(names[i], &len);
        if (!batch) {
            perror(names[i]);
            return 3;
        }
        uint32_t answer = print_report(batch, len);
        if (answer > worst) worst = answer;
        free(batch);
    }
    return (int)worst;
}
