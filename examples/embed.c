/* A store with three entries, searched. From the repository's root:
 *
 *     bin/staticlib nivruska
 *     cc -std=c99 -Wall -Iinclude -o target/embed examples/embed.c target/staticlib/libnivruska.a
 *
 * target/embed then prints examples/embed.out. */
#include "nivruska.h"
#include <stdio.h>
#include <string.h>

static uint8_t store[NIVRUSKA_NEED(4, 2)];
static uint8_t answer[NIVRUSKA_CAPACITY(4, 2) * NIVRUSKA_ROW_SIZE]; /* enough for every search of this store */

static void add(const char *path, uint64_t value, uint8_t mark) {
    uint8_t reference[NIVRUSKA_REFERENCE_SIZE] = {mark};
    struct nivruska_reply reply = nivruska_add(store, sizeof store, (const uint8_t *)path, strlen(path), value, reference, sizeof reference);
    printf("add %s: number %u, %llu held\n", path, (unsigned)reply.number, (unsigned long long)reply.first);
}

static void print_row(const uint8_t *row) {
    unsigned long long value = 0;
    for (int i = 0; i < NIVRUSKA_ROW_REFERENCE_AT; i++)
        value = value << 8 | row[NIVRUSKA_ROW_VALUE_AT + i];
    printf("%llu %02x.. %.*s\n", value, row[NIVRUSKA_ROW_REFERENCE_AT], row[NIVRUSKA_ROW_PATH_LENGTH_AT], (const char *)row + NIVRUSKA_ROW_PATH_AT);
}

int main(void) {
    const char *pattern = "/**/edge";
    if (nivruska_setup(store, sizeof store, 4, 2, 1).number != NIVRUSKA_ACCEPTED)
        return 1;
    add("/north/pond", 7, 1);
    add("/north/edge", 7, 1);
    add("/south/edge", 9, 2);
    struct nivruska_reply reply = nivruska_search(store, sizeof store, (const uint8_t *)pattern, strlen(pattern), 0, 9, answer, sizeof answer);
    printf("search %s: number %u, %llu rows, %llu nodes\n", pattern, (unsigned)reply.number, (unsigned long long)reply.first,
           (unsigned long long)reply.second);
    for (uint64_t i = 0; reply.number == NIVRUSKA_ACCEPTED && i < reply.first; i++)
        print_row(answer + i * NIVRUSKA_ROW_SIZE);
    return 0;
}
