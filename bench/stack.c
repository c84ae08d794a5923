/* How deep the stack of the exported test is, in bytes, on each of the tables that are named: on a thread whose stack was painted before,
 * less what a thread takes that calls nothing. Linked statically, so that no call is bound on the way. */
#include "kusillaqe.h"
#include <pthread.h>
#include <stdio.h>
#include <stdlib.h>
#include <string.h>

enum { ROOM = 1024, LIMIT = 1000000, STACK = 1 << 20, PAINT = 0xa5 };

static uint8_t table[KUSILLAQE_MOST_BYTES + 1];
static size_t length;
static uint16_t symbols[ROOM], productions[ROOM], kids[KUSILLAQE_MOST_RIGHT * ROOM];
static uint64_t graphs[ROOM];
static struct kusillaqe_report report;
static _Alignas(4096) uint8_t stack[STACK];

static void *nothing(void *unused) {
    return unused;
}

static void *test(void *unused) {
    kusillaqe_test(table, length, LIMIT, symbols, ROOM, graphs, ROOM, productions, ROOM, kids, KUSILLAQE_MOST_RIGHT * ROOM, &report);
    return unused;
}

static size_t depth(void *(*run)(void *)) {
    pthread_attr_t attributes;
    pthread_t thread;
    memset(stack, PAINT, STACK);
    if (pthread_attr_init(&attributes) || pthread_attr_setstack(&attributes, stack, STACK) || pthread_create(&thread, &attributes, run, NULL) ||
        pthread_join(thread, NULL)) {
        fprintf(stderr, "no thread could be made\n");
        exit(1);
    }
    size_t untouched = 0;
    while (untouched < STACK && stack[untouched] == PAINT)
        untouched++;
    return STACK - untouched;
}

int main(int count, char **names) {
    for (int i = 1; i < count; i++) {
        FILE *file = fopen(names[i], "rb");
        if (file == NULL) {
            perror(names[i]);
            return 1;
        }
        length = fread(table, 1, sizeof table, file);
        fclose(file);
        size_t empty = depth(nothing);
        size_t deep = depth(test);
        printf("%-40s answer %3u closures %7u %6zu bytes\n", names[i], report.answer, report.closures, deep - empty);
    }
    return 0;
}
