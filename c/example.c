#include "kusillaqe.h"
#include <stdio.h>

enum { ROOM = 1024 };

static uint8_t table[KUSILLAQE_MOST_BYTES + 1];
static uint16_t symbols[ROOM], productions[ROOM], kids[KUSILLAQE_MOST_RIGHT * ROOM];
static uint64_t graphs[ROOM];

int main(void) {
    size_t length = fread(table, 1, sizeof table, stdin);
    struct kusillaqe_broken broken;
    kusillaqe_check(table, length, &broken);
    if (broken.rule != 0) {
        printf("rule %u is broken", broken.rule);
        if (broken.record != KUSILLAQE_NONE)
            printf(", first by record %u", broken.record);
        printf("\n");
        return 1;
    }
    struct kusillaqe_report report;
    kusillaqe_test(table, length, 1000000, symbols, ROOM, graphs, ROOM, productions, ROOM, kids, KUSILLAQE_MOST_RIGHT * ROOM, &report);
    if (report.answer != KUSILLAQE_CIRCULAR) {
        printf("answer %u, after %u closures\n", report.answer, report.closures);
        return 0;
    }
    printf("production %u closes a circle, after %u closures\ncircle", report.value, report.closures);
    for (uint32_t i = 0; i < report.circle.links; i++)
        printf(" %u %s", report.circle.nodes[i], report.circle.marks[i] == KUSILLAQE_EDGE ? "edge" : "pair");
    printf("\n");
    return 0;
}
