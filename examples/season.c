/*
 * The report of a season of three nights on two columns, with what it is expected to print in brackets.
 *
 * Build and run, from the repository's root on x86-64 Linux:
 *
 *     tools/archives tembuzar_charts
 *     cc -O2 -Iinclude examples/season.c target/staticlib/libtembuzar_charts.a -o target/season && target/season
 */
#include <stdio.h>
#include <string.h>

#include "tembuzar.h"

enum {
    COLUMNS = 2,
    NIGHTS = 3,
    CHART = COLUMNS * TEMBUZAR_COLUMN_NUMBERS,
    REPORT = COLUMNS * TEMBUZAR_REPORT_NUMBERS
};

/* low, middle, high, the total by maximum overlap of 8, the total by random overlap of 512 */
static const tembuzar_column nights[NIGHTS][COLUMNS] = {
    {{4, 4, 0, 4, 384}, {0, 0, 0, 0, 0}},
    {{8, 1, 0, 8, 512}, {0, 3, 0, 3, 192}},
    {{1, 2, 3, 3, 302}, {0, 0, 8, 8, 512}},
};

static tembuzar_report_column by_night[COLUMNS], at_once[COLUMNS], joined[COLUMNS], rest[COLUMNS];

static void print(const char *name, uint64_t charts, const tembuzar_report_column *report)
{
    printf("%s: %lu charts\n", name, charts);
    for (int c = 0; c < COLUMNS; c++) {
        printf("  column %d, stood", c);
        for (int grade = 0; grade <= 8; grade++)
            printf(" %u", report[c][TEMBUZAR_STOOD + grade]);
        printf(", differ %u, maximum %u, random %u\n", report[c][TEMBUZAR_DIFFER], report[c][TEMBUZAR_MAXIMUM_SUM],
               report[c][TEMBUZAR_RANDOM_SUM]);
    }
}

int main(void)
{
    tembuzar_count_answer a = tembuzar_start_report(COLUMNS, by_night[0], REPORT);
    for (int n = 0; n < NIGHTS; n++)
        a = tembuzar_add_chart(a.count, by_night[0], REPORT, nights[n][0], CHART);
    print("night by night", a.count, by_night);
    printf("  [0 0 0 1 1 0 0 0 1, 2, 960, 1198] [1 0 0 1 0 0 0 0 1, 0, 704, 704]\n");

    tembuzar_start_report(COLUMNS, at_once[0], REPORT);
    a = tembuzar_add_charts(0, at_once[0], REPORT, NIGHTS, nights[0][0], NIGHTS * CHART);
    printf("all at once: %lu charts, the same %d [3, 1]\n", a.count, memcmp(by_night, at_once, sizeof by_night) == 0);

    tembuzar_start_report(COLUMNS, joined[0], REPORT);
    tembuzar_start_report(COLUMNS, rest[0], REPORT);
    tembuzar_add_charts(0, joined[0], REPORT, 1, nights[0][0], CHART);
    tembuzar_add_charts(0, rest[0], REPORT, 2, nights[1][0], 2 * CHART);
    a = tembuzar_join_reports(1, joined[0], REPORT, 2, rest[0], REPORT);
    printf("joined: %lu charts, the same %d [3, 1]\n", a.count, memcmp(by_night, joined, sizeof by_night) == 0);

    tembuzar_column wrong[COLUMNS] = {{1, 0, 0, 2, 64}, {0, 0, 0, 0, 0}};
    a = tembuzar_add_chart(3, joined[0], REPORT, wrong[0], CHART);
    printf("a total that its bands do not give: %u [21]\n", a.refusal.number);
    a = tembuzar_add_chart(2, joined[0], REPORT, nights[0][0], CHART);
    printf("a report of other charts: %u [21]\n", a.refusal.number);
    a = tembuzar_add_charts(4094, joined[0], REPORT, 3, nights[0][0], NIGHTS * CHART);
    printf("too many: %u [20]\n", a.refusal.number);
    a = tembuzar_add_chart(3, joined[0], REPORT, nights[0][0], CHART - 1);
    printf("a number too few: %u, the report stands %d [19, 1]\n", a.refusal.number,
           memcmp(by_night, joined, sizeof by_night) == 0);
    return 0;
}
