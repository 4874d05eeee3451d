/*
 * The layer chart of a map of 4 by 3 columns and 6 layers, with what it is expected to print in brackets. The odds of a
 * column are set by hand, so that its numbers can be checked by eye.
 *
 * Build and run, from the repository's root on x86-64 Linux:
 *
 *     tools/archives tembuzar_charts
 *     cc -O2 -Iinclude examples/chart.c target/staticlib/libtembuzar_charts.a -o target/chart && target/chart
 */
#include <math.h>
#include <stdio.h>

#include "tembuzar.h"

enum { X = 4, Y = 3, Z = 6, COLUMNS = X * Y, CELLS = COLUMNS * Z, NUMBERS = COLUMNS * TEMBUZAR_COLUMN_NUMBERS };

static double odds[CELLS];
static tembuzar_column chart[COLUMNS + 1];

/* Ground to 1 is the low band, 2 and 3 the middle, 4 and 5 the high. */
static const tembuzar_bands bands = {
    .low = {0.75, -0.5}, .middle = {0.5, -0.25}, .high = {0.25, -0.125}, .ceiling = 4.0, .cuts = {2, 4}};

static tembuzar_refusal ask(tembuzar_map3 map, size_t numbers)
{
    return tembuzar_layer_chart3(map, odds, CELLS, chart[0], numbers);
}

static void set(int x, int y, int z, double value)
{
    odds[x + X * (y + Y * z)] = value;
}

static void line(const char *name, int x, int y, const char *expected)
{
    const uint16_t *c = chart[x + X * y];
    printf("(%d, %d) %-14s low %u, middle %u, high %u, maximum %u/8, random %u/512 [%s]\n", x, y, name,
           c[TEMBUZAR_LOW], c[TEMBUZAR_MIDDLE], c[TEMBUZAR_HIGH], c[TEMBUZAR_MAXIMUM], c[TEMBUZAR_RANDOM], expected);
}

int main(void)
{
    tembuzar_map3 map = {.extents = {X, Y, Z}, .bands = bands, .frame = 1};
    for (int i = 0; i < CELLS; i++)
        odds[i] = -4.0;
    set(1, 0, 0, 4.0);
    set(2, 0, 3, 0.0);
    set(3, 0, 0, -1.0);
    set(3, 0, 1, -1.5);
    set(3, 0, 5, 1.0);
    for (int z = 0; z < Z; z++)
        set(0, 1, z, 0.0);
    set(1, 1, 1, 1.9459101490553132);
    set(1, 1, 2, 1.9459101490553130);
    chart[COLUMNS][TEMBUZAR_LOW] = 7;

    tembuzar_refusal r = ask(map, NUMBERS + TEMBUZAR_COLUMN_NUMBERS);
    printf("number %u [0]\n", r.number);
    line("clear", 0, 0, "0, 0, 0, 0, 0");
    line("at the ceiling", 1, 0, "8, 0, 0, 8, 512");
    line("one band", 2, 0, "0, 4, 0, 4, 256");
    line("two bands", 3, 0, "2, 0, 5, 5, 368");
    line("even odds", 0, 1, "4, 4, 4, 4, 448");
    line("at a limit", 1, 1, "7, 6, 0, 7, 496");
    printf("what follows the chart: %u [7]\n", chart[COLUMNS][TEMBUZAR_LOW]);
    for (int y = Y - 1; y >= 0; y--) {
        for (int x = 0; x < X; x++)
            printf(" %u", chart[x + X * y][TEMBUZAR_MAXIMUM]);
        printf("\n");
    }

    r = ask(map, NUMBERS - 1);
    printf("a number too few: %u, needs %lu numbers [11, 60]\n", r.number, r.needed);
    odds[7 + COLUMNS * 5] = NAN;
    odds[9] = NAN;
    r = ask(map, NUMBERS);
    printf("NaN: %u, column %lu [17, 7]\n", r.number, r.place);
    tembuzar_map3 equal = map;
    equal.bands.cuts.first = 4;
    r = tembuzar_layer_chart3(equal, odds, CELLS, chart[0], NUMBERS);
    printf("cuts of 4 and 4: %u [15]\n", r.number);
    r = tembuzar_layer_chart3(map, odds, CELLS - 1, chart[0], NUMBERS);
    printf("a cell too few: %u [4]\n", r.number);
    tembuzar_map2 flat = {.extents = {X, Y}, .model = {0.75, -0.5, 4.0}, .frame = 1};
    r = tembuzar_layer_chart2(flat, chart[0], NUMBERS);
    printf("two axes: %u [15]\n", r.number);
    return 0;
}
