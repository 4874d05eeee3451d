/*
 * A map of 10 by 8 cells, one sweep of five beams, the odds as a picture, and calls that are refused.
 *
 * Build and run, from the repository's root on x86-64 Linux (the first line proves the library and writes it):
 *
 *     tools/archives tembuzar
 *     cc -O2 -Iinclude examples/sweep.c target/staticlib/libtembuzar.a -o target/sweep && target/sweep
 */
#include <math.h>
#include <stdio.h>

#include "tembuzar.h"

enum { WIDE = 10, HIGH = 8, CELLS = WIDE * HIGH };

static double odds[CELLS];
static uint32_t stamps[CELLS];

/* The beams of the sweep: where each started, where it stopped, and whether that was a return. */
static const double beams[] = {
    0.5, 0.5, 4.5, 0.5,  /* along the bottom, a return in cell (4, 0) */
    0.5, 0.5, 14.5, 1.5, /* past the edge: a return off the grid marks nothing occupied */
    0.5, 0.5, 6.5, 6.5,  /* the diagonal, a return in cell (6, 6) */
    0.5, 0.5, 0.5, 5.5,  /* straight up, ran out: all clear */
    12.0, 4.0, 10.0, 4.0 /* misses the grid */
};
static const uint8_t hits[] = {1, 1, 1, 0, 1};

static void picture(void)
{
    printf("odds, the top row first:\n");
    for (int y = HIGH - 1; y >= 0; y--) {
        printf("  y %d ", y);
        for (int x = 0; x < WIDE; x++) {
            double o = odds[x + WIDE * y];
            if (o == 0.0)
                printf("     .");
            else
                printf(" %5.2f", o);
        }
        printf("\n");
    }
}

static void say(const char *call, tembuzar_refusal r)
{
    static const char *const names[] = {"answered", "DimensionTooSmall", "CapacityOverflow", "Model", "Buffer",
                                        "OutOfBounds", "NonFiniteCoordinate", "Ray", "Beams", "Frame"};
    printf("%-34s %2u %s", call, (unsigned)r.number, names[r.number]);
    if (r.number == 1 || r.number == 5 || r.number == 6)
        printf(", axis %llu", (unsigned long long)r.axis);
    if (r.number == 5)
        printf(", index %lld", (long long)r.index);
    if (r.number == 1 || r.number == 5)
        printf(", extent %llu", (unsigned long long)r.extent);
    if (r.number == 7 && r.values == 2)
        printf(", beam %llu, count so far %llu", (unsigned long long)r.place, (unsigned long long)r.count);
    printf("\n");
}

static void sweep(tembuzar_map2 *map)
{
    tembuzar_map_answer2 opened = tembuzar_begin_scan2(*map, stamps, CELLS);
    *map = opened.map;
    printf("frame %u\n", (unsigned)map->frame);
    tembuzar_count_answer counted = tembuzar_update_scan2(*map, odds, CELLS, stamps, CELLS, beams, 20, hits, 5);
    printf("number %u, marks that changed a cell: %llu\n", (unsigned)counted.refusal.number,
           (unsigned long long)counted.count);
}

static void look(tembuzar_map2 map)
{
    tembuzar_odds_answer at = tembuzar_log_odds_at2(map, odds, CELLS, (tembuzar_cell2){6, 6});
    printf("cell (6, 6): found %d, odds %g\n", at.found, at.odds);
    at = tembuzar_log_odds_at2(map, odds, CELLS, (tembuzar_cell2){-1, 3});
    printf("cell (-1, 3): found %d\n", at.found);
    tembuzar_sample_answer2 s = tembuzar_sample_log_odds2(map, odds, CELLS, (tembuzar_point2){5.5, 5.5});
    printf("sample at (5.5, 5.5): found %d, value %g, gradient (%g, %g)\n", s.found, s.sample.value,
           s.sample.gradient.x, s.sample.gradient.y);
    tembuzar_cell_answer2 c = tembuzar_cell_containing2(map, (tembuzar_point2){3.9, 7.25});
    printf("cell that contains (3.9, 7.25): (%lld, %lld)\n", (long long)c.cell.x, (long long)c.cell.y);
    printf("line (0.5, 0.5) to (4.5, 2.5):");
    tembuzar_line2 line = tembuzar_plotter2((tembuzar_point2){0.5, 0.5}, (tembuzar_point2){4.5, 2.5}).line;
    tembuzar_step_answer2 step = tembuzar_step2(line);
    for (; step.found; step = tembuzar_step2(step.line))
        printf(" (%lld,%lld)", (long long)step.cell.x, (long long)step.cell.y);
    printf("\n");
}

static void refused(tembuzar_map2 map)
{
    tembuzar_map2 flat = map, zero = map, sharp = map, early = map;
    flat.extents.y = 1;
    zero.extents.x = 5000;
    sharp.model.free = 0.5;
    early.frame = 0;
    const double far[] = {0.5, 7.5, 2.5, 7.5, 0.5, 0.5, INFINITY, 0.5};
    tembuzar_cell2 cell = {3, 8};
    say("extents 10 by 1:", tembuzar_begin_scan2(flat, stamps, CELLS).refusal);
    say("extents 5000 by 8:", tembuzar_begin_scan2(zero, stamps, CELLS).refusal);
    say("free step above 0:", tembuzar_set_log_odds2(sharp, odds, CELLS, cell, 1.0));
    say("no stamps at all (NULL, 0):", tembuzar_begin_scan2(map, NULL, 0).refusal);
    say("set odds of cell (3, 8):", tembuzar_set_log_odds2(map, odds, CELLS, cell, 1.0));
    say("cell that contains (10, 4):", tembuzar_cell_containing2(map, (tembuzar_point2){10.0, 4.0}).refusal);
    say("cell that contains (1, NaN):", tembuzar_cell_containing2(map, (tembuzar_point2){1.0, NAN}).refusal);
    say("second of two beams to infinity:",
        tembuzar_update_scan2(map, odds, CELLS, stamps, CELLS, far, 8, hits, 2).refusal);
    say("line to infinity:", tembuzar_plotter2((tembuzar_point2){0, 0}, (tembuzar_point2){0, INFINITY}).refusal);
    say("seven numbers for two beams:",
        tembuzar_update_scan2(map, odds, CELLS, stamps, CELLS, far, 7, hits, 2).refusal);
    say("marked at frame 0:", tembuzar_mark_free2(early, odds, CELLS, stamps, CELLS, (tembuzar_cell2){3, 3}).refusal);
    say("an empty list (NULL, 0):", tembuzar_update_scan2(map, odds, CELLS, stamps, CELLS, NULL, 0, NULL, 0).refusal);
}

int main(void)
{
    tembuzar_model model = {.occupied = 0.75, .free = -0.5, .ceiling = 4.0};
    tembuzar_map_answer2 made = tembuzar_new2((tembuzar_extents2){WIDE, HIGH}, model, odds, CELLS, stamps, CELLS);
    tembuzar_map2 map = made.map;
    printf("map %llu by %llu, frame %u\n", (unsigned long long)map.extents.x, (unsigned long long)map.extents.y,
           (unsigned)map.frame);
    sweep(&map);
    picture();
    look(map);
    refused(map);
    picture();
    return 0;
}
