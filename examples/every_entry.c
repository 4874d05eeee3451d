/*
 * Every function of tembuzar.h but those of charts, in two axes and in three, each with what it is expected to answer
 * in brackets. The numbers in a call differ from each other, so that a field in the wrong place would show. chart.c and
 * season.c call those of charts.
 *
 * Build and run, from the repository's root on x86-64 Linux:
 *
 *     tools/archives tembuzar && tools/archives tembuzar_samples
 *     cc -O2 -Iinclude examples/every_entry.c target/staticlib/libtembuzar.a target/staticlib/libtembuzar_samples.a \
 *         -o target/every_entry && target/every_entry
 */
#include <math.h>
#include <stdio.h>
#include <string.h>

#include "tembuzar.h"

static double odds[5 * 4 * 3];
static uint32_t stamps[5 * 4 * 3];
static double odds_read[5 * 4 * 3];
static uint32_t stamps_read[5 * 4 * 3];
static uint8_t bytes[1000];
static uint8_t moved[1000];
static const tembuzar_model model = {.occupied = 0.75, .free = -0.5, .ceiling = 4.0};

/* Three axes: one height in each band, and the same pair in all, as a record of edition 1 keeps it. */
static const tembuzar_bands bands = {
    .low = {0.75, -0.5}, .middle = {0.75, -0.5}, .high = {0.75, -0.5}, .ceiling = 4.0, .cuts = {1, 2}};

static void samples_of_two_axes(tembuzar_map2 map)
{
    enum { CELLS = 5 * 4 };
    const tembuzar_point2 points[] = {{3.5, 0.75}, {4.5, 0.5}, {3.0, 1.0}};
    tembuzar_sample2 samples[] = {{7.0, {8.0, 9.0}}, {7.0, {8.0, 9.0}}, {7.0, {8.0, 9.0}}};
    uint8_t found[] = {9, 9, 9};
    const double *first = &points[0].x;
    double *slots = &samples[0].value;
    tembuzar_refusal r = tembuzar_sample_all_log_odds2(map, odds, CELLS, first, 6, slots, 8, found, 3);
    printf("sample_all   number %u, values %u, found %u, value %g [14, 0, 9, 7]\n",
           r.number, r.values, found[0], samples[0].value);
    r = tembuzar_sample_all_log_odds2(map, odds, CELLS, first, 6, slots, 9, found, 3);
    printf("sample_all   number %u, found %u %u %u, values %g %g %g [0, 1 0 1, 1.4375 7 4]\n", r.number,
           found[0], found[1], found[2], samples[0].value, samples[1].value, samples[2].value);
    printf("             gradients (%g, %g) (%g, %g) (%g, %g) [(-2.875, 2.25) (8, 9) (-4, -4)]\n",
           samples[0].gradient.x, samples[0].gradient.y, samples[1].gradient.x, samples[1].gradient.y,
           samples[2].gradient.x, samples[2].gradient.y);
}

static void record_of_two_axes(tembuzar_map2 map)
{
    enum { CELLS = 5 * 4, BYTES = 41 + 4 * (3 + 8 * 5) + 3 };
    memset(bytes, 170, sizeof bytes);
    memset(stamps_read, 170, sizeof stamps_read);
    tembuzar_count_answer n = tembuzar_write_record2(map, odds, CELLS, bytes, BYTES - 1);
    printf("write_record number %u, values %u, needed %lu, first byte %u [11, 1, 216, 170]\n",
           n.refusal.number, n.refusal.values, n.refusal.needed, bytes[0]);
    n = tembuzar_write_record2(map, odds, CELLS, bytes, sizeof bytes);
    printf("write_record number %u, count %lu, extents %u %u, frame %u, end %u, next %u [0, 216, 5 4, 2, 5, 170]\n",
           n.refusal.number, n.count, bytes[3], bytes[5], bytes[37], bytes[BYTES - 3], bytes[BYTES]);
    tembuzar_map_answer2 m = tembuzar_read_record2(bytes, 100, odds_read, CELLS, stamps_read, CELLS);
    printf("read_record  number %u, values %u, place %lu, odds %g, stamp %x [10, 1, 84, 0, aaaaaaaa]\n",
           m.refusal.number, m.refusal.values, m.refusal.place, odds_read[11], stamps_read[11]);
    m = tembuzar_read_record2(bytes, BYTES, odds_read, CELLS, stamps_read, CELLS);
    printf("read_record  number %u, %lu by %lu, model %g %g %g, frame %u [0, 5 by 4, 0.75 -0.5 4, 2]\n",
           m.refusal.number, m.map.extents.x, m.map.extents.y,
           m.map.model.occupied, m.map.model.free, m.map.model.ceiling, m.map.frame);
    printf("             odds %g, all as written %d, stamp %x [0.75, 1, 0]\n",
           odds_read[11], memcmp(odds, odds_read, CELLS * sizeof *odds) == 0, stamps_read[11]);
}

static void edition2_of_two_axes(tembuzar_map2 map)
{
    enum { CELLS = 5 * 4, CLOSED = 49 + 4 * (3 + 8 * 5) + 3, OPEN = CLOSED + 4 * (3 + 4 * 5) };
    memset(bytes, 170, sizeof bytes);
    memset(odds_read, 0, sizeof odds_read);
    memset(stamps_read, 170, sizeof stamps_read);
    tembuzar_count_answer n = tembuzar_write_edition2_record2(map, true, odds, CELLS, stamps, CELLS - 1, bytes, OPEN);
    printf("write_ed.2   number %u, values %u, first byte %u [4, 0, 170]\n",
           n.refusal.number, n.refusal.values, bytes[0]);
    n = tembuzar_write_edition2_record2(map, true, odds, CELLS, stamps, CELLS, bytes, OPEN - 1);
    printf("write_ed.2   number %u, values %u, needed %lu, first byte %u [11, 1, 316, 170]\n",
           n.refusal.number, n.refusal.values, n.refusal.needed, bytes[0]);
    n = tembuzar_write_edition2_record2(map, true, odds, CELLS, stamps, CELLS, bytes, sizeof bytes);
    printf("write_ed.2   number %u, count %lu, edition %u, extents %u %u, frame %u, open %u, end %u, next %u"
           " [0, 316, 2, 5 4, 2, 1, 5, 170]\n",
           n.refusal.number, n.count, bytes[3], bytes[7], bytes[9], bytes[41], bytes[48], bytes[OPEN - 3], bytes[OPEN]);
    tembuzar_load_answer2 m = tembuzar_read_edition2_record2(bytes, 100, odds_read, CELLS, stamps_read, CELLS);
    printf("read_ed.2    number %u, values %u, place %lu, odds %g, stamp %x [10, 1, 92, 0, aaaaaaaa]\n",
           m.refusal.number, m.refusal.values, m.refusal.place, odds_read[11], stamps_read[11]);
    m = tembuzar_read_edition2_record2(bytes, OPEN, odds_read, CELLS, stamps_read, CELLS);
    printf("read_ed.2    number %u, %lu by %lu, model %g %g %g, frame %u, open %d [0, 5 by 4, 0.75 -0.5 4, 2, 1]\n",
           m.refusal.number, m.map.extents.x, m.map.extents.y,
           m.map.model.occupied, m.map.model.free, m.map.model.ceiling, m.map.frame, m.running);
    printf("             odds %g, stamp %u, all as written %d %d [0.75, 5, 1 1]\n", odds_read[11], stamps_read[11],
           memcmp(odds, odds_read, CELLS * sizeof *odds) == 0,
           memcmp(stamps, stamps_read, CELLS * sizeof *stamps) == 0);
    n = tembuzar_downgrade_record2(bytes, OPEN, moved, sizeof moved);
    printf("downgrade    number %u, values %u, count %lu [16, 0, 0]\n", n.refusal.number, n.refusal.values, n.count);
    n = tembuzar_write_edition2_record2(map, false, odds, CELLS, NULL, 0, bytes, sizeof bytes);
    printf("write_ed.2   number %u, count %lu, open %u, end %u [0, 224, 0, 5]\n",
           n.refusal.number, n.count, bytes[48], bytes[CLOSED - 3]);
    m = tembuzar_read_edition2_record2(bytes, CLOSED, odds_read, CELLS, stamps_read, CELLS);
    printf("read_ed.2    number %u, open %d, odds %g, stamp %x [0, 0, 0.75, 0]\n",
           m.refusal.number, m.running, odds_read[11], stamps_read[11]);
}

/* A record of edition 1 up to edition 2 and back. */
static void moves_of_two_axes(tembuzar_map2 map)
{
    enum { CELLS = 5 * 4, OLD = 41 + 4 * (3 + 8 * 5) + 3, NEW = OLD + 8 };
    static uint8_t back[OLD];
    tembuzar_write_record2(map, odds, CELLS, bytes, sizeof bytes);
    memset(moved, 170, sizeof moved);
    tembuzar_count_answer n = tembuzar_upgrade_record2(bytes, OLD - 1, moved, sizeof moved);
    printf("upgrade      number %u, values %u, place %lu, first byte %u [10, 1, 213, 170]\n",
           n.refusal.number, n.refusal.values, n.refusal.place, moved[0]);
    n = tembuzar_upgrade_record2(bytes, OLD, moved, NEW - 1);
    printf("upgrade      number %u, values %u, needed %lu, first byte %u [11, 1, 224, 170]\n",
           n.refusal.number, n.refusal.values, n.refusal.needed, moved[0]);
    n = tembuzar_upgrade_record2(bytes, OLD, moved, sizeof moved);
    printf("upgrade      number %u, count %lu, edition %u, frame %u, open %u, next %u [0, 224, 2, 2, 0, 170]\n",
           n.refusal.number, n.count, moved[3], moved[41], moved[48], moved[NEW]);
    n = tembuzar_downgrade_record2(moved, NEW, back, OLD - 1);
    printf("downgrade    number %u, values %u, needed %lu, first byte %u [11, 1, 216, 0]\n",
           n.refusal.number, n.refusal.values, n.refusal.needed, back[0]);
    n = tembuzar_downgrade_record2(bytes, OLD, back, OLD);
    printf("downgrade    number %u, values %u, place %lu [10, 1, 0]\n",
           n.refusal.number, n.refusal.values, n.refusal.place);
    n = tembuzar_downgrade_record2(moved, NEW, back, OLD);
    printf("downgrade    number %u, count %lu, as it was %d [0, 216, 1]\n",
           n.refusal.number, n.count, memcmp(bytes, back, OLD) == 0);
}

static void two_axes(void)
{
    enum { CELLS = 5 * 4 };
    tembuzar_map_answer2 m = tembuzar_new2((tembuzar_extents2){5, 4}, model, odds, CELLS, stamps, CELLS);
    printf("new          number %u, %lu by %lu, model %g %g %g, frame %u [0, 5 by 4, 0.75 -0.5 4, 1]\n",
           m.refusal.number, m.map.extents.x, m.map.extents.y,
           m.map.model.occupied, m.map.model.free, m.map.model.ceiling, m.map.frame);
    m = tembuzar_begin_scan2(m.map, stamps, CELLS);
    printf("begin_scan   number %u, frame %u [0, 2]\n", m.refusal.number, m.map.frame);
    tembuzar_mark_answer k = tembuzar_mark_free2(m.map, odds, CELLS, stamps, CELLS, (tembuzar_cell2){1, 2});
    printf("mark_free    number %u, changed %d, odds %g, stamp %u [0, 1, -0.5, 4]\n",
           k.refusal.number, k.changed, odds[11], stamps[11]);
    k = tembuzar_mark_occupied2(m.map, odds, CELLS, stamps, CELLS, (tembuzar_cell2){1, 2});
    printf("mark_occ.    number %u, changed %d, odds %g, stamp %u [0, 1, 0.75, 5]\n",
           k.refusal.number, k.changed, odds[11], stamps[11]);
    tembuzar_beam2 beam = {.origin = {4.5, 3.5}, .endpoint = {2.25, 3.25}, .hit = true};
    tembuzar_count_answer n = tembuzar_update_ray2(m.map, odds, CELLS, stamps, CELLS, beam);
    printf("update_ray   number %u, count %lu, odds %g %g %g [0, 3, 0.75 -0.5 -0.5]\n",
           n.refusal.number, n.count, odds[17], odds[18], odds[19]);
    const double beams[] = {0.5, 0.5, 3.5, 0.5, 4.5, 3.5, NAN, 1.0};
    const uint8_t hits[] = {0, 1};
    n = tembuzar_update_scan2(m.map, odds, CELLS, stamps, CELLS, beams, 8, hits, 2);
    printf("update_scan  number %u, values %u, beam %lu, count so far %lu [7, 2, 1, 4]\n",
           n.refusal.number, n.refusal.values, n.refusal.place, n.refusal.count);
    tembuzar_refusal r = tembuzar_set_log_odds2(m.map, odds, CELLS, (tembuzar_cell2){3, 1}, 9.5);
    printf("set_log_odds number %u, odds %g [0, 4]\n", r.number, odds[8]);
    r = tembuzar_set_log_odds2(m.map, odds, CELLS, (tembuzar_cell2){3, -7}, 9.5);
    printf("set_log_odds number %u, values %u, axis %lu, index %ld, extent %lu, axes %u [5, 4, 1, -7, 4, 2]\n",
           r.number, r.values, r.axis, r.index, r.extent, r.axes);
    r = tembuzar_set_log_odds_checked2(m.map, odds, CELLS, (tembuzar_cell2){3, 1}, NAN);
    printf("set_checked  number %u, values %u, odds %g [13, 0, 4]\n", r.number, r.values, odds[8]);
    r = tembuzar_set_log_odds_checked2(m.map, odds, CELLS, (tembuzar_cell2){3, 1}, INFINITY);
    printf("set_checked  number %u, odds %g [0, 4]\n", r.number, odds[8]);
    tembuzar_odds_answer o = tembuzar_log_odds_at2(m.map, odds, CELLS, (tembuzar_cell2){3, 1});
    printf("log_odds_at  number %u, found %d, odds %g [0, 1, 4]\n", o.refusal.number, o.found, o.odds);
    tembuzar_sample_answer2 s = tembuzar_sample_log_odds2(m.map, odds, CELLS, (tembuzar_point2){3.5, 0.75});
    printf("sample       number %u, found %d, value %g, gradient (%g, %g) [0, 1, 1.4375, (-2.875, 2.25)]\n",
           s.refusal.number, s.found,
           s.sample.value, s.sample.gradient.x, s.sample.gradient.y);
    samples_of_two_axes(m.map);
    tembuzar_cell_answer2 c = tembuzar_cell_containing2(m.map, (tembuzar_point2){4.75, 1.5});
    printf("containing   number %u, cell (%ld, %ld) [0, (4, 1)]\n", c.refusal.number, c.cell.x, c.cell.y);
    tembuzar_line_answer2 l = tembuzar_plotter2((tembuzar_point2){0.5, 0.5}, (tembuzar_point2){-1.5, 1.5});
    printf("plotter      number %u, primary %lu, remaining %lu [0, 0, 3]\nstep        ",
           l.refusal.number, l.line.primary, l.line.remaining);
    tembuzar_step_answer2 t = tembuzar_step2(l.line);
    for (; t.found; t = tembuzar_step2(t.line))
        printf(" (%ld,%ld)", t.cell.x, t.cell.y);
    printf(", then none [(0,0) (0,0) (-1,1)]\n");
    record_of_two_axes(m.map);
    edition2_of_two_axes(m.map);
    moves_of_two_axes(m.map);
    m = tembuzar_reset2(m.map, odds, CELLS, stamps, CELLS);
    printf("reset        number %u, frame %u, odds %g, stamp %u [0, 1, 0, 0]\n",
           m.refusal.number, m.map.frame, odds[11], stamps[11]);
}

static void lent_forms_of_two_axes(void)
{
    enum { CELLS = 5 * 4 };
    tembuzar_map2 map = tembuzar_new2((tembuzar_extents2){5, 4}, model, odds, CELLS, stamps, CELLS).map;
    tembuzar_refusal r = tembuzar_open_scan2(&map, stamps, CELLS);
    printf("open_scan    number %u, %lu by %lu, model %g %g %g, frame %u [0, 5 by 4, 0.75 -0.5 4, 2]\n", r.number,
           map.extents.x, map.extents.y, map.model.occupied, map.model.free, map.model.ceiling, map.frame);
    unsigned char was[sizeof map];
    memset((unsigned char *)(&map + 1) - 4, 0xaa, 4); /* the bytes behind the frame, which are none of a field */
    memcpy(was, &map, sizeof map);
    r = tembuzar_open_scan2(&map, stamps, CELLS - 1);
    printf("open_scan    number %u, frame %u, head %s [4, 2, as it was]\n", r.number, map.frame,
           memcmp(was, &map, sizeof map) == 0 ? "as it was" : "changed");
    const tembuzar_beam2 beams[] = {
        {.origin = {4.5, 3.5}, .endpoint = {2.25, 3.25}, .hit = true},
        {.origin = {0.5, 0.5}, .endpoint = {3.5, 0.5}, .hit = false},
        {.origin = {4.5, 3.5}, .endpoint = {NAN, 1.0}, .hit = true},
    };
    tembuzar_count_answer c = tembuzar_update_beams2(map, odds, CELLS, stamps, CELLS, beams, 2);
    printf("update_beams number %u, count %lu, odds %g %g %g %g, stamps %u %u [0, 7, 0.75 -0.5 -0.5 -0.5, 5 4]\n",
           c.refusal.number, c.count, odds[17], odds[18], odds[19], odds[2], stamps[17], stamps[2]);
    tembuzar_open_scan2(&map, stamps, CELLS);
    c = tembuzar_update_beams2(map, odds, CELLS, stamps, CELLS, beams, 3);
    printf("update_beams number %u, values %u, beam %lu, count so far %lu, count %lu, odds %g %g"
           " [7, 2, 2, 7, 0, 1.5 -1]\n",
           c.refusal.number, c.refusal.values, c.refusal.place, c.refusal.count, c.count, odds[17], odds[2]);
    c = tembuzar_update_beams2(map, odds, CELLS, stamps, CELLS, NULL, 0);
    printf("update_beams number %u, count %lu [0, 0]\n", c.refusal.number, c.count);
}

static void samples_of_three_axes(tembuzar_map3 map)
{
    enum { CELLS = 5 * 4 * 3 };
    const tembuzar_point3 points[] = {{3.5, 0.75, 2.0}, {3.5, 0.75, 2.5}, {3.0, 1.0, 2.0}};
    tembuzar_sample3 samples[] = {{6.0, {7.0, 8.0, 9.0}}, {6.0, {7.0, 8.0, 9.0}}, {6.0, {7.0, 8.0, 9.0}}};
    uint8_t found[] = {9, 9, 9};
    const double *first = &points[0].x;
    double *slots = &samples[0].value;
    tembuzar_refusal r = tembuzar_sample_all_log_odds3(map, odds, CELLS, first, 9, slots, 12, found, 2);
    printf("sample_all   number %u, values %u, found %u, value %g [14, 0, 9, 6]\n",
           r.number, r.values, found[0], samples[0].value);
    r = tembuzar_sample_all_log_odds3(map, odds, CELLS, first, 9, slots, 12, found, 3);
    printf("sample_all   number %u, found %u %u %u, values %g %g %g [0, 1 0 1, 1.5 6 4]\n", r.number,
           found[0], found[1], found[2], samples[0].value, samples[1].value, samples[2].value);
    printf("             gradients (%g, %g, %g) (%g, %g, %g) (%g, %g, %g) [(-3, 2, 1.5625) (7, 8, 9) (-4, -4, 4)]\n",
           samples[0].gradient.x, samples[0].gradient.y, samples[0].gradient.z,
           samples[1].gradient.x, samples[1].gradient.y, samples[1].gradient.z,
           samples[2].gradient.x, samples[2].gradient.y, samples[2].gradient.z);
}

static void sweep_file_of_two_axes(void)
{
    enum { CELLS = 5 * 4, BYTES = 9 + 2 * 36 + 7 };
    tembuzar_map2 map = tembuzar_new2((tembuzar_extents2){5, 4}, model, odds, CELLS, stamps, CELLS).map;
    const double beams[] = {4.5, 3.5, 2.25, 3.25, 0.5, 0.5, 3.5, 0.5};
    const uint8_t hits[] = {1, 0};
    memset(bytes, 170, sizeof bytes);
    tembuzar_count_answer n = tembuzar_write_sweep2(40000, beams, 7, hits, 2, bytes, sizeof bytes);
    printf("write_sweep  number %u, values %u, first byte %u [8, 0, 170]\n",
           n.refusal.number, n.refusal.values, bytes[0]);
    n = tembuzar_write_sweep2(40000, beams, 8, hits, 2, bytes, BYTES - 1);
    printf("write_sweep  number %u, values %u, needed %lu, first byte %u [11, 1, 88, 170]\n",
           n.refusal.number, n.refusal.values, n.refusal.needed, bytes[0]);
    n = tembuzar_write_sweep2(40000, beams, 8, hits, 2, bytes, sizeof bytes);
    printf("write_sweep  number %u, count %lu, axes %u, station %u %u, hits %u %u, beams %u, next %u"
           " [0, 88, 2, 64 156, 1 0, 2, 170]\n",
           n.refusal.number, n.count, bytes[3], bytes[7], bytes[8], bytes[44], bytes[80], bytes[84], bytes[BYTES]);
    tembuzar_sweep_answer s = tembuzar_update_sweep2(map, odds, CELLS, stamps, CELLS, bytes, BYTES + 1);
    printf("update_sweep number %u, values %u, place %lu, station %u, count %lu, odds %g [12, 1, 88, 0, 0, 0]\n",
           s.refusal.number, s.refusal.values, s.refusal.place, s.station, s.count, odds[17]);
    s = tembuzar_update_sweep2(map, odds, CELLS, stamps, CELLS, bytes, BYTES);
    printf("update_sweep number %u, station %u, count %lu, odds %g %g %g %g [0, 40000, 7, 0.75 -0.5 -0.5 -0.5]\n",
           s.refusal.number, s.station, s.count, odds[17], odds[18], odds[19], odds[2]);
}

static void record_of_three_axes(tembuzar_map3 map)
{
    enum { CELLS = 5 * 4 * 3, BYTES = 43 + 4 * 3 * (3 + 8 * 5) + 3 };
    memset(bytes, 170, sizeof bytes);
    memset(odds_read, 0, sizeof odds_read);
    memset(stamps_read, 170, sizeof stamps_read);
    tembuzar_count_answer n = tembuzar_write_record3(map, odds, CELLS, bytes, BYTES - 1);
    printf("write_record number %u, values %u, needed %lu, first byte %u [11, 1, 562, 170]\n",
           n.refusal.number, n.refusal.values, n.refusal.needed, bytes[0]);
    n = tembuzar_write_record3(map, odds, CELLS, bytes, sizeof bytes);
    printf("write_record number %u, count %lu, extents %u %u %u, frame %u, end %u, next %u"
           " [0, 562, 5 4 3, 2, 5, 170]\n",
           n.refusal.number, n.count, bytes[3], bytes[5], bytes[7], bytes[39], bytes[BYTES - 3], bytes[BYTES]);
    tembuzar_map_answer3 m = tembuzar_read_record3(bytes, 100, bands.cuts, odds_read, CELLS, stamps_read, CELLS);
    printf("read_record  number %u, values %u, place %lu, odds %g, stamp %x [10, 1, 86, 0, aaaaaaaa]\n",
           m.refusal.number, m.refusal.values, m.refusal.place, odds_read[11], stamps_read[11]);
    m = tembuzar_read_record3(bytes, BYTES, bands.cuts, odds_read, CELLS, stamps_read, CELLS);
    printf("read_record  number %u, %lu by %lu by %lu, model %g %g %g, frame %u [0, 5 by 4 by 3, 0.75 -0.5 4, 2]\n",
           m.refusal.number, m.map.extents.x, m.map.extents.y, m.map.extents.z,
           m.map.bands.low.occupied, m.map.bands.low.free, m.map.bands.ceiling, m.map.frame);
    printf("             odds %g, all as written %d, stamp %x [0.75, 1, 0]\n",
           odds_read[11], memcmp(odds, odds_read, CELLS * sizeof *odds) == 0, stamps_read[11]);
}

static void edition2_of_three_axes(tembuzar_map3 map)
{
    enum { CELLS = 5 * 4 * 3, CLOSED = 112 + 4 * 3 * (3 + 8 * 5) + 3, OPEN = CLOSED + 4 * 3 * (3 + 4 * 5) };
    memset(bytes, 170, sizeof bytes);
    memset(odds_read, 0, sizeof odds_read);
    memset(stamps_read, 170, sizeof stamps_read);
    map.bands.middle = (tembuzar_pair){0.5, -0.25};
    map.bands.high = (tembuzar_pair){0.375, -0.125};
    tembuzar_count_answer n = tembuzar_write_edition2_record3(map, true, odds, CELLS, stamps, CELLS, bytes, OPEN - 1);
    printf("write_ed.2   number %u, values %u, needed %lu, first byte %u [11, 1, 907, 170]\n",
           n.refusal.number, n.refusal.values, n.refusal.needed, bytes[0]);
    n = tembuzar_write_edition2_record3(map, true, odds, CELLS, stamps, CELLS, bytes, sizeof bytes);
    printf("write_ed.2   number %u, count %lu, edition %u, extents %u %u %u, cuts %u %u [0, 907, 2, 5 4 3, 1 2]\n",
           n.refusal.number, n.count, bytes[3], bytes[7], bytes[9], bytes[11], bytes[97], bytes[99]);
    printf("             frame %u, open %u, end %u, next %u [2, 1, 5, 170]\n",
           bytes[104], bytes[111], bytes[OPEN - 3], bytes[OPEN]);
    tembuzar_load_answer3 m = tembuzar_read_edition2_record3(bytes, 200, odds_read, CELLS, stamps_read, CELLS);
    printf("read_ed.2    number %u, values %u, place %lu, odds %g, stamp %x [10, 1, 178, 0, aaaaaaaa]\n",
           m.refusal.number, m.refusal.values, m.refusal.place, odds_read[11], stamps_read[11]);
    m = tembuzar_read_edition2_record3(bytes, OPEN, odds_read, CELLS, stamps_read, CELLS);
    printf("read_ed.2    number %u, %lu by %lu by %lu, ceiling %g, cuts %lu %lu, frame %u, open %d"
           " [0, 5 by 4 by 3, 4, 1 2, 2, 1]\n",
           m.refusal.number, m.map.extents.x, m.map.extents.y, m.map.extents.z, m.map.bands.ceiling,
           m.map.bands.cuts.first, m.map.bands.cuts.second, m.map.frame, m.running);
    printf("             pairs (%g, %g) (%g, %g) (%g, %g) [(0.75, -0.5) (0.5, -0.25) (0.375, -0.125)]\n",
           m.map.bands.low.occupied, m.map.bands.low.free, m.map.bands.middle.occupied, m.map.bands.middle.free,
           m.map.bands.high.occupied, m.map.bands.high.free);
    printf("             odds %g, stamp %u, all as written %d %d [0.75, 5, 1 1]\n", odds_read[11], stamps_read[11],
           memcmp(odds, odds_read, CELLS * sizeof *odds) == 0,
           memcmp(stamps, stamps_read, CELLS * sizeof *stamps) == 0);
    stamps[11] = 6;
    n = tembuzar_write_edition2_record3(map, true, odds, CELLS, stamps, CELLS, bytes, sizeof bytes);
    printf("write_ed.2   number %u, values %u, place %lu [10, 1, 287]\n",
           n.refusal.number, n.refusal.values, n.refusal.place);
    stamps[11] = 5;
    n = tembuzar_write_edition2_record3(map, false, odds, CELLS, NULL, 0, bytes, sizeof bytes);
    printf("write_ed.2   number %u, count %lu, open %u, end %u [0, 631, 0, 5]\n",
           n.refusal.number, n.count, bytes[111], bytes[CLOSED - 3]);
    tembuzar_move_answer b = tembuzar_downgrade_record3(bytes, CLOSED, moved, sizeof moved);
    printf("downgrade    number %u, values %u, count %lu, cuts %lu %lu [16, 0, 0, 0 0]\n",
           b.refusal.number, b.refusal.values, b.count, b.cuts.first, b.cuts.second);
}

static void moves_of_three_axes(tembuzar_map3 map)
{
    enum { CELLS = 5 * 4 * 3, OLD = 43 + 4 * 3 * (3 + 8 * 5) + 3, NEW = OLD + 69 };
    static uint8_t back[OLD];
    tembuzar_write_record3(map, odds, CELLS, bytes, sizeof bytes);
    memset(moved, 170, sizeof moved);
    tembuzar_count_answer n = tembuzar_upgrade_record3(bytes, OLD, (tembuzar_cuts){1, 3}, moved, NEW - 1);
    printf("upgrade      number %u, values %u, first byte %u [15, 0, 170]\n",
           n.refusal.number, n.refusal.values, moved[0]);
    n = tembuzar_upgrade_record3(bytes, OLD, bands.cuts, moved, NEW - 1);
    printf("upgrade      number %u, values %u, needed %lu, first byte %u [11, 1, 631, 170]\n",
           n.refusal.number, n.refusal.values, n.refusal.needed, moved[0]);
    n = tembuzar_upgrade_record3(bytes, OLD, bands.cuts, moved, sizeof moved);
    printf("upgrade      number %u, count %lu, edition %u, cuts %u %u, frame %u, open %u, next %u"
           " [0, 631, 2, 1 2, 2, 0, 170]\n",
           n.refusal.number, n.count, moved[3], moved[97], moved[99], moved[104], moved[111], moved[NEW]);
    tembuzar_load_answer3 m = tembuzar_read_edition2_record3(moved, NEW, odds_read, CELLS, stamps_read, CELLS);
    printf("read_ed.2    number %u, open %d, bands %d, odds %d, stamp %x [0, 0, 1, 1, 0]\n",
           m.refusal.number, m.running, memcmp(&m.map.bands, &bands, sizeof bands) == 0,
           memcmp(odds, odds_read, CELLS * sizeof *odds) == 0, stamps_read[11]);
    tembuzar_move_answer b = tembuzar_downgrade_record3(moved, NEW, back, OLD - 1);
    printf("downgrade    number %u, values %u, needed %lu, count %lu, cuts %lu %lu [11, 1, 562, 0, 0 0]\n",
           b.refusal.number, b.refusal.values, b.refusal.needed, b.count, b.cuts.first, b.cuts.second);
    b = tembuzar_downgrade_record3(moved, NEW, back, OLD);
    printf("downgrade    number %u, count %lu, cuts %lu %lu, as it was %d [0, 562, 1 2, 1]\n",
           b.refusal.number, b.count, b.cuts.first, b.cuts.second, memcmp(bytes, back, OLD) == 0);
}

static void three_axes(void)
{
    enum { CELLS = 5 * 4 * 3 };
    tembuzar_map_answer3 m = tembuzar_new3((tembuzar_extents3){5, 4, 3}, bands, odds, CELLS, stamps, CELLS);
    printf("new          number %u, %lu by %lu by %lu, model %g %g %g, frame %u [0, 5 by 4 by 3, 0.75 -0.5 4, 1]\n",
           m.refusal.number, m.map.extents.x, m.map.extents.y, m.map.extents.z,
           m.map.bands.low.occupied, m.map.bands.low.free, m.map.bands.ceiling, m.map.frame);
    m = tembuzar_begin_scan3(m.map, stamps, CELLS);
    printf("begin_scan   number %u, frame %u [0, 2]\n", m.refusal.number, m.map.frame);
    tembuzar_mark_answer k = tembuzar_mark_free3(m.map, odds, CELLS, stamps, CELLS, (tembuzar_cell3){1, 2, 0});
    printf("mark_free    number %u, changed %d, odds %g, stamp %u [0, 1, -0.5, 4]\n",
           k.refusal.number, k.changed, odds[11], stamps[11]);
    k = tembuzar_mark_occupied3(m.map, odds, CELLS, stamps, CELLS, (tembuzar_cell3){1, 2, 0});
    printf("mark_occ.    number %u, changed %d, odds %g, stamp %u [0, 1, 0.75, 5]\n",
           k.refusal.number, k.changed, odds[11], stamps[11]);
    tembuzar_beam3 beam = {.origin = {4.5, 3.5, 2.5}, .endpoint = {2.25, 3.25, 2.75}, .hit = true};
    tembuzar_count_answer n = tembuzar_update_ray3(m.map, odds, CELLS, stamps, CELLS, beam);
    printf("update_ray   number %u, count %lu, odds %g %g %g [0, 3, 0.75 -0.5 -0.5]\n",
           n.refusal.number, n.count, odds[57], odds[58], odds[59]);
    const double beams[] = {0.5, 0.5, 1.5, 3.5, 0.5, 1.5, 4.5, 3.5, 2.5, 1.0, NAN, 1.0};
    const uint8_t hits[] = {0, 1};
    n = tembuzar_update_scan3(m.map, odds, CELLS, stamps, CELLS, beams, 12, hits, 2);
    printf("update_scan  number %u, values %u, beam %lu, count so far %lu [7, 2, 1, 4]\n",
           n.refusal.number, n.refusal.values, n.refusal.place, n.refusal.count);
    tembuzar_refusal r = tembuzar_set_log_odds3(m.map, odds, CELLS, (tembuzar_cell3){3, 1, 2}, 9.5);
    printf("set_log_odds number %u, odds %g [0, 4]\n", r.number, odds[48]);
    r = tembuzar_set_log_odds3(m.map, odds, CELLS, (tembuzar_cell3){3, 1, -7}, 9.5);
    printf("set_log_odds number %u, values %u, axis %lu, index %ld, extent %lu, axes %u [5, 4, 2, -7, 3, 4]\n",
           r.number, r.values, r.axis, r.index, r.extent, r.axes);
    r = tembuzar_set_log_odds_checked3(m.map, odds, CELLS, (tembuzar_cell3){3, 1, 2}, NAN);
    printf("set_checked  number %u, values %u, odds %g [13, 0, 4]\n", r.number, r.values, odds[48]);
    r = tembuzar_set_log_odds_checked3(m.map, odds, CELLS, (tembuzar_cell3){3, 1, 2}, INFINITY);
    printf("set_checked  number %u, odds %g [0, 4]\n", r.number, odds[48]);
    tembuzar_odds_answer o = tembuzar_log_odds_at3(m.map, odds, CELLS, (tembuzar_cell3){3, 1, 2});
    printf("log_odds_at  number %u, found %d, odds %g [0, 1, 4]\n", o.refusal.number, o.found, o.odds);
    tembuzar_sample_answer3 s = tembuzar_sample_log_odds3(m.map, odds, CELLS, (tembuzar_point3){3.5, 0.75, 2.0});
    printf("sample       number %u, found %d, value %g, gradient (%g, %g, %g) [0, 1, 1.5, (-3, 2, 1.5625)]\n",
           s.refusal.number, s.found,
           s.sample.value, s.sample.gradient.x, s.sample.gradient.y, s.sample.gradient.z);
    samples_of_three_axes(m.map);
    tembuzar_cell_answer3 c = tembuzar_cell_containing3(m.map, (tembuzar_point3){4.75, 1.5, 2.25});
    printf("containing   number %u, cell (%ld, %ld, %ld) [0, (4, 1, 2)]\n",
           c.refusal.number, c.cell.x, c.cell.y, c.cell.z);
    tembuzar_line_answer3 l = tembuzar_plotter3((tembuzar_point3){0.5, 0.5, 2.5}, (tembuzar_point3){-1.5, 1.5, 2.5});
    printf("plotter      number %u, primary %lu, remaining %lu [0, 0, 3]\nstep        ",
           l.refusal.number, l.line.primary, l.line.remaining);
    tembuzar_step_answer3 t = tembuzar_step3(l.line);
    for (; t.found; t = tembuzar_step3(t.line))
        printf(" (%ld,%ld,%ld)", t.cell.x, t.cell.y, t.cell.z);
    printf(", then none [(0,0,2) (0,0,2) (-1,1,2)]\n");
    record_of_three_axes(m.map);
    edition2_of_three_axes(m.map);
    moves_of_three_axes(m.map);
    m = tembuzar_reset3(m.map, odds, CELLS, stamps, CELLS);
    printf("reset        number %u, frame %u, odds %g, stamp %u [0, 1, 0, 0]\n",
           m.refusal.number, m.map.frame, odds[11], stamps[11]);
}

static void lent_forms_of_three_axes(void)
{
    enum { CELLS = 5 * 4 * 3 };
    tembuzar_map3 map = tembuzar_new3((tembuzar_extents3){5, 4, 3}, bands, odds, CELLS, stamps, CELLS).map;
    tembuzar_refusal r = tembuzar_open_scan3(&map, stamps, CELLS);
    printf("open_scan    number %u, %lu by %lu by %lu, model %g %g %g, frame %u [0, 5 by 4 by 3, 0.75 -0.5 4, 2]\n",
           r.number, map.extents.x, map.extents.y, map.extents.z,
           map.bands.low.occupied, map.bands.low.free, map.bands.ceiling, map.frame);
    unsigned char was[sizeof map];
    memset((unsigned char *)(&map + 1) - 4, 0xaa, 4); /* the bytes behind the frame, which are none of a field */
    memcpy(was, &map, sizeof map);
    r = tembuzar_open_scan3(&map, stamps, CELLS - 1);
    printf("open_scan    number %u, frame %u, head %s [4, 2, as it was]\n", r.number, map.frame,
           memcmp(was, &map, sizeof map) == 0 ? "as it was" : "changed");
    const tembuzar_beam3 beams[] = {
        {.origin = {4.5, 3.5, 2.5}, .endpoint = {2.25, 3.25, 2.75}, .hit = true},
        {.origin = {0.5, 0.5, 1.5}, .endpoint = {3.5, 0.5, 1.5}, .hit = false},
        {.origin = {4.5, 3.5, 2.5}, .endpoint = {1.0, NAN, 1.0}, .hit = true},
    };
    tembuzar_count_answer c = tembuzar_update_beams3(map, odds, CELLS, stamps, CELLS, beams, 2);
    printf("update_beams number %u, count %lu, odds %g %g %g %g, stamps %u %u [0, 7, 0.75 -0.5 -0.5 -0.5, 5 4]\n",
           c.refusal.number, c.count, odds[57], odds[58], odds[59], odds[22], stamps[57], stamps[22]);
    tembuzar_open_scan3(&map, stamps, CELLS);
    c = tembuzar_update_beams3(map, odds, CELLS, stamps, CELLS, beams, 3);
    printf("update_beams number %u, values %u, beam %lu, count so far %lu, count %lu, odds %g %g"
           " [7, 2, 2, 7, 0, 1.5 -1]\n",
           c.refusal.number, c.refusal.values, c.refusal.place, c.refusal.count, c.count, odds[57], odds[22]);
    c = tembuzar_update_beams3(map, odds, CELLS, stamps, CELLS, NULL, 0);
    printf("update_beams number %u, count %lu [0, 0]\n", c.refusal.number, c.count);
}

static void vertical_beams(void)
{
    enum { CELLS = 5 * 4 * 3 };
    tembuzar_map3 map = tembuzar_new3((tembuzar_extents3){5, 4, 3}, bands, odds, CELLS, stamps, CELLS).map;
    tembuzar_vertical_beam beam = {.x = 2, .y = 1, .bottom = 0, .top = 2, .hit = true};
    tembuzar_count_answer c = tembuzar_update_vertical3(map, odds, CELLS, stamps, CELLS, beam);
    printf("update_vert. number %u, count %lu, odds %g %g %g, stamps %u %u %u [0, 3, -0.5 -0.5 0.75, 2 2 3]\n",
           c.refusal.number, c.count, odds[7], odds[27], odds[47], stamps[7], stamps[27], stamps[47]);
    beam = (tembuzar_vertical_beam){.x = 4, .y = 3, .bottom = 1, .top = 3, .hit = true};
    c = tembuzar_update_vertical3(map, odds, CELLS, stamps, CELLS, beam);
    printf("update_vert. number %u, count %lu, odds %g %g %g, stamp %u [0, 2, 0 -0.5 -0.5, 2]\n",
           c.refusal.number, c.count, odds[19], odds[39], odds[59], stamps[59]);
    beam.top = 4;
    c = tembuzar_update_vertical3(map, odds, CELLS, stamps, CELLS, beam);
    printf("update_vert. number %u, values %u, count %lu, odds %g [18, 0, 0, -0.5]\n",
           c.refusal.number, c.refusal.values, c.count, odds[59]);
    map.frame = 0;
    c = tembuzar_update_vertical3(map, odds, CELLS, stamps, CELLS, beam);
    printf("update_vert. number %u [9]\n", c.refusal.number);
}

static void sweep_file_of_three_axes(void)
{
    enum { CELLS = 5 * 4 * 3, BYTES = 9 + 2 * 52 + 7 };
    tembuzar_map3 map = tembuzar_new3((tembuzar_extents3){5, 4, 3}, bands, odds, CELLS, stamps, CELLS).map;
    const double beams[] = {4.5, 3.5, 2.5, 2.25, 3.25, 2.75, 0.5, 0.5, 1.5, 3.5, 0.5, 1.5};
    const uint8_t hits[] = {1, 0};
    memset(bytes, 170, sizeof bytes);
    tembuzar_count_answer n = tembuzar_write_sweep3(40000, beams, 12, hits, 2, bytes, BYTES - 1);
    printf("write_sweep  number %u, values %u, needed %lu, first byte %u [11, 1, 120, 170]\n",
           n.refusal.number, n.refusal.values, n.refusal.needed, bytes[0]);
    n = tembuzar_write_sweep3(40000, beams, 12, hits, 2, bytes, sizeof bytes);
    printf("write_sweep  number %u, count %lu, axes %u, station %u %u, hits %u %u, beams %u, next %u"
           " [0, 120, 3, 64 156, 1 0, 2, 170]\n",
           n.refusal.number, n.count, bytes[3], bytes[7], bytes[8], bytes[60], bytes[112], bytes[116], bytes[BYTES]);
    tembuzar_sweep_answer s = tembuzar_update_sweep3(map, odds, CELLS, stamps, CELLS, bytes, BYTES);
    printf("update_sweep number %u, station %u, count %lu, odds %g %g %g %g [0, 40000, 7, 0.75 -0.5 -0.5 -0.5]\n",
           s.refusal.number, s.station, s.count, odds[57], odds[58], odds[59], odds[22]);
    bytes[112] = 2;
    s = tembuzar_update_sweep3(map, odds, CELLS, stamps, CELLS, bytes, BYTES);
    printf("update_sweep number %u, values %u, place %lu, station %u, count %lu [12, 1, 61, 0, 0]\n",
           s.refusal.number, s.refusal.values, s.refusal.place, s.station, s.count);
}

/* Each band has its own steps. */
static void three_bands(void)
{
    enum { CELLS = 5 * 4 * 3 };
    uint8_t bytes[600];
    tembuzar_bands unequal = bands;
    unequal.middle = (tembuzar_pair){0.5, -0.25};
    unequal.high = (tembuzar_pair){0.25, -0.125};
    tembuzar_map_answer3 m = tembuzar_new3((tembuzar_extents3){5, 4, 3}, unequal, odds, CELLS, stamps, CELLS);
    tembuzar_map3 map = tembuzar_begin_scan3(m.map, stamps, CELLS).map;
    for (int64_t z = 0; z < 3; z++)
        tembuzar_mark_free3(map, odds, CELLS, stamps, CELLS, (tembuzar_cell3){1, 2, z});
    printf("bands        free %g %g %g [-0.5 -0.25 -0.125]\n", odds[11], odds[31], odds[51]);
    for (int64_t z = 0; z < 3; z++)
        tembuzar_mark_occupied3(map, odds, CELLS, stamps, CELLS, (tembuzar_cell3){1, 2, z});
    printf("             occupied %g %g %g [0.75 0.5 0.25]\n", odds[11], odds[31], odds[51]);
    tembuzar_count_answer n = tembuzar_write_record3(map, odds, CELLS, bytes, sizeof bytes);
    printf("write_record number %u, place %lu [10, 9]\n", n.refusal.number, n.refusal.place);
    unequal.cuts.second = 3;
    m = tembuzar_new3((tembuzar_extents3){5, 4, 3}, unequal, odds, CELLS, stamps, CELLS);
    printf("new          number %u, odds %g [15, 0.75]\n", m.refusal.number, odds[11]);
}

int main(void)
{
    printf("two axes\n");
    two_axes();
    lent_forms_of_two_axes();
    sweep_file_of_two_axes();
    printf("three axes\n");
    three_axes();
    three_bands();
    lent_forms_of_three_axes();
    sweep_file_of_three_axes();
    vertical_beams();
    return 0;
}
