/*
 * tembuzar.h: an occupancy grid for sweeps of beams, in two and three axes.
 *
 * A grid has a cell for each place, and each cell has odds: how much speaks for something there (above 0) or
 * for clear air (below 0), as log-odds. A sweep is a list of beams. A line of cells is plotted along each beam;
 * each of them takes a vote for clear air, but the last one a vote for a return, if the beam ended in one on the
 * grid. Within a sweep a cell takes at most one vote of each kind, and a return takes a clear vote back.
 *
 * The code behind each function is proved to answer by one rule, for every input that the rules below allow.
 * docs/ENTRIES.md names the rule of each.
 * Link with target/staticlib/libtembuzar.a, which `tools/archives tembuzar` writes for x86-64 Linux. The two functions
 * that sample many points in one call are in a library of their own, target/staticlib/libtembuzar_samples.a, which
 * `tools/archives tembuzar_samples` writes; it needs nothing of the other. So are those of charts and reports, in
 * target/staticlib/libtembuzar_charts.a.
 *
 * A function's name ends in the number of the map's axes, 2 or 3. The four functions of season reports have none: a
 * report knows columns and no axes.
 *
 * WHAT THE CALLER HOLDS
 *
 *   A map is a head by value (tembuzar_map2, tembuzar_map3) and two lists that the caller owns and lends to each
 *   call: odds, a double for each cell, and stamps, a uint32_t for each cell. Axis x is the fastest: the cell
 *   (x, y, z) stands at x + extents.x * (y + extents.y * z). The library keeps nothing between calls, allocates
 *   nothing, and prints nothing; two threads may call it at once on different lists.
 *
 * WHAT THE CALLER OWES
 *
 *   1. A list is a pointer to its first element and the number of its elements. The elements are there, aligned
 *      as C aligns their type, and not touched by another thread during the call. They are set, except that new, reset
 *      and those that read a record take odds and stamps that are not, those that write or move a record and
 *      write_sweep an output, sample_all_log_odds samples and found, layer_chart a chart, and start_report a report.
 *      Where the number is 0, the pointer may be NULL.
 *   2. Where a call takes several lists, those that it may change (those not const) overlap no other of its lists.
 *   3. A bool is true or false, in a list of beams too.
 *   4. A pointer to a head, which open_scan takes, is not NULL. The head is there, set, aligned and untouched by
 *      others, as the elements of a list are, and overlaps no list of the call.
 *
 *   Nothing else. A list of the wrong length, extents or a model out of bounds, a cell off the grid, NaN and
 *   infinity, a head that no function gave: each is answered, and no call crashes or does not return.
 *   (The types fix how many extents there are, so a wrong number of them does not compile.)
 *
 * WHAT IS ANSWERED
 *
 *   Every answer but that of tembuzar_step2 and tembuzar_step3, which refuse nothing, is a tembuzar_refusal or holds
 *   one. Its number is 0 where the call was answered. Else it is one of the numbers below, what was asked for is 0
 *   throughout, and the lists and the head lent to the call are as they were; with one exception: a list of beams, or
 *   a sweep file, refused with 7 at one beam keeps the votes of the beams before it. A call that several refusals fit
 *   gives the first in the order that the call's comment lists.
 *
 *   Points are in cells: the cell (0, 0) goes from 0.0 up to 1.0 on both axes. Floats are IEEE 754 doubles.
 */
#ifndef TEMBUZAR_H
#define TEMBUZAR_H

#include <stdbool.h>
#include <stddef.h>
#include <stdint.h>

#ifdef __cplusplus
extern "C" {
#endif

/* The version of this header, and of the libraries that are written from the same source. */
#define TEMBUZAR_VERSION "0.14.0"
#define TEMBUZAR_VERSION_MAJOR 0
#define TEMBUZAR_VERSION_MINOR 14
#define TEMBUZAR_VERSION_PATCH 0

/* The bounds of a map: 2 to 4,096 cells along each axis, at most 16,777,216 in all. */
#define TEMBUZAR_SHORTEST_AXIS 2
#define TEMBUZAR_LONGEST_AXIS 4096
#define TEMBUZAR_MOST_CELLS 16777216

/* The highest number of a sweep. After it, frames start again at 1. */
#define TEMBUZAR_HIGHEST_FRAME UINT32_C(2147483647)

/* ---- Refusals ---- */

enum tembuzar_number {
    TEMBUZAR_ANSWERED = 0,
    TEMBUZAR_DIMENSION_TOO_SMALL = 1,   /* an extent below 2. Gives axis (the first such), extent */
    TEMBUZAR_CAPACITY_OVERFLOW = 2,     /* an extent above 4,096, or too many cells */
    TEMBUZAR_MODEL = 3,                 /* the model or a band is out of its bounds: tembuzar_model, tembuzar_bands */
    TEMBUZAR_BUFFER = 4,                /* odds or stamps are not one for each cell */
    TEMBUZAR_OUT_OF_BOUNDS = 5,         /* a cell or a point is off the grid. Gives axis (the first), index, extent,
                                           axes */
    TEMBUZAR_NON_FINITE_COORDINATE = 6, /* a point has NaN or infinity. Gives axis (the first) */
    TEMBUZAR_RAY = 7,                   /* a beam or a line cannot be plotted. In a list, gives place and count */
    TEMBUZAR_BEAMS = 8,                 /* the flat list is no list of beams */
    TEMBUZAR_FRAME = 9,                 /* the head's frame is 0 or above TEMBUZAR_HIGHEST_FRAME */
    TEMBUZAR_RECORD = 10,               /* a map record is broken. Gives place: the offset of the field */
    TEMBUZAR_ROOM = 11,                 /* the output is shorter than the record, file or chart. Gives needed: how many
                                           elements it has to have */
    TEMBUZAR_SWEEP = 12,                /* a sweep file is broken. Gives place: the offset of the field */
    TEMBUZAR_ODDS = 13,                 /* the odds are not a number */
    TEMBUZAR_LISTS = 14,                /* points, samples and marks are not for the same number of points */
    TEMBUZAR_CUTS = 15,                 /* the cuts are not 0 < first < second < extents.z, or the map has two axes */
    TEMBUZAR_EDITION = 16,              /* a record of edition 2 that edition 1 cannot hold: its sweep is open, or its
                                           pairs are not all equal */
    TEMBUZAR_COLUMN = 17,               /* a column of a chart holds NaN. Gives place: the column (the first such) */
    TEMBUZAR_PROFILE = 18,              /* a vertical beam is outside its profile: see tembuzar_update_vertical3 */
    TEMBUZAR_SIZES = 19,                /* a report, its charts or another report are not of the same size */
    TEMBUZAR_CHARTS = 20,               /* a report would have more than TEMBUZAR_MOST_CHARTS charts */
    TEMBUZAR_CHART = 21                 /* a chart or a report has numbers that none can have */
};

/* Why a call was refused. A value that the number does not give is 0. */
typedef struct tembuzar_refusal {
    uint32_t number; /* 0: the call was answered. Else: enum tembuzar_number */
    uint16_t values; /* how many values the refusal gives, 0 to 4 */
    uint16_t axes;   /* 5: all axes that are off, 1 for x, 2 for y, 4 for z, added up; of a point, those before the
                        first that is not finite */
    uint64_t axis;   /* 1, 5, 6: 0 for x, 1 for y, 2 for z */
    int64_t index;   /* 5: the cell's index on that axis; of a point, its coordinate cut to a whole number */
    uint64_t extent; /* 1, 5: the extent of that axis */
    uint64_t place;  /* 7 in a list: the place of the refused beam, from 0. 10, 12: the offset of the field in the
                        record or file, in bytes. 17: the column, x + extents.x * y */
    uint64_t count;  /* 7 in a list: the count of the beams before it */
    uint64_t needed; /* 11: the least number of elements of the output: of a record or file, bytes; of a chart, uint16_t
                        numbers, so that it takes needed * sizeof(uint16_t) bytes */
} tembuzar_refusal;

/* ---- Maps ---- */

/* What one vote of each kind adds to a cell's odds, and where a cell saturates: its odds stay within -ceiling and
 * ceiling. occupied > 0, free < 0, ceiling > 0, all finite and none above 1,048,576 in size; else 3. */
typedef struct tembuzar_model {
    double occupied;
    double free;
    double ceiling;
} tembuzar_model;

/* What a line keeps of one axis. */
typedef struct tembuzar_axis {
    double current;
    double end;
    double increment;
    double step;
    double error;
} tembuzar_axis;

/* Cells along each axis. */
typedef struct tembuzar_extents2 {
    uint64_t x, y;
} tembuzar_extents2;

/* A map's head. frame is the number of the sweep that is open. */
typedef struct tembuzar_map2 {
    tembuzar_extents2 extents;
    tembuzar_model model;
    uint32_t frame;
} tembuzar_map2;

/* A position in cells. */
typedef struct tembuzar_point2 {
    double x, y;
} tembuzar_point2;

/* A cell by its indices; any number may stand in it. */
typedef struct tembuzar_cell2 {
    int64_t x, y;
} tembuzar_cell2;

/* A beam: where it started, where it stopped, and whether that was a return (else it ran out). */
typedef struct tembuzar_beam2 {
    tembuzar_point2 origin;
    tembuzar_point2 endpoint;
    bool hit;
} tembuzar_beam2;

/* Interpolated odds, and how they change per cell along each axis. */
typedef struct tembuzar_vector2 {
    double x, y;
} tembuzar_vector2;

typedef struct tembuzar_sample2 {
    double value;
    tembuzar_vector2 gradient;
} tembuzar_sample2;

/* A line whose cells are taken one by one, by tembuzar_step2. Its fields are the plotter's own. */
typedef struct tembuzar_line2 {
    tembuzar_axis x, y;
    uint64_t primary;
    double threshold;
    uint64_t remaining;
} tembuzar_line2;

/* The same for three axes. */
typedef struct tembuzar_extents3 {
    uint64_t x, y, z;
} tembuzar_extents3;

/* A map of three axes has three bands along z, each with its own pair of steps, since high cloud returns less light
 * than low cloud. A cell whose z is below cuts.first is in the low band, below cuts.second in the middle one, else in
 * the high one. The ceiling is common; each pair with it has the bounds of a tembuzar_model, else 3.
 * 0 < first < second < extents.z, so that each band has a height at least; else 15, and so a map of three axes has 3
 * heights or more. */
typedef struct tembuzar_pair {
    double occupied;
    double free;
} tembuzar_pair;

typedef struct tembuzar_cuts {
    uint64_t first, second;
} tembuzar_cuts;

typedef struct tembuzar_bands {
    tembuzar_pair low, middle, high;
    double ceiling;
    tembuzar_cuts cuts;
} tembuzar_bands;

typedef struct tembuzar_map3 {
    tembuzar_extents3 extents;
    tembuzar_bands bands;
    uint32_t frame;
} tembuzar_map3;

typedef struct tembuzar_point3 {
    double x, y, z;
} tembuzar_point3;

typedef struct tembuzar_cell3 {
    int64_t x, y, z;
} tembuzar_cell3;

typedef struct tembuzar_beam3 {
    tembuzar_point3 origin;
    tembuzar_point3 endpoint;
    bool hit;
} tembuzar_beam3;

/* A beam straight up a column of cells, in whole numbers: the column, the height of the cell it started in, that of the
 * cell it stopped in, and whether that was a return. A top of the map's own extents.z means that the beam ran out. */
typedef struct tembuzar_vertical_beam {
    uint64_t x, y;
    uint64_t bottom;
    uint64_t top;
    bool hit;
} tembuzar_vertical_beam;

typedef struct tembuzar_vector3 {
    double x, y, z;
} tembuzar_vector3;

typedef struct tembuzar_sample3 {
    double value;
    tembuzar_vector3 gradient;
} tembuzar_sample3;

typedef struct tembuzar_line3 {
    tembuzar_axis x, y, z;
    uint64_t primary;
    double threshold;
    uint64_t remaining;
} tembuzar_line3;

/* ---- Answers ---- */

/* Whether a mark changed its cell. */
typedef struct tembuzar_mark_answer {
    tembuzar_refusal refusal;
    bool changed;
} tembuzar_mark_answer;

/* How many marks changed a cell; of a record or a sweep file, how many bytes were written; of a report, how many charts
 * it has. */
typedef struct tembuzar_count_answer {
    tembuzar_refusal refusal;
    uint64_t count;
} tembuzar_count_answer;

/* The number of the station that mailed a sweep, and how many marks changed a cell. */
typedef struct tembuzar_sweep_answer {
    tembuzar_refusal refusal;
    uint16_t station;
    uint64_t count;
} tembuzar_sweep_answer;

/* How many bytes a record moved back to edition 1 has there, and the cuts, which it has not. */
typedef struct tembuzar_move_answer {
    tembuzar_refusal refusal;
    uint64_t count;
    tembuzar_cuts cuts;
} tembuzar_move_answer;

/* One cell's odds; not found off the grid, which is no refusal. */
typedef struct tembuzar_odds_answer {
    tembuzar_refusal refusal;
    bool found;
    double odds;
} tembuzar_odds_answer;

typedef struct tembuzar_map_answer2 {
    tembuzar_refusal refusal;
    tembuzar_map2 map;
} tembuzar_map_answer2;

/* The map of a record of edition 2, and whether its sweep is open. */
typedef struct tembuzar_load_answer2 {
    tembuzar_refusal refusal;
    tembuzar_map2 map;
    bool running;
} tembuzar_load_answer2;

typedef struct tembuzar_cell_answer2 {
    tembuzar_refusal refusal;
    tembuzar_cell2 cell;
} tembuzar_cell_answer2;

/* A sample; not found unless every coordinate is in 0 to extent - 1, which is no refusal. */
typedef struct tembuzar_sample_answer2 {
    tembuzar_refusal refusal;
    bool found;
    tembuzar_sample2 sample;
} tembuzar_sample_answer2;

typedef struct tembuzar_line_answer2 {
    tembuzar_refusal refusal;
    tembuzar_line2 line;
} tembuzar_line_answer2;

/* A cell of a line, and the line after it; or not found, and the line as it was. A step is never refused. */
typedef struct tembuzar_step_answer2 {
    bool found;
    tembuzar_cell2 cell;
    tembuzar_line2 line;
} tembuzar_step_answer2;

typedef struct tembuzar_map_answer3 {
    tembuzar_refusal refusal;
    tembuzar_map3 map;
} tembuzar_map_answer3;

typedef struct tembuzar_load_answer3 {
    tembuzar_refusal refusal;
    tembuzar_map3 map;
    bool running;
} tembuzar_load_answer3;

typedef struct tembuzar_cell_answer3 {
    tembuzar_refusal refusal;
    tembuzar_cell3 cell;
} tembuzar_cell_answer3;

typedef struct tembuzar_sample_answer3 {
    tembuzar_refusal refusal;
    bool found;
    tembuzar_sample3 sample;
} tembuzar_sample_answer3;

typedef struct tembuzar_line_answer3 {
    tembuzar_refusal refusal;
    tembuzar_line3 line;
} tembuzar_line_answer3;

typedef struct tembuzar_step_answer3 {
    bool found;
    tembuzar_cell3 cell;
    tembuzar_line3 line;
} tembuzar_step_answer3;

/* ---- Functions, two axes ---- */

/* A fresh map of these extents and this model. Answers its head, at frame 1; odds become +0.0 and stamps 0.
 * Refuses with 1, 2, 3, 4. */
tembuzar_map_answer2 tembuzar_new2(tembuzar_extents2 extents, tembuzar_model model,
                                   double *odds, size_t odds_count, uint32_t *stamps, size_t stamps_count);

/* Every cell back to unknown: odds +0.0, stamps 0, frame 1. Extents and model are kept. Refuses with 1, 2, 4. */
tembuzar_map_answer2 tembuzar_reset2(tembuzar_map2 map,
                                     double *odds, size_t odds_count, uint32_t *stamps, size_t stamps_count);

/* Opens a sweep: the head with the next frame, which the calls of this sweep take. Any frame may stand in map;
 * from TEMBUZAR_HIGHEST_FRAME on, stamps become 0 and frames start again at 1. Refuses with 1, 2, 4. */
tembuzar_map_answer2 tembuzar_begin_scan2(tembuzar_map2 map, uint32_t *stamps, size_t stamps_count);

/* Opens a sweep in a head where it stands: as tembuzar_begin_scan2, but the next frame is written into *map, and
 * nothing else of it. number is 0 where it was done; a refused call leaves *map as it was. map is never NULL.
 * Refuses with 1, 2, 4. */
tembuzar_refusal tembuzar_open_scan2(tembuzar_map2 *map, uint32_t *stamps, size_t stamps_count);

/* A list of beams, in order. numbers has 4 for each beam, origin x, y, then endpoint x, y;
 * hits has a byte for each beam, 1 for a return and 0 for a beam that ran out. The count is of the whole list.
 * Refuses with 1, 2, 3, 4, 9, 8, 7; with 7 at one beam, the beams before it stay, and the refusal gives the
 * beam's place and their count. 8: numbers are not 4 for each byte of hits, or a byte is neither 0 nor 1. */
tembuzar_count_answer tembuzar_update_scan2(tembuzar_map2 map,
                                            double *odds, size_t odds_count, uint32_t *stamps, size_t stamps_count,
                                            const double *numbers, size_t numbers_count,
                                            const uint8_t *hits, size_t hits_count);

/* A list of beams, in order, as structs: beams points to an array of beams_count of them, and may be NULL where there
 * are none. What tembuzar_update_scan2 does with the same beams; no list of structs has a wrong shape.
 * Refuses with 1, 2, 3, 4, 9, 7; with 7 at one beam, the beams before it stay, and the refusal gives the beam's place
 * and their count. */
tembuzar_count_answer tembuzar_update_beams2(tembuzar_map2 map,
                                             double *odds, size_t odds_count, uint32_t *stamps, size_t stamps_count,
                                             const tembuzar_beam2 *beams, size_t beams_count);

/* One beam. The part of it that lies on the grid is walked cell by cell; all but the last are marked free, and the
 * last is marked occupied if the beam is a hit and ended on the grid, else free. The count is of the marks that
 * changed a cell; 0 where the beam misses the grid. Refuses with 1, 2, 3, 4, 9, 7. 7: a coordinate is not finite, or
 * the beam is on the grid and its endpoint is too far from its origin for a double. */
tembuzar_count_answer tembuzar_update_ray2(tembuzar_map2 map,
                                           double *odds, size_t odds_count, uint32_t *stamps, size_t stamps_count,
                                           tembuzar_beam2 beam);

/* One vote for clear air in one cell, unless the cell bears a vote of this sweep. Refuses with 1, 2, 3, 4, 9, 5. */
tembuzar_mark_answer tembuzar_mark_free2(tembuzar_map2 map,
                                         double *odds, size_t odds_count, uint32_t *stamps, size_t stamps_count,
                                         tembuzar_cell2 cell);

/* One vote for a return in one cell, unless the cell bears one of this sweep; a clear vote of this sweep is taken
 * back. Refuses with 1, 2, 3, 4, 9, 5. */
tembuzar_mark_answer tembuzar_mark_occupied2(tembuzar_map2 map,
                                             double *odds, size_t odds_count, uint32_t *stamps, size_t stamps_count,
                                             tembuzar_cell2 cell);

/* Puts odds into one cell, brought within the floor and the ceiling (NaN stays). number is 0 where it was done.
 * Refuses with 1, 2, 3, 4, 5. */
tembuzar_refusal tembuzar_set_log_odds2(tembuzar_map2 map, double *odds, size_t odds_count,
                                        tembuzar_cell2 cell, double value);

/* The same for a number: NaN is refused, and the cell keeps its odds. Refuses with 1, 2, 3, 4, 5, 13. */
tembuzar_refusal tembuzar_set_log_odds_checked2(tembuzar_map2 map, double *odds, size_t odds_count,
                                                tembuzar_cell2 cell, double value);

/* One cell's odds. Refuses with 1, 2, 4. */
tembuzar_odds_answer tembuzar_log_odds_at2(tembuzar_map2 map, const double *odds, size_t odds_count,
                                           tembuzar_cell2 cell);

/* The odds between the cells, interpolated, and their gradient. Refuses with 1, 2, 4. */
tembuzar_sample_answer2 tembuzar_sample_log_odds2(tembuzar_map2 map, const double *odds, size_t odds_count,
                                                  tembuzar_point2 point);

/* The same at many points. points has 2 numbers for each point, x, y, as an array of tembuzar_point2 has from
 * &array[0].x on; samples has 3 for each point, value, gradient x, gradient y, as an array of tembuzar_sample2 has from
 * &array[0].value on; found has a byte for each point. Point by point, samples and found become what
 * tembuzar_sample_log_odds2 answers: found is 1 and the sample's numbers are written, or found is 0 and the point's
 * numbers in samples stay as they were. number is 0 where it was done.
 * Refuses with 1, 2, 4, 14. 14: points are not 2, or samples not 3, for each byte of found. */
tembuzar_refusal tembuzar_sample_all_log_odds2(tembuzar_map2 map, const double *odds, size_t odds_count,
                                               const double *points, size_t points_count,
                                               double *samples, size_t samples_count,
                                               uint8_t *found, size_t found_count);

/* The cell that contains a point. Refuses with 1, 2, and then axis by axis with 6 or 5. */
tembuzar_cell_answer2 tembuzar_cell_containing2(tembuzar_map2 map, tembuzar_point2 point);

/* A line between two points. Refuses with 7 where end - start is not finite on some axis. */
tembuzar_line_answer2 tembuzar_plotter2(tembuzar_point2 start, tembuzar_point2 end);

/* The next cell of a line: call it with each answer's line until it finds none. */
tembuzar_step_answer2 tembuzar_step2(tembuzar_line2 line);

/* ---- Functions, three axes: as for two; a beam of a list has 6 numbers, origin x, y, z, then endpoint x, y, z; a
 *      point of a list has 3, x, y, z, and its sample 4, value, gradient x, y, z. Each function that refuses with 3
 *      refuses bad cuts with 15, after 3 and before the rest ---- */

tembuzar_map_answer3 tembuzar_new3(tembuzar_extents3 extents, tembuzar_bands bands,
                                   double *odds, size_t odds_count, uint32_t *stamps, size_t stamps_count);

tembuzar_map_answer3 tembuzar_reset3(tembuzar_map3 map,
                                     double *odds, size_t odds_count, uint32_t *stamps, size_t stamps_count);

tembuzar_map_answer3 tembuzar_begin_scan3(tembuzar_map3 map, uint32_t *stamps, size_t stamps_count);

tembuzar_refusal tembuzar_open_scan3(tembuzar_map3 *map, uint32_t *stamps, size_t stamps_count);

tembuzar_count_answer tembuzar_update_scan3(tembuzar_map3 map,
                                            double *odds, size_t odds_count, uint32_t *stamps, size_t stamps_count,
                                            const double *numbers, size_t numbers_count,
                                            const uint8_t *hits, size_t hits_count);

tembuzar_count_answer tembuzar_update_beams3(tembuzar_map3 map,
                                             double *odds, size_t odds_count, uint32_t *stamps, size_t stamps_count,
                                             const tembuzar_beam3 *beams, size_t beams_count);

tembuzar_count_answer tembuzar_update_ray3(tembuzar_map3 map,
                                           double *odds, size_t odds_count, uint32_t *stamps, size_t stamps_count,
                                           tembuzar_beam3 beam);

/* One vertical beam, of an instrument that looks straight up and sends whole numbers; three axes only. The cells
 * (x, y, bottom) to (x, y, top) are marked free, but the last occupied if the beam is a hit. Where top is extents.z,
 * the beam ran out: the cells up to the highest are all marked free, hit or not. It does what tembuzar_update_ray3 does
 * with the beam from (x + 0.5, y + 0.5, bottom + 0.5) to (x + 0.5, y + 0.5, top + 0.5), or to z = extents.z where it
 * ran out: the same odds, stamps and count. Refuses with 1, 2, 3, 15, 4, 9, 18. 18: not x < extents.x, y < extents.y,
 * bottom < extents.z and bottom <= top <= extents.z. */
tembuzar_count_answer tembuzar_update_vertical3(tembuzar_map3 map,
                                                double *odds, size_t odds_count, uint32_t *stamps, size_t stamps_count,
                                                tembuzar_vertical_beam beam);

tembuzar_mark_answer tembuzar_mark_free3(tembuzar_map3 map,
                                         double *odds, size_t odds_count, uint32_t *stamps, size_t stamps_count,
                                         tembuzar_cell3 cell);

tembuzar_mark_answer tembuzar_mark_occupied3(tembuzar_map3 map,
                                             double *odds, size_t odds_count, uint32_t *stamps, size_t stamps_count,
                                             tembuzar_cell3 cell);

tembuzar_refusal tembuzar_set_log_odds3(tembuzar_map3 map, double *odds, size_t odds_count,
                                        tembuzar_cell3 cell, double value);

tembuzar_refusal tembuzar_set_log_odds_checked3(tembuzar_map3 map, double *odds, size_t odds_count,
                                                tembuzar_cell3 cell, double value);

tembuzar_odds_answer tembuzar_log_odds_at3(tembuzar_map3 map, const double *odds, size_t odds_count,
                                           tembuzar_cell3 cell);

tembuzar_sample_answer3 tembuzar_sample_log_odds3(tembuzar_map3 map, const double *odds, size_t odds_count,
                                                  tembuzar_point3 point);

tembuzar_refusal tembuzar_sample_all_log_odds3(tembuzar_map3 map, const double *odds, size_t odds_count,
                                               const double *points, size_t points_count,
                                               double *samples, size_t samples_count,
                                               uint8_t *found, size_t found_count);

tembuzar_cell_answer3 tembuzar_cell_containing3(tembuzar_map3 map, tembuzar_point3 point);

tembuzar_line_answer3 tembuzar_plotter3(tembuzar_point3 start, tembuzar_point3 end);

tembuzar_step_answer3 tembuzar_step3(tembuzar_line3 line);

/* ---- Records: a map as bytes, to be kept between sweeps. This is edition 1; edition 2 follows ----
 *
 * A record holds a map's extents, model, frame and odds, and no stamps. It is fields without gaps, all numbers
 * little-endian; a field is a tag, 1 byte, the length of its data, 2 bytes, and its data. In this order:
 *
 *   tag 1: the extents, 2 bytes each, so 4 bytes for two axes and 6 for three
 *   tag 2: the model's occupied, free and ceiling, 24 bytes
 *   tag 3: the frame, 4 bytes
 *   tag 4: a row of odds along x, 8 * extents.x bytes; one such field for every row, in the order of the cells
 *   tag 5: nothing; the end
 *
 * So there are 41 bytes before the rows for two axes and 43 for three, 3 + 8 * extents.x bytes for each row, and 3
 * bytes at the end. A map of 2 by 2 has 41 + 2 * 19 + 3 = 82.
 * Both functions try everything before they write anything: a refused call writes nothing. */

/* The map of a record: its head, with the record's frame; odds become the record's, and stamps 0. A sweep that was open
 * when the record was written is over: the next one starts with tembuzar_begin_scan2.
 * Refuses with 10, 4. 10: a field is cut short or absent, has another tag or length, or holds extents, a model, a frame
 * or odds out of bounds, or something follows the end; place is the offset of the first such field, or of what follows.
 * A record of three axes is broken at offset 0 for two, and one of two for three; so is a record of edition 2. */
tembuzar_map_answer2 tembuzar_read_record2(const uint8_t *bytes, size_t bytes_count,
                                           double *odds, size_t odds_count, uint32_t *stamps, size_t stamps_count);

/* The record of a map, from the first byte of out on; what follows it in out stays. The count is of its bytes.
 * Refuses with 1, 2, 3, 4, 9, 10, 11. 10: odds do not lie from the floor to the ceiling, or are NaN; place is the
 * offset that their row would have in the record. 11: out is shorter than the record; needed is how many bytes the
 * record has, so that a call with 0 bytes of out asks for the size. */
tembuzar_count_answer tembuzar_write_record2(tembuzar_map2 map, const double *odds, size_t odds_count,
                                             uint8_t *out, size_t out_count);

/* The same for three axes. A record has one pair of steps and no cuts: read, every band has its pair, and the cuts are
 * the caller's; cuts that do not fit the record's extents are refused with 15, after 10 and before 4. Written, the
 * pairs of all bands have to be equal, bit for bit; else 10 at offset 9, that of the model's field, before that of any
 * row. */
tembuzar_map_answer3 tembuzar_read_record3(const uint8_t *bytes, size_t bytes_count, tembuzar_cuts cuts,
                                           double *odds, size_t odds_count, uint32_t *stamps, size_t stamps_count);

tembuzar_count_answer tembuzar_write_record3(tembuzar_map3 map, const double *odds, size_t odds_count,
                                             uint8_t *out, size_t out_count);

/* ---- Edition 2 of the map record: also in the middle of a sweep, and with the bands of three axes ----
 *
 * Edition 2 holds what edition 1 does; on three axes also the pair of each band and the cuts; and of an open sweep the
 * stamps, so that the sweep can go on from the record. Its fields are as those above. In this order:
 *
 *   tag 6: the edition, 1 byte, 2
 *   tag 1: the extents, as in edition 1
 *   tag 2: occupied, free and ceiling, 24 bytes; on three axes one such field for each band, low, middle, high, all
 *          with the same ceiling, bit for bit
 *   tag 7: the cuts, first, then second, 2 bytes each; on three axes only
 *   tag 3: the frame, 4 bytes
 *   tag 8: the open mark, 1 byte, 1 for a record whose sweep is open and 0 for a closed one
 *   tag 4: a row of odds along x, 8 * extents.x bytes; one for every row, in the order of the cells
 *   tag 9: of an open record, after each row of odds, the stamps of the same cells, 4 * extents.x bytes. None of them
 *          is of a frame above the record's: no stamp divided by 2, rounded down, is above it
 *   tag 5: nothing; the end
 *
 * So there are 49 bytes before the rows for two axes and 112 for three, 3 + 8 * extents.x bytes for each row of odds,
 * 3 + 4 * extents.x for each row of stamps, and 3 bytes at the end. A map of 2 by 2 has 90 bytes closed and 112 open,
 * one of 2 by 2 by 3 has 229 and 295.
 * Each function tries everything before it writes anything: a refused call writes nothing. */

/* The map of a record: its head, with the record's frame, and whether its sweep is open; odds become the record's.
 * Where running is true, stamps become the record's, and the sweep goes on: its next beams need no
 * tembuzar_begin_scan2. Where it is false, stamps become 0, and the next sweep starts with tembuzar_begin_scan2.
 * Refuses with 10, 4. 10: a field is cut short or absent, has another tag or length, or holds something out of its
 * bounds (an edition that is not 2, an open mark that is neither 0 nor 1, another ceiling than the first pair's, cuts
 * that do not fit the extents, a stamp of a frame above the record's), or something follows the end; place is the
 * offset of the first such field, or of what follows. A record of edition 1 is broken at offset 0; one of three axes is
 * broken at offset 4 for two, and one of two for three. */
tembuzar_load_answer2 tembuzar_read_edition2_record2(const uint8_t *bytes, size_t bytes_count,
                                                     double *odds, size_t odds_count,
                                                     uint32_t *stamps, size_t stamps_count);

/* The record of a map, from the first byte of out on; what follows it in out stays. The count is of its bytes. Whether
 * the sweep is open is what the caller says: where running is true, the record has the stamps; where it is false, it
 * has none and none are looked at, so that stamps may be of any number, or NULL and 0.
 * Refuses with 1, 2, 3, 4, 9, 10, 11. 4: odds are not one for each cell or, where running is true, stamps are not.
 * 10: odds do not lie from the floor to the ceiling, or are NaN, or, where running is true, a stamp is of a frame above
 * the map's; place is the offset that the first such row would have in the record, a row of odds before its stamps.
 * 11: out is shorter than the record; needed is how many bytes the record has, so that a call with 0 bytes of out asks
 * for the size. */
tembuzar_count_answer tembuzar_write_edition2_record2(tembuzar_map2 map, bool running,
                                                      const double *odds, size_t odds_count,
                                                      const uint32_t *stamps, size_t stamps_count,
                                                      uint8_t *out, size_t out_count);

/* The same for three axes, with the pairs and the cuts of the record, or of the map: reading takes no cuts, and writing
 * asks for no equal pairs. Writing refuses bad cuts with 15, after 3 and before 4. */
tembuzar_load_answer3 tembuzar_read_edition2_record3(const uint8_t *bytes, size_t bytes_count,
                                                     double *odds, size_t odds_count,
                                                     uint32_t *stamps, size_t stamps_count);

tembuzar_count_answer tembuzar_write_edition2_record3(tembuzar_map3 map, bool running,
                                                      const double *odds, size_t odds_count,
                                                      const uint32_t *stamps, size_t stamps_count,
                                                      uint8_t *out, size_t out_count);

/* Moves a record from edition 1 to edition 2: writes the closed record of edition 2 of the same map, from the first
 * byte of out on; what follows it in out stays. The count is of its bytes. out overlaps no byte of the record.
 * Refuses with 10, 11. 10: bytes are no record of edition 1; place is as for tembuzar_read_record2. 11: needed is how
 * many bytes the record of edition 2 has. */
tembuzar_count_answer tembuzar_upgrade_record2(const uint8_t *bytes, size_t bytes_count,
                                               uint8_t *out, size_t out_count);

/* Moves a record back, from edition 2 to edition 1. The count is of the bytes of the record of edition 1; the rest is
 * as above. Refuses with 10, 16, 11. 10: bytes are no record of edition 2; place is as for
 * tembuzar_read_edition2_record2. 16: its sweep is open. 11: needed is how many bytes the record of edition 1 has. */
tembuzar_count_answer tembuzar_downgrade_record2(const uint8_t *bytes, size_t bytes_count,
                                                 uint8_t *out, size_t out_count);

/* The same for three axes. Up, every band has the record's pair, and the cuts are the caller's; cuts that do not fit
 * the record's extents are refused with 15, after 10 and before 11. Back, 16 also where the pairs of the bands are not
 * all equal, bit for bit, and the record's cuts are handed to the caller, for edition 1 has none. */
tembuzar_count_answer tembuzar_upgrade_record3(const uint8_t *bytes, size_t bytes_count, tembuzar_cuts cuts,
                                               uint8_t *out, size_t out_count);

tembuzar_move_answer tembuzar_downgrade_record3(const uint8_t *bytes, size_t bytes_count,
                                                uint8_t *out, size_t out_count);

/* ---- Sweep files: the beams of one sweep as bytes, as a station mails them ----
 *
 * A sweep file is fields as a record's are: a tag, 1 byte, the length of its data, 2 bytes, and its data, all numbers
 * little-endian. In this order:
 *
 *   tag 1: the number of axes, 1 byte, 2 or 3
 *   tag 2: the station's number, 2 bytes
 *   tag 3: a beam: origin, then endpoint, 8 bytes a coordinate, and a byte, 1 for a return and 0 for a beam that ran
 *          out; 33 bytes for two axes and 49 for three. One such field for every beam, in order
 *   tag 4: how many beams there are, 4 bytes; the end
 *
 * So there are 9 bytes before the beams, 36 for each beam of two axes and 52 for each of three, and 7 at the end.
 * Coordinates may be NaN or infinite: a NaN is written as one and the same NaN. */

/* The beams of a sweep file, in order, as tembuzar_update_scan2 does with the same beams. The whole file is tried
 * before the first beam. Answers the station's number and the count of the whole file.
 * Refuses with 1, 2, 3, 4, 9, 12, 7; with 7 at one beam, the beams before it stay, and the refusal gives the beam's
 * place and their count. 12: a field is cut short or absent, has another tag or length, the axes are not the map's, a
 * beam's byte is neither 0 nor 1, the count is not that of the beams, or something follows the end; place is the
 * offset of the first such field, or of what follows. */
tembuzar_sweep_answer tembuzar_update_sweep2(tembuzar_map2 map,
                                             double *odds, size_t odds_count, uint32_t *stamps, size_t stamps_count,
                                             const uint8_t *bytes, size_t bytes_count);

/* The sweep file of a flat list of beams, as tembuzar_update_scan2 takes it, from the first byte of out on; what
 * follows it in out stays. The count is of its bytes. Refuses with 8, 11. 8: the list is none of beams, or has more
 * than 4,294,967,295 of them. 11: out is shorter than the file; needed is how many bytes the file has, so that a call
 * with 0 bytes of out asks for the size. */
tembuzar_count_answer tembuzar_write_sweep2(uint16_t station, const double *numbers, size_t numbers_count,
                                            const uint8_t *hits, size_t hits_count, uint8_t *out, size_t out_count);

/* The same for three axes. */
tembuzar_sweep_answer tembuzar_update_sweep3(tembuzar_map3 map,
                                             double *odds, size_t odds_count, uint32_t *stamps, size_t stamps_count,
                                             const uint8_t *bytes, size_t bytes_count);

tembuzar_count_answer tembuzar_write_sweep3(uint16_t station, const double *numbers, size_t numbers_count,
                                            const uint8_t *hits, size_t hits_count, uint8_t *out, size_t out_count);

/* ---- Charts: the cover of a map of three axes, seen column by column ----
 *
 * A chart is a list of uint16_t, five for each column; the column (x, y) is number x + extents.x * y. The five are the
 * cover of the column's low, middle and high band in eighths, 0 to 8, the total by maximum overlap, which is the
 * largest band, and the total by random overlap over 512, which is 512 - (8 - low) * (8 - middle) * (8 - high). A band
 * takes its largest cell. A cell's eighths are how many of these its odds are at or above:
 *
 *   -1.9459101490553132, -1.0986122886681098, -0.5108256237659907, 0,
 *    0.5108256237659907,  1.0986122886681098,  1.9459101490553132
 *
 * but 8 where they are at or above the ceiling. random is never below 64 * maximum; they are equal exactly where two
 * bands or more are 0, or one is 8.
 *
 * With `tembuzar_column chart[COLUMNS]`, a column's number is chart[c][TEMBUZAR_MAXIMUM], and the list to hand over is
 * chart[0], of COLUMNS * TEMBUZAR_COLUMN_NUMBERS numbers. */
enum tembuzar_column_place {
    TEMBUZAR_LOW,
    TEMBUZAR_MIDDLE,
    TEMBUZAR_HIGH,
    TEMBUZAR_MAXIMUM, /* of 8 */
    TEMBUZAR_RANDOM,  /* of 512 */
    TEMBUZAR_COLUMN_NUMBERS
};

typedef uint16_t tembuzar_column[TEMBUZAR_COLUMN_NUMBERS];

/* The chart of a map, from the first number of chart on; what follows it in chart stays. number is 0 where it was done.
 * Refuses with 1, 2, 3, 15, 4, 11, 17, each before anything is written. 11: chart has less than
 * 5 * extents.x * extents.y numbers; needed is how many that are, so that a call with 0 numbers asks for them.
 * 17: place is the first column that holds NaN. */
tembuzar_refusal tembuzar_layer_chart3(tembuzar_map3 map, const double *odds, size_t odds_count,
                                       uint16_t *chart, size_t chart_count);

/* Never succeeds: a map of two axes has no cuts, so it has no bands and no chart. Refuses with 1, 2, 3, or else 15, and
 * chart stays as it was. It is there so that a caller for any number of axes is answered by number. */
tembuzar_refusal tembuzar_layer_chart2(tembuzar_map2 map, uint16_t *chart, size_t chart_count);

/* ---- Season reports: a table over many charts of equal size ----
 *
 * A report is how many charts it is of, which the caller keeps, and a list of uint32_t, twelve for each column: how
 * often each total by maximum overlap stood, 0 to 8, how often the two totals differed, the sum of the totals by
 * maximum overlap, over 512, and the sum of the totals by random overlap, over 512. The count of an answer is how many
 * charts the report has afterwards: it goes into the next call. Night by night, in runs, or joined from parts, the same
 * charts give the same report. Each call tries all it is given before it writes a number.
 *
 * With `tembuzar_report_column report[COLUMNS]`, report[c][TEMBUZAR_STOOD + 8] is how often column c was all cloud, and
 * the list to hand over is report[0], of COLUMNS * TEMBUZAR_REPORT_NUMBERS numbers. */
enum tembuzar_report_place {
    TEMBUZAR_STOOD = 0, /* and the total, 0 to 8 */
    TEMBUZAR_DIFFER = 9,
    TEMBUZAR_MAXIMUM_SUM,
    TEMBUZAR_RANDOM_SUM,
    TEMBUZAR_REPORT_NUMBERS
};

typedef uint32_t tembuzar_report_column[TEMBUZAR_REPORT_NUMBERS];

/* The most charts that a report can have. */
#define TEMBUZAR_MOST_CHARTS 4096

/* An empty report of so many columns: every number becomes 0, and the count is 0. Refuses with 19: report has not 12
 * numbers for each column. */
tembuzar_count_answer tembuzar_start_report(uint64_t columns, uint32_t *report, size_t report_count);

/* One chart into a report of so many. Refuses with 19, 20, 21. 19: report has not 12 numbers, and chart not 5, for each
 * of the same number of columns. 21: chart has a band above 8 or totals that its bands do not give, or report a column
 * whose nine counts do not add up to charts or another number above 512 * charts. */
tembuzar_count_answer tembuzar_add_chart(uint64_t charts, uint32_t *report, size_t report_count,
                                         const uint16_t *chart, size_t chart_count);

/* A run of count charts, one after another in one list, at once. Refuses as tembuzar_add_chart does, and then adds
 * none. */
tembuzar_count_answer tembuzar_add_charts(uint64_t charts, uint32_t *report, size_t report_count,
                                          uint64_t count, const uint16_t *run, size_t run_count);

/* Another report, of so many more charts, into a report of so many. Refuses with 19, 20, 21: 19, the two are not of the
 * same size; 21, as above, of either. */
tembuzar_count_answer tembuzar_join_reports(uint64_t charts, uint32_t *report, size_t report_count,
                                            uint64_t more, const uint32_t *other, size_t other_count);

#ifdef __cplusplus
}
#endif

#endif
