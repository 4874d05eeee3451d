/*
 * A sweep that is stored in the middle and goes on from the record. Two of its beams are integrated on a map of 5 by 4
 * by 3 cells; the record of edition 2, written open, is read into other lists, and the other beams go there:
 * odds, stamps and counts are those of the map that was never stored. Then the same through a record of edition 1,
 * which has no stamps: cells that had their vote of this sweep take it again, and a return takes no clear vote back.
 *
 * Build and run, from the repository's root on x86-64 Linux:
 *
 *     tools/archives tembuzar
 *     cc -O2 -Iinclude examples/resume.c target/staticlib/libtembuzar.a -o target/resume && target/resume
 */
#include <stdio.h>
#include <string.h>

#include "tembuzar.h"

enum { WIDE = 5, DEEP = 4, HIGH = 3, CELLS = WIDE * DEEP * HIGH, FIRST = 2, REST = 3, ROOM = 1000 };

/* The same pair in each band, as a record of edition 1 keeps it. */
static const tembuzar_bands bands = {
    .low = {0.75, -0.5}, .middle = {0.75, -0.5}, .high = {0.75, -0.5}, .ceiling = 4.0, .cuts = {1, 2}};

/* The beams of one sweep: the first of them before the map is stored, the rest after it. */
static const tembuzar_beam3 beams[FIRST + REST] = {
    {.origin = {0.5, 0.5, 0.5}, .endpoint = {4.5, 0.5, 0.5}, .hit = true},  /* along x, a return in (4, 0, 0) */
    {.origin = {0.5, 0.5, 0.5}, .endpoint = {0.5, 3.5, 0.5}, .hit = false}, /* along y, ran out */
    {.origin = {0.5, 0.5, 0.5}, .endpoint = {3.5, 0.5, 0.5}, .hit = true},  /* a return where the first was clear */
    {.origin = {0.5, 0.5, 0.5}, .endpoint = {4.5, 0.5, 0.5}, .hit = true},  /* the first again: changes nothing */
    {.origin = {0.5, 0.5, 0.5}, .endpoint = {2.5, 2.5, 2.5}, .hit = true},  /* the diagonal, a return in (2, 2, 2) */
};

/* A map, and what is lent to its calls. */
struct kept {
    tembuzar_map3 map;
    double odds[CELLS];
    uint32_t stamps[CELLS];
};

/* Lists that hold something else, so that nothing is right by chance. */
static void fill(struct kept *k)
{
    for (int i = 0; i < CELLS; i++) {
        k->odds[i] = 3.25;
        k->stamps[i] = 1000 + (uint32_t)i;
    }
}

static uint64_t integrate(struct kept *k, const tembuzar_beam3 *list, size_t count)
{
    return tembuzar_update_beams3(k->map, k->odds, CELLS, k->stamps, CELLS, list, count).count;
}

/* The rest of the beams on a map that was read, beside the one that was never stored. */
static void go_on(struct kept *read, const struct kept *never, uint64_t count)
{
    uint64_t counted = integrate(read, beams + FIRST, REST);
    printf("  the rest of the beams: count %llu, never stored %llu\n", (unsigned long long)counted,
           (unsigned long long)count);
    printf("  as never stored: frame %d, bands %d, odds %d, stamps %d\n", read->map.frame == never->map.frame,
           memcmp(&read->map.bands, &never->map.bands, sizeof never->map.bands) == 0,
           memcmp(read->odds, never->odds, sizeof never->odds) == 0,
           memcmp(read->stamps, never->stamps, sizeof never->stamps) == 0);
    for (int i = 0; i < CELLS; i++)
        if (read->odds[i] != never->odds[i] || read->stamps[i] != never->stamps[i])
            printf("  (%d, %d, %d) has odds %5.2f, stamp %u; never stored %5.2f, %u\n", i % WIDE, i / WIDE % DEEP,
                   i / WIDE / DEEP, read->odds[i], (unsigned)read->stamps[i], never->odds[i],
                   (unsigned)never->stamps[i]);
}

int main(void)
{
    static struct kept never, read;
    static uint8_t open_record[ROOM], closed_record[ROOM];

    never.map = tembuzar_new3((tembuzar_extents3){WIDE, DEEP, HIGH}, bands, never.odds, CELLS, never.stamps, CELLS).map;
    never.map = tembuzar_begin_scan3(never.map, never.stamps, CELLS).map;
    uint64_t count = integrate(&never, beams, FIRST);
    printf("frame %u, the first beams: count %llu\n", (unsigned)never.map.frame, (unsigned long long)count);
    tembuzar_count_answer wrote =
        tembuzar_write_edition2_record3(never.map, true, never.odds, CELLS, never.stamps, CELLS, open_record, ROOM);
    printf("edition 2, open: number %u, %llu bytes\n", (unsigned)wrote.refusal.number, (unsigned long long)wrote.count);
    tembuzar_count_answer wrote1 = tembuzar_write_record3(never.map, never.odds, CELLS, closed_record, ROOM);
    printf("edition 1:       number %u, %llu bytes\n", (unsigned)wrote1.refusal.number,
           (unsigned long long)wrote1.count);
    count = integrate(&never, beams + FIRST, REST);

    fill(&read);
    tembuzar_load_answer3 loaded =
        tembuzar_read_edition2_record3(open_record, wrote.count, read.odds, CELLS, read.stamps, CELLS);
    read.map = loaded.map;
    printf("read from edition 2: number %u, frame %u, open %d\n", (unsigned)loaded.refusal.number,
           (unsigned)loaded.map.frame, loaded.running);
    go_on(&read, &never, count);

    fill(&read);
    tembuzar_map_answer3 old =
        tembuzar_read_record3(closed_record, wrote1.count, bands.cuts, read.odds, CELLS, read.stamps, CELLS);
    read.map = old.map;
    printf("read from edition 1: number %u, frame %u\n", (unsigned)old.refusal.number, (unsigned)old.map.frame);
    go_on(&read, &never, count);
    return 0;
}
