/*
 * How much stack and how much time a record takes: maps of 64 by 64, 1,024 by 1,024 and 4,096 by 4,096 cells, the
 * largest that there is, each written and read in edition 1, moved to edition 2 and back, and written and read in
 * edition 2 with its sweep open. Each call is made by a thread whose stack is 64 KB beyond the least that the system
 * allows. The stack is filled with a pattern first; afterwards, what has lost the pattern has been used. It is the same
 * for all three maps. How many bytes that are, and the time for a byte of the record, differ from machine to machine,
 * and are written to standard error.
 *
 * Build and run, from the repository's root on x86-64 Linux:
 *
 *     tools/archives tembuzar
 *     cc -O2 -pthread -Iinclude examples/long_record.c target/staticlib/libtembuzar.a -o target/long_record
 *     target/long_record
 */
#define _GNU_SOURCE
#include <limits.h>
#include <pthread.h>
#include <stdio.h>
#include <stdlib.h>
#include <string.h>
#include <time.h>
#include <unistd.h>

#include "tembuzar.h"

enum { MOST = 4096, BEYOND = 64 * 1024, PATTERN = 0xA5 };

enum kind { WRITE, READ, UP, BACK, WRITE_OPEN, READ_OPEN, KINDS };

static const char *const names[KINDS] = {"written", "read", "moved up", "moved back", "written open", "read open"};

/* One call: what is done, the lists lent to it, how many bytes the record has that it reads or writes (that of edition
 * 2, if it moves one), and what was answered. */
struct call {
    enum kind kind;
    tembuzar_map2 map;
    double *odds;
    uint32_t *stamps;
    size_t cells;
    uint8_t *one, *two;
    size_t count_one, count_two;
    uint32_t number;
    double seconds;
};

static tembuzar_refusal answer(struct call *c)
{
    switch (c->kind) {
    case WRITE:
        return tembuzar_write_record2(c->map, c->odds, c->cells, c->one, c->count_one).refusal;
    case READ:
        return tembuzar_read_record2(c->one, c->count_one, c->odds, c->cells, c->stamps, c->cells).refusal;
    case UP:
        return tembuzar_upgrade_record2(c->one, c->count_one, c->two, c->count_two).refusal;
    case BACK:
        return tembuzar_downgrade_record2(c->two, c->count_two, c->one, c->count_one).refusal;
    case WRITE_OPEN:
        return tembuzar_write_edition2_record2(c->map, true, c->odds, c->cells, c->stamps, c->cells, c->two,
                                               c->count_two).refusal;
    default:
        return tembuzar_read_edition2_record2(c->two, c->count_two, c->odds, c->cells, c->stamps, c->cells).refusal;
    }
}

static void *hand_over(void *p)
{
    struct call *c = p;
    struct timespec start, end;
    clock_gettime(CLOCK_MONOTONIC, &start);
    c->number = answer(c).number;
    clock_gettime(CLOCK_MONOTONIC, &end);
    c->seconds = (double)(end.tv_sec - start.tv_sec) + 1e-9 * (double)(end.tv_nsec - start.tv_nsec);
    return NULL;
}

/* Runs the call on a stack of its own, and gives the bytes of it that were used. */
static size_t stack_used(struct call *c, size_t size)
{
    unsigned char *stack = aligned_alloc((size_t)sysconf(_SC_PAGESIZE), size);
    pthread_attr_t attributes;
    pthread_t thread;
    if (stack == NULL)
        exit(1);
    memset(stack, PATTERN, size);
    if (pthread_attr_init(&attributes) != 0 || pthread_attr_setstack(&attributes, stack, size) != 0 ||
        pthread_create(&thread, &attributes, hand_over, c) != 0 || pthread_join(thread, NULL) != 0)
        exit(1);
    size_t untouched = 0;
    while (untouched < size && stack[untouched] == PATTERN)
        untouched++;
    free(stack);
    return size - untouched;
}

/* The bytes of a record of so many rows, as many cells in each: of edition 1, and of edition 2. */
static size_t bytes_of_one(size_t side)
{
    return 44 + side * (3 + 8 * side);
}

static size_t bytes_of_two(size_t side, int open)
{
    return 52 + side * (open ? 6 + 12 * side : 3 + 8 * side);
}

static void *zeros(size_t bytes)
{
    void *list = malloc(bytes);
    if (list == NULL)
        exit(1);
    return memset(list, 0, bytes);
}

int main(void)
{
    size_t page = (size_t)sysconf(_SC_PAGESIZE), most = (size_t)MOST * MOST;
    size_t size = ((size_t)sysconf(_SC_THREAD_STACK_MIN) + BEYOND + page - 1) / page * page;
    struct call c = {.odds = zeros(most * sizeof *c.odds), .stamps = zeros(most * sizeof *c.stamps),
                     .one = zeros(bytes_of_one(MOST)), .two = zeros(bytes_of_two(MOST, 1))};
    fprintf(stderr, "a thread's stack of %zu bytes\n", size);
    static const size_t sides[] = {64, 1024, MOST};
    size_t of_the_small_map[KINDS];
    for (int i = 0; i < 3; i++) {
        size_t side = sides[i];
        c.map = (tembuzar_map2){{side, side}, {0.75, -0.5, 4.0}, 1};
        c.cells = side * side;
        c.count_one = bytes_of_one(side);
        for (c.kind = WRITE; c.kind < KINDS; c.kind++) {
            c.count_two = bytes_of_two(side, c.kind >= WRITE_OPEN);
            size_t count = c.kind <= READ ? c.count_one : c.count_two;
            if (i == 0)
                hand_over(&c); /* here first, since the loader takes stack at the first call of a function of libc */
            size_t used = stack_used(&c, size);
            if (i == 0)
                of_the_small_map[c.kind] = used;
            printf("%4zu by %4zu, %-12s %9zu bytes: number %u, as much stack as 64 by 64: %d\n", side, side,
                   names[c.kind], count, (unsigned)c.number, used == of_the_small_map[c.kind]);
            fprintf(stderr, "%4zu by %4zu, %-12s stack used %zu bytes, %.2f ns a byte\n", side, side, names[c.kind],
                    used, 1e9 * c.seconds / (double)count);
        }
    }
    return 0;
}
