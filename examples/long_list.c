/*
 * How much stack a list of beams takes: 10,000 beams and 1,000,000, in two axes and in three. Each list is handed over
 * in one call, by a thread whose stack is 64 KB beyond the least that the system allows. The stack is filled with a
 * pattern first; afterwards, what has lost the pattern has been used. It is the same for both lists: it depends on what
 * beams do, all of which is among the 10,000, and not on how many there are. How many bytes that are differs from
 * machine to machine, and is written to standard error.
 *
 * Build and run, from the repository's root on x86-64 Linux:
 *
 *     tools/archives tembuzar
 *     cc -O2 -pthread -Iinclude examples/long_list.c target/staticlib/libtembuzar.a -o target/long_list
 *     target/long_list
 */
#define _GNU_SOURCE
#include <limits.h>
#include <pthread.h>
#include <stdio.h>
#include <stdlib.h>
#include <string.h>
#include <unistd.h>

#include "tembuzar.h"

enum { SIDE = 16, BEYOND = 64 * 1024, PATTERN = 0xA5 };

/* One call: how many axes, how many beams, and what was answered. */
struct call {
    int axes;
    size_t beams;
    const double *numbers;
    const uint8_t *hits;
    double *odds;
    uint32_t *stamps;
    tembuzar_count_answer answer;
};

static const tembuzar_model model = {.occupied = 0.75, .free = -0.5, .ceiling = 4.0};
static const tembuzar_extents2 square = {SIDE, SIDE};
static const tembuzar_extents3 cube = {SIDE, SIDE, SIDE};
static const tembuzar_bands bands = {.low = {0.75, -0.5},
                                     .middle = {0.75, -0.5},
                                     .high = {0.75, -0.5},
                                     .ceiling = 4.0,
                                     .cuts = {SIDE / 3, 2 * SIDE / 3}};

static void *hand_over(void *p)
{
    struct call *c = p;
    size_t cells = c->axes == 2 ? SIDE * SIDE : SIDE * SIDE * SIDE;
    if (c->axes == 2) {
        tembuzar_map2 map = tembuzar_new2(square, model, c->odds, cells, c->stamps, cells).map;
        c->answer = tembuzar_update_scan2(map, c->odds, cells, c->stamps, cells,
                                          c->numbers, 4 * c->beams, c->hits, c->beams);
    } else {
        tembuzar_map3 map = tembuzar_new3(cube, bands, c->odds, cells, c->stamps, cells).map;
        c->answer = tembuzar_update_scan3(map, c->odds, cells, c->stamps, cells,
                                          c->numbers, 6 * c->beams, c->hits, c->beams);
    }
    return NULL;
}

/* Runs the call on a stack of its own, and gives the bytes of it that were used. */
static size_t stack_used(struct call *c, size_t size)
{
    unsigned char *stack = aligned_alloc((size_t)sysconf(_SC_PAGESIZE), size);
    pthread_attr_t attributes;
    pthread_t thread;
    if (stack == NULL)
        exit(1);
    memset(stack, PATTERN, size);
    if (pthread_attr_init(&attributes) != 0 || pthread_attr_setstack(&attributes, stack, size) != 0 ||
        pthread_create(&thread, &attributes, hand_over, c) != 0 || pthread_join(thread, NULL) != 0)
        exit(1);
    size_t untouched = 0;
    while (untouched < size && stack[untouched] == PATTERN)
        untouched++;
    free(stack);
    return size - untouched;
}

int main(void)
{
    size_t page = (size_t)sysconf(_SC_PAGESIZE), most = 1000000;
    size_t size = ((size_t)sysconf(_SC_THREAD_STACK_MIN) + BEYOND + page - 1) / page * page;
    double *numbers = malloc(6 * most * sizeof *numbers), *odds = malloc(SIDE * SIDE * SIDE * sizeof *odds);
    uint32_t *stamps = malloc(SIDE * SIDE * SIDE * sizeof *stamps);
    uint8_t *hits = malloc(most);
    if (numbers == NULL || odds == NULL || stamps == NULL || hits == NULL)
        return 1;
    /* points on and around the grid, from -4 to 20, the same in every run */
    uint32_t seed = 1;
    for (size_t i = 0; i < 6 * most; i++) {
        seed = seed * UINT32_C(1664525) + UINT32_C(1013904223);
        numbers[i] = (double)(seed >> 16) / 65536.0 * 24.0 - 4.0;
        hits[i % most] = (uint8_t)(seed >> 31);
    }
    fprintf(stderr, "a thread's stack of %zu bytes\n", size);
    for (int axes = 2; axes <= 3; axes++) {
        size_t of_the_short_list = 0;
        for (size_t beams = 10000; beams <= most; beams *= most / 10000) {
            struct call c = {axes, beams, numbers, hits, odds, stamps, {{0}, 0}};
            if (beams == 10000)
                hand_over(&c); /* here first, since the loader takes stack at the first call of memset and memcpy */
            size_t used = stack_used(&c, size);
            if (beams == 10000)
                of_the_short_list = used;
            printf("%d axes, %7zu beams: number %u, count %llu, as much stack as 10000 beams: %d\n", axes, beams,
                   (unsigned)c.answer.refusal.number, (unsigned long long)c.answer.count, used == of_the_short_list);
            fprintf(stderr, "%d axes, %7zu beams: stack used %zu bytes\n", axes, beams, used);
        }
    }
    return 0;
}
