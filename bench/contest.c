/* The contestants of a workload, tried and timed in turn. */

#define _GNU_SOURCE
#include <stdarg.h>
#include <stdio.h>
#include <stdlib.h>
#include <string.h>
#include <time.h>

#include "contest.h"

/* Runs are timed in batches that take at least this long, so that the clock costs nothing. */
static const double BATCH_SECONDS = 1e-3;

struct contestant *contestants;
static struct contestant **end;
static const char *title;

void fail(const char *format, ...)
{
    va_list values;
    va_start(values, format);
    fflush(stdout);
    fprintf(stderr, "bench: ");
    if (title)
        fprintf(stderr, "%s: ", title);
    vfprintf(stderr, format, values);
    fprintf(stderr, "\n");
    va_end(values);
    exit(1);
}

void *room(size_t bytes)
{
    size_t whole = (bytes + 127) & ~(size_t) 63;
    void *start = aligned_alloc(64, whole);
    if (!start)
        fail("out of memory");
    return memset(start, 0, whole);
}

uint8_t **packets(uint8_t *first, int count, int bytes)
{
    uint8_t **all = room((size_t) count * sizeof *all);
    for (int i = 0; i < count; i++)
        all[i] = first + (size_t) i * (size_t) bytes;
    return all;
}

void begin(const char *of)
{
    title = of;
    contestants = NULL;
    end = &contestants;
}

struct contestant *enter(enum side side, const char *name, bool (*run)(void *state), void *state)
{
    struct contestant *entered = room(sizeof *entered);
    entered->side = side;
    entered->name = name;
    entered->run = run;
    entered->state = state;
    *end = entered;
    end = &entered->next;
    return entered;
}

static void add_part(struct contestant *contestant, struct part part)
{
    if (contestant->part_count == MOST_PARTS)
        fail("%s has too many results", contestant->name);
    contestant->parts[contestant->part_count++] = part;
}

void gives(struct contestant *contestant, void *result, const void *wanted, size_t bytes)
{
    add_part(contestant, (struct part) { result, wanted, bytes, true });
}

void keeps(struct contestant *contestant, const void *result, const void *wanted, size_t bytes)
{
    add_part(contestant, (struct part) { (uint8_t *) result, wanted, bytes, false });
}

void checks_all(struct contestant *contestant)
{
    contestant->checks_all = true;
}

static const char *side_of(const struct contestant *contestant)
{
    return contestant->side == BEFORE ? "before: " : "";
}

static void run(struct contestant *c)
{
    if (!c->run(c->state))
        fail("WRONG: %s%s refuses", side_of(c), c->name);
}

static void compare(const struct contestant *c)
{
    for (int i = 0; i < c->part_count; i++) {
        const struct part *part = &c->parts[i];
        if (memcmp(part->result, part->wanted, part->bytes) != 0)
            fail("WRONG: %s%s: result %d of %d differs", side_of(c), c->name, i + 1, c->part_count);
    }
}

void try_all(void)
{
    for (struct contestant *c = contestants; c; c = c->next) {
        for (int i = 0; i < c->part_count; i++)
            if (c->parts[i].wiped)
                memset(c->parts[i].result, 0xA5, c->parts[i].bytes);
        run(c);
        compare(c);
    }
}

static double now(void)
{
    struct timespec time;
    clock_gettime(CLOCK_MONOTONIC, &time);
    return (double) time.tv_sec + (double) time.tv_nsec * 1e-9;
}

static double seconds_of(struct contestant *c, long runs)
{
    double start = now();
    for (long i = 0; i < runs; i++)
        run(c);
    return now() - start;
}

static void find_batch(struct contestant *c)
{
    for (c->batch = 1; seconds_of(c, c->batch) < BATCH_SECONDS; c->batch *= 2)
        ;
}

static double best_batch(struct contestant *c, double milliseconds)
{
    run(c);
    double least = 1e9, total = 0;
    while (total < milliseconds * 1e-3) {
        double seconds = seconds_of(c, c->batch);
        total += seconds;
        if (seconds < least)
            least = seconds;
    }
    return least / (double) c->batch;
}

static int by_size(const void *a, const void *b)
{
    double x = *(const double *) a, y = *(const double *) b;
    return (x > y) - (x < y);
}

void time_all(int rounds, double milliseconds)
{
    for (struct contestant *c = contestants; c; c = c->next)
        find_batch(c);
    for (int i = 0; i < rounds; i++)
        for (struct contestant *c = contestants; c; c = c->next)
            c->seconds[c->rounds++] = best_batch(c, milliseconds);
    for (struct contestant *c = contestants; c; c = c->next) {
        compare(c);
        qsort(c->seconds, (size_t) c->rounds, sizeof c->seconds[0], by_size);
    }
}

double best(const struct contestant *contestant)
{
    return contestant->seconds[0];
}

double middle(const struct contestant *contestant)
{
    return contestant->seconds[contestant->rounds / 2];
}
