/* The tables of a workload. */

#include <stdio.h>
#include <string.h>

#include "contest.h"
#include "stack.h"
#include "table.h"

static bool is_peer(const struct contestant *c)
{
    return c->side == PEER;
}

static bool is_checking_peer(const struct contestant *c)
{
    return c->side == PEER && c->checks_all;
}

static const struct contestant *best_of(bool (*counts)(const struct contestant *))
{
    const struct contestant *found = NULL;
    for (const struct contestant *c = contestants; c; c = c->next)
        if (counts(c) && (!found || best(c) < best(found)))
            found = c;
    return found;
}

/* The same call of an earlier commit. */
static const struct contestant *before(const struct contestant *of)
{
    for (const struct contestant *c = contestants; c; c = c->next)
        if (of->side == OURS && c->side == BEFORE && strcmp(c->name, of->name) == 0)
            return c;
    return NULL;
}

/* How many times as fast as another contestant. */
static void print_ratio(const struct contestant *c, const struct contestant *other)
{
    if (other)
        printf(" %10.3f", best(other) / best(c));
    else
        printf(" %10s", "-");
}

static void print_name(const struct contestant *c)
{
    printf("   %s%s\n", c->side == BEFORE ? "before: " : "", c->name);
}

static double speed(const struct workload *workload, double seconds)
{
    return (double) workload->sources * (double) workload->bytes / seconds * 1e-6;
}

void print_speeds(const struct workload *workload)
{
    bool repair = workload->task == REPAIR;
    const struct contestant *peer = best_of(is_peer), *checking = best_of(is_checking_peer);
    printf("%10s %10s %10s", "MB/s", "median", "/ peer");
    if (repair)
        printf(" %10s", "/ checking");
    printf(" %10s\n", "/ before");
    for (const struct contestant *c = contestants; c; c = c->next) {
        printf("%10.1f %10.1f", speed(workload, best(c)), speed(workload, middle(c)));
        print_ratio(c, peer);
        if (repair)
            print_ratio(c, c->checks_all ? checking : NULL);
        print_ratio(c, before(c));
        print_name(c);
    }
}

void print_times(void)
{
    printf("%10s %10s %10s\n", "ns", "median", "/ before");
    for (const struct contestant *c = contestants; c; c = c->next) {
        printf("%10.0f %10.0f", best(c) * 1e9, middle(c) * 1e9);
        print_ratio(c, before(c));
        print_name(c);
    }
}

void print_stacks(void)
{
    printf("%10s\n", "bytes");
    for (const struct contestant *c = contestants; c; c = c->next) {
        printf("%10zu", stack_of(c->run, c->state));
        print_name(c);
    }
}
