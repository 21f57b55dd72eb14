/* The contestants of a workload, tried and timed in turn. */

#ifndef CONTEST_H
#define CONTEST_H

#include "bench.h"

enum { MOST_ROUNDS = 64, MOST_PARTS = MOST_LOST + 2 };

/* Bytes that a run leaves, and what they have to be. */
struct part {
    uint8_t *result;
    const uint8_t *wanted;
    size_t bytes;
    bool wiped;
};

struct contestant {
    enum side side;
    const char *name;
    bool checks_all;
    bool (*run)(void *state);
    void *state;
    struct part parts[MOST_PARTS];
    int part_count;
    long batch;                  /* how many runs are timed together */
    double seconds[MOST_ROUNDS]; /* the best of a run, for each round in ascending order once all are done */
    int rounds;
    struct contestant *next;
};

/* The first that was entered, or null. */
extern struct contestant *contestants;

/* No contestant is entered. `title` names the workload where the program fails. */
void begin(const char *title);

/* Each contestant runs once over wiped results, all of which have to be those wanted. */
void try_all(void);

/* Round after round, each contestant runs for so many milliseconds; the results of the last run are compared, too. */
void time_all(int rounds, double milliseconds);

/* Seconds of a run: the best round, and the round in the middle. */
double best(const struct contestant *contestant);
double middle(const struct contestant *contestant);

#endif
