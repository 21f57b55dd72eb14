/* The tables of a workload. */

#ifndef TABLE_H
#define TABLE_H

#include "bench.h"

/* MB/s of source, and how many times as fast as the best peer, the best that checks as much, and the same call before. */
void print_speeds(const struct workload *workload);

/* Nanoseconds of a call, and how many times as fast as the same call before. */
void print_times(void);

/* Bytes of stack of each call. */
void print_stacks(void);

#endif
