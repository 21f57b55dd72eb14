/* What a workload asks, and what a contestant is. */

#ifndef BENCH_H
#define BENCH_H

#include <stdbool.h>
#include <stddef.h>
#include <stdint.h>

#ifdef __cplusplus
extern "C" {
#endif

enum { MOST_LOST = 32 };

enum task { ENCODE, CHECK, REPAIR };

/* One block: source packets of so many bytes, which stand one after another, and how many parity packets it gets. A repair has lost
   some source packets, whose numbers ascend, and all else is there. */
struct workload {
    enum task task;
    int sources, parity, bytes, lost;
    uint8_t *source;
    int losses[MOST_LOST];
};

/* The library as it is, the library of an earlier commit, or another library. */
enum side { OURS, BEFORE, PEER };

struct contestant;

/* A contestant of the workload that is prepared. `run` does the work once, and answers whether it was accepted. */
struct contestant *enter(enum side side, const char *name, bool (*run)(void *state), void *state);

/* The contestant writes these bytes, and then they are those wanted. They are wiped before a trial. */
void gives(struct contestant *contestant, void *result, const void *wanted, size_t bytes);

/* These bytes are those wanted after a run, and the contestant need not write them all. */
void keeps(struct contestant *contestant, const void *result, const void *wanted, size_t bytes);

/* The contestant's repair also compares the other packets of the block with all parity. */
void checks_all(struct contestant *contestant);

/* Zeros at a multiple of 64 bytes, which are never given back: a workload's are few, and the program ends soon. */
void *room(size_t bytes);

/* `count` packets of so many bytes one after another, as pointers. */
uint8_t **packets(uint8_t *first, int count, int bytes);

/* A peer enters its contestants for an encode or a repair, or for none. */
typedef void enter_peer(const struct workload *workload);

/* The peers that bench/run found, up to a null pointer. */
extern enter_peer *const peers[];

/* Ends the program with status 1 and a line that says why. */
#ifdef __GNUC__
__attribute__((noreturn, format(printf, 1, 2)))
#endif
void fail(const char *format, ...);

#ifdef __cplusplus
}
#endif

#endif
