/* klauspost/reedsolomon, in Go: a Vandermonde code by shuffles in tables of halves of bytes. A call from C to Go has a cost of its
   own, which weighs on small blocks. */

#include <string.h>

#include "bench.h"

extern int klauspost_new(int k, int r, int bytes, uint8_t *run, int lost_count, int *lost);
extern int klauspost_encode(int number);
extern int klauspost_repair(int number);

struct state {
    uint8_t *source, *parity; /* one run */
    int number;
};

static bool encode(void *state)
{
    return klauspost_encode(((struct state *) state)->number) == 0;
}

static bool repair(void *state)
{
    return klauspost_repair(((struct state *) state)->number) == 0;
}

static struct state *state_of(const struct workload *w, int lost_count, int *lost)
{
    size_t source = (size_t) w->sources * (size_t) w->bytes, parity = (size_t) w->parity * (size_t) w->bytes;
    struct state *s = room(sizeof *s);
    s->source = memcpy(room(source + parity), w->source, source);
    s->parity = s->source + source;
    s->number = klauspost_new(w->sources, w->parity, w->bytes, s->source, lost_count, lost);
    if (s->number < 0 || !encode(s))
        fail("WRONG: klauspost refuses to encode");
    return s;
}

/* Parity is known to be right where the source comes back from it. */
static void try_parity(const struct workload *w)
{
    int lost[MOST_LOST], count = w->parity < w->sources ? w->parity : w->sources;
    for (int i = 0; i < count; i++)
        lost[i] = i;
    struct state *s = state_of(w, count, lost);
    size_t bytes = (size_t) count * (size_t) w->bytes;
    memset(s->source, 0, bytes);
    if (!repair(s) || memcmp(s->source, w->source, bytes) != 0)
        fail("WRONG: klauspost does not decode its own parity");
}

void enter_klauspost(const struct workload *w)
{
    size_t bytes = (size_t) w->bytes, parity = (size_t) w->parity * bytes;
    int lost[MOST_LOST];
    memcpy(lost, w->losses, sizeof lost);
    if (w->task == ENCODE)
        try_parity(w);
    struct state *s = state_of(w, w->lost, lost);
    if (w->task == ENCODE) {
        gives(enter(PEER, "klauspost", encode, s), s->parity, memcpy(room(parity), s->parity, parity), parity);
        return;
    }
    struct contestant *entered = enter(PEER, "klauspost", repair, s);
    for (int i = 0; i < w->lost; i++) {
        size_t at = (size_t) w->losses[i] * bytes;
        gives(entered, s->source + at, w->source + at, bytes);
    }
}
