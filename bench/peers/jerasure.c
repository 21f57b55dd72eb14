/* Jerasure: a Vandermonde code by products in GF(256), and a Cauchy code by exclusive ors of parts of packets. */

#include <string.h>

#include <jerasure.h>
#include <jerasure/cauchy.h>
#include <jerasure/reed_sol.h>

#include "bench.h"

enum { WIDTH = 8 };

struct state {
    const struct workload *workload;
    int *matrix;
    int *bit_matrix, **schedule; /* of the Cauchy code */
    int lost[MOST_LOST + 1];     /* up to -1 */
    char **source, **parity;
};

static bool encode_by_products(void *state)
{
    struct state *s = state;
    const struct workload *w = s->workload;
    jerasure_matrix_encode(w->sources, w->parity, WIDTH, s->matrix, s->source, s->parity, w->bytes);
    return true;
}

static bool encode_by_ors(void *state)
{
    struct state *s = state;
    const struct workload *w = s->workload;
    jerasure_schedule_encode(w->sources, w->parity, WIDTH, s->schedule, s->source, s->parity, w->bytes,
                             w->bytes / WIDTH);
    return true;
}

static bool repair_by_products(void *state)
{
    struct state *s = state;
    const struct workload *w = s->workload;
    return jerasure_matrix_decode(w->sources, w->parity, WIDTH, s->matrix, 0, s->lost, s->source, s->parity,
                                  w->bytes) == 0;
}

static bool repair_by_ors(void *state)
{
    struct state *s = state;
    const struct workload *w = s->workload;
    return jerasure_schedule_decode_lazy(w->sources, w->parity, WIDTH, s->bit_matrix, s->lost, s->source, s->parity,
                                         w->bytes, w->bytes / WIDTH, 1) == 0;
}

static struct state *state_of(const struct workload *w)
{
    struct state *s = room(sizeof *s);
    size_t bytes = (size_t) w->sources * (size_t) w->bytes;
    s->workload = w;
    s->source = (char **) packets(memcpy(room(bytes), w->source, bytes), w->sources, w->bytes);
    s->parity = (char **) packets(room((size_t) w->parity * (size_t) w->bytes), w->parity, w->bytes);
    for (int i = 0; i < w->lost; i++)
        s->lost[i] = w->losses[i];
    s->lost[w->lost] = -1;
    return s;
}

/* The parity of an encode is known to be right where the source comes back from it. */
static void enter_pair(const char *name, bool (*encode)(void *), bool (*repair)(void *), struct state *s)
{
    const struct workload *w = s->workload;
    size_t bytes = (size_t) w->bytes;
    encode(s);
    if (w->task == REPAIR) {
        struct contestant *entered = enter(PEER, name, repair, s);
        for (int i = 0; i < w->lost; i++)
            gives(entered, s->source[w->losses[i]], w->source + (size_t) w->losses[i] * bytes, bytes);
        return;
    }
    int lost = w->parity < w->sources ? w->parity : w->sources;
    for (int i = 0; i < lost; i++) {
        s->lost[i] = i;
        memset(s->source[i], 0, bytes);
    }
    s->lost[lost] = -1;
    if (!repair(s) || memcmp(s->source[0], w->source, (size_t) w->sources * bytes) != 0)
        fail("WRONG: %s does not decode its own parity", name);
    size_t whole = (size_t) w->parity * bytes;
    gives(enter(PEER, name, encode, s), s->parity[0], memcpy(room(whole), s->parity[0], whole), whole);
}

void enter_jerasure(const struct workload *w)
{
    int k = w->sources, r = w->parity;
    struct state *products = state_of(w);
    products->matrix = reed_sol_vandermonde_coding_matrix(k, r, WIDTH);
    enter_pair("jerasure, products", encode_by_products, repair_by_products, products);

    /* Parts of a packet are read as words of 64 bits. */
    if (w->bytes % (WIDTH * (int) sizeof(long)) != 0)
        return;
    struct state *ors = state_of(w);
    ors->bit_matrix = jerasure_matrix_to_bitmatrix(k, r, WIDTH, cauchy_good_general_coding_matrix(k, r, WIDTH));
    ors->schedule = jerasure_smart_bitmatrix_to_schedule(k, r, WIDTH, ors->bit_matrix);
    enter_pair("jerasure, exclusive ors by a schedule", encode_by_ors, repair_by_ors, ors);
}
