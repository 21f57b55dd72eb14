/* zfec: a Vandermonde code by a table of products. */

#include <string.h>

#include <fec.h>

#include "bench.h"

struct state {
    const struct workload *workload;
    fec_t *code;
    uint8_t **source, **parity, **found;
    unsigned *numbers;     /* of the parity packets */
    const gf **left;       /* the source packets, with parity in the place of the lost */
    unsigned *left_number; /* which these are */
};

static bool encode(void *state)
{
    struct state *s = state;
    const struct workload *w = s->workload;
    fec_encode(s->code, (const gf *const *) s->source, s->parity, s->numbers, (size_t) w->parity, (size_t) w->bytes);
    return true;
}

static bool repair(void *state)
{
    struct state *s = state;
    fec_decode(s->code, s->left, s->found, s->left_number, (size_t) s->workload->bytes);
    return true;
}

static void lose(struct state *s, int parity, int source)
{
    s->left[source] = s->parity[parity];
    s->left_number[source] = (unsigned) (s->workload->sources + parity);
}

static struct state *state_of(const struct workload *w)
{
    int k = w->sources, r = w->parity;
    size_t parity = (size_t) r * (size_t) w->bytes;
    struct state *s = room(sizeof *s);
    s->workload = w;
    s->code = fec_new((unsigned short) k, (unsigned short) (k + r));
    s->source = packets(w->source, k, w->bytes);
    s->parity = packets(room(parity), r, w->bytes);
    s->found = packets(room(parity), r, w->bytes);
    s->numbers = room((size_t) r * sizeof *s->numbers);
    for (int i = 0; i < r; i++)
        s->numbers[i] = (unsigned) (k + i);
    s->left = room((size_t) k * sizeof *s->left);
    s->left_number = room((size_t) k * sizeof *s->left_number);
    for (int i = 0; i < k; i++) {
        s->left[i] = s->source[i];
        s->left_number[i] = (unsigned) i;
    }
    return s;
}

/* Parity is known to be right where the source comes back from it. */
static void try_parity(struct state *s)
{
    const struct workload *w = s->workload;
    int lost = w->parity < w->sources ? w->parity : w->sources;
    for (int i = 0; i < lost; i++)
        lose(s, i, i);
    repair(s);
    if (memcmp(s->found[0], w->source, (size_t) lost * (size_t) w->bytes) != 0)
        fail("WRONG: zfec does not decode its own parity");
}

void enter_zfec(const struct workload *w)
{
    size_t bytes = (size_t) w->bytes, parity = (size_t) w->parity * bytes;
    struct state *s = state_of(w);
    encode(s);
    if (w->task == ENCODE) {
        try_parity(s);
        gives(enter(PEER, "zfec", encode, s), s->parity[0], memcpy(room(parity), s->parity[0], parity), parity);
        return;
    }
    for (int i = 0; i < w->lost; i++)
        lose(s, i, w->losses[i]);
    struct contestant *entered = enter(PEER, "zfec", repair, s);
    for (int i = 0; i < w->lost; i++)
        gives(entered, s->found[i], w->source + (size_t) w->losses[i] * bytes, bytes);
}
