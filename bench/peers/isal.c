/* ISA-L: a Cauchy code by shuffles in tables of halves of bytes. */

#include <stdio.h>
#include <string.h>

#include <isa-l.h>

#include "bench.h"

typedef void encode_data(int bytes, int inputs, int outputs, unsigned char *tables, unsigned char **input,
                         unsigned char **output);

enum { TABLE = 32 }; /* bytes for one coefficient */

/* The matrix has a row of the unit matrix for each source, and below these a row for each parity packet. */
struct state {
    const struct workload *workload;
    encode_data *apply;
    uint8_t *matrix;
    uint8_t *parity_tables, *other_tables;
    uint8_t **source, **parity, **found, **sums, **again;
    uint8_t **zeroed;   /* the source, with zeros for the lost */
    uint8_t **restored; /* the source, with what was found for the lost */
    uint8_t **left;     /* as many packets as sources, none of them lost */
    uint8_t *left_matrix, *inverse;
};

static bool encode(void *state)
{
    struct state *s = state;
    const struct workload *w = s->workload;
    s->apply(w->bytes, w->sources, w->parity, s->parity_tables, s->source, s->again);
    return true;
}

/* As the library's examples do: inverts the matrix of the packets that are left, and applies its rows for the lost. */
static bool by_whole_inverse(void *state)
{
    struct state *s = state;
    const struct workload *w = s->workload;
    int k = w->sources, t = w->lost;
    size_t row = (size_t) k;
    int next = 0;
    for (int i = 0, seen = 0; i < k; i++) {
        if (seen < t && w->losses[seen] == i) {
            seen++;
            continue;
        }
        memcpy(s->left_matrix + (size_t) next * row, s->matrix + (size_t) i * row, row);
        s->left[next++] = s->source[i];
    }
    for (int j = 0; j < t; j++) {
        memcpy(s->left_matrix + (size_t) next * row, s->matrix + (size_t) (k + j) * row, row);
        s->left[next++] = s->parity[j];
    }
    if (gf_invert_matrix(s->left_matrix, s->inverse, k) != 0)
        return false;
    uint8_t rows[MOST_LOST * 256];
    for (int j = 0; j < t; j++)
        memcpy(rows + (size_t) j * row, s->inverse + (size_t) w->losses[j] * row, row);
    ec_init_tables(k, t, rows, s->other_tables);
    s->apply(w->bytes, k, t, s->other_tables, s->left, s->found);
    return true;
}

static void add(uint8_t *restrict sum, const uint8_t *restrict packet, int bytes)
{
    for (int i = 0; i < bytes; i++)
        sum[i] ^= packet[i];
}

/* The first t parity packets of what is left, added to those of the block: sums of the lost packets, which a t x t inverse turns
   into these. */
static bool by_sums(void *state)
{
    struct state *s = state;
    const struct workload *w = s->workload;
    int k = w->sources, t = w->lost;
    s->apply(w->bytes, k, t, s->parity_tables, s->zeroed, s->sums);
    for (int j = 0; j < t; j++)
        add(s->sums[j], s->parity[j], w->bytes);
    uint8_t part[MOST_LOST * MOST_LOST], inverse[MOST_LOST * MOST_LOST];
    for (int i = 0; i < t; i++)
        for (int j = 0; j < t; j++)
            part[i * t + j] = s->matrix[(k + i) * k + w->losses[j]];
    if (gf_invert_matrix(part, inverse, t) != 0)
        return false;
    ec_init_tables(t, t, inverse, s->other_tables);
    s->apply(w->bytes, t, t, s->other_tables, s->sums, s->found);
    return true;
}

/* And then all parity is made again from the block with what was found, and compared with the block's. */
static bool by_sums_checked(void *state)
{
    struct state *s = state;
    const struct workload *w = s->workload;
    if (!by_sums(s))
        return false;
    s->apply(w->bytes, w->sources, w->parity, s->parity_tables, s->restored, s->again);
    bool same = true;
    for (int j = 0; j < w->parity; j++)
        same &= memcmp(s->again[j], s->parity[j], (size_t) w->bytes) == 0;
    return same;
}

static uint8_t **new_packets(int count, int bytes)
{
    return packets(room((size_t) count * (size_t) bytes), count, bytes);
}

static struct state *state_of(const struct workload *w, encode_data *apply)
{
    int k = w->sources, r = w->parity, t = w->lost, n = k + r;
    struct state *s = room(sizeof *s);
    s->workload = w;
    s->apply = apply;
    s->matrix = room((size_t) n * (size_t) k);
    s->left_matrix = room((size_t) k * (size_t) k);
    s->inverse = room((size_t) k * (size_t) k);
    s->parity_tables = room((size_t) k * (size_t) r * TABLE);
    s->other_tables = room((size_t) k * (size_t) r * TABLE);
    s->source = packets(w->source, k, w->bytes);
    s->zeroed = packets(w->source, k, w->bytes);
    s->restored = packets(w->source, k, w->bytes);
    s->left = packets(w->source, k, w->bytes);
    s->parity = new_packets(r, w->bytes);
    s->again = new_packets(r, w->bytes);
    s->found = new_packets(r, w->bytes);
    s->sums = new_packets(r, w->bytes);
    for (int j = 0; j < t; j++) {
        s->zeroed[w->losses[j]] = room((size_t) w->bytes);
        s->restored[w->losses[j]] = s->found[j];
    }
    gf_gen_cauchy1_matrix(s->matrix, n, k);
    ec_init_tables(k, r, s->matrix + (size_t) k * (size_t) k, s->parity_tables);
    ec_encode_data_base(w->bytes, k, r, s->parity_tables, s->source, s->parity);
    return s;
}

static struct contestant *enter_state(const char *name, bool (*run)(void *), struct state *s)
{
    const struct workload *w = s->workload;
    struct contestant *entered = enter(PEER, name, run, s);
    for (int j = 0; j < w->lost; j++)
        gives(entered, s->found[j], w->source + (size_t) w->losses[j] * (size_t) w->bytes, (size_t) w->bytes);
    if (w->task == ENCODE)
        for (int j = 0; j < w->parity; j++)
            gives(entered, s->again[j], s->parity[j], (size_t) w->bytes);
    return entered;
}

/* Parity is known to be right where the source comes back from it. */
static void try_parity(const struct workload *w)
{
    struct workload repair = *w;
    repair.task = REPAIR;
    repair.lost = w->parity < w->sources ? w->parity : w->sources;
    for (int i = 0; i < repair.lost; i++)
        repair.losses[i] = i;
    struct state *s = state_of(&repair, ec_encode_data_base);
    if (!by_sums_checked(s))
        fail("WRONG: isa-l cannot decode its own parity");
    for (int i = 0; i < repair.lost; i++)
        if (memcmp(s->found[i], s->source[i], (size_t) w->bytes) != 0)
            fail("WRONG: isa-l decodes its own parity to another packet");
}

static void enter_with(const struct workload *w, const char *which, encode_data *apply)
{
    char *name = room(64);
    if (w->task == ENCODE) {
        snprintf(name, 64, "isa-l, %s", which);
        enter_state(name, encode, state_of(w, apply));
    } else {
        snprintf(name, 64, "isa-l, %s, t sums and a check", which);
        checks_all(enter_state(name, by_sums_checked, state_of(w, apply)));
    }
}

void enter_isal(const struct workload *w)
{
    if (w->task == ENCODE)
        try_parity(w);
    enter_with(w, "auto", ec_encode_data);
    enter_with(w, "sse", ec_encode_data_sse);
    if (__builtin_cpu_supports("avx2"))
        enter_with(w, "avx2", ec_encode_data_avx2);
    if (w->task == REPAIR) {
        enter_state("isa-l, auto, t sums", by_sums, state_of(w, ec_encode_data));
        enter_state("isa-l, auto, k x k inverse", by_whole_inverse, state_of(w, ec_encode_data));
    }
}
