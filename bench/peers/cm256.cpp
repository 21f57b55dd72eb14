/* cm256: a Cauchy code by shuffles in tables of halves of bytes. Its interface is a class. */

#include <cstring>

#include <cm256cc/cm256.h>

#include "bench.h"

namespace {

struct State {
    const workload *work;
    CM256::cm256_encoder_params sizes;
    CM256::cm256_block source[256];
    CM256::cm256_block left[256]; /* the source packets, with parity in the place of the lost */
    CM256::cm256_block given[256];
    uint8_t *parity, *found;
};

/* Its tables, made once: it says so on standard error. */
CM256 &code()
{
    static CM256 made;
    return made;
}

size_t size(int packets, int bytes)
{
    return static_cast<size_t>(packets) * static_cast<size_t>(bytes);
}

bool encode(void *state)
{
    State *s = static_cast<State *>(state);
    return code().cm256_encode(s->sizes, s->source, s->parity) == 0;
}

/* A decode works in place of the parity packets, so that these, no more than are lost, are copied for each. */
bool repair(void *state)
{
    State *s = static_cast<State *>(state);
    const workload *w = s->work;
    memcpy(s->given, s->left, sizeof s->given);
    memcpy(s->found, s->parity, size(w->lost, w->bytes));
    return code().cm256_decode(s->sizes, s->given) == 0;
}

State *state_of(const workload *w)
{
    State *s = new State();
    s->work = w;
    s->sizes.OriginalCount = w->sources;
    s->sizes.RecoveryCount = w->parity;
    s->sizes.BlockBytes = w->bytes;
    s->parity = static_cast<uint8_t *>(room(size(w->parity, w->bytes)));
    s->found = static_cast<uint8_t *>(room(size(w->parity, w->bytes)));
    for (int i = 0; i < w->sources; i++) {
        s->source[i].Block = w->source + size(i, w->bytes);
        s->source[i].Index = static_cast<unsigned char>(i);
    }
    if (!encode(s))
        fail("WRONG: cm256 refuses to encode");
    memcpy(s->left, s->source, sizeof s->left);
    for (int i = 0; i < w->lost; i++) {
        CM256::cm256_block &block = s->left[w->losses[i]];
        block.Block = s->found + size(i, w->bytes);
        block.Index = CM256::cm256_get_recovery_block_index(s->sizes, i);
    }
    return s;
}

/* The source packet that stands in the place of a lost one after a repair. */
const uint8_t *wanted(const State *s, int lost)
{
    return s->work->source + size(s->given[s->work->losses[lost]].Index, s->work->bytes);
}

/* Parity is known to be right where the source comes back from it. */
void try_parity(const workload *w)
{
    workload losing = *w;
    losing.task = REPAIR;
    losing.lost = w->parity < w->sources ? w->parity : w->sources;
    for (int i = 0; i < losing.lost; i++)
        losing.losses[i] = i;
    State *s = state_of(&losing);
    bool right = repair(s);
    for (int i = 0; i < losing.lost; i++)
        right = right && memcmp(s->found + size(i, w->bytes), wanted(s, i), static_cast<size_t>(w->bytes)) == 0;
    if (!right)
        fail("WRONG: cm256 does not decode its own parity");
}

}

extern "C" void enter_cm256(const workload *w)
{
    if (w->task == ENCODE)
        try_parity(w);
    State *s = state_of(w);
    if (w->task == ENCODE) {
        size_t parity = size(w->parity, w->bytes);
        gives(enter(PEER, "cm256", encode, s), s->parity, memcpy(room(parity), s->parity, parity), parity);
        return;
    }
    if (!repair(s))
        fail("WRONG: cm256 refuses to repair");
    contestant *entered = enter(PEER, "cm256", repair, s);
    for (int i = 0; i < w->lost; i++)
        gives(entered, s->found + size(i, w->bytes), wanted(s, i), static_cast<size_t>(w->bytes));
}
