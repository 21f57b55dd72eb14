/* The library's calls: over words for blocks of any size, over bytes where the block fits. */

#include <stdio.h>
#include <string.h>

#include "library.h"

enum {
    ROWS = 8,
    ROW_WORD = 32,    /* the bytes of a packet with rows of one word */
    WORD = 4,         /* bytes */
    MOST_WORDS = 8192 /* of a block that the C calls take */
};

/* A block's sizes: packets, words in a row, and the bytes of each run. */
struct sizes {
    int n, k, w;
    size_t block, parity, source, work;
};

struct words_state {
    const struct build *build;
    struct sizes sizes;
    uint32_t *block, *work;
    size_t lost[MOST_LOST];
    int lost_count;
};

struct bytes_state {
    const struct build *build;
    struct sizes sizes;
    uint8_t *block, *work;
    uint8_t losses[2 * MOST_LOST];
    int lost_count;
};

static struct sizes sizes_of(const struct workload *workload)
{
    int n = workload->sources + workload->parity;
    size_t bytes = (size_t) workload->bytes;
    return (struct sizes) {
        .n = n,
        .k = workload->sources,
        .w = workload->bytes / ROW_WORD,
        .block = (size_t) n * bytes,
        .parity = (size_t) workload->parity * bytes,
        .source = (size_t) workload->sources * bytes,
        .work = (size_t) (workload->parity + 1) * bytes,
    };
}

static bool encode_words(void *state)
{
    struct words_state *s = state;
    const struct sizes *z = &s->sizes;
    return s->build->words.encode((size_t) z->n, (size_t) z->k, (size_t) z->w, s->block + z->parity / WORD,
                                  z->source / WORD, s->block, z->parity / WORD) == 0;
}

static bool check_words(void *state)
{
    struct words_state *s = state;
    const struct sizes *z = &s->sizes;
    return s->build->words.check((size_t) z->n, (size_t) z->k, (size_t) z->w, s->block, z->block / WORD, s->work,
                                 z->work / WORD) == 0;
}

static bool repair_words(void *state)
{
    struct words_state *s = state;
    const struct sizes *z = &s->sizes;
    return s->build->words.repair((size_t) z->n, (size_t) z->k, (size_t) z->w, s->block, z->block / WORD, s->lost,
                                  (size_t) s->lost_count, s->work, z->work / WORD) == 0;
}

static bool encode_bytes(void *state)
{
    struct bytes_state *s = state;
    const struct sizes *z = &s->sizes;
    return s->build->bytes.encode(ROWS, (uint32_t) z->n, (uint32_t) z->k, (uint32_t) z->w, s->block + z->parity,
                                  z->source, s->block, z->parity) == 0;
}

static bool check_bytes(void *state)
{
    struct bytes_state *s = state;
    const struct sizes *z = &s->sizes;
    return s->build->bytes.check(ROWS, (uint32_t) z->n, (uint32_t) z->k, (uint32_t) z->w, s->block, z->block, s->work,
                                 z->work) == 0;
}

static bool repair_bytes(void *state)
{
    struct bytes_state *s = state;
    const struct sizes *z = &s->sizes;
    return s->build->bytes.repair(ROWS, (uint32_t) z->n, (uint32_t) z->k, (uint32_t) z->w, s->block, z->block,
                                  s->losses, (size_t) (2 * s->lost_count), s->work, z->work) == 0;
}

/* In the order of the tasks. */
static bool (*const over_words[])(void *) = { encode_words, check_words, repair_words };
static bool (*const over_bytes[])(void *) = { encode_bytes, check_bytes, repair_bytes };

/* What a call has to leave: the parity; or the lost packets in a block that is otherwise as it was, and a work run of zeros. */
static void expect(struct contestant *contestant, const struct workload *workload, const struct sizes *sizes,
                   uint8_t *block, const uint8_t *good, const void *work)
{
    size_t bytes = (size_t) workload->bytes;
    if (workload->task == ENCODE)
        gives(contestant, block, good, sizes->parity);
    for (int i = 0; i < workload->lost; i++) {
        size_t at = sizes->parity + (size_t) workload->losses[i] * bytes;
        gives(contestant, block + at, good + at, bytes);
    }
    keeps(contestant, block, good, sizes->block);
    if (workload->task != ENCODE)
        keeps(contestant, work, room(sizes->work), sizes->work);
    checks_all(contestant);
}

static const char *name_of(const char *calls, const struct build *build)
{
    char *name = room(64);
    snprintf(name, 64, "%s, %s", calls, build->processor);
    return name;
}

static struct words_state *words_state(const struct build *build, const struct workload *workload)
{
    struct words_state *s = room(sizeof *s);
    s->build = build;
    s->sizes = sizes_of(workload);
    s->block = room(s->sizes.block);
    s->work = room(s->sizes.work);
    s->lost_count = workload->lost;
    for (int i = 0; i < workload->lost; i++)
        s->lost[i] = (size_t) (workload->parity + workload->losses[i]);
    return s;
}

static void enter_words(const struct build *build, const struct workload *workload, const uint32_t *good)
{
    struct words_state *s = words_state(build, workload);
    memcpy(s->block, good, s->sizes.block);
    struct contestant *entered =
        enter(build->side, name_of("words", build), over_words[workload->task], s);
    expect(entered, workload, &s->sizes, (uint8_t *) s->block, (const uint8_t *) good, s->work);
}

static void enter_bytes(const struct build *build, const struct workload *workload, const uint8_t *good)
{
    struct bytes_state *s = room(sizeof *s);
    s->build = build;
    s->sizes = sizes_of(workload);
    s->block = room(s->sizes.block);
    s->work = room(s->sizes.work);
    s->lost_count = workload->lost;
    for (int i = 0; i < workload->lost; i++) {
        int position = workload->parity + workload->losses[i];
        s->losses[2 * i] = (uint8_t) (position >> 8);
        s->losses[2 * i + 1] = (uint8_t) position;
    }
    memcpy(s->block, good, s->sizes.block);
    struct contestant *entered = enter(build->side, name_of("C calls", build), over_bytes[workload->task], s);
    expect(entered, workload, &s->sizes, s->block, good, s->work);
}

/* Whether a build's check says yes for the block, and no for the block with one bit changed. */
static bool is_codeword(struct words_state *s)
{
    bool yes = check_words(s);
    s->block[0] ^= 1;
    bool no = !check_words(s);
    s->block[0] ^= 1;
    return yes && no;
}

/* The codeword of the source, by the first build. It is one for every other build too, or the program fails. */
static uint32_t *codeword(const struct workload *workload)
{
    struct words_state *s = words_state(&builds[0], workload);
    memcpy((uint8_t *) s->block + s->sizes.parity, workload->source, s->sizes.source);
    if (!encode_words(s))
        fail("the library refuses to encode");
    for (const struct build *build = builds; build->processor; build++) {
        s->build = build;
        if (build->words.check && !is_codeword(s))
            fail("WRONG: %s, %s: check does not know what encode makes", s->build->side == BEFORE ? "before" : "words",
                 build->processor);
    }
    return s->block;
}

/* Each word as four bytes, the highest first. */
static uint8_t *spelled(const uint32_t *words, size_t bytes)
{
    uint8_t *string = room(bytes);
    for (size_t i = 0; i < bytes; i++)
        string[i] = (uint8_t) (words[i / WORD] >> (24 - 8 * (i % WORD)));
    return string;
}

void enter_library(const struct workload *workload)
{
    const uint32_t *good = codeword(workload);
    size_t bytes = sizes_of(workload).block;
    bool fits = bytes / WORD <= MOST_WORDS;
    const uint8_t *string = spelled(good, bytes);
    for (const struct build *build = builds; build->processor; build++) {
        if (build->words.encode)
            enter_words(build, workload, good);
        if (build->bytes.encode && fits)
            enter_bytes(build, workload, string);
    }
}
