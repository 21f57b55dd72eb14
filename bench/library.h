/* The builds of the library that are linked, each with its own names for the calls. */

#ifndef LIBRARY_H
#define LIBRARY_H

#include "bench.h"

/* The exports of crates/words. A run is a pointer and its number of words. */
typedef uint32_t words_encode_call(size_t n, size_t k, size_t w, const uint32_t *source, size_t source_words,
                                   uint32_t *parity, size_t parity_words);
typedef uint32_t words_check_call(size_t n, size_t k, size_t w, const uint32_t *block, size_t block_words,
                                  uint32_t *work, size_t work_words);
typedef uint32_t words_repair_call(size_t n, size_t k, size_t w, uint32_t *block, size_t block_words,
                                   const size_t *lost, size_t lost_count, uint32_t *work, size_t work_words);

/* Those of crates/guyekpan, as include/guyekpan.h has them. */
typedef uint32_t bytes_encode_call(uint32_t m, uint32_t n, uint32_t k, uint32_t w, const uint8_t *source,
                                   size_t source_length, uint8_t *parity, size_t parity_length);
typedef uint32_t bytes_check_call(uint32_t m, uint32_t n, uint32_t k, uint32_t w, const uint8_t *block,
                                  size_t block_length, uint8_t *work, size_t work_length);
typedef uint32_t bytes_repair_call(uint32_t m, uint32_t n, uint32_t k, uint32_t w, uint8_t *block, size_t block_length,
                                   const uint8_t *losses, size_t losses_length, uint8_t *work, size_t work_length);

struct build {
    enum side side;
    const char *processor;
    struct {
        words_encode_call *encode;
        words_check_call *check;
        words_repair_call *repair;
    } words; /* null where the build has no libwords.a */
    struct {
        bytes_encode_call *encode;
        bytes_check_call *check;
        bytes_repair_call *repair;
    } bytes; /* null where it has no libguyekpan.a */
};

/* The builds that bench/run made and was given, up to one without a processor; the first has the word calls. */
extern const struct build builds[];

/* Enters the word calls of every build, and the C calls where the block fits them. */
void enter_library(const struct workload *workload);

#endif
