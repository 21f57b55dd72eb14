/* Encode, check and repair one block of the erasure code over the field of 256 elements.

   A call names its block by four numbers: m rows in a packet (8), n positions in a block, k source positions among them, and w words
   in a row. A packet is m * w words. Positions 0 to n - k - 1 are parity, the others source; position i of a block lies at words
   i * m * w up to (i + 1) * m * w. A block has at most 8,192 words.

   Runs of words are passed as strings of bytes, each with its length: every word is four bytes, the highest first. A pointer is
   never null, also where the length is 0, and strings do not overlap. A call needs no heap, and at most
   GUYEKPAN_STACK bytes of stack.

   A call answers one number:

     0    done, or yes
     1    m is not 8
     2    no source position, no parity position, or more than 32 of these
     3    more than 255 positions
     4    w is not in 1 to 16, or the block has more than 8,192 words
     5    a string has not its number of bytes; 256 * place is added, where place counts the strings of words from 0
     6    the lost positions have an odd number of bytes, do not ascend, or are not all below n
     7    too few: more than n - k positions are lost
     8    contradictory: no codeword has the packets that are left; 256 * sum and 65,536 * word are added, for the lowest sum that
          is not zero and its first word that is not
     255  a check says no

   The first check that fails is answered, in the order of the numbers. A string keeps its bytes where a call answers 1 to 7. */

#ifndef GUYEKPAN_H
#define GUYEKPAN_H

#include <stddef.h>
#include <stdint.h>

/* The bytes of stack that a call needs at most, 64 KB. This is measured on x86-64 and not proved: a repair of 8,192 words takes
   58 KB, and some 2 KB more where the loader has yet to find the C library's memcpy. */
#define GUYEKPAN_STACK 65536

#ifdef __cplusplus
extern "C" {
#endif

/* Fills the parity string, n - k packets, from the source string, k packets, so that parity and source make a codeword. */
uint32_t guyekpan_encode(uint32_t m, uint32_t n, uint32_t k, uint32_t w,
                         const uint8_t *source, size_t source_length,
                         uint8_t *parity, size_t parity_length);

/* Whether the block string, n packets, is a codeword: 0 for yes, 255 for no. The work string, n - k + 1 packets, is zero
   afterwards. */
uint32_t guyekpan_check(uint32_t m, uint32_t n, uint32_t k, uint32_t w,
                        const uint8_t *block, size_t block_length,
                        uint8_t *work, size_t work_length);

/* Restores the packets of the block string, n packets, at the lost positions, whatever stands there. Each lost position is two
   bytes, the highest first, in ascending order. The work string, n - k + 1 packets, is place 1 for answer 5, and zero after answers
   0 and 8; answer 8 leaves the block as it was. */
uint32_t guyekpan_repair(uint32_t m, uint32_t n, uint32_t k, uint32_t w,
                         uint8_t *block, size_t block_length,
                         const uint8_t *losses, size_t losses_length,
                         uint8_t *work, size_t work_length);

#ifdef __cplusplus
}
#endif

#endif
