/* Encodes a block, loses some of its packets, restores them, and compares; then damages a packet, which no repair may hide. */

#include <stdio.h>
#include <string.h>

#include "guyekpan.h"

enum {
    M = 8,  /* rows in a packet */
    N = 12, /* positions in a block */
    K = 8,  /* source positions among them */
    W = 2,  /* words in a row */
    R = N - K,
    PACKET = M * W * 4 /* bytes */
};

static uint8_t sent[N * PACKET]; /* parity, then source */
static uint8_t block[N * PACKET];
static uint8_t work[(R + 1) * PACKET];

static int failures;

static void expect(const char *what, uint32_t got, uint32_t wanted)
{
    printf("%s: %u\n", what, (unsigned) got);
    if (got != wanted) {
        printf("  but %u was expected\n", (unsigned) wanted);
        failures++;
    }
}

static void expect_same_block(const char *what)
{
    int same = memcmp(block, sent, sizeof block) == 0;
    printf("%s: %s\n", what, same ? "the block that was sent" : "another block");
    failures += !same;
}

int main(void)
{
    uint8_t *source = sent + R * PACKET;
    for (size_t i = 0; i < K * PACKET; i++)
        source[i] = (uint8_t) (i * i + 7 * i + i / 256);
    expect("encode", guyekpan_encode(M, N, K, W, source, K * PACKET, sent, R * PACKET), 0);
    expect("check", guyekpan_check(M, N, K, W, sent, sizeof sent, work, sizeof work), 0);

    /* Positions 0, 3, 7 and 11 are lost. */
    static const uint8_t losses[] = { 0, 0, 0, 3, 0, 7, 0, 11 };
    memcpy(block, sent, sizeof block);
    for (size_t i = 0; i < sizeof losses; i += 2)
        memset(block + losses[i + 1] * PACKET, 0xA5, PACKET);
    expect("check of a block with losses", guyekpan_check(M, N, K, W, block, sizeof block, work, sizeof work), 255);
    expect("repair", guyekpan_repair(M, N, K, W, block, sizeof block, losses, sizeof losses, work, sizeof work), 0);
    expect_same_block("after repair");

    /* One bit of position 5 is damaged, and nobody tells which position. */
    block[5 * PACKET + 9] ^= 0x10;
    uint32_t answer = guyekpan_repair(M, N, K, W, block, sizeof block, losses, 2, work, sizeof work);
    expect("repair of a damaged block", answer % 256, 8);
    block[5 * PACKET + 9] ^= 0x10;
    expect_same_block("the damage undone");

    /* Refusals. */
    static const uint8_t five[] = { 0, 1, 0, 2, 0, 3, 0, 4, 0, 5 };
    expect("four rows", guyekpan_check(4, N, K, W, block, sizeof block, work, sizeof work), 1);
    expect("a work string too short", guyekpan_check(M, N, K, W, block, sizeof block, work, sizeof work - 4), 5 + 256);
    expect("half a position", guyekpan_repair(M, N, K, W, block, sizeof block, losses, 3, work, sizeof work), 6);
    expect("five lost of four parity",
           guyekpan_repair(M, N, K, W, block, sizeof block, five, sizeof five, work, sizeof work), 7);
    expect_same_block("after refusals");
    if (failures != 0)
        printf("%d answers were not as expected\n", failures);
    return failures != 0;
}
