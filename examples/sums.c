/* A block of four words, high bytes first, and their sum modulo 2^32 behind them. */
#include <stdint.h>
#include "ep.h"

#define WORDS 4
#define BLOCK 20

static uint32_t word_at(const uint8_t *p)
{
    return ((uint32_t)p[0] << 24) | ((uint32_t)p[1] << 16) | ((uint32_t)p[2] << 8) | p[3];
}

int main(void)
{
    uint8_t block[BLOCK];
    uint32_t sum = 0;
    uint32_t word;
    uint32_t i;
    ep_read(block, BLOCK);
    for (i = 0; i < WORDS; i++) {
        word = word_at(block + 4 * i);
        sum += word;
    }
    word = word_at(block + 4 * WORDS);
    if (word != sum) {
        ep_out_u8(0);
        return 1;
    }
    ep_out_u32(sum);
    return 0;
}
