/* The same over the words as they lie in memory: on either machine the sum agrees with the one that this machine wrote,
   and with no other. */
#include <stdint.h>
#include <string.h>
#include "ep.h"

#define WORDS 5

int main(void)
{
    uint32_t block[WORDS];
    uint32_t sum = 0;
    uint32_t i;
    ep_read(block, sizeof block);
    for (i = 0; i < WORDS - 1; i++)
        sum += block[i];
    if (block[WORDS - 1] != sum) {
        ep_out_u8(0);
        return 1;
    }
    ep_out_u32(sum);
    return 0;
}
