/* The checksum of the Internet protocols: the complement of the sum of 16-bit words, each with its high byte first. */
#include <stdint.h>
#include "ep.h"

#define SIZE 8

static uint16_t checksum(const uint8_t *bytes)
{
    uint32_t sum = 0;
    uint32_t i;
    for (i = 0; i < SIZE; i += 2)
        sum += ((uint32_t)bytes[i] << 8) | bytes[i + 1];
    while (sum >> 16)
        sum = (sum & 0xffffu) + (sum >> 16);
    return (uint16_t)~sum;
}

int main(void)
{
    uint8_t bytes[SIZE];
    uint16_t sum;
    ep_read(bytes, SIZE);
    sum = checksum(bytes);
    ep_out_u16(sum);
    return 0;
}
