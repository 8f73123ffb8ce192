/* The header of a file of either byte order: "II" for low bytes first or "MM" for high bytes first, the number 42, and
   where the first table begins. */
#include <stdint.h>
#include "ep.h"

#define HEADER 8

static uint16_t number16(const uint8_t *p, uint8_t high_first)
{
    if (high_first)
        return (uint16_t)((p[0] << 8) | p[1]);
    return (uint16_t)((p[1] << 8) | p[0]);
}

static uint32_t number32(const uint8_t *p, uint8_t high_first)
{
    if (high_first)
        return ((uint32_t)p[0] << 24) | ((uint32_t)p[1] << 16) | ((uint32_t)p[2] << 8) | p[3];
    return ((uint32_t)p[3] << 24) | ((uint32_t)p[2] << 16) | ((uint32_t)p[1] << 8) | p[0];
}

int main(void)
{
    uint8_t header[HEADER];
    uint8_t high_first = 0;
    uint16_t magic;
    uint32_t table;
    ep_read(header, HEADER);
    if (header[0] != header[1])
        return 1;
    if (header[0] == 'M')
        high_first = 1;
    else if (header[0] != 'I')
        return 1;
    magic = number16(header + 2, high_first);
    if (magic != 42)
        return 2;
    table = number32(header + 4, high_first);
    ep_out_u32(table);
    return 0;
}
