/* The same, copied into a struct and swapped where the file has its high bytes first: right on a little-endian machine
   alone. */
#include <stdint.h>
#include <string.h>
#include "ep.h"

#define HEADER 8

struct header {
    uint8_t order[2];
    uint16_t magic;
    uint32_t table;
};

static uint16_t swap16(uint16_t v)
{
    return (uint16_t)((v >> 8) | (v << 8));
}

static uint32_t swap32(uint32_t v)
{
    return (v >> 24) | ((v >> 8) & 0xff00u) | ((v << 8) & 0xff0000u) | (v << 24);
}

int main(void)
{
    uint8_t bytes[HEADER];
    struct header h;
    ep_read(bytes, HEADER);
    memcpy(&h, bytes, sizeof h);
    if (h.order[0] != h.order[1])
        return 1;
    if (h.order[0] == 'M') {
        h.magic = swap16(h.magic);
        h.table = swap32(h.table);
    } else if (h.order[0] != 'I') {
        return 1;
    }
    if (h.magic != 42)
        return 2;
    ep_out_u32(h.table);
    return 0;
}
