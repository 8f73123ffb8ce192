/* A frame of a sensor, high bytes first, read in two ways: byte by byte, and as it lies in memory. */
#include <stdint.h>
#include <string.h>
#include "ep.h"

struct frame {
    uint8_t sensor;
    uint8_t flags;
    uint16_t level;
};

int main(void)
{
    uint8_t bytes[4];
    struct frame f;
    uint16_t level;
    ep_read(bytes, 4);
    level = (uint16_t)((bytes[2] << 8) | bytes[3]);
    ep_out_u16(level);
    memcpy(&f, bytes, sizeof f);
    ep_out_u16(f.level);
    return 0;
}
