/* The same with a struct for the bytes, lowest first: right on a little-endian machine alone. */
#include <stdint.h>
#include "ep.h"

struct fields {
    uint8_t channel;
    uint8_t gain;
    uint8_t flags;
    uint8_t mode;
};

union control {
    uint32_t word;
    struct fields f;
};

int main(void)
{
    union control c;
    uint32_t before;
    before = ep_in_u32();
    c.word = before;
    c.f.channel = ep_in_u8();
    c.f.mode = ep_in_u8();
    ep_out_u32(c.word);
    ep_out_u8(c.f.mode);
    return 0;
}
