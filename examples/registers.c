/* A control register of 32 bits, written as a whole and byte by byte: bits 0 to 7 are a channel, 8 to 15 a gain, 16 to
   23 flags, 24 to 31 a mode. */
#include <stdint.h>
#include "ep.h"

union control {
    uint32_t word;
    uint8_t byte[4];
};

/* Byte i counts from the low end of the word. */
static void set_byte(union control *c, uint32_t i, uint8_t value)
{
#if __BYTE_ORDER__ == __ORDER_LITTLE_ENDIAN__
    c->byte[i] = value;
#else
    c->byte[3 - i] = value;
#endif
}

int main(void)
{
    union control c;
    uint32_t before;
    uint8_t channel;
    uint8_t mode;
    before = ep_in_u32();
    c.word = before;
    channel = ep_in_u8();
    mode = ep_in_u8();
    set_byte(&c, 0, channel);
    set_byte(&c, 3, mode);
    ep_out_u32(c.word);
    ep_out_u8(c.word >> 24);
    return 0;
}
