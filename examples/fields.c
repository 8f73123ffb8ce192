/* A frame of fields: each has a kind, a length, and so many bytes, numbers with their high byte first. The numbers are
   put out, and of texts the sum of their bytes. */
#include <stdint.h>
#include "ep.h"

#define FRAME 16
#define NUMBER 1
#define TEXT 2

int main(void)
{
    uint8_t frame[FRAME];
    uint8_t kind;
    uint8_t length;
    uint8_t i;
    uint32_t at = 0;
    uint32_t value;
    ep_read(frame, FRAME);
    while (at < FRAME - 1) {
        kind = frame[at];
        length = frame[at + 1];
        at += 2;
        value = 0;
        for (i = 0; i < length && at < FRAME; i++) {
            if (kind == NUMBER)
                value = (value << 8) | frame[at];
            else
                value += frame[at];
            at++;
        }
        if (kind == NUMBER || kind == TEXT)
            ep_out_u32(value);
    }
    return 0;
}
