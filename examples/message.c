/* Messages of a length and as many bytes, until one is empty. Each is answered by its sum, or by 255 if it is too long. */
#include <stdint.h>
#include "ep.h"

#define LONGEST 16

struct message {
    uint8_t length;
    uint8_t bytes[LONGEST];
};

static void receive(struct message *m)
{
    uint8_t i;
    m->length = ep_in_u8();
    for (i = 0; i < m->length && i < LONGEST; i++)
        m->bytes[i] = ep_in_u8();
}

static uint8_t sum(const struct message *m)
{
    uint8_t total = 0;
    uint8_t i;
    if (m->length > LONGEST)
        return 255;
    for (i = 0; i < m->length; i++)
        total += m->bytes[i];
    return total;
}

int main(void)
{
    struct message m;
    uint8_t answer;
    receive(&m);
    while (m.length) {
        answer = sum(&m);
        ep_out_u8(answer);
        receive(&m);
    }
    return 0;
}
