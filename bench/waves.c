#include "waves.h"

static uint32_t random_byte(void)
{
    static uint64_t state = 0x9e3779b97f4a7c15u;
    state ^= state << 13;
    state ^= state >> 7;
    state ^= state << 17;
    return state >> 32 & 0xff;
}

void draw_waves(uint8_t *recording, uint32_t steps, uint32_t halvings)
{
    uint32_t levels = random_byte();
    for (uint32_t t = 0; t < steps; t++) {
        uint32_t changes = random_byte();
        for (uint32_t n = 0; n < halvings; n++)
            changes &= random_byte();
        levels ^= changes;
        recording[t] = (uint8_t)levels;
    }
}
