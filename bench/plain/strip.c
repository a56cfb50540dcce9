/* The strip as plain C writes it: a loop over the channels, one over the instants, and the count by the way. */
#include "plain.h"

#include <string.h>

enum { MOST_STEPS = 32, LINE = MOST_STEPS + 7, REFUSED_CHANNELS = 1, REFUSED_STEPS, REFUSED_LENGTH = 10, REFUSED_BYTE, REFUSED_ROOM = 18 };
static const uint64_t WRITTEN = 66;

static void put_count(uint8_t *end, uint32_t count)
{
    do
        *--end = (uint8_t)('0' + count % 10);
    while ((count /= 10) > 0);
}

uint64_t plain_strip(uint32_t c, uint32_t k, const uint8_t *recording, size_t recording_length, uint8_t *strip, size_t strip_length)
{
    if (c < 1 || c > 8)
        return REFUSED_CHANNELS;
    if (k > MOST_STEPS)
        return REFUSED_STEPS;
    if (recording_length != k)
        return REFUSED_LENGTH;
    for (uint32_t t = 0; t < k; t++)
        if (recording[t] >> c != 0)
            return REFUSED_BYTE;
    const size_t bytes = (c + 1) * LINE;
    if (strip_length < bytes)
        return REFUSED_ROOM;

    memset(strip, ' ', bytes);
    for (uint32_t t = 0; t < k; t++)
        strip[2 + t] = (uint8_t)('0' + t % 10);
    strip[LINE - 1] = '\n';
    for (uint32_t channel = 0; channel < c; channel++) {
        uint8_t *line = strip + (channel + 1) * LINE;
        uint32_t count = 0;
        line[0] = (uint8_t)('a' + channel);
        for (uint32_t t = 0; t < k; t++) {
            const uint32_t high = recording[t] >> channel & 1;
            line[2 + t] = high ? '#' : '_';
            count += high;
        }
        put_count(line + LINE - 1, count);
        line[LINE - 1] = '\n';
    }
    return WRITTEN + ((uint64_t)bytes << 32);
}
