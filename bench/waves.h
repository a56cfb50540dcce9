/* Recordings that the benchmarks ask about. */
#ifndef WAVES_H
#define WAVES_H

#include <stdint.h>

/* Eight channels, from noise to slow square waves: each changes with probability 1/2, halved so many times, an instant. Each run of
 * a program draws the same. */
void draw_waves(uint8_t *recording, uint32_t steps, uint32_t halvings);

#endif
