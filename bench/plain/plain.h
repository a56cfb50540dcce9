/* The straightforward engine that the benchmarks set beside ours. Its calls take and answer what the engine's do, but that a
 * refusal's place is always 0, unless it is an unmet clause. */
#ifndef PLAIN_H
#define PLAIN_H

#include <stddef.h>
#include <stdint.h>

uint64_t plain_evaluate(const uint8_t *text, size_t text_length, uint32_t c, uint32_t k, uint32_t i, uint32_t j,
                        const uint8_t *recording, size_t recording_length);
uint64_t plain_node_text(const uint8_t *text, size_t text_length, uint32_t c, uint32_t k, uint32_t node);
uint64_t plain_table(const uint8_t *text, size_t text_length, uint32_t c, uint32_t k, uint32_t *sizes, size_t sizes_length,
                     uint32_t *variables, size_t variables_length, uint8_t *marks, size_t marks_length);
uint64_t plain_extend(const uint8_t *text, size_t text_length, uint32_t c, uint32_t k, const uint8_t *recording,
                      size_t recording_length, uint8_t *assignment, size_t assignment_length);
uint64_t plain_check(const uint8_t *text, size_t text_length, uint32_t c, uint32_t k, const uint8_t *assignment,
                     size_t assignment_length, uint8_t *recording, size_t recording_length);
uint64_t plain_strip(uint32_t c, uint32_t k, const uint8_t *recording, size_t recording_length, uint8_t *strip, size_t strip_length);
/* Without the table's two arrays, since it makes none. */
uint64_t plain_search(const uint8_t *text, size_t text_length, uint32_t c, uint32_t k, uint32_t limit, uint8_t *values,
                      size_t values_length, uint32_t *trail, size_t trail_length, uint8_t *recording, size_t recording_length);

#endif
