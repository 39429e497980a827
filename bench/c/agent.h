// A plain C implementation of document 01, for comparison: what a firmware engineer would write by hand. Nothing in it
// is proved. The functions take and answer what those of the proved library do (include/).
#ifndef AGENT_H
#define AGENT_H

#include <stddef.h>
#include <stdint.h>

// Each function answers 0 or a refusal's number, and leaves its values in `out`.

// out: offset, instruction count, greatest height, longest walk
typedef uint32_t verify_function(const uint8_t *expression, size_t length, uint64_t out[4]);

// out: offset, steps, used length, cells told, top, beneath
typedef uint32_t run_function(const uint8_t *expression, size_t length, const uint64_t *registers, size_t register_count,
                              uint64_t image_first, const uint8_t *image, size_t image_length,
                              uint64_t work_first, const uint8_t *work, size_t work_length,
                              uint64_t variables[64], uint8_t *buffer, size_t buffer_length, size_t used,
                              uint16_t tracepoint, uint64_t allowance, uint64_t out[6]);

// out: span (0 none, 1 image, 2 working memory), index of the first byte in it
typedef uint32_t fetch_function(uint64_t image_first, const uint8_t *image, size_t image_length,
                                uint64_t work_first, const uint8_t *work, size_t work_length,
                                uint64_t address, uint64_t size, uint64_t out[2]);

// out: offset, tracepoint, kind (1 memory, 2 variable), address or number, length or value, place of the bytes
typedef uint32_t read_function(const uint8_t *buffer, size_t length, size_t used, uint64_t frame, uint64_t record, uint64_t out[6]);

// The frame that ends at `end`. out: offset, tracepoint, start, length of the records, the place after the step
typedef uint32_t walk_function(const uint8_t *buffer, size_t length, size_t end, uint64_t out[5]);

// The record at `place`, of those that end at `end`. out: offset, kind, address or number, length or value, place of the
// bytes, next place
typedef uint32_t next_record_function(const uint8_t *buffer, size_t length, size_t end, size_t place, uint64_t out[6]);

#endif
