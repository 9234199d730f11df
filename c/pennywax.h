/* Pennywax for C: bech32, bech32m and segwit addresses. A slice is a pointer and a length; of length 0 it may be a null pointer. A checksum is
 * 1 for Bech32 and 2 for Bech32m, any other code is 28. Each function returns the number of README's table, 0 for accepted, and sets the other
 * results to 0 on a refusal. No function allocates, keeps state, or demands anything of its caller beyond valid pointers.
 *
 * What a function writes may not overlap anything else that it is given; two inputs may. It looks before it writes, and returns 37: with every
 * result set to 0 if out (for the batch, the list) overlaps an input, and with nothing written at all if a result does, or two results, or a
 * result and out. 37 comes before every other number. */
#ifndef PENNYWAX_H
#define PENNYWAX_H

#include <stddef.h>
#include <stdint.h>

#ifdef __cplusplus
extern "C" {
#endif

uint8_t pennywax_check_address(const uint8_t *s, size_t s_len, uint8_t *version, size_t *length);
uint8_t pennywax_read_address(const uint8_t *s, size_t s_len, uint8_t *out, size_t out_len, uint8_t *version, size_t *length);
uint8_t pennywax_read(uint8_t code, const uint8_t *s, size_t s_len, size_t *prefix, size_t *symbols);
uint8_t pennywax_locate(uint8_t code, const uint8_t *s, size_t s_len, size_t *place);
uint8_t pennywax_read_bytes(uint8_t code, const uint8_t *s, size_t s_len, uint8_t *out, size_t out_len, size_t *written);
uint8_t pennywax_write_symbols(uint8_t code, const uint8_t *prefix, size_t prefix_len, const uint8_t *symbols, size_t symbols_len,
                               uint8_t *out, size_t out_len, size_t *written);
uint8_t pennywax_write_bytes(uint8_t code, const uint8_t *prefix, size_t prefix_len, const uint8_t *bytes, size_t bytes_len,
                             uint8_t *out, size_t out_len, size_t *written);
uint8_t pennywax_write_address(const uint8_t *prefix, size_t prefix_len, uint8_t version, const uint8_t *program, size_t program_len,
                               uint8_t *out, size_t out_len, size_t *written);

typedef struct { size_t start, len; uint8_t verdict, version; size_t program; } pennywax_entry;
uint8_t pennywax_judge_batch(const uint8_t *buffer, size_t buffer_len, pennywax_entry *entries, size_t entries_len);

#ifdef __cplusplus
}
#endif

#endif
