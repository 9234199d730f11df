/* What C calls. The functions proved in crates/face and crates/batch are proved for results and buffers that lie apart from all else that they
 * are given, and a caller of C need not know that. So nothing is done here but to ask, for each range that is written and each other range,
 * whether they overlap, which is itself a proved function, and to refuse with its number before anything is written. */
#include "pennywax.h"

/* Addresses are handed over as sizes. */
typedef char addresses_are_sizes[sizeof(uintptr_t) == sizeof(size_t) ? 1 : -1];

/* ---- libface.a */

uint8_t pennywax_ranges_overlap(size_t a, size_t m, size_t b, size_t n);

uint8_t pennywax_apart_check_address(const uint8_t *s, size_t s_len, uint8_t *version, size_t *length);
uint8_t pennywax_apart_read_address(const uint8_t *s, size_t s_len, uint8_t *out, size_t out_len, uint8_t *version, size_t *length);
uint8_t pennywax_apart_read(uint8_t code, const uint8_t *s, size_t s_len, size_t *prefix, size_t *symbols);
uint8_t pennywax_apart_locate(uint8_t code, const uint8_t *s, size_t s_len, size_t *place);
uint8_t pennywax_apart_read_bytes(uint8_t code, const uint8_t *s, size_t s_len, uint8_t *out, size_t out_len, size_t *written);
uint8_t pennywax_apart_write_symbols(uint8_t code, const uint8_t *prefix, size_t prefix_len, const uint8_t *symbols, size_t symbols_len,
                                     uint8_t *out, size_t out_len, size_t *written);
uint8_t pennywax_apart_write_bytes(uint8_t code, const uint8_t *prefix, size_t prefix_len, const uint8_t *bytes, size_t bytes_len,
                                   uint8_t *out, size_t out_len, size_t *written);
uint8_t pennywax_apart_write_address(const uint8_t *prefix, size_t prefix_len, uint8_t version, const uint8_t *program, size_t program_len,
                                     uint8_t *out, size_t out_len, size_t *written);

/* ---- libbatch.a */

uint8_t pennywax_apart_judge_batch(const uint8_t *buffer, size_t buffer_len, pennywax_entry *entries, size_t entries_len);

/* ---- ranges */

typedef struct {
    const void *start;
    size_t len;
} range;

/* The number for the ranges from first up to last, which are written, each with every range that comes after it; 0 if all lie apart. */
static uint8_t overlap(const range *given, size_t first, size_t last, size_t count)
{
    for (size_t i = first; i < last; i++)
        for (size_t j = i + 1; j < count; j++) {
            const uint8_t number = pennywax_ranges_overlap((uintptr_t)given[i].start, given[i].len, (uintptr_t)given[j].start, given[j].len);
            if (number)
                return number;
        }
    return 0;
}

/* Where every slice of length 0 lies, since the proved functions know no null pointer. It is neither read nor written. */
static pennywax_entry nothing;

static const uint8_t *lent(const uint8_t *start, size_t len)
{
    return len ? start : &nothing.verdict;
}

static uint8_t *room(uint8_t *start, size_t len)
{
    return len ? start : &nothing.verdict;
}

/* ---- readers that give numbers alone: all that is written are results, which come first */

uint8_t pennywax_check_address(const uint8_t *s, size_t s_len, uint8_t *version, size_t *length)
{
    const range given[] = {{version, sizeof *version}, {length, sizeof *length}, {s, s_len}};
    const uint8_t number = overlap(given, 0, 2, 3);
    if (number)
        return number;
    return pennywax_apart_check_address(lent(s, s_len), s_len, version, length);
}

uint8_t pennywax_read(uint8_t code, const uint8_t *s, size_t s_len, size_t *prefix, size_t *symbols)
{
    const range given[] = {{prefix, sizeof *prefix}, {symbols, sizeof *symbols}, {s, s_len}};
    const uint8_t number = overlap(given, 0, 2, 3);
    if (number)
        return number;
    return pennywax_apart_read(code, lent(s, s_len), s_len, prefix, symbols);
}

uint8_t pennywax_locate(uint8_t code, const uint8_t *s, size_t s_len, size_t *place)
{
    const range given[] = {{place, sizeof *place}, {s, s_len}};
    const uint8_t number = overlap(given, 0, 1, 2);
    if (number)
        return number;
    return pennywax_apart_locate(code, lent(s, s_len), s_len, place);
}

/* ---- readers and writers that fill a buffer: results first, then the buffer, then what is only read */

uint8_t pennywax_read_address(const uint8_t *s, size_t s_len, uint8_t *out, size_t out_len, uint8_t *version, size_t *length)
{
    const range given[] = {{version, sizeof *version}, {length, sizeof *length}, {out, out_len}, {s, s_len}};
    uint8_t number = overlap(given, 0, 2, 4);
    if (number)
        return number;
    number = overlap(given, 2, 3, 4);
    if (number) {
        *version = 0;
        *length = 0;
        return number;
    }
    return pennywax_apart_read_address(lent(s, s_len), s_len, room(out, out_len), out_len, version, length);
}

uint8_t pennywax_read_bytes(uint8_t code, const uint8_t *s, size_t s_len, uint8_t *out, size_t out_len, size_t *written)
{
    const range given[] = {{written, sizeof *written}, {out, out_len}, {s, s_len}};
    uint8_t number = overlap(given, 0, 1, 3);
    if (number)
        return number;
    number = overlap(given, 1, 2, 3);
    if (number) {
        *written = 0;
        return number;
    }
    return pennywax_apart_read_bytes(code, lent(s, s_len), s_len, room(out, out_len), out_len, written);
}

/* The number for a writer's ranges, with what it wrote set to 0 if that may be written. */
static uint8_t writer_overlap(range prefix, range content, range out, size_t *written)
{
    const range given[] = {{written, sizeof *written}, out, prefix, content};
    uint8_t number = overlap(given, 0, 1, 4);
    if (number)
        return number;
    number = overlap(given, 1, 2, 4);
    if (number)
        *written = 0;
    return number;
}

uint8_t pennywax_write_symbols(uint8_t code, const uint8_t *prefix, size_t prefix_len, const uint8_t *symbols, size_t symbols_len,
                               uint8_t *out, size_t out_len, size_t *written)
{
    const uint8_t number = writer_overlap((range){prefix, prefix_len}, (range){symbols, symbols_len}, (range){out, out_len}, written);
    if (number)
        return number;
    return pennywax_apart_write_symbols(code, lent(prefix, prefix_len), prefix_len, lent(symbols, symbols_len), symbols_len,
                                        room(out, out_len), out_len, written);
}

uint8_t pennywax_write_bytes(uint8_t code, const uint8_t *prefix, size_t prefix_len, const uint8_t *bytes, size_t bytes_len,
                             uint8_t *out, size_t out_len, size_t *written)
{
    const uint8_t number = writer_overlap((range){prefix, prefix_len}, (range){bytes, bytes_len}, (range){out, out_len}, written);
    if (number)
        return number;
    return pennywax_apart_write_bytes(code, lent(prefix, prefix_len), prefix_len, lent(bytes, bytes_len), bytes_len,
                                      room(out, out_len), out_len, written);
}

uint8_t pennywax_write_address(const uint8_t *prefix, size_t prefix_len, uint8_t version, const uint8_t *program, size_t program_len,
                               uint8_t *out, size_t out_len, size_t *written)
{
    const uint8_t number = writer_overlap((range){prefix, prefix_len}, (range){program, program_len}, (range){out, out_len}, written);
    if (number)
        return number;
    return pennywax_apart_write_address(lent(prefix, prefix_len), prefix_len, version, lent(program, program_len), program_len,
                                        room(out, out_len), out_len, written);
}

/* ---- the batch: the list is read and written */

uint8_t pennywax_judge_batch(const uint8_t *buffer, size_t buffer_len, pennywax_entry *entries, size_t entries_len)
{
    /* a list that no memory can hold has the most bytes that can be said, which reach past the top */
    const size_t most = SIZE_MAX / sizeof *entries;
    const range given[] = {{entries, entries_len <= most ? entries_len * sizeof *entries : SIZE_MAX}, {buffer, buffer_len}};
    const uint8_t number = overlap(given, 0, 1, 2);
    if (number)
        return number;
    return pennywax_apart_judge_batch(lent(buffer, buffer_len), buffer_len, entries_len ? entries : &nothing, entries_len);
}
