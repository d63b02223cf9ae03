/* The water book for a station hub. Link with libhub.a; it needs memcpy and memset, and allocates nothing. */
#ifndef WATER_BOOK_H
#define WATER_BOOK_H

#include <stdbool.h>
#include <stddef.h>
#include <stdint.h>

#ifdef __cplusplus
extern "C" {
#endif

/* How a script ended. */
enum water_book_ended {
    WATER_BOOK_ALL_MADE = 0,
    WATER_BOOK_BAD_HEAD = 1,
    WATER_BOOK_NO_SUCH_JOURNAL = 2,
    WATER_BOOK_NO_SUCH_POLICY = 3,
    WATER_BOOK_SCRIPT_CUT = 4,
    WATER_BOOK_NO_SUCH_CALL = 5,
    WATER_BOOK_BAD_ORDER = 6,
    WATER_BOOK_LIST_TOO_LONG = 7,
    WATER_BOOK_OUTPUT_TOO_SHORT = 8
};

/*
 * Runs a script of calls on a new book. The script, the output and these codes are described in docs/SCRIPTS.md.
 *
 * memory  the strip's bytes, if the script's journal has one; else it is left as it is
 * output  what each call was told, every place of its list, and the journal at the end
 * written how many bytes of the output were written; those behind are left as they are
 *
 * No pointer may be null, not even one with length 0, and the four regions may not overlap. Apart from that any bytes and
 * any lengths are taken. A call takes about 127 KiB of stack over a roll or a mirror, and 79 KiB over a strip.
 */
uint32_t water_book_run(const uint8_t *script, size_t script_len,
                        uint8_t *memory, size_t memory_len,
                        uint8_t *output, size_t output_len,
                        uint64_t *written);

/*
 * How many bytes of a strip are in use, of which at most `used` are: 1 and 48 for each record up to the first that is unsound or
 * cut; 0 where memory doesn't begin with the version byte. With `used` 0 the strip begins anew: the version byte is written.
 */
size_t water_book_used(uint8_t *memory, size_t memory_len, size_t used);

/* Whether a number is a label: 1 to 8 of A-Z, 0-9 and '-', filled with spaces, the first in the byte of most weight. */
bool water_book_is_label(uint64_t code);

#ifdef __cplusplus
}
#endif

#endif
