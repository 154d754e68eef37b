/* Paumelu's C interface: the items of a GraphQL text, as spans that are proved right to the byte.
 *
 * Link target/staticlib/libpaumelu.a, which `host/library` proves and writes. */
#ifndef PAUMELU_H
#define PAUMELU_H

#include <stdint.h>

#ifdef __cplusplus
extern "C" {
#endif

/* The longest text that is read, in bytes. */
#define PAUMELU_LONGEST UINT64_C(16777216)

/* How many bytes an entry of the tape has. A tape's room is its byte length divided by this. */
#define PAUMELU_ENTRY 8

/* What paumelu_read gives back. */
enum {
    PAUMELU_DONE = 0,      /* all items are on the tape; place: the text's length; items: how many, Eof included */
    PAUMELU_TOO_LONG = 2,  /* the text has over 16,777,216 bytes; the tape is unchanged */
    PAUMELU_NOT_UTF8 = 3,  /* place: the first byte where no well-formed sequence begins; the tape is unchanged */
    PAUMELU_LIMIT = 4,     /* `limit` items are on the tape and Eof is not among them; place: the first unread byte */
    PAUMELU_TAPE_FULL = 5, /* the tape is full and an item is due; place: the first unread byte */
    PAUMELU_NO_ENTRY = 11  /* `entry` is not 0; the tape is unchanged */
};

/* Reads the items of a text to a tape.
 *
 * entry        0: read items. Any other number is refused with 11.
 * limit        how many items at most, Eof included; UINT64_MAX for as many as there are.
 * tape         8 bytes for each item, most significant first: 8 bits code, 28 bits start, 28 bits length. Bytes past the last entry stay.
 * place, items, events
 *              always written; events is always 0. A field that the number's line above does not name is 0; on 4 and 5 items says how
 *              many are on the tape.
 *
 * Item codes: 0 Eof, 1 Whitespace, 2 Comment, 3 `,`, 4 `!`, 5 `$`, 6 `&`, 7 `(`, 8 `)`, 9 `...`, 10 `:`, 11 `=`, 12 `@`, 13 `[`, 14 `]`,
 * 15 `{`, 16 `|`, 17 `}`, 18 Name, 19 StringValue, 20 Int, 21 Float; 64 + n is an error of number n.
 *
 * What the caller owes, and nothing checks: text and tape point to as many bytes as their lengths say; the three references point to
 * a uint64_t each, aligned; nothing that is lent to be written overlaps anything else that is lent, and none of it changes while the call
 * runs. A length of 0 may come with any pointer that is not null. All else is refused by number, whatever the bytes. */
uint64_t paumelu_read(uint64_t entry, const uint8_t *text, uint64_t text_length, uint64_t limit, uint8_t *tape, uint64_t tape_length,
                      uint64_t *place, uint64_t *items, uint64_t *events);

/* The fields of entry number i of a tape. */
static inline uint64_t paumelu_word(const uint8_t *tape, uint64_t i)
{
    uint64_t word = 0;
    for (int b = 0; b < PAUMELU_ENTRY; b++)
        word = word << 8 | tape[i * PAUMELU_ENTRY + b];
    return word;
}

static inline unsigned paumelu_code(uint64_t word) { return (unsigned)(word >> 56); }
static inline uint64_t paumelu_start(uint64_t word) { return word >> 28 & UINT64_C(0xFFFFFFF); }
static inline uint64_t paumelu_length(uint64_t word) { return word & UINT64_C(0xFFFFFFF); }

#ifdef __cplusplus
}
#endif

#endif
