/* What a console asks of a log: whether it can be read, the page of the keys that come most often in it, and the count
 * of one key. The library is out/libconsole_c.a of crates/console_c; its functions allocate nothing, keep nothing from
 * one call to the next, and are proved (docs/LIBRARY.md).
 *
 * Answers are numbers: 0 where a call does what it says, else the number of a refusal (docs/NUMBERS.md):
 *   1  an argument is outside its range: no such lens, k is not 2 to 1,024, or bytes that make no key
 *   8  the limit is too low: a key that is not held could have reached it
 *   9  there is room for fewer than k lines
 * and of what can end the reading of a log:
 *   3  a record's map is 0, or one of its bits 5 to 7 is set
 *   4  the log ends inside a record
 *   5  a field of a record is out of range
 *   7  a key more than 4,294,967,295
 *
 * No pointer may be null, also where the length beside it is 0. What a call writes must not overlap what it reads, nor
 * one output another. A call needs a stack: 400,000 bytes sufficed for the deepest calls that were tried, which is not
 * proved.
 */
#ifndef KONJACATTIC_H
#define KONJACATTIC_H

#include <stddef.h>
#include <stdint.h>

#ifdef __cplusplus
extern "C" {
#endif

/* What of a record is looked at. A lens gives a key of a record, or none. With a second lens the key is the pair of
 * both, and there is none if either gives none. KONJACATTIC_NONE is no lens, and can only be the second. */
#define KONJACATTIC_NONE 0
#define KONJACATTIC_KIND 1                      /* the event kind */
#define KONJACATTIC_WORD 2                      /* the flight word */
#define KONJACATTIC_PREFIX(bits) (256 + (bits)) /* the first bits, 0 to 32, of the source address */

/* A key, or one key of a pair, as bytes; those behind it are 0.
 *   an event kind    1 byte, its number
 *   a flight word    its 1 to 8 bytes
 *   an address prefix  5 bytes: the address, highest byte first, all bits behind the prefix 0; then how many bits it has
 *   a number         4 bytes, highest first
 * With length 0 there is none. */
typedef struct konjacattic_part {
    uint8_t bytes[8];
    uint8_t length;
} konjacattic_part;

/* A line of a page: of the key's entries there are at least count and at most upper. */
typedef struct konjacattic_line {
    konjacattic_part first;
    konjacattic_part second; /* length 0 where there is no second lens */
    uint32_t count;
    uint32_t upper;
} konjacattic_line;

/* What became of reading a log. */
typedef struct konjacattic_reading {
    uint64_t records; /* how many records there are before the log's end, or before the record that ended the reading */
    uint64_t offset;  /* the log's length, or where the reading ended: of 3, 4 and 5 the place of the fault, of 7 the
                       * first byte of the record whose key there was no room for */
    uint32_t fault;   /* 0 if the log was read to its end; else 3, 4, 5 or 7 */
} konjacattic_reading;

/* The numbers of a page. */
typedef struct konjacattic_page_numbers {
    uint32_t n;     /* how many keys were taken */
    uint32_t l;     /* how far a count can stand below the number of its key's entries; at most n / (k + 1) */
    uint32_t lines; /* how many lines were written */
} konjacattic_page_numbers;

/* The count of a key: of its entries there are at least count and at most upper, which is count + l. A key that is not
 * held counts 0. */
typedef struct konjacattic_count_numbers {
    uint32_t n;
    uint32_t l;
    uint32_t count;
    uint32_t upper;
} konjacattic_count_numbers;

/* Reads a log, and answers what ended the reading: 0, 3, 4 or 5. It is in *reading too. */
uint32_t konjacattic_check(const uint8_t *log, size_t log_length, konjacattic_reading *reading);

/* The page of a log: the keys that may have reached the limit, in rising order, with their bounds, by a sketch of k
 * keys of what the lenses give of the log's records, up to the log's end or to what ends the reading, which *reading
 * tells. Every key that has reached the limit is there.
 * Answers 1 if there is no such first or second lens, or k is not 2 to 1,024; nothing is written then. Else *reading
 * and *page are written, and it answers 8 if the limit is l or less, then 9 if there is room for fewer than k lines;
 * page->lines is 0 then, and the lines are as they were. Else it answers 0, the first page->lines lines are written,
 * and those behind them are as they were. */
uint32_t konjacattic_page(const uint8_t *log, size_t log_length, uint32_t first, uint32_t second, uint32_t k,
                          uint32_t limit, konjacattic_line *lines, size_t lines_length, konjacattic_reading *reading,
                          konjacattic_page_numbers *page);

/* The count of one key in a log, by a sketch of k keys of what the lenses give of the log's records, up to the log's
 * end or to what ends the reading, which *reading tells. The key is given by the bytes of its parts, as in a line;
 * without a second lens the second part must have length 0. A prefix of another length than the lens gives is a key, and
 * one that is not held.
 * Answers 1 if there is no such first or second lens, k is not 2 to 1,024, or the bytes make no key of the kinds that
 * these lenses give; nothing is written then. Else it answers 0, and *reading and *count are written. */
uint32_t konjacattic_count(const uint8_t *log, size_t log_length, uint32_t first, uint32_t second, uint32_t k,
                           const uint8_t *first_part, size_t first_part_length, const uint8_t *second_part,
                           size_t second_part_length, konjacattic_reading *reading, konjacattic_count_numbers *count);

/* The page of a list of numbers, by a sketch of k keys: as konjacattic_page, each entry a key, taken in order, up to
 * 4,294,967,295 of them. Answers 1 if k is not 2 to 1,024; else 8, 9 and 0 as konjacattic_page. */
uint32_t konjacattic_page_of_numbers(const uint32_t *entries, size_t entries_length, uint32_t k, uint32_t limit,
                                     konjacattic_line *lines, size_t lines_length, konjacattic_page_numbers *page);

#ifdef __cplusplus
}
#endif

#endif
