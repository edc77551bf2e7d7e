/* The calls of libacpi.a (tests/library makes it), for C and C++ on x86-64. docs/PROMISES.md says what is proved of them.
 *
 * Each call that may refuse returns the refusal's number, 0 for none, and sets *place: to the refusal's place, else to
 * the number that was asked for. A refusal leaves the lent buffer as it was; bytes past what is written are kept.
 *
 * A caller owes what C cannot say: each pointer has as many elements as its length says (with length 0 it may be any
 * pointer but NULL), what is written to overlaps nothing else that is lent, and nobody else writes during a call.
 *
 * A call allocates nothing. What it keeps stands on the stack: of a PPTT longer than 1,048,576 bytes 512 KB of marks, while a PPTT's recipe
 * of 682,240 bytes or more is checked 420 KB; of shorter ones 32 KB and 6.6 KB. Give a thread that calls at least 2 MiB of stack.
 */
#ifndef ISPALMUTZU_ACPI_H
#define ISPALMUTZU_ACPI_H

#include <stddef.h>
#include <stdint.h>

#ifdef __cplusplus
extern "C" {
#endif

/* What a call refuses; beside each what place is then. A reference is refused by 6 if it names no node before its own, 0 where none is
 * allowed too, and by 10 if it names an earlier node of the other kind; 10 is looked for between 6 and 7. A window with fewer targets
 * than ways is refused by 11 where another record comes, before that record's own faults, or where the recipe ends, before 9. Kind 35 of
 * an SRAT is refused by 12, which is looked for between 2 and 3. Of a table to be read out 30 is looked for first, then 29 in all of its
 * records, then 32 in all of them, then 31. */
enum acpi_refusal {
    ACPI_NO_HEAD = 1,    /* 0 */
    ACPI_BAD_KIND = 2,   /* 2 to 8, 10 and 12, but for 5: where the faulty record begins in the recipe */
    ACPI_CUT = 3,
    ACPI_MISPLACED = 4,
    ACPI_BAD_FIELD = 5,  /* where the first bad field of the faulty record begins in the recipe */
    ACPI_FORWARD = 6,
    ACPI_FULL_NODE = 7,
    ACPI_TOO_LONG = 8,
    ACPI_NO_ROOM = 9,    /* the length of the table */
    ACPI_WRONG_KIND = 10,
    ACPI_INCOMPLETE = 11, /* where the window begins in the recipe */
    ACPI_RETIRED = 12,   /* kind 35, the RINTC without its domain: kind 36 has it */

    ACPI_SHORT = 20,     /* 20 to 24: 0 */
    ACPI_BAD_SIGN = 21,
    ACPI_BAD_LENGTH = 22,
    ACPI_BAD_SUM = 23,
    ACPI_BAD_FRONT = 24,
    ACPI_BAD_FRAME = 25, /* 25 to 27: where the faulty record begins in the table */
    ACPI_BAD_RECORD = 26,
    ACPI_BAD_REF_READ = 27,
    ACPI_NO_RECORD = 28, /* the number of records */
    ACPI_UNKNOWN = 29,   /* where the unknown record begins in the table */
    ACPI_REVISION = 30,  /* 8 */
    ACPI_NO_ROOM_OUT = 31, /* the length of the recipe */
    ACPI_RETIRED_OUT = 32 /* where the first record of ACPI_ROW_RINTC_16 begins in the table */
};

/* The rows that a record may be of; a mask has bit 1 << row for each row that is known. A RINTC of an SRAT is of one of two: of 16 bytes,
 * without a domain, or of 20 bytes, as ACPI 6.6 has it and recipes build it. Neither has the name ACPI_ROW_RINTC, which was the first one's:
 * a program that used it looked for records that are not built any more, and does not compile until it says which it means.
 * A matrix is of ACPI_ROW_MATRIX where both counts are up to 255, and of ACPI_ROW_WIDE_MATRIX where one is above that and both are up to
 * 4,096; its fields are the same in both. With a count above 4,096 it is unknown. */
enum acpi_row {
    ACPI_ROW_PROCESSOR = 0,
    ACPI_ROW_CACHE = 1,
    ACPI_ROW_MEMORY = 2,
    ACPI_ROW_INITIATOR = 3,
    ACPI_ROW_RINTC_16 = 4,
    ACPI_ROW_DOMAIN = 5,
    ACPI_ROW_MATRIX = 6,
    ACPI_ROW_SIDE = 7,
    ACPI_ROW_BRIDGE = 8,
    ACPI_ROW_WINDOW = 9,
    ACPI_ROW_MATHS = 10,
    ACPI_ROW_RINTC_20 = 11,
    ACPI_ROW_WIDE_MATRIX = 12,
    ACPI_ROW_UNKNOWN = 255
};

/* The mask of all rows. */
#define ACPI_EVERY 0xffffffffu

/* Where the numbers of a record stand in an answer. The fields, in the order of the layout:
 *   processor   flags, parent's place, processor id, number of resources
 *   cache       flags, next level's place, size, sets, associativity, attributes, line size, id
 *   memory      domain, base, length, flags
 *   initiator   0, domain, hid, uid, flags for an ACPI handle; 1, domain, segment, bus, device, function, flags for PCI
 *   RINTC       uid, flags, clock domain of 16 bytes; domain, uid, flags, clock domain of 20 bytes
 *   domain      initiator, memory
 *   matrix      flags, data type, transfer size, initiators I, targets T, base unit; its part has I + T values, four bytes each, then the
 *               cells, two bytes each, row by row
 *   side cache  domain, size, attributes, number of SMBIOS handles
 *   bridge      uid, version, base
 *   window      base, size, ways code, arithmetic, granularity, restrictions, QTG; its part has the targets, four bytes each
 *   maths       granularity, number of maps
 *   unknown     none
 */
enum acpi_answer {
    ACPI_TYPE = 0,
    ACPI_PLACE = 1,
    ACPI_LENGTH = 2,
    ACPI_ROW = 3,
    ACPI_PART_PLACE = 4, /* the part of the table that comes back: a list inside the record, or an unknown record whole */
    ACPI_PART_LENGTH = 5,
    ACPI_FIELDS = 6,
    ACPI_ANSWER = 14     /* so many numbers are enough for every record */
};

/* The longest table. */
#define ACPI_LIMIT 67108864u

/* Builds the table of a recipe into out. Refuses 1 to 12; place gets the table's length. */
uint32_t acpi_build(const uint8_t *recipe, size_t recipe_len, uint8_t *out, size_t out_len, size_t *place);

/* Judges a recipe: what acpi_build would answer with room for the table. Refuses 1 to 8 and 10 to 12; place gets the table's length. */
uint32_t acpi_check(const uint8_t *recipe, size_t recipe_len, size_t *place);

/* Writes the recipe of a table, in its normal form, into out. Refuses 20 to 27 and 29 to 32; place gets the recipe's length. */
uint32_t acpi_read_out(const uint8_t *table, size_t table_len, uint8_t *out, size_t out_len, size_t *place);

/* Judges a table by the rows that the mask has. Refuses 20 to 27; place gets the number of records. */
uint32_t acpi_accept(const uint8_t *table, size_t table_len, uint32_t mask, size_t *place);

/* Record number n, counted from 0, as numbers; those that do not fit are left out. Refuses 20 to 28; place gets the number of records. */
uint32_t acpi_read(const uint8_t *table, size_t table_len, uint32_t mask, size_t n, uint64_t *answer, size_t answer_len, size_t *place);

/* Where the first record of an accepted table starts. */
size_t acpi_first_place(const uint8_t *table, size_t table_len);

/* The record at a place of an accepted table, as numbers; the next one starts behind it. So a table is listed that was judged once. */
void acpi_record_at(const uint8_t *table, size_t table_len, uint32_t mask, size_t place, uint64_t *answer, size_t answer_len);

/* The plain sum of all the bytes that are lent, the checksum's too, modulo 2^64; high gets how often 2^64 goes into it: 0 for fewer than
 * 2^56 bytes, so for all that a machine holds. Refuses nothing. A table's checksum is right where the sum of its own bytes, as many as its
 * length says, is a multiple of 256. */
uint64_t acpi_sum(const uint8_t *bytes, size_t bytes_len, uint64_t *high);

#ifdef __cplusplus
}
#endif

#endif
