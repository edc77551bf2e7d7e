/* Builds case C3, a CEDT, an SRAT and an HMAT with a wide matrix, reads them and reads them out through the library; refusals too; adds up
 * bytes. Exit status 1 at the first difference. */
#include "acpi.h"
#include <stdio.h>
#include <stdlib.h>
#include <string.h>

static void expect(const char *what, uint64_t is, uint64_t should)
{
    if (is != should) {
        printf("%s: %llu, not %llu\n", what, (unsigned long long)is, (unsigned long long)should);
        exit(1);
    }
}

/* a head of zeros; a cache without fields; a processor; the cache as its resource */
static const uint8_t recipe[68] = { [0] = 1, [28] = 18, [50] = 16, [63] = 17, [64] = 1 };

static void builds(uint8_t *table)
{
    size_t place = 99;
    expect("check", acpi_check(recipe, sizeof recipe, &place), 0);
    expect("length", place, 88);
    expect("no room", acpi_build(recipe, sizeof recipe, table, 87, &place), ACPI_NO_ROOM);
    expect("needed", place, 88);
    expect("kept", table[0], 0xaa);
    expect("build", acpi_build(recipe, sizeof recipe, table, 100, &place), 0);
    expect("length", place, 88);
    expect("signature", memcmp(table, "PPTT", 4), 0);
    expect("checksum", table[9], 3);
    expect("resource", table[84], 36);
    expect("past the table", table[88], 0xaa);
    expect("empty", acpi_build(recipe, 0, table + 88, 0, &place), ACPI_NO_HEAD);
    expect("empty at", place, 0);
    expect("cut", acpi_check(recipe, 67, &place), ACPI_CUT);
    expect("cut at", place, 63);
}

/* what acpi_check refuses with one byte of the recipe changed */
static void refuses(const char *what, size_t at, uint8_t byte, uint32_t number, size_t where)
{
    size_t place = 99;
    uint8_t changed[sizeof recipe];
    memcpy(changed, recipe, sizeof recipe);
    changed[at] = byte;
    expect(what, acpi_check(changed, sizeof changed, &place), number);
    expect(what, place, where);
}

static void faults(void)
{
    refuses("table code", 1, 4, ACPI_BAD_FIELD, 1);
    refuses("a size that is not given", 35, 1, ACPI_BAD_FIELD, 34);
    refuses("a resource that is the processor itself", 64, 2, ACPI_FORWARD, 63);
    refuses("no resource", 64, 0, ACPI_FORWARD, 63);
    refuses("a cache for a parent", 55, 1, ACPI_WRONG_KIND, 50);
}

static void reads(const uint8_t *table)
{
    size_t place = 99;
    uint64_t r[ACPI_ANSWER];
    expect("accept", acpi_accept(table, 88, ACPI_EVERY, &place), 0);
    expect("records", place, 2);
    expect("read", acpi_read(table, 88, ACPI_EVERY, 1, r, ACPI_ANSWER, &place), 0);
    expect("records", place, 2);
    expect("type", r[ACPI_TYPE], 0);
    expect("place", r[ACPI_PLACE], 64);
    expect("length", r[ACPI_LENGTH], 24);
    expect("row", r[ACPI_ROW], ACPI_ROW_PROCESSOR);
    expect("part", r[ACPI_PART_PLACE], 84);
    expect("part's length", r[ACPI_PART_LENGTH], 4);
    expect("resources", r[ACPI_FIELDS + 3], 1);
    expect("caches unknown", acpi_read(table, 88, 1u << ACPI_ROW_PROCESSOR, 0, r, 6, &place), 0);
    expect("row", r[ACPI_ROW], ACPI_ROW_UNKNOWN);
    expect("whole", r[ACPI_PART_PLACE], 36);
    expect("whole", r[ACPI_PART_LENGTH], 28);
    r[0] = 7;
    expect("no record", acpi_read(table, 88, ACPI_EVERY, 2, r, ACPI_ANSWER, &place), ACPI_NO_RECORD);
    expect("records", place, 2);
    expect("kept", r[0], 7);
    expect("short", acpi_accept(table, 35, ACPI_EVERY, &place), ACPI_SHORT);
}

static void lists(const uint8_t *table)
{
    uint64_t r[ACPI_ANSWER];
    size_t place = acpi_first_place(table, 88);
    expect("first", place, 36);
    acpi_record_at(table, 88, ACPI_EVERY, place, r, ACPI_ANSWER);
    expect("row", r[ACPI_ROW], ACPI_ROW_CACHE);
    place = r[ACPI_PLACE] + r[ACPI_LENGTH];
    acpi_record_at(table, 88, ACPI_EVERY, place, r, 3);
    expect("place", r[ACPI_PLACE], 64);
    expect("left out", r[ACPI_ROW], ACPI_ROW_CACHE);
}

static void reads_out(const uint8_t *table)
{
    size_t place = 99;
    uint8_t out[100];
    expect("no room", acpi_read_out(table, 88, out, 67, &place), ACPI_NO_ROOM_OUT);
    expect("needed", place, 68);
    expect("read out", acpi_read_out(table, 88, out, 100, &place), 0);
    expect("length", place, sizeof recipe);
    expect("recipe", memcmp(out, recipe, sizeof recipe), 0);
}

/* a CEDT: a head of zeros; a bridge; a window of two ways; its two targets; maths; its map */
enum { BRIDGE = 28, WINDOW = 42, WAYS = WINDOW + 17, SECOND_TARGET = 70, MATHS = 75, CEDT = 86 };
static const uint8_t cedt[CEDT] = {
    [0] = 1, [1] = 3,
    [BRIDGE] = 64, [29] = 6, [33] = 1, [37] = 0xd0,
    [WINDOW] = 65, [47] = 1, [54] = 0x20, [WAYS] = 1, [60] = 1, [61] = 2, [62] = 6, [63] = 5,
    [65] = 66, [66] = 6, [SECOND_TARGET] = 66, [71] = 7,
    [MATHS] = 67, [76] = 2, [77] = 68, [79] = 0x41,
};

/* what a record comes back as */
struct shown {
    uint64_t row, place, length, part_length, count, fields[7];
};

static const struct shown shown[3] = {
    { ACPI_ROW_BRIDGE, 36, 32, 0, 3, { 6, 1, 0xd0000000 } },
    { ACPI_ROW_WINDOW, 68, 44, 8, 7, { 0x100000000, 0x20000000, 1, 1, 2, 6, 5 } },
    { ACPI_ROW_MATHS, 112, 16, 8, 2, { 2, 1 } },
};

static void shows(const uint8_t *table, size_t n)
{
    size_t place = 99;
    uint64_t r[ACPI_ANSWER];
    expect("read", acpi_read(table, 128, ACPI_EVERY, n, r, ACPI_ANSWER, &place), 0);
    expect("records", place, 3);
    expect("row", r[ACPI_ROW], shown[n].row);
    expect("place", r[ACPI_PLACE], shown[n].place);
    expect("length", r[ACPI_LENGTH], shown[n].length);
    expect("part", r[ACPI_PART_PLACE], shown[n].place + shown[n].length - shown[n].part_length);
    expect("part's length", r[ACPI_PART_LENGTH], shown[n].part_length);
    for (size_t i = 0; i < shown[n].count; i++)
        expect("field", r[ACPI_FIELDS + i], shown[n].fields[i]);
}

static void windows(void)
{
    size_t place = 99;
    uint8_t table[128], out[CEDT];
    expect("build", acpi_build(cedt, CEDT, table, sizeof table, &place), 0);
    expect("length", place, sizeof table);
    expect("signature", memcmp(table, "CEDT", 4), 0);
    expect("registers of the bridge", table[62], 1);
    expect("second target", table[108], 7);
    for (size_t n = 0; n < 3; n++)
        shows(table, n);
    expect("read out", acpi_read_out(table, sizeof table, out, sizeof out, &place), 0);
    expect("length", place, CEDT);
    expect("recipe", memcmp(out, cedt, CEDT), 0);
}

/* a window with other than two targets */
static void ways(void)
{
    size_t place = 99;
    uint8_t changed[CEDT];
    expect("one target at the end", acpi_check(cedt, SECOND_TARGET, &place), ACPI_INCOMPLETE);
    expect("the window", place, WINDOW);
    expect("a second one that is cut", acpi_check(cedt, MATHS - 1, &place), ACPI_CUT);
    expect("the target", place, SECOND_TARGET);
    memcpy(changed, cedt, CEDT);
    changed[SECOND_TARGET] = 200;
    expect("one target before a bad kind", acpi_check(changed, CEDT, &place), ACPI_INCOMPLETE);
    expect("the window", place, WINDOW);
    memcpy(changed, cedt, CEDT);
    changed[WAYS] = 0;
    expect("two targets for one way", acpi_check(changed, CEDT, &place), ACPI_FULL_NODE);
    expect("the target", place, SECOND_TARGET);
}

/* an SRAT: a head of zeros; a RINTC in domain 4 of uid 5, enabled, of clock domain 6 */
static const uint8_t srat[42] = { [0] = 1, [1] = 1, [28] = 36, [29] = 4, [33] = 5, [37] = 1, [38] = 6 };

/* the one RINTC of a table of so many bytes: its row and its fields */
static void rintc(const uint8_t *table, size_t length, uint64_t row, const uint64_t *fields, size_t count)
{
    size_t place = 99;
    uint64_t r[ACPI_ANSWER];
    expect("read", acpi_read(table, length, ACPI_EVERY, 0, r, ACPI_ANSWER, &place), 0);
    expect("records", place, 1);
    expect("row", r[ACPI_ROW], row);
    expect("length", r[ACPI_LENGTH], length - 48);
    for (size_t i = 0; i < count; i++)
        expect("field", r[ACPI_FIELDS + i], fields[i]);
    expect("read without its row", acpi_read(table, length, ~(1u << row), 0, r, ACPI_ANSWER, &place), 0);
    expect("row", r[ACPI_ROW], ACPI_ROW_UNKNOWN);
}

static void domains(void)
{
    static const uint64_t with[4] = { 4, 5, 1, 6 }, without[3] = { 5, 1, 6 };
    size_t place = 99;
    uint8_t table[68], out[sizeof srat], changed[sizeof srat];
    expect("build", acpi_build(srat, sizeof srat, table, sizeof table, &place), 0);
    expect("length", place, sizeof table);
    rintc(table, 68, ACPI_ROW_RINTC_20, with, 4);
    expect("read out", acpi_read_out(table, 68, out, sizeof out, &place), 0);
    expect("length", place, sizeof srat);
    expect("recipe", memcmp(out, srat, sizeof srat), 0);
    memcpy(changed, srat, sizeof srat);
    changed[28] = 35;
    expect("the kind without domain", acpi_check(changed, sizeof changed, &place), ACPI_RETIRED);
    expect("the record", place, 28);
    expect("the same, cut", acpi_check(changed, 29, &place), ACPI_RETIRED);
    expect("the record", place, 28);
    /* the record of 16 bytes: the domain taken away, lengths and sum mended */
    memmove(table + 52, table + 56, 12);
    table[4] = 64;
    table[49] = 16;
    table[9] += 4 + 4 + 4;
    rintc(table, 64, ACPI_ROW_RINTC_16, without, 3);
    expect("read out without domain", acpi_read_out(table, 64, out, 0, &place), ACPI_RETIRED_OUT);
    expect("the record", place, 48);
}

/* an HMAT: a head of zeros; a matrix of 300 by 2, whose counts have two bytes; the value of initiator 256; the cell of 299 and 1 */
enum { MATRIX = 28, INITIATORS = 40, VALUE = 44, CELL = 51, HMAT = 58, FILLED = 40 + 32 + 4 * 302 + 2 * 600 };
static const uint8_t hmat[HMAT] = {
    [0] = 1, [1] = 2,
    [MATRIX] = 55, [29] = 0x11, [30] = 3, [31] = 2, [32] = 100, [INITIATORS] = 0x2c, [41] = 1, [42] = 2,
    [VALUE] = 56, [46] = 1, [47] = 9,
    [CELL] = 58, [52] = 0x2b, [53] = 1, [54] = 1, [56] = 0x34, [57] = 0x12,
};

/* what acpi_check refuses with one byte of that recipe changed */
static void refuses_wide(const char *what, size_t at, uint8_t byte, uint32_t number, size_t where)
{
    size_t place = 99;
    uint8_t changed[HMAT];
    memcpy(changed, hmat, HMAT);
    changed[at] = byte;
    expect(what, acpi_check(changed, HMAT, &place), number);
    expect(what, place, where);
}

static void matrices(void)
{
    static const uint64_t fields[6] = { 0x11, 3, 2, 300, 2, 100 };
    static const uint8_t one[44] = { [0] = 1, [1] = 2, [MATRIX] = 55, [INITIATORS] = 1, [42] = 1 };
    static const uint8_t normal[42] = { [0] = 1, [1] = 2, [MATRIX] = 49, [INITIATORS] = 1, [41] = 1 };
    size_t place = 99;
    uint64_t r[ACPI_ANSWER];
    uint8_t table[FILLED], out[HMAT];
    expect("build", acpi_build(hmat, HMAT, table, sizeof table, &place), 0);
    expect("length", place, sizeof table);
    expect("value of initiator 256", table[72 + 4 * 256], 9);
    expect("cell of 299 and 1", table[sizeof table - 2] + 256 * table[sizeof table - 1], 0x1234);
    expect("read", acpi_read(table, sizeof table, ACPI_EVERY, 0, r, ACPI_ANSWER, &place), 0);
    expect("records", place, 1);
    expect("row", r[ACPI_ROW], ACPI_ROW_WIDE_MATRIX);
    expect("part", r[ACPI_PART_PLACE], 72);
    expect("part's length", r[ACPI_PART_LENGTH], sizeof table - 72);
    for (size_t i = 0; i < 6; i++)
        expect("field", r[ACPI_FIELDS + i], fields[i]);
    expect("read by the other row", acpi_read(table, sizeof table, 1u << ACPI_ROW_MATRIX, 0, r, ACPI_ANSWER, &place), 0);
    expect("row", r[ACPI_ROW], ACPI_ROW_UNKNOWN);
    expect("read out", acpi_read_out(table, sizeof table, out, sizeof out, &place), 0);
    expect("length", place, HMAT);
    expect("recipe", memcmp(out, hmat, HMAT), 0);
    refuses_wide("4,140 initiators", 41, 0x10, ACPI_BAD_FIELD, INITIATORS);
    refuses_wide("an index past the end", 46, 2, ACPI_BAD_FIELD, VALUE + 1);
    refuses_wide("a value with an index of one byte", VALUE, 50, ACPI_MISPLACED, VALUE);
    expect("build", acpi_build(one, sizeof one, table, sizeof table, &place), 0);
    expect("length", place, 40 + 32 + 4 * 2 + 2);
    expect("read out", acpi_read_out(table, place, out, sizeof out, &place), 0);
    expect("length", place, sizeof normal);
    expect("counts of one byte", memcmp(out, normal, sizeof normal), 0);
}

/* the sum, which fits */
static uint64_t sum(const uint8_t *bytes, size_t length)
{
    uint64_t high = 99;
    uint64_t low = acpi_sum(bytes, length, &high);
    expect("how often 2^64 goes into the sum", high, 0);
    return low;
}

/* of no bytes; past 2^32; of case C1, a head of zeros alone, as it is, with bytes behind it and with a byte changed */
static void sums(void)
{
    static uint8_t many[16843010];
    size_t place = 99;
    uint8_t table[39];
    memset(many, 0xff, sizeof many);
    memset(table, 1, sizeof table);
    expect("the sum of nothing", sum(many, 0), 0);
    expect("a sum past 2^32", sum(many, sizeof many), 4294967550);
    expect("build", acpi_build(recipe, 28, table, sizeof table, &place), 0);
    expect("length", place, 36);
    expect("sum", sum(table, 36), 512);
    expect("a sum that is accepted", acpi_accept(table, 36, ACPI_EVERY, &place), 0);
    expect("sum with three bytes behind", sum(table, sizeof table), 515);
    expect("bytes behind that are not read", acpi_accept(table, sizeof table, ACPI_EVERY, &place), 0);
    table[35]++;
    expect("sum with a byte changed", sum(table, 36), 513);
    expect("a sum that is refused", acpi_accept(table, 36, ACPI_EVERY, &place), ACPI_BAD_SUM);
}

int main(void)
{
    uint8_t table[100];
    memset(table, 0xaa, sizeof table);
    builds(table);
    faults();
    reads(table);
    lists(table);
    reads_out(table);
    windows();
    ways();
    domains();
    matrices();
    sums();
    puts("built, read, listed, read out and added up");
    return 0;
}
