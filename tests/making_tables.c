/*
 * Making a device of several units (document 02, A7): which tables and media are served, in which order they are checked,
 * and what is left of the table.
 */
#include "tables.h"

#include "board.h"

#include <stdlib.h>
#include <string.h>

/* More bytes than 32 bits count, and two units beyond the four. The medium is never touched. */
#define ALL (((size_t)1 << 32) + COLLECTOR_MAX_MEDIUM_SIZE)
enum { MORE = UNITS + 2 };

typedef struct making {
    collector_unit units[MORE];
    size_t count, length;
    uint64_t number;
    const uint8_t *medium;
} making;

/* A table that fits, with senses, switches and reserved bytes that no device has; a unit of one block each beyond the four. */
static making good(const uint8_t *medium, size_t count)
{
    making making = {.count = count, .number = 42, .medium = medium};

    memset(making.units, FILL, sizeof making.units);
    for (size_t at = 0; at < MORE; at++)
        making.units[at].blocks = at < UNITS ? sizes[at] : 1;
    lay_out(making.units, MORE);
    making.length = lay_out(making.units, count > MORE ? MORE : count);
    return making;
}

/* Refused with this number: the table keeps each byte, and the record is all zeros. */
static void refuses(const making *lent, uint32_t number)
{
    static const collector_record zero;
    making making = *lent;
    collector_record record;

    memset(&record, FILL, sizeof record);
    EQUAL(number_of(collector_make(&record, making.number, 1, 2, 3, making.units, making.count, making.medium,
                                   making.length)),
          number);
    CHECK(memcmp(&making, lent, sizeof making) == 0);
    CHECK(same_record(&record, &zero));
}

/* Number 10 comes before 11 and 15. */
static void refuses_table(const making *lent)
{
    making other = *lent;

    refuses(&other, COLLECTOR_BAD_RECORD);
    other.number = COLLECTOR_MAX_NUMBER + 1;
    refuses(&other, COLLECTOR_BAD_RECORD);
    other.length += 1;
    refuses(&other, COLLECTOR_BAD_RECORD);
    other.length = 0;
    refuses(&other, COLLECTOR_BAD_RECORD);
}

/* Made: the parts are as they were, every sense is zero, every switch open; units beyond the count keep each byte. */
static void makes(const making *lent)
{
    const collector_record fresh = {.number = lent->number, .vendor = 1, .product = 2, .release = 3};
    making making = *lent;
    collector_record record;

    memset(&record, FILL, sizeof record);
    EQUAL(number_of(collector_make(&record, making.number, 1, 2, 3, making.units, making.count, making.medium,
                                   making.length)),
          COLLECTOR_ACK);
    CHECK(same_record(&record, &fresh));
    for (size_t at = 0; at < making.count; at++) {
        const collector_unit unit = {.first = lent->units[at].first, .blocks = lent->units[at].blocks};

        CHECK(same_unit(&making.units[at], &unit));
    }
    CHECK(memcmp(&making.units[making.count], &lent->units[making.count],
                 (MORE - making.count) * sizeof(collector_unit)) == 0);
}

static void counts(const uint8_t *medium)
{
    static const size_t many[] = {7, 8, 256, 257, 65537, ((size_t)1 << 32) + 1, ((size_t)1 << 32) + 4, SIZE_MAX};
    making making;

    for (size_t count = 0; count <= MORE; count++) {
        making = good(medium, count);
        if (count >= 1 && count <= UNITS)
            makes(&making);
        else
            refuses_table(&making);
    }
    for (size_t at = 0; at < sizeof many / sizeof many[0]; at++) {
        making = good(medium, many[at]);
        refuses_table(&making);
    }
}

/* One unit of this size, the others following on; the medium has the sum. */
static void size_of_one(const uint8_t *medium, size_t count, size_t unit, uint32_t blocks)
{
    making making = good(medium, count);

    making.units[unit].blocks = blocks;
    making.length = lay_out(making.units, count);
    if (blocks >= 1 && blocks <= COLLECTOR_MAX_BLOCKS)
        makes(&making);
    else
        refuses_table(&making);
}

/* One unit that starts elsewhere. */
static void first_of_one(const uint8_t *medium, size_t count, size_t unit, uint32_t first)
{
    making making = good(medium, count);

    making.units[unit].first = first;
    refuses_table(&making);
}

static void rules(const uint8_t *medium, size_t count, size_t unit)
{
    static const uint32_t blocks[] = {0, 1, 2, 4096, 65535, 65536, COLLECTOR_MAX_BLOCKS - 1, COLLECTOR_MAX_BLOCKS,
                                      COLLECTOR_MAX_BLOCKS + 1, 2 * COLLECTOR_MAX_BLOCKS};
    const making lent = good(medium, count);
    const uint32_t first = lent.units[unit].first;

    for (size_t at = 0; at < sizeof blocks / sizeof blocks[0]; at++)
        size_of_one(medium, count, unit, blocks[at]);
    first_of_one(medium, count, unit, first + 1);
    first_of_one(medium, count, unit, first - 1);
    for (int bit = 0; bit < 32; bit++)
        first_of_one(medium, count, unit, first ^ (uint32_t)1 << bit);
    for (int bit = 21; bit < 32; bit++) {
        making making = good(medium, count);

        making.units[unit].blocks = (uint32_t)1 << bit;
        lay_out(making.units, count);
        refuses_table(&making);
    }
}

/* Two units of which the second comes first in the medium; two over the same blocks; a gap between two. */
static void order_of_parts(const uint8_t *medium)
{
    static const uint32_t firsts[][2] = {{3, 0}, {0, 0}, {0, 5}, {1, 5}};

    for (size_t at = 0; at < sizeof firsts / sizeof firsts[0]; at++) {
        making making = good(medium, 2);

        making.units[0].first = firsts[at][0];
        making.units[1].first = firsts[at][1];
        refuses_table(&making);
    }
}

/* Number 11 asks the sum alone, and comes before 15. */
static void lengths(const uint8_t *medium, size_t count)
{
    making making = good(medium, count);
    const size_t sum = making.length;
    const size_t bad[] = {0, 1, 511, 512, sum - 512, sum - 1, sum + 1, sum + 511, sum + 512, 2 * sum,
                          ((size_t)1 << 32) + sum, COLLECTOR_MAX_MEDIUM_SIZE, COLLECTOR_MAX_MEDIUM_SIZE + sum};

    for (size_t at = 0; at < sizeof bad / sizeof bad[0]; at++) {
        making.length = bad[at];
        making.number = 42;
        refuses(&making, COLLECTOR_BAD_MEDIUM);
        making.number = COLLECTOR_MAX_NUMBER + 1;
        refuses(&making, COLLECTOR_BAD_MEDIUM);
    }
    for (size_t unit = 0; unit < count && count > 1; unit++) {
        making.length = COLLECTOR_BLOCK_SIZE * (size_t)sizes[unit];
        refuses(&making, COLLECTOR_BAD_MEDIUM);
        making.length = sum - making.length;
        refuses(&making, COLLECTOR_BAD_MEDIUM);
    }
    making.length = sum;
    refuses(&making, COLLECTOR_BAD_NUMBER);
    making.number = COLLECTOR_MAX_NUMBER;
    makes(&making);
}

/* Senses and switches of the lent table are not looked at, whatever they are. */
static void overwritten(const uint8_t *medium, size_t count)
{
    for (int value = 0; value < 256; value++) {
        making making = good(medium, count);

        for (size_t at = 0; at < count; at++) {
            making.units[at].write_switch = (uint8_t)(value + at);
            making.units[at].sense_key = making.units[at].sense_asc = (uint8_t)(255 - value);
            making.units[at].sense_ascq = (uint8_t)(value + 7 * at);
            making.units[at].sense_information = (uint32_t)value << 8 * at;
        }
        makes(&making);
    }
}

/* A record of zeros, as a refused making leaves it: with a table that fits it is a collector of number 0, with a sense it is none. */
static void record_of_zeros(size_t count)
{
    static const collector_record zero;
    board board;

    board_make(&board, count);
    board.record = zero;
    EQUAL(board_ask(&board), COLLECTOR_SILENT);
    EQUAL(board_control(&board, "\x80\x06\x03\x03\x09\x04\xFF\x00"), COLLECTOR_DATA);
    CHECK(memcmp(board.buffer, "\x1A\x03" "0\0" "0\0" "0\0" "0\0" "0\0" "0\0" "0\0" "0\0" "0\0" "0\0" "0\0" "0\0", 26) == 0);
    EQUAL(board_control(&board, SET_CONFIGURATION), COLLECTOR_ACK);
    board_command(&board, (uint8_t)(count - 1), 0, 0x00, TEST_UNIT_READY);
    board_status(&board, 0, 0);
    EQUAL(board_reset(&board), COLLECTOR_ACK);
    CHECK(same_record(&board.record, &zero));
    board.units[count - 1].sense_key = 0x05;
    board_refused(&board);
}

void tables_at_making(void)
{
    uint8_t *medium = calloc(ALL, 1);

    CHECK(medium != NULL);
    counts(medium);
    order_of_parts(medium);
    for (size_t count = 1; count <= UNITS; count++) {
        for (size_t unit = 0; unit < count; unit++)
            rules(medium, count, unit);
        lengths(medium, count);
        overwritten(medium, count);
        record_of_zeros(count);
    }
    free(medium);
}
