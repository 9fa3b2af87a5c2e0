/*
 * The senses of several units (document 02, A7): a command sets, and Request Sense reads and clears, its own unit's alone; all
 * command drops clear all of them, and move no switch.
 */
#include "several_units.h"

#include "board.h"
#include "records.h"
#include "store.h"

#include <string.h>

/* A failure for each unit, what its unit then holds, and what Request Sense tells of it. The third unit's switch is closed. */
static const struct failure {
    const char *block;
    uint8_t key, asc;
    uint32_t information;
    const char *data;
} failures[UNITS] = {
    {"\x28\x00\x00\x00\x00\x04\x00\x00\x01\x00", 0x05, 0x21, 4, "\xF0\0\x05\0\0\0\x04\x0A\0\0\0\0\x21\0\0\0\0\0"},
    {UNKNOWN_CODE, 0x05, 0x20, 0, "\x70\0\x05\0\0\0\0\x0A\0\0\0\0\x20\0\0\0\0\0"},
    {WRITE_TWO_FROM_ONE, 0x07, 0x27, 0, "\x70\0\x07\0\0\0\0\x0A\0\0\0\0\x27\0\0\0\0\0"},
    {"\x2F\x00\x01\x02\x03\x04\x00\x00\x00\x00", 0x05, 0x21, 0x01020304,
     "\xF0\0\x05\x01\x02\x03\x04\x0A\0\0\0\0\x21\0\0\0\0\0"},
};

#define NO_SENSE "\x70\0\0\0\0\0\0\x0A\0\0\0\0\0\0\0\0\0\0"

static void fail(board *board, uint8_t unit)
{
    board_command(board, unit, 0, 0x00, failures[unit].block);
    EQUAL(board->record.stage, COLLECTOR_STAGE_FAILED);
    board_status(board, 0, 1);
}

/* Of the first units those in the mask hold their failure's sense, the others none. */
static void expect_senses(const board *board, unsigned mask)
{
    for (uint8_t unit = 0; unit < board->count; unit++) {
        const bool failed = mask >> unit & 1;

        expect_unit_sense(&board->units[unit], failed ? failures[unit].key : 0, failed ? failures[unit].asc : 0,
                          failed ? failures[unit].information : 0);
    }
}

/* A configured device whose units in the mask have failed. */
static void failed(board *board, size_t count, unsigned mask)
{
    board_configure(board, count);
    if (count > 2)
        EQUAL(board_switch(board, COLLECTOR_SWITCH_CLOSED, 2), COLLECTOR_ACK);
    for (uint8_t unit = 0; unit < count; unit++)
        if (mask >> unit & 1)
            fail(board, unit);
    expect_senses(board, mask);
}

/* Each set of failed units: every unit's sense is told and cleared by itself, in either order, and a command that passes clears
 * its own. */
static void apart(size_t count, unsigned mask)
{
    for (int way = 0; way < 3; way++) {
        unsigned left = mask;
        board board;

        failed(&board, count, mask);
        for (size_t at = 0; at < count; at++) {
            const uint8_t unit = (uint8_t)(way == 0 ? at : count - 1 - at);

            if (way == 2) {
                board_command(&board, unit, 0, 0x00, TEST_UNIT_READY);
                board_status(&board, 0, 0);
            } else {
                board_reply(&board, unit, REQUEST_SENSE, left >> unit & 1 ? failures[unit].data : NO_SENSE, 18);
            }
            left &= ~(1u << unit);
            expect_senses(&board, left);
        }
    }
}

/* A drop, from 0 on; any number past the third is a bus reset. */
static uint32_t drop(board *board, int which)
{
    static const char *const setups[] = {MASS_STORAGE_RESET, SET_CONFIGURATION, SET_NO_CONFIGURATION};

    return which < 3 ? board_control(board, setups[which]) : board_reset(board);
}

/* From each stage of a command for each unit, with a sense in each unit: all are cleared, and every switch stays. */
static void drops(size_t count, unsigned stage, uint8_t unit, unsigned closed)
{
    for (int which = 0; which < 4; which++) {
        board board, before;

        board_configure(&board, count);
        board_reach(&board, unit, stage);
        for (uint8_t at = 0; at < count; at++) {
            board.units[at].sense_key = (uint8_t)(1 + at);
            board.units[at].sense_asc = (uint8_t)(0x20 + at);
            board.units[at].sense_ascq = (uint8_t)(0x30 + at);
            board.units[at].sense_information = 0x40u + at;
            EQUAL(board_switch(&board, closed >> at & 1, at), COLLECTOR_ACK);
        }
        before = board;
        EQUAL(drop(&board, which), COLLECTOR_ACK);
        for (uint8_t at = 0; at < count; at++) {
            const collector_unit expected = {
                .first = before.units[at].first, .blocks = sizes[at], .write_switch = closed >> at & 1
            };

            CHECK(same_unit(&board.units[at], &expected));
        }
        EQUAL(board.record.stage, COLLECTOR_STAGE_READY);
        EQUAL(board.record.unit, 0);
        CHECK(memcmp(board.medium, before.medium, sizeof board.medium) == 0);
        CHECK(memcmp(board.buffer, before.buffer, sizeof board.buffer) == 0);
    }
}

/* Data-out of a wrong length after so many good packets: 0B/4B/00 in the writing unit, the other senses stay. */
static void wrong_length(uint8_t unit, uint32_t good, size_t length)
{
    const unsigned others = 0xF & ~(1u << unit);
    board board, before;

    failed(&board, UNITS, others);
    EQUAL(board_switch(&board, COLLECTOR_SWITCH_OPEN, 2), COLLECTOR_ACK);
    board_blocks(&board, unit, WRITE, 0, 2, 1024);
    for (uint32_t sent = 0; sent < good; sent++)
        EQUAL(board_send(&board, board.buffer, 64), COLLECTOR_ACK);
    before = board;
    EQUAL(board_send(&board, board.buffer, length), COLLECTOR_ACK);
    expect_unit_sense(&board.units[unit], 0x0B, 0x4B, 0);
    EQUAL(board.record.stage, COLLECTOR_STAGE_PHASE_ERROR);
    EQUAL(board.record.unit, unit);
    board_status(&board, 1024 - good / ROWS * 512, 2);
    EQUAL(board.record.flags, 15);
    expect_unit_sense(&board.units[unit], 0x0B, 0x4B, 0);
    before.units[unit] = board.units[unit];
    CHECK(same_table(board.units, before.units));
    CHECK(memcmp(board.medium, before.medium, sizeof board.medium) == 0);
}

/* A phase error found at the wrapper, and a wrapper that locks, leave every sense. */
static void kept(uint8_t unit)
{
    static const struct {
        uint32_t announced;
        uint8_t direction;
        const char *block;
    } rows[] = {
        {0, 0x00, INQUIRY},            {18, 0x80, INQUIRY},  {36, 0x00, INQUIRY},
        {0, 0x00, REQUEST_SENSE},      {17, 0x80, REQUEST_SENSE}, {0, 0x00, READ_TWO_FROM_ONE},
        {1023, 0x80, READ_TWO_FROM_ONE}, {1024, 0x00, READ_TWO_FROM_ONE}, {1023, 0x00, WRITE_TWO_FROM_ONE},
        {1024, 0x80, WRITE_TWO_FROM_ONE},
    };

    for (size_t at = 0; at < sizeof rows / sizeof rows[0]; at++) {
        board board, before;

        failed(&board, UNITS, 0xF);
        EQUAL(board_switch(&board, COLLECTOR_SWITCH_OPEN, 2), COLLECTOR_ACK);
        before = board;
        board_command(&board, unit, rows[at].announced, rows[at].direction, rows[at].block);
        EQUAL(board.record.stage, COLLECTOR_STAGE_PHASE_ERROR);
        CHECK(same_table(board.units, before.units));
        EQUAL(board_control(&board, CLEAR_IN), COLLECTOR_ACK);
        board_status(&board, rows[at].announced, 2);
        EQUAL(board_send(&board, "USBC", 4), COLLECTOR_STALL);
        EQUAL(board.record.flags, 15);
        CHECK(same_table(board.units, before.units));
        CHECK(memcmp(board.medium, before.medium, sizeof board.medium) == 0);
    }
}

void senses_of_units(void)
{
    for (size_t count = 1; count <= UNITS; count++) {
        for (unsigned mask = 0; mask < 1u << count; mask++)
            apart(count, mask);
        for (unsigned at = 0; at < STAGES * count; at++)
            for (unsigned closed = 0; closed < 1u << count; closed++)
                drops(count, at / count, (uint8_t)(at % count), closed);
    }
    for (uint8_t unit = 0; unit < UNITS; unit++) {
        for (uint32_t good = 0; good < 2 * ROWS; good++)
            for (size_t length = 0; length < 64; length++)
                wrong_length(unit, good, length);
        kept(unit);
    }
}
