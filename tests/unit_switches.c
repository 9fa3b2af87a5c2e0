/*
 * The switches of several units (document 02, A7): the event names its unit, and a closed switch protects its own unit alone.
 */
#include "several_units.h"

#include "board.h"
#include "records.h"
#include "store.h"
#include "write_switch.h"

#include <string.h>

/* Every position and every unit in this state: 10 before 18, and of what is set nothing else changes. */
static void expect_each(const board *reached)
{
    board board = *reached;

    for (uint32_t at = 0; at < 256 * 256; at++) {
        const uint8_t position = (uint8_t)(at / 256), unit = (uint8_t)at;
        const bool set = position < POSITIONS && unit < reached->count;
        const uint32_t refusal = position < POSITIONS ? COLLECTOR_BAD_UNIT : COLLECTOR_BAD_RECORD;
        collector_unit table[UNITS];

        memcpy(table, board.units, sizeof table);
        EQUAL(board_switch(&board, position, unit), set ? COLLECTOR_ACK : refusal);
        if (set)
            table[unit].write_switch = position;
        CHECK(same_table(board.units, table));
        CHECK(same_record(&board.record, &reached->record));
    }
    /* Positions 0 and then 1 were set in every unit. */
    for (size_t unit = 0; unit < reached->count; unit++)
        EQUAL(board.units[unit].write_switch, COLLECTOR_SWITCH_CLOSED);
    CHECK(memcmp(board.medium, reached->medium, sizeof board.medium) == 0);
    CHECK(memcmp(board.buffer, reached->buffer, sizeof board.buffer) == 0);
}

/* Unconfigured, in each stage of a command for each unit, halted, and locked. */
static void events(size_t count)
{
    board board;

    board_make(&board, count);
    expect_each(&board);
    for (unsigned stage = 0; stage < STAGES; stage++) {
        board_configure(&board, count);
        board_reach(&board, (uint8_t)(stage % count), stage);
        expect_each(&board);
    }
    EQUAL(board_control(&board, SET_IN), COLLECTOR_ACK);
    EQUAL(board_control(&board, SET_OUT), COLLECTOR_ACK);
    expect_each(&board);
    board_configure(&board, count);
    EQUAL(board_send(&board, "USBC", 4), COLLECTOR_STALL);
    expect_each(&board);
}

/* A Write of the unit's first block, which fails exactly if its own switch is closed. */
static void expect_write(board *board, uint8_t unit, bool closed)
{
    uint8_t packet[64];

    memset(packet, 0xA0 + unit, sizeof packet);
    board_blocks(board, unit, WRITE, 0, 1, 512);
    EQUAL(board->record.stage, closed ? COLLECTOR_STAGE_FAILED : COLLECTOR_STAGE_DATA_OUT);
    expect_unit_sense(&board->units[unit], closed ? 0x07 : 0x00, closed ? 0x27 : 0x00, 0);
    for (int sent = 0; sent < ROWS; sent++)
        EQUAL(board_send(board, packet, sizeof packet), closed ? COLLECTOR_STALL : COLLECTOR_ACK);
    board_status(board, closed ? 512 : 0, closed);
    EQUAL(board_control(board, CLEAR_OUT), COLLECTOR_ACK);
    board_reply(board, unit, MODE_SENSE, mode_data[closed], MODE_SIZE);
    expect_unit_sense(&board->units[unit], 0x00, 0x00, 0);
}

/* Each set of closed switches. */
static void closed_ones(size_t count, unsigned mask)
{
    board board, before;

    board_configure(&board, count);
    for (uint8_t unit = 0; unit < count; unit++)
        if (mask >> unit & 1)
            EQUAL(board_switch(&board, COLLECTOR_SWITCH_CLOSED, unit), COLLECTOR_ACK);
    before = board;
    for (uint8_t unit = 0; unit < count; unit++) {
        expect_write(&board, unit, mask >> unit & 1);
        if (!(mask >> unit & 1))
            memset(before.medium + COLLECTOR_BLOCK_SIZE * (size_t)before.units[unit].first, 0xA0 + unit,
                   COLLECTOR_BLOCK_SIZE);
        CHECK(memcmp(board.medium, before.medium, sizeof board.medium) == 0);
        CHECK(same_table(board.units, before.units));
    }
}

/* The switch of one unit closed before a packet of a Write to another, or to itself: the Write goes on, the next one sees it. */
static void closed_later(uint8_t unit, uint8_t other, int before)
{
    uint8_t packet[64] = {0};
    board board;

    board_configure(&board, UNITS);
    board_blocks(&board, unit, WRITE, 1, 1, 512);
    for (int sent = 0; sent < ROWS; sent++) {
        if (sent == before)
            EQUAL(board_switch(&board, COLLECTOR_SWITCH_CLOSED, other), COLLECTOR_ACK);
        EQUAL(board_send(&board, packet, sizeof packet), COLLECTOR_ACK);
    }
    board_status(&board, 0, 0);
    CHECK(filled(board.medium + COLLECTOR_BLOCK_SIZE * (size_t)(board.units[unit].first + 1), COLLECTOR_BLOCK_SIZE, 0));
    for (uint8_t at = 0; at < UNITS; at++)
        expect_write(&board, at, at == other);
}

/* Mode Sense sends what its wrapper found in its own unit, whichever switches are moved then. */
static void told_later(uint8_t unit, uint8_t other)
{
    for (uint8_t position = 0; position < POSITIONS; position++) {
        board board;

        board_configure(&board, UNITS);
        for (uint8_t at = 0; at < UNITS; at++)
            EQUAL(board_switch(&board, at == unit ? position : !position, at), COLLECTOR_ACK);
        board_command(&board, unit, MODE_SIZE, 0x80, MODE_SENSE);
        EQUAL(board_switch(&board, !board.units[other].write_switch, other), COLLECTOR_ACK);
        board_data(&board, mode_data[position], MODE_SIZE);
        board_status(&board, 0, 0);
        board_reply(&board, unit, MODE_SENSE, mode_data[unit == other ? !position : position], MODE_SIZE);
    }
}

void switches_of_units(void)
{
    for (size_t count = 1; count <= UNITS; count++) {
        events(count);
        for (unsigned mask = 0; mask < 1u << count; mask++)
            closed_ones(count, mask);
    }
    for (uint8_t both = 0; both < UNITS * UNITS; both++) {
        for (int before = 0; before < ROWS; before++)
            closed_later(both / UNITS, both % UNITS, before);
        told_later(both / UNITS, both % UNITS);
    }
}
