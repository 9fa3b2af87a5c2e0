/*
 * Which unit a command is for (document 02, A7): Get Max LUN, byte 13 of the wrapper, and what the unit then tells of itself.
 */
#include "several_units.h"

#include "board.h"
#include "records.h"
#include "write_switch.h"

#include <string.h>

static void highest_unit(void)
{
    for (size_t count = 1; count <= UNITS; count++) {
        board board, before;
        collector_answer answer;

        board_make(&board, count);
        EQUAL(board_control(&board, GET_MAX_LUN), COLLECTOR_STALL);
        board_configure(&board, count);
        before = board;
        answer = collector_control(&board.record, board.units, count, (const uint8_t *)GET_MAX_LUN, 8, board.buffer, 64);
        EQUAL(answer.number, COLLECTOR_DATA);
        EQUAL(answer.count, 1);
        EQUAL(board.buffer[0], count - 1);
        before.buffer[0] = (uint8_t)(count - 1);
        CHECK(same_board(&board, &before));
    }
}

/* A wrapper with this byte 13: for a unit of the table it is accepted, for any other it locks and changes nothing else. */
static void expect_taken(size_t count, uint8_t byte, const char *block)
{
    uint8_t packet[31];
    board board, before;

    wrapper(packet, 0, 0x00, block);
    packet[13] = byte;
    board_configure(&board, count);
    before = board;
    if (byte < count) {
        EQUAL(board_send(&board, packet, sizeof packet), COLLECTOR_ACK);
        EQUAL(board.record.unit, byte);
        board_status(&board, 0, 0);
        CHECK(same_record(&board.record, &before.record));
        return;
    }
    EQUAL(board_send(&board, packet, sizeof packet), COLLECTOR_STALL);
    before.record.flags = 15;
    CHECK(same_board(&board, &before));
    EQUAL(board_control(&board, CLEAR_IN), COLLECTOR_ACK);
    EQUAL(board_control(&board, CLEAR_OUT), COLLECTOR_ACK);
    packet[13] = 0;
    EQUAL(board_send(&board, packet, sizeof packet), COLLECTOR_STALL);
    EQUAL(board_ask(&board), COLLECTOR_STALL);
    CHECK(same_board(&board, &before));
}

static void named_units(void)
{
    for (size_t count = 1; count <= UNITS; count++)
        for (int byte = 0; byte < 256; byte++) {
            expect_taken(count, (uint8_t)byte, TEST_UNIT_READY);
            expect_taken(count, (uint8_t)byte, ALLOW_REMOVAL);
        }
}

/* The unit's own size, and its own switch; all else is the same for every unit. */
static void expect_told(board *board, uint8_t unit)
{
    const uint8_t capacity[8] = {0, 0, 0, (uint8_t)(sizes[unit] - 1), 0, 0, 2, 0};
    const uint8_t position = board->units[unit].write_switch;

    board_reply(board, unit, READ_CAPACITY, capacity, 8);
    board_reply(board, unit, MODE_SENSE, mode_data[position], 4);
    board_reply(board, unit, INQUIRY, "\x00\x80\x05\x02\x1F\x00\x00\x00" "COLLECT METER EXPORT    0100", 36);
    board_reply(board, unit, "\x12\x01\x00\x00\x07\x00\x00\x00\x00\x00", "\x00\x00\x00\x03\x00\x80\x83", 7);
    board_reply(board, unit, "\x12\x01\x80\x00\x10\x00\x00\x00\x00\x00", "\x00\x80\x00\x0C" "000000000042", 16);
    board_reply(board, unit, "\x12\x01\x83\x00\x1C\x00\x00\x00\x00\x00",
                "\x00\x83\x00\x18\x02\x01\x00\x14" "COLLECT " "000000000042", 28);
    board_reply(board, unit, REQUEST_SENSE, "\x70\0\0\0\0\0\0\x0A\0\0\0\0\0\0\0\0\0\0", 18);
}

/* With each of the switches open or closed: no table and no block is changed by what a unit tells. */
static void told_of_units(void)
{
    for (size_t count = 1; count <= UNITS; count++)
        for (unsigned closed = 0; closed < 1u << count; closed++) {
            board board, before;

            board_configure(&board, count);
            for (uint8_t unit = 0; unit < count; unit++)
                EQUAL(board_switch(&board, closed >> unit & 1, unit), COLLECTOR_ACK);
            before = board;
            for (uint8_t unit = 0; unit < count; unit++) {
                expect_told(&board, unit);
                CHECK(same_record(&board.record, &before.record));
                CHECK(same_table(board.units, before.units));
                CHECK(memcmp(board.medium, before.medium, sizeof board.medium) == 0);
            }
        }
}

/* A command's unit is in the record until its status is sent or it is dropped; then it is 0. */
static void unit_in_hand(void)
{
    static const char *const drops[] = {MASS_STORAGE_RESET, SET_CONFIGURATION, SET_NO_CONFIGURATION};

    for (uint8_t unit = 0; unit < UNITS; unit++)
        for (unsigned stage = COLLECTOR_STAGE_DATA_OUT; stage < STAGES; stage++)
            for (int drop = 0; drop < 4; drop++) {
                board board, fresh;

                board_make(&board, UNITS);
                fresh = board;
                EQUAL(board_control(&board, SET_CONFIGURATION), COLLECTOR_ACK);
                board_reach(&board, unit, stage);
                EQUAL(board.record.unit, unit);
                EQUAL(board_switch(&board, COLLECTOR_SWITCH_OPEN, unit), COLLECTOR_ACK);
                EQUAL(board_control(&board, CLEAR_IN), COLLECTOR_ACK);
                EQUAL(board.record.unit, unit);
                EQUAL(drop < 3 ? board_control(&board, drops[drop]) : board_reset(&board), COLLECTOR_ACK);
                EQUAL(board.record.unit, 0);
                EQUAL(board_control(&board, SET_NO_CONFIGURATION), COLLECTOR_ACK);
                CHECK(same_board(&board, &fresh));
            }
}

void addressed_units(void)
{
    highest_unit();
    named_units();
    told_of_units();
    unit_in_hand();
}
