/*
 * Packets shown where they stand (document 02, A11): the data of Reads and replies, packet by packet, as the documents have it.
 */
#include "showing.h"

#include "records.h"
#include "store.h"

#include <string.h>

/* The middle one of four units: six blocks, behind the four and the three of the units before it. */
enum { MIDDLE = 2, FIRST = 7 };

#define STANDARD "\x00\x80\x05\x02\x1F\0\0\0" "COLLECT METER EXPORT    0100"

/* The data is done, and with it the record's reply. Where more was announced, bulk-in is halted. Then the status is due, which is
 * not shown: the copying call hands it out. */
static void expect_rest(board *board, uint32_t residue)
{
    const uint8_t halt = residue > 0 ? COLLECTOR_FLAG_HALT_IN : 0;

    EQUAL(board->record.stage, COLLECTOR_STAGE_PASSED);
    EQUAL(board->record.residue, residue);
    EQUAL(board->record.flags, COLLECTOR_FLAG_CONFIGURED | halt);
    if (halt) {
        expect_unshown(board, NO_REPLY, COLLECTOR_STALL);
        EQUAL(board_control(board, CLEAR_IN), COLLECTOR_ACK);
    }
    expect_unshown(board, NO_REPLY, COLLECTOR_NAK);
    board_status(board, residue, 0);
    expect_unshown(board, NO_REPLY, COLLECTOR_NAK);
}

/* Three blocks of the middle unit from its block 2 on, in 24 packets: 1,536 bytes of the 1,600 that are announced. */
static void short_read(void)
{
    board board;

    board_configure(&board, UNITS);
    board_blocks(&board, MIDDLE, READ, 2, 3, 1600);
    for (uint32_t at = 0; at < 24; at++) {
        EQUAL(board.record.stage, COLLECTOR_STAGE_DATA_IN);
        EQUAL(board.record.place, 512 * 2 + 64 * at);
        EQUAL(board.record.left, 1536 - 64 * at);
        EQUAL(board.record.residue, 1600 - 64 * at);
        EQUAL(board.record.flags, COLLECTOR_FLAG_CONFIGURED);
        expect_shown(&board, NO_REPLY, COLLECTOR_SOURCE_MEDIUM, 512 * (FIRST + 2) + 64 * at, 64);
    }
    expect_rest(&board, 64);
}

/* A whole unit, with just its bytes announced: no halt. Every third packet is copied, which is all the same. */
static void whole_unit(size_t count, uint8_t unit)
{
    const size_t packets = ROWS * (size_t)sizes[unit];
    board board;

    board_configure(&board, count);
    board_blocks(&board, unit, READ, 0, (uint16_t)sizes[unit], COLLECTOR_BLOCK_SIZE * sizes[unit]);
    for (size_t at = 0; at < packets; at++) {
        const size_t start = COLLECTOR_BLOCK_SIZE * (size_t)board.units[unit].first + 64 * at;

        if (at % 3 == 2)
            board_data(&board, board.medium + start, 64);
        else
            expect_shown(&board, NO_REPLY, COLLECTOR_SOURCE_MEDIUM, start, 64);
    }
    expect_rest(&board, 0);
}

/* What is shown is what the medium holds then: packets shown before are not kept. */
static void medium_as_it_is(void)
{
    board board;

    board_configure(&board, UNITS);
    board_blocks(&board, MIDDLE, READ, 0, 1, 512);
    memset(board.medium + 512 * FIRST + 64, 0x5A, 64);
    expect_shown(&board, NO_REPLY, COLLECTOR_SOURCE_MEDIUM, 512 * FIRST, 64);
    memset(board.medium + 512 * FIRST, 0xA5, 128);
    expect_shown(&board, NO_REPLY, COLLECTOR_SOURCE_MEDIUM, 512 * FIRST + 64, 64);
}

void shown_reads(void)
{
    short_read();
    for (size_t count = 1; count <= UNITS; count++)
        for (uint8_t unit = 0; unit < count; unit++)
            whole_unit(count, unit);
    medium_as_it_is();
}

/* A command for the middle unit, and its reply. Moving the switch does not change a reply under way. */
static void expect_reply(board *board, const char *block, uint32_t announced, const char *reply, size_t size)
{
    uint8_t given[COLLECTOR_PACKET_SIZE];

    board_command(board, MIDDLE, announced, 0x80, block);
    EQUAL(board_switch(board, COLLECTOR_SWITCH_OPEN, MIDDLE), COLLECTOR_ACK);
    EQUAL(reply_of(board, given), size);
    CHECK(memcmp(given, reply, size) == 0);
    expect_unshown(board, NO_REPLY, COLLECTOR_BAD_RECORD);
    expect_shown(board, reply, size, COLLECTOR_SOURCE_REPLY, 0, size);
    EQUAL(board_switch(board, COLLECTOR_SWITCH_CLOSED, MIDDLE), COLLECTOR_ACK);
    expect_rest(board, announced - (uint32_t)size);
}

/* The bench sheet's Inquiry and A1's, one cut to five bytes; A4's Mode Sense; A8's sense; A7's capacity; A2's page 83. */
void shown_replies(void)
{
    board board;

    board_configure(&board, UNITS);
    EQUAL(board_switch(&board, COLLECTOR_SWITCH_CLOSED, MIDDLE), COLLECTOR_ACK);
    expect_reply(&board, INQUIRY, 64, STANDARD, 36);
    expect_reply(&board, "\x12\0\0\x01\0\0\0\0\0\0", 256, STANDARD, 36);
    expect_reply(&board, "\x12\0\0\0\x05\0\0\0\0\0", 5, "\x00\x80\x05\x02\x1F", 5);
    expect_reply(&board, MODE_SENSE, 192, "\x03\0\x80\0", 4);
    board_blocks(&board, MIDDLE, VERIFY, 4, 3, 0);
    board_status(&board, 0, 1);
    expect_reply(&board, REQUEST_SENSE, 18, "\xF0\0\x05\0\0\0\x06\x0A\0\0\0\0\x21\0\0\0\0\0", 18);
    expect_reply(&board, READ_CAPACITY, 8, "\0\0\0\x05\0\0\x02\0", 8);
    expect_reply(&board, PAGE_83, 28, "\0\x83\0\x18\x02\x01\0\x14" "COLLECT 000000000042", 28);
}

/* The next packet as the stage has it: data, or nothing to be shown, though a status be due. */
static void expect_stage_shown(const board *reached, uint32_t number)
{
    uint8_t reply[COLLECTOR_PACKET_SIZE];
    const size_t length = reply_of(reached, reply);
    board board = *reached;

    EQUAL(board_show(&board, reply, length).number, number);
    if (number == COLLECTOR_NAK && board.record.stage >= COLLECTOR_STAGE_PASSED)
        board_status(&board, board.record.residue, board.record.stage - COLLECTOR_STAGE_PASSED);
    board = *reached;
    EQUAL(board_control(&board, SET_IN), COLLECTOR_ACK);
    expect_unshown(&board, reply, length, COLLECTOR_STALL);
    EQUAL(board_control(&board, SET_NO_CONFIGURATION), COLLECTOR_ACK);
    expect_unshown(&board, NO_REPLY, COLLECTOR_SILENT);
}

/* Each stage, bulk-in halted and not. The phase error has halted it: that is cleared first. */
void shown_in_each_stage(void)
{
    for (unsigned stage = COLLECTOR_STAGE_READY; stage < STAGES; stage++) {
        const bool data = stage == COLLECTOR_STAGE_DATA_IN || sends_reply(stage);
        board board;

        board_configure(&board, UNITS);
        expect_unshown(&board, NO_REPLY, COLLECTOR_NAK);
        board_reach(&board, MIDDLE, stage);
        EQUAL(board_control(&board, CLEAR_IN), COLLECTOR_ACK);
        expect_stage_shown(&board, data ? COLLECTOR_DATA : COLLECTOR_NAK);
    }
}
