/*
 * A device of several units with all that is lent to it, the events on it, and what they must leave.
 */
#include "board.h"

#include "records.h"

#include <string.h>

const uint32_t sizes[UNITS] = {4, 3, 6, 5};

size_t lay_out(collector_unit *units, size_t count)
{
    uint32_t end = 0;

    for (size_t at = 0; at < count; at++) {
        units[at].first = end;
        end += units[at].blocks;
    }
    return (size_t)COLLECTOR_BLOCK_SIZE * end;
}

collector_unit *table_of(board *board)
{
    return board->table_apart ? board->table_apart : board->units;
}

uint8_t *medium_of(board *board)
{
    return board->medium_apart ? board->medium_apart : board->medium;
}

void board_make(board *board, size_t count)
{
    memset(board, FILL, sizeof *board);
    board->table_apart = NULL;
    board->medium_apart = NULL;
    board->count = count;
    for (size_t at = 0; at < UNITS; at++)
        board->units[at].blocks = sizes[at];
    lay_out(board->units, UNITS);
    board->length = lay_out(board->units, count);
    for (size_t at = 0; at < sizeof board->medium; at++)
        board->medium[at] = (uint8_t)(at / COLLECTOR_PACKET_SIZE);
    EQUAL(number_of(collector_make(&board->record, 42, 0x1209, 0x0001, 0x0100, board->units, count, board->medium,
                                   board->length)),
          COLLECTOR_ACK);
}

void board_configure(board *board, size_t count)
{
    board_make(board, count);
    EQUAL(board_control(board, SET_CONFIGURATION), COLLECTOR_ACK);
}

bool same_table(const collector_unit *a, const collector_unit *b)
{
    for (size_t at = 0; at < UNITS; at++)
        if (!same_unit(&a[at], &b[at]))
            return false;
    return true;
}

bool same_board(const board *a, const board *b)
{
    return same_record(&a->record, &b->record) && same_table(a->units, b->units) &&
           memcmp(a->medium, b->medium, sizeof a->medium) == 0 && memcmp(a->buffer, b->buffer, sizeof a->buffer) == 0;
}

uint32_t board_reset(board *board)
{
    return number_of(collector_bus_reset(&board->record, table_of(board), board->count));
}

uint32_t board_control(board *board, const char *setup)
{
    return number_of(collector_control(&board->record, table_of(board), board->count, (const uint8_t *)setup, 8,
                                       board->buffer, 64));
}

uint32_t board_send(board *board, const void *packet, size_t length)
{
    return number_of(collector_bulk_out(&board->record, table_of(board), board->count, medium_of(board),
                                        board->length, packet, length));
}

uint32_t board_ask(board *board)
{
    return number_of(collector_bulk_in(&board->record, table_of(board), board->count, medium_of(board),
                                       board->length, board->buffer, 64));
}

uint32_t board_switch(board *board, uint8_t position, uint8_t unit)
{
    return number_of(collector_set_switch(&board->record, table_of(board), board->count, position, unit));
}

void board_data(board *board, const void *bytes, size_t count)
{
    const size_t size = sizeof board->buffer;
    collector_answer answer;

    memset(board->buffer, FILL, size);
    answer = collector_bulk_in(&board->record, table_of(board), board->count, medium_of(board), board->length,
                               board->buffer, size);
    EQUAL(answer.number, COLLECTOR_DATA);
    EQUAL(answer.count, count);
    CHECK(memcmp(board->buffer, bytes, count) == 0);
    CHECK(filled(board->buffer + count, size - count, FILL));
}

void board_command(board *board, uint8_t unit, uint32_t announced, uint8_t direction, const char *block)
{
    uint8_t packet[31];

    wrapper(packet, announced, direction, block);
    packet[13] = unit;
    EQUAL(board_send(board, packet, sizeof packet), COLLECTOR_ACK);
    EQUAL(board->record.unit, unit);
}

void board_blocks(board *board, uint8_t unit, uint8_t code, uint32_t block, uint16_t count, uint32_t announced)
{
    char command[10] = {(char)code};

    for (int byte = 0; byte < 4; byte++)
        command[2 + byte] = (char)(block >> (24 - 8 * byte));
    command[7] = (char)(count >> 8);
    command[8] = (char)count;
    board_command(board, unit, announced, code == 0x28 ? 0x80 : 0x00, command);
}

void board_status(board *board, uint32_t residue, uint8_t status)
{
    uint8_t wrapper[13] = "USBS\x01\x02\x03\x04";

    for (int byte = 0; byte < 4; byte++)
        wrapper[8 + byte] = (uint8_t)(residue >> 8 * byte);
    wrapper[12] = status;
    board_data(board, wrapper, sizeof wrapper);
    EQUAL(board->record.stage, COLLECTOR_STAGE_READY);
    EQUAL(board->record.tag, 0);
    EQUAL(board->record.announced, 0);
    EQUAL(board->record.residue, 0);
    EQUAL(board->record.unit, 0);
}

void board_reply(board *board, uint8_t unit, const char *block, const void *data, uint32_t size)
{
    board_command(board, unit, size, 0x80, block);
    board_data(board, data, size);
    board_status(board, 0, 0);
}

void board_reach(board *board, uint8_t unit, unsigned stage)
{
    static const struct {
        uint32_t announced;
        uint8_t direction;
        const char *block;
    } rows[STAGES] = {
        [COLLECTOR_STAGE_DATA_OUT] = {1025, 0x00, WRITE_TWO_FROM_ONE},
        [COLLECTOR_STAGE_DATA_IN] = {1025, 0x80, READ_TWO_FROM_ONE},
        [COLLECTOR_STAGE_REQUEST_SENSE] = {18, 0x80, REQUEST_SENSE},
        [COLLECTOR_STAGE_INQUIRY] = {64, 0x80, INQUIRY},
        [COLLECTOR_STAGE_MODE_SENSE] = {4, 0x80, MODE_SENSE},
        [COLLECTOR_STAGE_READ_CAPACITY] = {8, 0x80, READ_CAPACITY},
        [COLLECTOR_STAGE_PASSED] = {0, 0x00, TEST_UNIT_READY},
        [COLLECTOR_STAGE_FAILED] = {0, 0x00, UNKNOWN_CODE},
        [COLLECTOR_STAGE_PHASE_ERROR] = {18, 0x80, INQUIRY},
        [COLLECTOR_STAGE_PAGE] = {64, 0x80, PAGE_80},
    };

    if (stage != COLLECTOR_STAGE_READY)
        board_command(board, unit, rows[stage].announced, rows[stage].direction, rows[stage].block);
    if (stage == COLLECTOR_STAGE_DATA_OUT)
        EQUAL(board_send(board, board->buffer, 64), COLLECTOR_ACK);
    EQUAL(board->record.stage, stage);
}

void board_refused(const board *damaged)
{
    board board = *damaged;

    EQUAL(board_reset(&board), COLLECTOR_BAD_RECORD);
    EQUAL(board_control(&board, SET_CONFIGURATION), COLLECTOR_BAD_RECORD);
    EQUAL(board_control(&board, GET_MAX_LUN), COLLECTOR_BAD_RECORD);
    EQUAL(board_send(&board, board.buffer, 64), COLLECTOR_BAD_RECORD);
    EQUAL(board_ask(&board), COLLECTOR_BAD_RECORD);
    EQUAL(number_shown(collector_show(&board.record, table_of(&board), board.count, medium_of(&board), board.length,
                                      board.buffer, 0)),
          COLLECTOR_BAD_RECORD);
    EQUAL(number_of(collector_reply(&board.record, table_of(&board), board.count, board.buffer, 64)), COLLECTOR_BAD_RECORD);
    EQUAL(board_switch(&board, COLLECTOR_SWITCH_OPEN, 0), COLLECTOR_BAD_RECORD);
    EQUAL(board_switch(&board, COLLECTOR_SWITCH_CLOSED, UNITS - 1), COLLECTOR_BAD_RECORD);
    EQUAL(board_switch(&board, COLLECTOR_SWITCH_CLOSED, 255), COLLECTOR_BAD_RECORD);
    CHECK(same_board(&board, damaged));
}
