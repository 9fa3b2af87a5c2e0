/*
 * Four units of the largest size (document 02, A7): the medium's length, and blocks at both ends of each unit. The medium is from
 * calloc: memory that is never touched costs nothing.
 */
#include "tables.h"

#include "showing.h"
#include "store.h"

#include <stdlib.h>
#include <string.h>

static const size_t unit_size = (size_t)COLLECTOR_MAX_BLOCKS * COLLECTOR_BLOCK_SIZE;

static void plug_in(board *board, uint8_t *medium)
{
    board_make(board, UNITS);
    for (size_t at = 0; at < UNITS; at++)
        board->units[at].blocks = COLLECTOR_MAX_BLOCKS;
    board->medium_apart = medium;
    board->length = lay_out(board->units, UNITS);
    EQUAL(board->length, COLLECTOR_MAX_MEDIUM_SIZE);
    EQUAL(number_of(collector_make(&board->record, 42, 1, 2, 3, board->units, UNITS, medium, board->length)),
          COLLECTOR_ACK);
    EQUAL(board->units[UNITS - 1].first, 3145728);
    EQUAL(board_control(board, SET_CONFIGURATION), COLLECTOR_ACK);
}

/* A medium of one unit, of three, of a block more or less. */
static void other_lengths(board *board)
{
    const size_t bad[] = {unit_size, 3 * unit_size, 4 * unit_size - 512, 4 * unit_size - 1, 4 * unit_size + 1,
                          4 * unit_size + 512, 5 * unit_size, 8 * unit_size, 8 * unit_size + 512};
    collector_record record;

    for (size_t at = 0; at < sizeof bad / sizeof bad[0]; at++) {
        board->length = bad[at];
        EQUAL(number_of(collector_make(&record, 42, 1, 2, 3, board->units, UNITS, board->medium_apart, bad[at])),
              COLLECTOR_BAD_MEDIUM);
        EQUAL(board_ask(board), COLLECTOR_BAD_MEDIUM);
        EQUAL(board_send(board, board->buffer, 64), COLLECTOR_BAD_MEDIUM);
    }
}

/* Two blocks of the unit, written and read back, copied and shown, and where they then stand in the medium. */
static void expect_blocks(board *board, uint8_t unit, uint32_t block, uint8_t value)
{
    const size_t place = unit * unit_size + (size_t)COLLECTOR_BLOCK_SIZE * block;
    uint8_t packet[64];

    memset(packet, value, sizeof packet);
    board_blocks(board, unit, WRITE, block, 2, 1024);
    for (uint32_t sent = 0; sent < 2 * ROWS; sent++) {
        EQUAL(board->record.place, block + sent / ROWS);
        EQUAL(board_send(board, packet, sizeof packet), COLLECTOR_ACK);
    }
    board_status(board, 0, 0);
    CHECK(filled(board->medium_apart + place, 1024, value));
    for (int shown = 0; shown < 2; shown++) {
        board_blocks(board, unit, READ, block, 2, 1024);
        for (uint32_t asked = 0; asked < 2 * ROWS; asked++) {
            EQUAL(board->record.place, COLLECTOR_BLOCK_SIZE * block + 64 * asked);
            if (shown)
                expect_shown(board, NO_REPLY, COLLECTOR_SOURCE_MEDIUM, place + 64 * asked, 64);
            else
                board_data(board, packet, sizeof packet);
        }
        board_status(board, 0, 0);
    }
}

/* The first two blocks and the last two of each unit; one more is outside. No other byte of the medium changes. */
static void ends(board *board)
{
    size_t end = 0;

    for (uint8_t unit = 0; unit < UNITS; unit++) {
        board_reply(board, unit, READ_CAPACITY, "\x00\x0F\xFF\xFF\x00\x00\x02\x00", 8);
        expect_blocks(board, unit, 0, (uint8_t)(0x10 + unit));
        expect_blocks(board, unit, COLLECTOR_MAX_BLOCKS - 2, (uint8_t)(0x20 + unit));
        board_blocks(board, unit, WRITE, COLLECTOR_MAX_BLOCKS - 1, 2, 0);
        board_status(board, 0, 1);
        expect_unit_sense(&board->units[unit], 0x05, 0x21, COLLECTOR_MAX_BLOCKS);
    }
    for (uint8_t unit = 0; unit < UNITS; unit++) {
        CHECK(filled(board->medium_apart + end, 1024, (uint8_t)(0x10 + unit)));
        end += unit_size;
        CHECK(filled(board->medium_apart + end - unit_size + 1024, unit_size - 2048, 0));
        CHECK(filled(board->medium_apart + end - 1024, 1024, (uint8_t)(0x20 + unit)));
    }
    CHECK(filled(board->medium_apart + end, 512, 0));
}

void tables_of_largest_units(void)
{
    uint8_t *medium = calloc(8 * unit_size + COLLECTOR_BLOCK_SIZE, 1);
    board board;

    CHECK(medium != NULL);
    plug_in(&board, medium);
    ends(&board);
    other_lengths(&board);
    free(medium);
}
