/*
 * The blocks of several units (document 02, A7): block numbers are the unit's own, and every block outside the addressed unit
 * keeps its bytes.
 */
#include "several_units.h"

#include "board.h"
#include "store.h"

#include <string.h>

/* Runs for each number of units with each run of blocks of each unit. */
static void with_each_run(void (*run)(size_t count, uint8_t unit, uint32_t block, uint16_t blocks))
{
    for (size_t count = 1; count <= UNITS; count++)
        for (uint8_t unit = 0; unit < count; unit++)
            for (uint32_t block = 0; block < sizes[unit]; block++)
                for (uint16_t blocks = 1; block + blocks <= sizes[unit]; blocks++)
                    run(count, unit, block, blocks);
}

/* Where a block of the unit stands in the medium: behind the units before it. */
static size_t place_of(uint8_t unit, uint32_t block)
{
    for (uint8_t before = 0; before < unit; before++)
        block += sizes[before];
    return (size_t)COLLECTOR_BLOCK_SIZE * block;
}

/* Written: the medium is compared whole after each packet. */
static void written(size_t count, uint8_t unit, uint32_t block, uint16_t blocks)
{
    const uint32_t size = COLLECTOR_BLOCK_SIZE * blocks;
    board board, before;
    uint8_t data[ALL_BLOCKS * COLLECTOR_BLOCK_SIZE];

    for (uint32_t at = 0; at < size; at++)
        data[at] = (uint8_t)(0x90 + at / 8);
    board_configure(&board, count);
    before = board;
    board_blocks(&board, unit, WRITE, block, blocks, size + 1);
    for (uint32_t sent = 0; sent < size; sent += 64) {
        const uint32_t stored = sent / COLLECTOR_BLOCK_SIZE;

        EQUAL(board.record.stage, COLLECTOR_STAGE_DATA_OUT);
        EQUAL(board.record.place, block + stored);
        EQUAL(board.record.left, blocks - stored);
        EQUAL(board.record.residue, size + 1 - COLLECTOR_BLOCK_SIZE * stored);
        EQUAL(board.record.unit, unit);
        EQUAL(board_send(&board, data + sent, 64), COLLECTOR_ACK);
        if ((sent + 64) % COLLECTOR_BLOCK_SIZE == 0)
            memcpy(before.medium + place_of(unit, block + stored), data + COLLECTOR_BLOCK_SIZE * stored,
                   COLLECTOR_BLOCK_SIZE);
        CHECK(memcmp(board.medium, before.medium, sizeof board.medium) == 0);
    }
    board_status(&board, 1, 0);
    CHECK(same_table(board.units, before.units));
    before.record.flags |= COLLECTOR_FLAG_HALT_OUT;
    CHECK(same_record(&board.record, &before.record));
}

/* Read: each packet is the medium's as it is at the ask. */
static void read_back(size_t count, uint8_t unit, uint32_t block, uint16_t blocks)
{
    const uint32_t size = COLLECTOR_BLOCK_SIZE * blocks;
    const size_t place = place_of(unit, block);
    board board, before;

    board_configure(&board, count);
    before = board;
    board_blocks(&board, unit, READ, block, blocks, size + 1);
    for (uint32_t sent = 0; sent < size; sent += 64) {
        EQUAL(board.record.stage, COLLECTOR_STAGE_DATA_IN);
        EQUAL(board.record.place, COLLECTOR_BLOCK_SIZE * block + sent);
        EQUAL(board.record.left, size - sent);
        EQUAL(board.record.unit, unit);
        for (size_t at = 0; at < 64; at++)
            before.medium[place + sent + at] = board.medium[place + sent + at] = (uint8_t)(at ^ sent);
        board_data(&board, before.medium + place + sent, 64);
    }
    EQUAL(board_ask(&board), COLLECTOR_STALL);
    EQUAL(board_control(&board, CLEAR_IN), COLLECTOR_ACK);
    board_status(&board, 1, 0);
    CHECK(same_record(&board.record, &before.record));
    CHECK(same_table(board.units, before.units));
    CHECK(memcmp(board.medium, before.medium, sizeof board.medium) == 0);
}

/* Blocks that are not the unit's, though the medium has them: the first outside is told in the unit's own numbers. */
static void outside(void)
{
    static const uint8_t codes[] = {READ, WRITE, VERIFY};

    for (uint32_t at = 0; at < UNITS * 20 * 20 * 3; at++) {
        const uint8_t unit = (uint8_t)(at / (20 * 20 * 3)), code = codes[at % 3];
        const uint32_t block = at / 3 % 20, blocks = at / 60 % 20, size = sizes[unit];
        board board, before;

        board_configure(&board, UNITS);
        before = board;
        board_blocks(&board, unit, code, block, (uint16_t)blocks, 512 * 20);
        if (block + blocks <= size) {
            CHECK(board.record.stage != COLLECTOR_STAGE_FAILED);
            expect_unit_sense(&board.units[unit], 0x00, 0x00, 0);
        } else {
            EQUAL(board.record.stage, COLLECTOR_STAGE_FAILED);
            expect_unit_sense(&board.units[unit], 0x05, 0x21, block > size ? block : size);
        }
        before.units[unit] = board.units[unit];
        CHECK(same_table(board.units, before.units));
        CHECK(memcmp(board.medium, before.medium, sizeof board.medium) == 0);
    }
}

/* All units written in turn, a block at a time, then read: each has its own bytes. */
static void side_by_side(void)
{
    uint8_t packet[64];
    board board;

    board_configure(&board, UNITS);
    for (uint32_t block = 0; block < 3; block++)
        for (uint8_t unit = 0; unit < UNITS; unit++) {
            board_blocks(&board, unit, WRITE, block, 1, 512);
            memset(packet, (int)(16 * unit + block), sizeof packet);
            for (int sent = 0; sent < ROWS; sent++)
                EQUAL(board_send(&board, packet, sizeof packet), COLLECTOR_ACK);
            board_status(&board, 0, 0);
        }
    for (uint8_t unit = UNITS; unit-- > 0;) {
        board_blocks(&board, unit, READ, 0, 3, 3 * 512);
        for (uint32_t asked = 0; asked < 3 * ROWS; asked++) {
            memset(packet, (int)(16 * unit + asked / ROWS), sizeof packet);
            board_data(&board, packet, sizeof packet);
        }
        board_status(&board, 0, 0);
    }
}

void blocks_of_units(void)
{
    with_each_run(written);
    with_each_run(read_back);
    outside();
    side_by_side();
}
