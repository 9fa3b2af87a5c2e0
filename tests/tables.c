/*
 * Record and table together (document 02, A7): in each stage of a command for each unit, every call refuses a table that
 * does not fit and a unit beyond it, and changes nothing. Then media that are not of the table's size.
 */
#include "tables.h"

#include "board.h"
#include "records.h"
#include "showing.h"

#include <string.h>

/* Goes on with a transfer of two blocks, to where one packet of the first block or of the second is left. */
static void go_on(board *board, uint32_t left)
{
    const bool out = board->record.stage == COLLECTOR_STAGE_DATA_OUT;

    while ((out ? 64 * ROWS * board->record.left - board->record.value : board->record.left) > left)
        EQUAL(out ? board_send(board, board->buffer, 64) : board_ask(board), out ? COLLECTOR_ACK : COLLECTOR_DATA);
}

/* Runs for each number of units: unconfigured, and in each stage of a command for each unit, of transfers also near the end of
 * each block. */
static void in_each_state(void (*run)(const board *reached))
{
    board board;

    for (size_t count = 1; count <= UNITS; count++) {
        board_make(&board, count);
        run(&board);
        for (unsigned at = 0; at < STAGES * count; at++) {
            board_configure(&board, count);
            board_reach(&board, (uint8_t)(at % count), at / (unsigned)count);
            run(&board);
            if (board.record.stage != COLLECTOR_STAGE_DATA_OUT && board.record.stage != COLLECTOR_STAGE_DATA_IN)
                continue;
            go_on(&board, 512 + 64);
            run(&board);
            go_on(&board, 64);
            run(&board);
        }
    }
}

static void bad_counts(const board *reached)
{
    static const size_t counts[] = {0, 5, 6, 255, 256, 257, ((size_t)1 << 32) + 1, ((size_t)1 << 32) + 4, SIZE_MAX};

    for (size_t at = 0; at < sizeof counts / sizeof counts[0]; at++) {
        board damaged = *reached;
        damaged.count = counts[at];
        board_refused(&damaged);
    }
}

static void bad_sizes(const board *reached, size_t unit)
{
    static const uint32_t none[] = {0, COLLECTOR_MAX_BLOCKS + 1, (uint32_t)1 << 31, UINT32_MAX};

    for (size_t at = 0; at < sizeof none / sizeof none[0]; at++) {
        board damaged = *reached;

        damaged.units[unit].blocks = none[at];
        board_refused(&damaged);
        lay_out(damaged.units, damaged.count);
        board_refused(&damaged);
    }
    /* One block more or less: the next unit does not follow on. */
    for (uint32_t change = 0; change < 2 && unit + 1 < reached->count; change++) {
        board damaged = *reached;

        damaged.units[unit].blocks += change ? 1 : UINT32_MAX;
        board_refused(&damaged);
    }
}

static void bad_firsts(const board *reached, size_t unit)
{
    for (uint32_t change = 0; change < 34; change++) {
        board damaged = *reached;
        uint32_t *first = &damaged.units[unit].first;

        *first = change == 32 ? *first + 1 : change == 33 ? *first - 1 : *first ^ (uint32_t)1 << change;
        board_refused(&damaged);
    }
}

static void bad_switches(const board *reached, size_t unit)
{
    for (int position = 2; position < 256; position++) {
        board damaged = *reached;

        damaged.units[unit].write_switch = (uint8_t)position;
        board_refused(&damaged);
    }
}

/* A sense, whole or in part, before the configuration. */
static void bad_senses(const board *reached, size_t unit)
{
    for (int bit = 0; bit < 56; bit++) {
        board damaged = *reached;
        collector_unit *damaged_unit = &damaged.units[unit];
        uint8_t *const bytes[] = {&damaged_unit->sense_key, &damaged_unit->sense_asc, &damaged_unit->sense_ascq};

        if (bit < 24)
            *bytes[bit / 8] = (uint8_t)(1 << bit % 8);
        else
            damaged_unit->sense_information = (uint32_t)1 << (bit - 24);
        board_refused(&damaged);
    }
}

static void bad_tables(const board *reached)
{
    bad_counts(reached);
    for (size_t unit = 0; unit < reached->count; unit++) {
        bad_sizes(reached, unit);
        bad_firsts(reached, unit);
        bad_switches(reached, unit);
        if (!(reached->record.flags & COLLECTOR_FLAG_CONFIGURED))
            bad_senses(reached, unit);
    }
}

/* Units past the count, and reserved bytes, may hold anything: a nak or a status answers as ever, and keeps them. */
static void beside_the_table(const board *reached)
{
    board plain = *reached, other = *reached;

    for (size_t at = 0; at < UNITS; at++) {
        if (at >= reached->count)
            memset(&other.units[at], FILL, sizeof other.units[at]);
        other.units[at].reserved0 = FILL;
        memset(other.units[at].reserved1, FILL, sizeof other.units[at].reserved1);
    }
    EQUAL(board_ask(&other), board_ask(&plain));
    EQUAL(board_switch(&other, COLLECTOR_SWITCH_CLOSED, 0), board_switch(&plain, COLLECTOR_SWITCH_CLOSED, 0));
    EQUAL(board_reset(&other), board_reset(&plain));
    CHECK(same_record(&other.record, &plain.record));
    for (size_t at = 0; at < UNITS; at++)
        if (at < reached->count)
            CHECK(same_unit(&other.units[at], &plain.units[at]));
        else
            CHECK(filled((const uint8_t *)&other.units[at], sizeof other.units[at], FILL));
}

void tables_that_do_not_fit(void)
{
    in_each_state(bad_tables);
    in_each_state(beside_the_table);
}

/* The record's unit beyond the table, whatever the stage. */
static void bad_units(const board *reached)
{
    for (size_t unit = reached->count; unit < 256; unit++) {
        board damaged = *reached;

        damaged.record.unit = (uint8_t)unit;
        board_refused(&damaged);
    }
    /* Also where the table that is lent has lost it. */
    for (size_t count = 1; count <= reached->record.unit; count++) {
        board damaged = *reached;

        damaged.count = count;
        damaged.length = lay_out(damaged.units, count);
        board_refused(&damaged);
    }
}

/* A transfer in this unit, of so many blocks or bytes from a place on: refused where they do not lie in the unit. */
static void expect_transfer(const board *reached, uint8_t unit, uint32_t place, uint32_t left)
{
    const bool out = reached->record.stage == COLLECTOR_STAGE_DATA_OUT;
    const uint64_t size = (uint64_t)sizes[unit] * (out ? 1 : COLLECTOR_BLOCK_SIZE);
    board board = *reached, before;

    board.record.unit = unit;
    board.record.place = place;
    board.record.left = left;
    board.record.announced = board.record.residue = UINT32_MAX;
    before = board;
    if (place + (uint64_t)left > size) {
        board_refused(&board);
        return;
    }
    /* The other pipe naks, and nothing changes. */
    EQUAL(out ? board_ask(&board) : board_send(&board, board.buffer, 64), COLLECTOR_NAK);
    CHECK(same_board(&board, &before));
    EQUAL(board_switch(&board, COLLECTOR_SWITCH_OPEN, unit), COLLECTOR_ACK);
    CHECK(same_board(&board, &before));
    if (out || left == 0)
        expect_unshown(&board, NO_REPLY, COLLECTOR_NAK);
    else
        expect_shown(&board, NO_REPLY, COLLECTOR_SOURCE_MEDIUM,
                     COLLECTOR_BLOCK_SIZE * (size_t)board.units[unit].first + place, left < 64 ? left : 64);
}

static void transfers(const board *reached)
{
    const bool out = reached->record.stage == COLLECTOR_STAGE_DATA_OUT;
    const uint32_t step = out ? 1 : COLLECTOR_BLOCK_SIZE;

    if (!out && reached->record.stage != COLLECTOR_STAGE_DATA_IN)
        return;
    for (uint8_t unit = 0; unit < reached->count; unit++) {
        for (uint32_t at = 0; at < 8 * 8; at++)
            expect_transfer(reached, unit, at % 8 * step, at / 8 * step);
        for (uint32_t left = 0; left <= 130 && left <= sizes[unit] * step; left++) {
            expect_transfer(reached, unit, sizes[unit] * step - left, left);
            expect_transfer(reached, unit, sizes[unit] * step - left + 1, left);
        }
        expect_transfer(reached, unit, UINT32_MAX, 1);
        expect_transfer(reached, unit, 1, UINT32_MAX);
    }
}

void units_that_do_not_fit(void)
{
    in_each_state(bad_units);
    in_each_state(transfers);
}

/* Number 11 asks the sum, before 12, 13 and 4; nothing changes. */
static void bad_media(const board *reached)
{
    static uint8_t other[2 * ALL_BLOCKS * COLLECTOR_BLOCK_SIZE];
    const size_t sum = reached->length;
    const size_t bad[] = {0, 1, sum - 512, sum - 1, sum + 1, sum + 512, 2 * sum, sum - 512 * (size_t)sizes[0]};
    uint8_t packet[65] = {0};

    for (size_t at = 0; at < sizeof bad / sizeof bad[0]; at++) {
        board board = *reached;
        collector_unit *units = board.units;
        uint8_t reply[COLLECTOR_PACKET_SIZE];
        const size_t length = reply_of(&board, reply);

        EQUAL(number_shown(collector_show(&board.record, units, board.count, other, bad[at], reply, length)),
              COLLECTOR_BAD_MEDIUM);
        for (size_t more = 0; more < 2; more++) {
            EQUAL(number_of(collector_bulk_out(&board.record, units, board.count, other, bad[at], packet, 64 + more)),
                  COLLECTOR_BAD_MEDIUM);
            EQUAL(number_of(collector_bulk_in(&board.record, units, board.count, other, bad[at], board.buffer, 64 - more)),
                  COLLECTOR_BAD_MEDIUM);
        }
        EQUAL(number_of(collector_bulk_out(&board.record, units, board.count, other, sum, packet, 65)),
              COLLECTOR_LONG_PACKET);
        EQUAL(number_of(collector_bulk_in(&board.record, units, board.count, other, sum, board.buffer, 63)),
              COLLECTOR_SHORT_BUFFER);
        CHECK(same_board(&board, reached));
    }
    CHECK(filled(other, sizeof other, 0));
}

void media_of_tables(void)
{
    in_each_state(bad_media);
}
