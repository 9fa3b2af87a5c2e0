/*
 * Which calls do not write to the table (document 02, A7), and which events write nothing, since the table has what they would
 * write: they are made with a table in memory that can only be read, where a write ends the program.
 */
#define _DEFAULT_SOURCE

#include "several_units.h"

#include "records.h"
#include "showing.h"

#include <signal.h>
#include <stdlib.h>
#include <string.h>
#include <sys/mman.h>
#include <unistd.h>

enum { PAGE = 4096 };

static void *page;

static void written_to(int signal)
{
    static const char text[] = "interface: FAILED in tests/kept_tables.c: a table was written to that was to be read only\n";

    (void)signal;
    if (write(STDOUT_FILENO, text, sizeof text - 1) < 0)
        _exit(2);
    _exit(1);
}

/* The board with its table lent from the page, which is then read only. */
static board with_fixed_table(const board *reached)
{
    board board = *reached;

    CHECK(mprotect(page, PAGE, PROT_READ | PROT_WRITE) == 0);
    board.table_apart = memcpy(page, reached->units, sizeof reached->units);
    CHECK(mprotect(page, PAGE, PROT_READ) == 0);
    return board;
}

/* An event that is refused as 10 to 18, from 0 on; UINT32_MAX past the last. */
static uint32_t refused_event(board *board, unsigned event)
{
    collector_record *record = &board->record;
    collector_unit *units = table_of(board);
    uint8_t *medium = board->medium, *buffer = board->buffer;
    const size_t count = board->count, length = board->length;

    switch (event) {
    case 0:
        return board_switch(board, 2, 0);
    case 1:
        return board_switch(board, COLLECTOR_SWITCH_CLOSED, (uint8_t)count);
    case 2:
        return number_of(collector_control(record, units, count, medium, 7, buffer, 64));
    case 3:
        return number_of(collector_control(record, units, count, medium, 8, buffer, 63));
    case 4:
        return number_of(collector_bulk_out(record, units, count, medium, 0, medium, 64));
    case 5:
        return number_of(collector_bulk_out(record, units, count, medium, length, medium, 65));
    case 6:
        return number_of(collector_bulk_in(record, units, count, medium, 0, buffer, 64));
    case 7:
        return number_of(collector_bulk_in(record, units, count, medium, length, buffer, 63));
    default:
        return UINT32_MAX;
    }
}

/* An event that changes no table, from 0 on; UINT32_MAX past the last. A packet of 4 bytes or of 64 is no good wrapper. */
static uint32_t event_of(board *board, unsigned event)
{
    static const char *const setups[] = {
        CLEAR_IN,
        CLEAR_OUT,
        SET_IN,
        SET_OUT,
        GET_MAX_LUN,
        "\x00\x09\x02\x00\x00\x00\x00\x00",     /* Set Configuration 2, which stalls */
        "\x00\x05\x05\x00\x00\x00\x00\x00",     /* Set Address */
        "\x80\x08\x00\x00\x00\x00\x01\x00",     /* Get Configuration */
        "\x80\x06\x00\x01\x00\x00\x12\x00",     /* Get Descriptor */
        "\x82\x00\x00\x00\x02\x00\x02\x00",     /* Get Status */
    };
    const unsigned count = sizeof setups / sizeof setups[0];
    uint8_t reply[COLLECTOR_PACKET_SIZE];

    if (event < count)
        return board_control(board, setups[event]);
    switch (event - count) {
    case 0:
        return board_ask(board);
    case 1:
        return board_send(board, board->medium, 64);
    case 2:
        return board_send(board, board->medium, board->record.stage == COLLECTOR_STAGE_DATA_OUT ? 64 : 4);
    case 3:
        return board_show(board, NO_REPLY).number;
    case 4:
        return board_show(board, reply, reply_of(board, reply)).number;
    default:
        return refused_event(board, event - count - 5);
    }
}

/* No unit has a sense: every sense has a key other than 0. */
static bool is_calm(const board *board)
{
    for (size_t unit = 0; unit < board->count; unit++)
        if (board->units[unit].sense_key != 0)
            return false;
    return true;
}

/*
 * The next three are events that set a sense or a switch, but find the very one there, and so write nothing; each from 0 on,
 * UINT32_MAX past the last.
 */

/* Each switch, set to where it is. */
static uint32_t switch_again(board *board, unsigned unit)
{
    return unit < board->count ? board_switch(board, table_of(board)[unit].write_switch, (uint8_t)unit) : UINT32_MAX;
}

/* Where no unit has a sense: each drop of the command, and in the ready stage a command that passes. */
static uint32_t no_sense_again(board *board, unsigned event)
{
    static const uint8_t ready[31] = "USBC\x01\x02\x03\x04\0\0\0\0\0\0\x06" TEST_UNIT_READY;

    switch (event) {
    case 0:
        return board_reset(board);
    case 1:
        return board_control(board, SET_CONFIGURATION);
    case 2:
        return board_control(board, SET_NO_CONFIGURATION);
    case 3:
        return board_control(board, MASS_STORAGE_RESET);
    case 4:
        return board->record.stage == COLLECTOR_STAGE_READY ? board_send(board, ready, sizeof ready) : UINT32_MAX;
    default:
        return UINT32_MAX;
    }
}

/* Where the unit has the sense of cut data: a packet that cuts a Write again. */
static uint32_t cut_again(board *board, unsigned event)
{
    return event == 0 ? board_send(board, board->medium, 4) : UINT32_MAX;
}

/* Each event is answered as on the plain table, and leaves the same record, medium and buffer. */
static void expect_unwritten(const board *reached, uint32_t (*event_of)(board *, unsigned))
{
    uint32_t answer;
    unsigned event = 0;

    do {
        board plain = *reached, fixed = with_fixed_table(reached);

        answer = event_of(&plain, event);
        EQUAL(event_of(&fixed, event), answer);
        CHECK(same_board(&plain, &fixed));
        CHECK(same_table(plain.units, reached->units));
        event++;
    } while (answer != UINT32_MAX);
}

/* No event that changes no table writes to it. Then all that is due is asked for. */
static void expect_kept(const board *reached)
{
    uint32_t answer;

    expect_unwritten(reached, event_of);
    expect_unwritten(reached, switch_again);
    if (is_calm(reached))
        expect_unwritten(reached, no_sense_again);
    board fixed = with_fixed_table(reached);
    for (answer = COLLECTOR_DATA; answer == COLLECTOR_DATA;)
        answer = board_ask(&fixed);
}

/* All the data packets of a Write, its status, and a refused record in the end. */
static void expect_written(const board *configured, uint8_t unit)
{
    board board = *configured;

    board_reach(&board, unit, COLLECTOR_STAGE_DATA_OUT);
    board = with_fixed_table(&board);
    for (int sent = 1; sent < 2 * ROWS; sent++)
        EQUAL(board_send(&board, board.buffer, 64), COLLECTOR_ACK);
    board_status(&board, 1, 0);
    board.record.stage = STAGES;
    board_refused(&board);
}

/* A Write is cut whose unit has the sense of that already. */
static void expect_cut(const board *configured, uint8_t unit)
{
    board board = *configured;

    board_reach(&board, unit, COLLECTOR_STAGE_DATA_OUT);
    board.units[unit].sense_key = 0x0B;
    board.units[unit].sense_asc = 0x4B;
    board.units[unit].sense_ascq = 0x00;
    board.units[unit].sense_information = 0;
    expect_unwritten(&board, cut_again);
}

/* A making that is refused: as 10, 11 and 15. */
static void expect_unmade(const board *made)
{
    board board = with_fixed_table(made);
    collector_unit *units = table_of(&board);
    const size_t count = board.count, length = board.length;

    EQUAL(number_of(collector_make(&board.record, 42, 1, 2, 3, units, 0, board.medium, length)), COLLECTOR_BAD_RECORD);
    EQUAL(number_of(collector_make(&board.record, 42, 1, 2, 3, units, 5, board.medium, length)), COLLECTOR_BAD_RECORD);
    EQUAL(number_of(collector_make(&board.record, 42, 1, 2, 3, units, count, board.medium, 0)), COLLECTOR_BAD_MEDIUM);
    EQUAL(number_of(collector_make(&board.record, COLLECTOR_MAX_NUMBER + 1, 1, 2, 3, units, count, board.medium, length)),
          COLLECTOR_BAD_NUMBER);
}

/* With senses and switches in the table, and with none. */
static void in_each_stage(size_t count, bool senses)
{
    board configured, board;

    board_make(&configured, count);
    expect_kept(&configured);
    expect_unmade(&configured);
    board_configure(&configured, count);
    for (uint8_t unit = 0; unit < count; unit++) {
        configured.units[unit].write_switch = senses && unit != count - 1;
        configured.units[unit].sense_key = senses ? 0x05 : 0x00;
        configured.units[unit].sense_asc = senses ? 0x20 : 0x00;
    }
    for (unsigned at = 0; at < STAGES * count; at++) {
        board = configured;
        if (at / count == COLLECTOR_STAGE_DATA_OUT)
            board.units[at % count].write_switch = COLLECTOR_SWITCH_OPEN;
        board_reach(&board, (uint8_t)(at % count), at / count);
        expect_kept(&board);
        EQUAL(board_control(&board, SET_IN), COLLECTOR_ACK);
        EQUAL(board_control(&board, SET_OUT), COLLECTOR_ACK);
        expect_kept(&board);
    }
    expect_written(&configured, (uint8_t)(count - 1));
    expect_cut(&configured, (uint8_t)(count - 1));
}

void tables_kept(void)
{
    void (*before)(int) = signal(SIGSEGV, written_to);

    page = mmap(NULL, PAGE, PROT_READ | PROT_WRITE, MAP_PRIVATE | MAP_ANONYMOUS, -1, 0);
    CHECK(page != MAP_FAILED);
    for (size_t count = 1; count <= UNITS; count++) {
        in_each_stage(count, false);
        in_each_stage(count, true);
    }
    CHECK(munmap(page, PAGE) == 0);
    signal(SIGSEGV, before);
}
