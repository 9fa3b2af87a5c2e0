/*
 * How much of a table is read (collector.h): its units, and of a table of more than four none past the fourth. The table is lent
 * from the end of memory: what follows cannot be read, and a read of it ends the program.
 */
#define _DEFAULT_SOURCE

#include "several_units.h"

#include "records.h"
#include "showing.h"

#include <signal.h>
#include <string.h>
#include <sys/mman.h>
#include <unistd.h>

enum { PAGE = 4096 };

static uint8_t *pages;

static void read_past(int signal)
{
    static const char text[] = "interface: FAILED in tests/table_end.c: a table was read past its end\n";

    (void)signal;
    if (write(STDOUT_FILENO, text, sizeof text - 1) < 0)
        _exit(2);
    _exit(1);
}

/* The board with so many units of its table lent from the end of memory. */
static board with_table_at_end(const board *reached, size_t units)
{
    board board = *reached;
    const size_t size = units * sizeof board.units[0];

    board.table_apart = memcpy(pages + PAGE - size, reached->units, size);
    return board;
}

/* A count beyond the table's four units, and a table without units where nothing can be read, to every call. */
static void expect_not_read(const board *reached)
{
    static const size_t counts[] = {5, 6, 256, SIZE_MAX};
    board none = with_table_at_end(reached, 0);

    none.count = 0;
    board_refused(&none);
    for (size_t at = 0; at < sizeof counts / sizeof counts[0]; at++) {
        board damaged = with_table_at_end(reached, UNITS);

        damaged.count = counts[at];
        board_refused(&damaged);
        EQUAL(number_of(collector_make(&damaged.record, 42, 1, 2, 3, table_of(&damaged), damaged.count, damaged.medium,
                                       damaged.length)),
              COLLECTOR_BAD_RECORD);
    }
}

/* The calls on a table that fits, of any number of units, are answered as from the board. */
static void expect_same(const board *reached)
{
    board plain = *reached, board = with_table_at_end(reached, reached->count);

    EQUAL(board_show(&board, NO_REPLY).number, board_show(&plain, NO_REPLY).number);
    EQUAL(board_ask(&board), board_ask(&plain));
    EQUAL(board_send(&board, board.buffer, 64), board_send(&plain, plain.buffer, 64));
    EQUAL(board_switch(&board, COLLECTOR_SWITCH_CLOSED, 0), board_switch(&plain, COLLECTOR_SWITCH_CLOSED, 0));
    EQUAL(board_switch(&board, COLLECTOR_SWITCH_CLOSED, (uint8_t)plain.count),
          board_switch(&plain, COLLECTOR_SWITCH_CLOSED, (uint8_t)plain.count));
    EQUAL(board_control(&board, GET_MAX_LUN), board_control(&plain, GET_MAX_LUN));
    EQUAL(board_reset(&board), board_reset(&plain));
    CHECK(same_record(&board.record, &plain.record));
}

void tables_at_their_end(void)
{
    void (*before)(int) = signal(SIGSEGV, read_past);
    board board;

    pages = mmap(NULL, 2 * PAGE, PROT_READ | PROT_WRITE, MAP_PRIVATE | MAP_ANONYMOUS, -1, 0);
    CHECK(pages != MAP_FAILED);
    CHECK(mprotect(pages + PAGE, PAGE, PROT_NONE) == 0);
    for (size_t count = 1; count <= UNITS; count++) {
        board_make(&board, count);
        for (unsigned at = 0; at < STAGES * count; at++) {
            board_configure(&board, count);
            board_reach(&board, (uint8_t)(at % count), at / (unsigned)count);
            expect_same(&board);
            expect_not_read(&board);
        }
    }
    CHECK(munmap(pages, 2 * PAGE) == 0);
    signal(SIGSEGV, before);
}
