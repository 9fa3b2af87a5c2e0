/*
 * A device of several units with all that is lent to it, the events on it, and what they must leave.
 */
#ifndef BOARD_H
#define BOARD_H

#include "bench.h"

enum { UNITS = 4, ALL_BLOCKS = 18, ROWS = COLLECTOR_BLOCK_SIZE / COLLECTOR_PACKET_SIZE };

/* The units' sizes; a table of fewer units has the first of them. */
extern const uint32_t sizes[UNITS];

typedef struct board {
    collector_record record;
    collector_unit units[UNITS];
    size_t count, length;           /* of the units and of the medium's bytes that are lent */
    uint8_t medium[ALL_BLOCKS * COLLECTOR_BLOCK_SIZE];
    uint8_t buffer[100];
    collector_unit *table_apart;    /* where table and medium are lent from; NULL: from here */
    uint8_t *medium_apart;
} board;

/* Writes the units' first blocks, so that each follows on the one before; gives back 512 times the sum of their sizes. */
size_t lay_out(collector_unit *units, size_t count);

/* A device of so many units, each 64 bytes of its medium different; then also a configured one. */
void board_make(board *board, size_t count);
void board_configure(board *board, size_t count);

/* Compare all but reserved bytes. */
bool same_table(const collector_unit *a, const collector_unit *b);
bool same_board(const board *a, const board *b);

/* The events with all that the board lends. */
collector_unit *table_of(board *board);
uint8_t *medium_of(board *board);
uint32_t board_reset(board *board);
uint32_t board_control(board *board, const char *setup);
uint32_t board_send(board *board, const void *packet, size_t length);
uint32_t board_ask(board *board);
uint32_t board_switch(board *board, uint8_t position, uint8_t unit);

/* Asks for data, which must be these bytes, and must leave the buffer's others. */
void board_data(board *board, const void *bytes, size_t count);

/* Sends a wrapper for this unit, which must be accepted. The second is for blocks of the unit. */
void board_command(board *board, uint8_t unit, uint32_t announced, uint8_t direction, const char *block);
void board_blocks(board *board, uint8_t unit, uint8_t code, uint32_t block, uint16_t count, uint32_t announced);

/* Asks for the status wrapper, which must come, and leave the device ready with no command in hand. */
void board_status(board *board, uint32_t residue, uint8_t status);

/* A command for this unit that passes, and sends these bytes, just as many as are announced. */
void board_reply(board *board, uint8_t unit, const char *block, const void *data, uint32_t size);

/* Brings a configured device to this stage of a command for this unit. */
void board_reach(board *board, uint8_t unit, unsigned stage);

/* Every call refuses record and table, and changes nothing. */
void board_refused(const board *damaged);

#endif
