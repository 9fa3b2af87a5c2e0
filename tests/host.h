/*
 * A host for a board: random events, mostly the next one that is sensible in the device's stage.
 */
#ifndef HOST_H
#define HOST_H

#include "board.h"

typedef struct host_event {
    enum { BUS_RESET, CONTROL, BULK_OUT, BULK_IN, SWITCH } kind;
    const char *setup;          /* of a control request */
    uint8_t packet[64];         /* of a bulk-out packet */
    size_t length;
    uint8_t position, unit;     /* of a switch event */
} host_event;

/* A number below the limit; the same start gives the same numbers. */
uint32_t pick(uint32_t *random, uint32_t limit);

host_event next_event(uint32_t *random, const board *board);

/* Plays the event; gives back its answer's number. Bytes that bulk-in hands out are the buffer's first. */
uint32_t play(board *board, const host_event *event, size_t *handed_out);

#endif
