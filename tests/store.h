/*
 * A device of one unit over a medium of any size, which the caller lends.
 */
#ifndef STORE_H
#define STORE_H

#include "collector.h"

enum { CAPACITY = 0x25, READ = 0x28, WRITE = 0x2A, VERIFY = 0x2F };

typedef struct store {
    collector_record record;
    collector_unit unit;        /* the table */
    uint8_t *medium;
    size_t length;
    uint8_t buffer[64];
} store;

/* A device over the medium's first blocks, made and configured. */
void plug(store *store, size_t blocks);

/* The events with the store's table, medium and buffer. */
uint32_t send_to(store *store, const uint8_t *packet, size_t length);
collector_answer ask_of(store *store);
uint32_t request(store *store, const char *setup);
uint32_t set_switch(store *store, uint8_t position);

/* A wrapper that must be accepted: for `count` blocks from `block` on. */
void start(store *store, uint8_t code, uint32_t block, uint16_t count, uint32_t announced);

/* Asks for data, which must be these bytes; for the status wrapper, after which the device is ready. */
void expect_data(store *store, const void *bytes, size_t count);
void expect_end(store *store, const char *status);

#define PASSED "USBS\x01\x02\x03\x04\x00\x00\x00\x00\x00"
#define FAILED "USBS\x01\x02\x03\x04\x00\x00\x00\x00\x01"

#endif
