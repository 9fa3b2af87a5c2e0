/*
 * A device of one unit over a medium of any size, which the caller lends.
 */
#include "store.h"

#include "bench.h"

#include <string.h>

uint32_t send_to(store *store, const uint8_t *packet, size_t length)
{
    return number_of(
        collector_bulk_out(&store->record, &store->unit, 1, store->medium, store->length, packet, length));
}

collector_answer ask_of(store *store)
{
    return collector_bulk_in(&store->record, &store->unit, 1, store->medium, store->length, store->buffer,
                             sizeof store->buffer);
}

void expect_data(store *store, const void *bytes, size_t count)
{
    collector_answer answer = ask_of(store);

    EQUAL(answer.number, COLLECTOR_DATA);
    EQUAL(answer.count, count);
    CHECK(memcmp(store->buffer, bytes, count) == 0);
}

uint32_t request(store *store, const char *setup)
{
    return number_of(
        collector_control(&store->record, &store->unit, 1, (const uint8_t *)setup, 8, store->buffer, 64));
}

uint32_t set_switch(store *store, uint8_t position)
{
    return number_of(collector_set_switch(&store->record, &store->unit, 1, position, 0));
}

void plug(store *store, size_t blocks)
{
    store->length = blocks * COLLECTOR_BLOCK_SIZE;
    store->unit.first = 0;
    store->unit.blocks = (uint32_t)blocks;
    EQUAL(number_of(collector_make(&store->record, 42, 1, 2, 3, &store->unit, 1, store->medium, store->length)),
          COLLECTOR_ACK);
    EQUAL(store->unit.blocks, blocks);
    EQUAL(request(store, SET_CONFIGURATION), COLLECTOR_ACK);
}

void start(store *store, uint8_t code, uint32_t block, uint16_t count, uint32_t announced)
{
    uint8_t packet[31], command[10] = {code};

    for (int byte = 0; byte < 4; byte++)
        command[2 + byte] = (uint8_t)(block >> (24 - 8 * byte));
    command[7] = (uint8_t)(count >> 8);
    command[8] = (uint8_t)count;
    wrapper(packet, announced, code == READ || code == CAPACITY ? 0x80 : 0x00, (const char *)command);
    EQUAL(send_to(store, packet, sizeof packet), COLLECTOR_ACK);
}

void expect_end(store *store, const char *status)
{
    expect_data(store, status, 13);
    EQUAL(store->record.stage, COLLECTOR_STAGE_READY);
}
