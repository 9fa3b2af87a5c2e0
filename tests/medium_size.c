/*
 * Units of each size that is served, and media that are not their unit's size. The medium is from calloc: memory that is never
 * touched costs nothing.
 */
#include "medium_size.h"

#include "bench.h"
#include "store.h"

#include <stdlib.h>
#include <string.h>

/* The largest unit's bytes; more bytes than 32 bits count. */
#define LARGEST ((size_t)COLLECTOR_MAX_BLOCKS * COLLECTOR_BLOCK_SIZE)
#define ALL (((size_t)1 << 32) + COLLECTOR_BLOCK_SIZE)

static void served(store *store)
{
    static const struct {
        uint32_t blocks;
        const char *capacity;
    } rows[] = {
        {1, "\x00\x00\x00\x00\x00\x00\x02\x00"},       {4096, "\x00\x00\x0F\xFF\x00\x00\x02\x00"},
        {4097, "\x00\x00\x10\x00\x00\x00\x02\x00"},    {65536, "\x00\x00\xFF\xFF\x00\x00\x02\x00"},
        {65537, "\x00\x01\x00\x00\x00\x00\x02\x00"},   {1048575, "\x00\x0F\xFF\xFE\x00\x00\x02\x00"},
        {1048576, "\x00\x0F\xFF\xFF\x00\x00\x02\x00"},
    };

    EQUAL(COLLECTOR_MAX_BLOCKS, 1048576);
    EQUAL(COLLECTOR_MAX_UNITS, 4);
    EQUAL(COLLECTOR_MAX_MEDIUM_SIZE, 2147483648);
    for (size_t at = 0; at < sizeof rows / sizeof rows[0]; at++) {
        plug(store, rows[at].blocks);
        start(store, CAPACITY, 0, 0, 8);
        expect_data(store, rows[at].capacity, 8);
        expect_end(store, PASSED);
        start(store, VERIFY, rows[at].blocks - 1, 1, 0);
        expect_end(store, PASSED);
        start(store, VERIFY, rows[at].blocks, 1, 0);
        expect_end(store, FAILED);
    }
}

/* Lengths that are refused at making, for the smallest unit and the largest. Of the last one 32 bits would show a single block. */
static void unserved(store *store)
{
    static const size_t lengths[] = {
        0, 1, 511, 513, 1024, LARGEST - 512, LARGEST - 1, LARGEST + 1, LARGEST + 511, LARGEST + 512, 2 * LARGEST,
        ALL - 512, ALL
    };
    static const collector_record zero;

    for (size_t at = 0; at < 2 * sizeof lengths / sizeof lengths[0]; at++) {
        const collector_unit unit = {.first = 0, .blocks = at % 2 ? 1 : COLLECTOR_MAX_BLOCKS};

        store->unit = unit;
        memset(&store->record, FILL, sizeof store->record);
        EQUAL(number_of(collector_make(&store->record, UINT64_MAX, 1, 2, 3, &store->unit, 1, store->medium,
                                       lengths[at / 2])),
              COLLECTOR_BAD_MEDIUM);
        CHECK(same_record(&store->record, &zero));
        CHECK(same_unit(&store->unit, &unit));
    }
}

/* Another medium's size is refused as 11, a unit of one block over the limit as 10, whatever the stage; nothing changes. */
static void misfits(store *store)
{
    static const uint8_t codes[] = {CAPACITY, READ, WRITE, VERIFY};
    collector_record before;
    collector_unit unit;

    for (size_t at = 0; at < sizeof codes; at++) {
        plug(store, COLLECTOR_MAX_BLOCKS);
        start(store, codes[at], 0, 2, codes[at] == VERIFY ? 0 : 1024);
        before = store->record;
        memset(store->buffer, FILL, sizeof store->buffer);
        store->length -= 512;
        EQUAL(number_of(ask_of(store)), COLLECTOR_BAD_MEDIUM);
        EQUAL(send_to(store, store->buffer, 64), COLLECTOR_BAD_MEDIUM);
        store->length += 1024;
        EQUAL(number_of(ask_of(store)), COLLECTOR_BAD_MEDIUM);
        EQUAL(send_to(store, store->buffer, 64), COLLECTOR_BAD_MEDIUM);
        store->unit.blocks = COLLECTOR_MAX_BLOCKS + 1;
        unit = store->unit;
        EQUAL(number_of(ask_of(store)), COLLECTOR_BAD_RECORD);
        EQUAL(send_to(store, store->buffer, 64), COLLECTOR_BAD_RECORD);
        EQUAL(request(store, SET_CONFIGURATION), COLLECTOR_BAD_RECORD);
        EQUAL(number_of(collector_bus_reset(&store->record, &store->unit, 1)), COLLECTOR_BAD_RECORD);
        EQUAL(set_switch(store, COLLECTOR_SWITCH_CLOSED), COLLECTOR_BAD_RECORD);
        CHECK(same_record(&store->record, &before));
        CHECK(same_unit(&store->unit, &unit));
        CHECK(filled(store->buffer, sizeof store->buffer, FILL));
    }
}

/* A command on blocks that lie in the largest unit, or fail with 05/21/00. */
static void expect_range(store *store, uint8_t code, uint32_t block, uint16_t count, bool passes)
{
    uint8_t stage = COLLECTOR_STAGE_PASSED;
    uint32_t place = 0;

    plug(store, COLLECTOR_MAX_BLOCKS);
    start(store, code, block, count, code == VERIFY ? 0 : 512 * (uint32_t)count);
    if (!passes) {
        stage = COLLECTOR_STAGE_FAILED;
    } else if (code != VERIFY && count > 0) {
        stage = code == READ ? COLLECTOR_STAGE_DATA_IN : COLLECTOR_STAGE_DATA_OUT;
        place = code == READ ? 512 * block : block;
    }
    EQUAL(store->record.stage, stage);
    EQUAL(store->record.place, place);
    EQUAL(store->unit.sense_key, passes ? 0x00 : 0x05);
    EQUAL(store->unit.sense_asc, passes ? 0x00 : 0x21);
    EQUAL(store->unit.sense_ascq, 0x00);
}

/* Address plus count does not wrap. */
static void range(store *store)
{
    static const struct {
        uint32_t block;
        uint16_t count;
        bool passes;
    } rows[] = {
        {0, 65535, true},       {4096, 1, true},        {65536, 1, true},           {983041, 65535, true},
        {1048575, 1, true},     {1048576, 0, true},     {983042, 65535, false},     {1048575, 2, false},
        {1048576, 1, false},    {1048577, 0, false},    {2097152, 1, false},        {0xFFFF0001, 65535, false},
        {0xFFFFFFFF, 0, false}, {0xFFFFFFFF, 1, false}, {0xFFFFFFFF, 65535, false},
    };

    for (size_t at = 0; at < sizeof rows / sizeof rows[0]; at++) {
        expect_range(store, READ, rows[at].block, rows[at].count, rows[at].passes);
        expect_range(store, WRITE, rows[at].block, rows[at].count, rows[at].passes);
        expect_range(store, VERIFY, rows[at].block, rows[at].count, rows[at].passes);
    }
}

/* The first two blocks, the last two, and two across 4,096, 65,536 and 524,288, where a number needs one bit more:
 * written and read back. No other block changes. */
static void far_blocks(store *store)
{
    static const uint32_t firsts[] = {0, 4095, 65535, 524287, 1048574};
    const size_t rows = sizeof firsts / sizeof firsts[0];
    size_t at, end = 0;
    uint8_t packet[64];

    plug(store, COLLECTOR_MAX_BLOCKS);
    for (at = 0; at < rows; at++) {
        start(store, WRITE, firsts[at], 2, 1024);
        for (int sent = 0; sent < 16; sent++) {
            EQUAL(store->record.place, firsts[at] + sent / 8);
            memset(packet, (int)(16 * (at + 1)) + sent, sizeof packet);
            EQUAL(send_to(store, packet, sizeof packet), COLLECTOR_ACK);
        }
        expect_end(store, PASSED);
    }
    for (at = 0; at < rows; at++) {
        start(store, READ, firsts[at], 2, 1024);
        for (int asked = 0; asked < 16; asked++) {
            EQUAL(store->record.place, (size_t)512 * firsts[at] + 64 * asked);
            memset(packet, (int)(16 * (at + 1)) + asked, sizeof packet);
            expect_data(store, packet, sizeof packet);
            CHECK(memcmp(store->medium + (size_t)512 * firsts[at] + 64 * asked, packet, sizeof packet) == 0);
        }
        expect_end(store, PASSED);
        CHECK(filled(store->medium + end, (size_t)512 * firsts[at] - end, 0));
        end = (size_t)512 * firsts[at] + 1024;
    }
    EQUAL(end, LARGEST);
}

/* The longest Read, at the end of the largest unit. */
static void long_read(store *store)
{
    const size_t first = LARGEST - 65535 * 512;

    plug(store, COLLECTOR_MAX_BLOCKS);
    start(store, READ, COLLECTOR_MAX_BLOCKS - 65535, 65535, 65535 * 512);
    for (size_t place = first; place < LARGEST; place += 64) {
        EQUAL(store->record.place, place);
        expect_data(store, store->medium + place, 64);
    }
    expect_end(store, PASSED);
}

void medium_sizes(void)
{
    store store = {.medium = calloc(ALL, 1)};

    CHECK(store.medium != NULL);
    unserved(&store);
    served(&store);
    misfits(&store);
    range(&store);
    far_blocks(&store);
    long_read(&store);
    CHECK(filled(store.medium + LARGEST, 512, 0));
    free(store.medium);
}
