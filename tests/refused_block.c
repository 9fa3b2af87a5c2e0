/*
 * The block that a range failure tells (document 02, A8): which it is, in the record and in Request Sense's data, when it is gone, and
 * records that hold one.
 */
#include "refused_block.h"

#include "bench.h"
#include "records.h"
#include "store.h"

#include <stdlib.h>
#include <string.h>

static const uint8_t codes[] = {READ, WRITE, VERIFY};

enum { CODES = sizeof codes, SENSE_SIZE = 18 };

/* Sense data: of a range failure with its block, of any other sense with zeros. */
static void sense_data(uint8_t data[SENSE_SIZE], uint8_t key, uint8_t asc, uint8_t ascq, uint32_t information)
{
    const bool range = key == 0x05 && asc == 0x21 && ascq == 0x00;

    memset(data, 0, SENSE_SIZE);
    data[0] = range ? 0xF0 : 0x70;
    data[2] = key;
    for (int byte = 0; byte < 4 && range; byte++)
        data[3 + byte] = (uint8_t)(information >> (24 - 8 * byte));
    data[7] = 0x0A;
    data[12] = asc;
    data[13] = ascq;
}

/* Request Sense, whole: these bytes, and then no sense. */
static void expect_sense(store *store, const uint8_t data[SENSE_SIZE])
{
    uint8_t packet[31];

    wrapper(packet, SENSE_SIZE, 0x80, REQUEST_SENSE);
    EQUAL(send_to(store, packet, sizeof packet), COLLECTOR_ACK);
    expect_unit_sense(&store->unit, 0x00, 0x00, 0);
    expect_data(store, data, SENSE_SIZE);
    EQUAL(store->record.extra, 0);
    expect_end(store, PASSED);
}

/* A command that announces nothing: a range failure tells this block, and tells it once. */
static void expect_told(store *store, uint8_t code, uint32_t block, uint16_t count, uint32_t number)
{
    uint8_t told[SENSE_SIZE], none[SENSE_SIZE];

    sense_data(told, 0x05, 0x21, 0x00, number);
    sense_data(none, 0x00, 0x00, 0x00, 0);
    start(store, code, block, count, 0);
    EQUAL(store->record.stage, COLLECTOR_STAGE_FAILED);
    EQUAL(store->record.extra, 0);
    expect_unit_sense(&store->unit, 0x05, 0x21, number);
    expect_end(store, FAILED);
    expect_unit_sense(&store->unit, 0x05, 0x21, number);
    expect_sense(store, told);
    expect_sense(store, none);
}

/* "Address 120, count 10, 128 blocks gives 00 00 00 80": the paper's own bytes. */
static void paper(store *store)
{
    static const uint8_t data[SENSE_SIZE] = {0xF0, 0, 0x05, 0x00, 0x00, 0x00, 0x80, 0x0A, 0, 0, 0, 0, 0x21};

    for (int code = 0; code < CODES; code++) {
        plug(store, 128);
        start(store, codes[code], 120, 10, 0);
        EQUAL(store->unit.sense_information, 128);
        expect_end(store, FAILED);
        expect_sense(store, data);
    }
}

/* Blocks around the ends of small and large units, each bit of an address, and sums that pass 32 bits. */
static void numbers(store *store)
{
    static const uint32_t sizes[] = {1, 2, 127, 128, 65535, 65536, 1048575, 1048576};

    for (size_t at = 0; at < CODES * sizeof sizes / sizeof sizes[0]; at++) {
        const uint8_t code = codes[at % CODES];
        const uint32_t blocks = sizes[at / CODES];

        plug(store, blocks);
        expect_told(store, code, blocks - 1, 2, blocks);
        expect_told(store, code, blocks - 1, 65535, blocks);
        expect_told(store, code, blocks, 1, blocks);
        expect_told(store, code, blocks + 1, 0, blocks + 1);
        expect_told(store, code, blocks + 1, 1, blocks + 1);
        expect_told(store, code, 0xFFFFFFFF, 0, 0xFFFFFFFF);
        expect_told(store, code, 0xFFFFFFFF, 1, 0xFFFFFFFF);
        expect_told(store, code, 0xFFFF0001, 65535, 0xFFFF0001);
        if (blocks < 65535)
            expect_told(store, code, 0, 65535, blocks);
        for (int bit = 21; bit < 32; bit++)
            expect_told(store, code, (uint32_t)1 << bit, 0, (uint32_t)1 << bit);
    }
}

/* Every address and count up to 40 on every unit of up to 16 blocks. */
static void every_number(store *store)
{
    for (uint32_t blocks = 1; blocks <= 16; blocks++)
        for (uint32_t at = 0; at < CODES * 41 * 41; at++) {
            const uint32_t block = at / CODES % 41, count = at / CODES / 41;
            const bool passes = block + count <= blocks;

            plug(store, blocks);
            if (!passes) {
                expect_told(store, codes[at % CODES], block, (uint16_t)count, block > blocks ? block : blocks);
                continue;
            }
            start(store, codes[at % CODES], block, (uint16_t)count, 512 * 16);
            expect_unit_sense(&store->unit, 0x00, 0x00, 0);
        }
}

/* Leaves a range failure with the number 01020304 hex in a configured bench. */
static void fail(bench *bench)
{
    configure(bench);
    command(bench, 0, 0x00, "\x28\x00\x01\x02\x03\x04\x00\x00\x00\x00");
    expect_unit_sense(&bench->unit, 0x05, 0x21, 0x01020304);
    expect_status(bench, "\x00\x00\x00\x00", 1);
}

/* Request Sense cut to each allocation length: what fits is sent, and the sense is gone. */
static void cuts(void)
{
    uint8_t told[SENSE_SIZE];
    char block[10] = REQUEST_SENSE;
    bench bench;

    sense_data(told, 0x05, 0x21, 0x00, 0x01020304);
    for (int allocated = 0; allocated < 256; allocated++) {
        const int sent = allocated < SENSE_SIZE ? allocated : SENSE_SIZE;

        fail(&bench);
        block[4] = (char)allocated;
        command(&bench, (uint32_t)sent, 0x80, block);
        expect_unit_sense(&bench.unit, 0x00, 0x00, 0);
        EQUAL(bench.record.extra, sent ? 0x01020304 : 0);
        if (sent) {
            EQUAL(data_in(&bench), sent);
            CHECK(memcmp(bench.buffer, told, (size_t)sent) == 0);
        }
        expect_status(&bench, "\x00\x00\x00\x00", 0);
    }
}

/* The number goes with the sense: with the next command, passed or failed, and with each drop; it stays where the sense does. */
static void gone(void)
{
    static const struct {
        const char *block;
        uint8_t key, asc;
        uint32_t information;
    } rows[] = {
        {TEST_UNIT_READY, 0x00, 0x00, 0},     {ALLOW_REMOVAL, 0x00, 0x00, 0},
        {INQUIRY, 0x05, 0x21, 0x01020304},    {READ_CAPACITY, 0x05, 0x21, 0x01020304},
        {REQUEST_SENSE, 0x05, 0x21, 0x01020304}, {READ_TWO_FROM_ONE, 0x05, 0x21, 0x01020304},
        {VERIFY_TWO_FROM_ONE, 0x00, 0x00, 0}, {UNKNOWN_CODE, 0x05, 0x20, 0},
        {"\x28\x20\x01\x02\x03\x04\x00\x00\x00\x00", 0x05, 0x24, 0},
        {"\x28\x00\x01\x02\x03\x04\x00\x00\x00\x04", 0x05, 0x24, 0},
        {"\x2A\x00\x00\x00\x00\x03\x00\x00\x02\x00", 0x05, 0x21, BLOCKS},
    };
    static const char *const drops[] = {MASS_STORAGE_RESET, SET_CONFIGURATION, SET_NO_CONFIGURATION};
    bench bench;

    /* Nothing is announced: a command that has data meets a phase error, which leaves sense and number. */
    for (size_t at = 0; at < sizeof rows / sizeof rows[0]; at++) {
        fail(&bench);
        command(&bench, 0, 0x00, rows[at].block);
        expect_unit_sense(&bench.unit, rows[at].key, rows[at].asc, rows[at].information);
    }
    for (size_t at = 0; at < sizeof drops / sizeof drops[0]; at++) {
        fail(&bench);
        EQUAL(control(&bench, drops[at]), COLLECTOR_ACK);
        expect_unit_sense(&bench.unit, 0x00, 0x00, 0);
    }
    fail(&bench);
    EQUAL(reset(&bench), COLLECTOR_ACK);
    expect_unit_sense(&bench.unit, 0x00, 0x00, 0);
    fail(&bench);
    EQUAL(control(&bench, CLEAR_IN), COLLECTOR_ACK);
    EQUAL(send_packet(&bench, "USBC", 4), COLLECTOR_STALL);
    expect_unit_sense(&bench.unit, 0x05, 0x21, 0x01020304);
}

void refused_blocks(void)
{
    store store = {.medium = calloc(COLLECTOR_MAX_BLOCKS, COLLECTOR_BLOCK_SIZE)};

    CHECK(store.medium != NULL);
    paper(&store);
    numbers(&store);
    every_number(&store);
    free(store.medium);
    cuts();
    gone();
}

/* A record that holds this sense, in its unit and as the one that is sent: the block is told of 05/21/00 alone. */
static void expect_lent(uint8_t key, uint8_t asc, uint8_t ascq, uint32_t information)
{
    uint8_t data[SENSE_SIZE];
    bench bench;

    sense_data(data, key, asc, ascq, information);
    configure(&bench);
    bench.unit.sense_key = key;
    bench.unit.sense_asc = asc;
    bench.unit.sense_ascq = ascq;
    bench.unit.sense_information = information;
    command(&bench, SENSE_SIZE, 0x80, REQUEST_SENSE);
    EQUAL(bench.record.stage, COLLECTOR_STAGE_REQUEST_SENSE);
    EQUAL(bench.record.value, key + 256u * asc + 65536u * ascq);
    EQUAL(bench.record.extra, information);
    EQUAL(data_in(&bench), SENSE_SIZE);
    CHECK(memcmp(bench.buffer, data, SENSE_SIZE) == 0);
    expect_unit_sense(&bench.unit, 0x00, 0x00, 0);
    expect_status(&bench, "\x00\x00\x00\x00", 0);
}

/* An event that changes no sense keeps the number too: data, status, a packet where none is due, a broken wrapper. */
static void expect_kept(unsigned stage)
{
    for (int packet = 0; packet < 2; packet++) {
        bench plain, bench;

        reach(&plain, stage);
        plain.unit.sense_key = 0x05;
        plain.unit.sense_asc = 0x21;
        plain.unit.sense_ascq = 0x00;
        plain.unit.sense_information = 0;
        bench = plain;
        bench.unit.sense_information = 0x01020304;
        if (packet)
            EQUAL(send_packet(&bench, bench.buffer, 64), send_packet(&plain, plain.buffer, 64));
        else
            EQUAL(ask(&bench), ask(&plain));
        EQUAL(bench.unit.sense_information, 0x01020304);
        bench.unit.sense_information = 0;
        CHECK(same(&bench, &plain));
    }
}

void refused_block_records(void)
{
    for (int value = 0; value < 256; value++) {
        expect_lent((uint8_t)value, 0x21, 0x00, 0x01020304);
        expect_lent(0x05, (uint8_t)value, 0x00, 0x01020304);
        expect_lent(0x05, 0x21, (uint8_t)value, 0x01020304);
    }
    expect_lent(0x00, 0x00, 0x00, UINT32_MAX);
    expect_lent(0x05, 0x21, 0x00, 0);
    for (int bit = 0; bit < 32; bit++)
        expect_lent(0x05, 0x21, 0x00, (uint32_t)1 << bit);
    for (unsigned stage = 0; stage < STAGES; stage++)
        expect_kept(stage);
    /* An unconfigured record has no sense at all. */
    for (int bit = 0; bit < 32; bit++) {
        bench damaged;

        make(&damaged);
        damaged.unit.sense_information = (uint32_t)1 << bit;
        refused(&damaged);
    }
}
