/*
 * Commands of a unit whose write switch is closed (document 02, A4): what that does to a Write and to Mode Sense, that it
 * does nothing to others, and from when on a change counts.
 */
#include "write_switch.h"

#include "records.h"
#include "store.h"

#include <stdlib.h>
#include <string.h>

enum { SENSE_SIZE = 18, EVENTS = 20 };

/* Sense data: 07/27/00, which has no information, and no sense. */
#define WRITE_PROTECTED "\x70\0\x07\0\0\0\0\x0A\0\0\0\0\x27\0\0\0\0\0"
#define NO_SENSE "\x70\0\0\0\0\0\0\x0A\0\0\0\0\0\0\0\0\0\0"

/* A good Write while the switch is closed: it has no data, whatever is announced, and stores nothing; its sense is told once. */
static void expect_protected(uint32_t block, uint32_t count, uint32_t announced, uint8_t direction)
{
    const char command_block[10] = {(char)WRITE, 0, 0, 0, 0, (char)block, 0, 0, (char)count, 0};
    const uint8_t halt = announced == 0 ? 0 : direction ? COLLECTOR_FLAG_HALT_IN : COLLECTOR_FLAG_HALT_OUT;
    char residue[4];
    bench bench, before;

    for (int byte = 0; byte < 4; byte++)
        residue[byte] = (char)(announced >> 8 * byte);
    configure_at(&bench, COLLECTOR_SWITCH_CLOSED);
    before = bench;
    command(&bench, announced, direction, command_block);
    expect_stage(&bench, COLLECTOR_STAGE_FAILED, 0, 0, 0);
    expect_command(&bench, announced, announced);
    expect_unit_sense(&bench.unit, 0x07, 0x27, 0);
    EQUAL(bench.record.flags, COLLECTOR_FLAG_CONFIGURED | halt);
    EQUAL(send_packet(&bench, bench.buffer, 64), halt == COLLECTOR_FLAG_HALT_OUT ? COLLECTOR_STALL : COLLECTOR_NAK);
    if (halt == COLLECTOR_FLAG_HALT_IN) {
        EQUAL(ask(&bench), COLLECTOR_STALL);
        EQUAL(control(&bench, CLEAR_IN), COLLECTOR_ACK);
    }
    expect_status(&bench, residue, 1);
    EQUAL(control(&bench, CLEAR_OUT), COLLECTOR_ACK);
    expect_reply(&bench, REQUEST_SENSE, WRITE_PROTECTED, SENSE_SIZE);
    expect_reply(&bench, REQUEST_SENSE, NO_SENSE, SENSE_SIZE);
    CHECK(same_record(&bench.record, &before.record));
    CHECK(memcmp(bench.medium, before.medium, MEDIUM) == 0);
}

static void meetings(void)
{
    static const uint32_t lengths[] = {0, 1, 64, 511, 512, 513, 1024, 1536, 2048, 2049, UINT32_MAX};

    for (size_t at = 0; at < 2 * sizeof lengths / sizeof lengths[0]; at++)
        for (uint32_t block = 0; block <= BLOCKS; block++)
            for (uint32_t count = 0; block + count <= BLOCKS; count++)
                expect_protected(block, count, lengths[at / 2], at % 2 ? 0x80 : 0x00);
}

/* The fields come before the range and the range before the switch: every byte 1 and control byte, of a block within and outside. */
static void fields_first(void)
{
    bench bench;

    for (uint32_t at = 0; at < 2 * 65536; at++) {
        const uint8_t flags = (uint8_t)(at / 256), control_byte = (uint8_t)at, address = at / 65536 ? BLOCKS : 0;
        const char block[10] = {(char)WRITE, (char)flags, 0, 0, 0, (char)address, 0, 0, 1, (char)control_byte};

        configure_at(&bench, COLLECTOR_SWITCH_CLOSED);
        command(&bench, 0, 0x00, block);
        EQUAL(bench.record.stage, COLLECTOR_STAGE_FAILED);
        if ((flags & 0xE0) || (control_byte & 0x07))
            expect_unit_sense(&bench.unit, 0x05, 0x24, 0);
        else if (address == BLOCKS)
            expect_unit_sense(&bench.unit, 0x05, 0x21, BLOCKS);
        else
            expect_unit_sense(&bench.unit, 0x07, 0x27, 0);
    }
}

/* A Write while the switch is closed: a range failure tells its block, all else is 07/27/00. */
static void expect_refused(store *store, uint32_t blocks, uint32_t block, uint16_t count)
{
    const bool outside = (uint64_t)block + count > blocks;

    plug(store, blocks);
    EQUAL(set_switch(store, COLLECTOR_SWITCH_CLOSED), COLLECTOR_ACK);
    start(store, WRITE, block, count, 0);
    EQUAL(store->record.stage, COLLECTOR_STAGE_FAILED);
    expect_unit_sense(&store->unit, outside ? 0x05 : 0x07, outside ? 0x21 : 0x27,
                      !outside ? 0 : block > blocks ? block : blocks);
}

/* Every address and count up to 40 on every unit of up to 16 blocks; around the ends of larger ones; a sum that passes 32 bits. */
static void range_first(store *store)
{
    static const uint32_t sizes[] = {65535, 65536, 1048575, 1048576};

    for (uint32_t at = 0; at < 16 * 41 * 41; at++)
        expect_refused(store, 1 + at / (41 * 41), at / 41 % 41, (uint16_t)(at % 41));
    for (size_t at = 0; at < sizeof sizes / sizeof sizes[0]; at++) {
        const uint32_t blocks = sizes[at];

        expect_refused(store, blocks, 0, 65535);
        expect_refused(store, blocks, blocks - 65535, 65535);
        expect_refused(store, blocks, blocks - 65534, 65535);
        expect_refused(store, blocks, blocks - 1, 1);
        expect_refused(store, blocks, blocks, 0);
        expect_refused(store, blocks, blocks, 1);
        expect_refused(store, blocks, 0xFFFFFFFF, 0);
        expect_refused(store, blocks, 0xFFFFFFFF, 1);
    }
}

/* Of all codes with a block of zeros, and of these commands, a closed switch changes Write alone. */
static void other_commands(void)
{
    static const char *const blocks[] = {
        REQUEST_SENSE, INQUIRY, PAGE_00, PAGE_80, PAGE_83, ALLOW_REMOVAL, READ_CAPACITY, READ_TWO_FROM_ONE,
        VERIFY_TWO_FROM_ONE, WRITE_TWO_FROM_ONE,
    };
    const unsigned count = sizeof blocks / sizeof blocks[0];

    for (unsigned at = 0; at < 256 + count; at++) {
        const char code[10] = {(char)at}, *block = at < 256 ? code : blocks[at - 256];
        bench open, closed;

        configure_at(&open, COLLECTOR_SWITCH_OPEN);
        configure_at(&closed, COLLECTOR_SWITCH_CLOSED);
        command(&open, 1024, 0x80, block);
        command(&closed, 1024, 0x80, block);
        EQUAL(same_but_switch(&open, &closed), (uint8_t)block[0] != WRITE);
    }
}

/* Mode Sense at each allocation length. The data is of the position that the wrapper found, also where the switch is moved then. */
static void mode_sense(void)
{
    char block[10] = MODE_SENSE;
    bench bench;

    for (int at = 0; at < 2 * POSITIONS * 256; at++) {
        const uint8_t position = (uint8_t)(at / 256 % POSITIONS), later = (uint8_t)(at / 256 / POSITIONS);
        const uint32_t allocated = (uint32_t)at % 256, sent = allocated < MODE_SIZE ? allocated : MODE_SIZE;

        configure_at(&bench, position);
        block[4] = (char)allocated;
        command(&bench, sent, 0x80, block);
        if (sent)
            expect_stage(&bench, COLLECTOR_STAGE_MODE_SENSE, 0, sent, position);
        EQUAL(turn_switch(&bench, later), COLLECTOR_ACK);
        if (sent) {
            EQUAL(data_in(&bench), sent);
            CHECK(memcmp(bench.buffer, mode_data[position], sent) == 0);
        }
        expect_status(&bench, "\x00\x00\x00\x00", 0);
        expect_reply(&bench, MODE_SENSE, mode_data[later], MODE_SIZE);
    }
}

/* The next event of a command under way: its data out, an ask, or the clearing of the halt that the ask met. */
static uint32_t go_on(bench *bench, bool halted)
{
    if (bench->record.stage == COLLECTOR_STAGE_DATA_OUT)
        return send_packet(bench, bench->medium + MEDIUM - 64, 64);
    return halted ? control(bench, CLEAR_IN) : ask(bench);
}

/* A command of less than EVENTS events. Moved before one of them, the switch changes none of the command; the next Write sees it. */
static void expect_later(const char *block, uint32_t announced, uint8_t direction, uint8_t position, int moved)
{
    const uint8_t other = !position;
    bench plain, bench;
    uint32_t answer = COLLECTOR_ACK;

    configure_at(&plain, position);
    bench = plain;
    command(&plain, announced, direction, block);
    command(&bench, announced, direction, block);
    for (int event = 0; event < EVENTS && plain.record.stage != COLLECTOR_STAGE_READY; event++) {
        const bool halted = answer == COLLECTOR_STALL;

        if (event == moved)
            EQUAL(turn_switch(&bench, other), COLLECTOR_ACK);
        answer = go_on(&plain, halted);
        EQUAL(go_on(&bench, halted), answer);
        CHECK(same_but_switch(&plain, &bench));
    }
    EQUAL(plain.record.stage, COLLECTOR_STAGE_READY);
    EQUAL(turn_switch(&bench, other), COLLECTOR_ACK);
    EQUAL(control(&bench, MASS_STORAGE_RESET), COLLECTOR_ACK);
    EQUAL(control(&bench, CLEAR_OUT), COLLECTOR_ACK);
    command(&bench, 1024, 0x00, WRITE_TWO_FROM_ONE);
    EQUAL(bench.record.stage, other ? COLLECTOR_STAGE_FAILED : COLLECTOR_STAGE_DATA_OUT);
}

static void changes(void)
{
    static const struct {
        const char *block;
        uint32_t announced;
        uint8_t direction;
    } rows[] = {
        {WRITE_TWO_FROM_ONE, 1024, 0x00}, {WRITE_TWO_FROM_ONE, 1536, 0x00}, {WRITE_TWO_FROM_ONE, 0, 0x00},
        {WRITE_TWO_FROM_ONE, 1024, 0x80}, {READ_TWO_FROM_ONE, 1024, 0x80},  {READ_TWO_FROM_ONE, 1536, 0x80},
        {MODE_SENSE, 4, 0x80},            {MODE_SENSE, 192, 0x80},          {INQUIRY, 36, 0x80},
        {INQUIRY, 18, 0x80},              {PAGE_83, 255, 0x80},             {REQUEST_SENSE, 18, 0x80},
        {READ_CAPACITY, 8, 0x80},         {TEST_UNIT_READY, 0, 0x00},       {UNKNOWN_CODE, 0, 0x00},
    };

    for (size_t at = 0; at < POSITIONS * sizeof rows / sizeof rows[0]; at++)
        for (int moved = 0; moved < EVENTS; moved++)
            expect_later(rows[at / POSITIONS].block, rows[at / POSITIONS].announced, rows[at / POSITIONS].direction,
                         at % POSITIONS, moved);
}

/* Two blocks, the switch closed between the ninth packet and the tenth: both are stored, and then nothing until it is opened. */
static void stored(void)
{
    bench bench;
    uint8_t packet[64];

    configure(&bench);
    memset(packet, 0x5A, sizeof packet);
    for (int round = 0; round < 2; round++) {
        EQUAL(turn_switch(&bench, COLLECTOR_SWITCH_OPEN), COLLECTOR_ACK);
        memset(bench.medium, 0, MEDIUM);
        command(&bench, 1024, 0x00, WRITE_TWO_FROM_ONE);
        for (int sent = 0; sent < 16; sent++) {
            if (sent == 9)
                EQUAL(turn_switch(&bench, COLLECTOR_SWITCH_CLOSED), COLLECTOR_ACK);
            EQUAL(send_packet(&bench, packet, sizeof packet), COLLECTOR_ACK);
        }
        expect_status(&bench, "\x00\x00\x00\x00", 0);
        expect_unit_sense(&bench.unit, 0x00, 0x00, 0);
        CHECK(filled(bench.medium, 512, 0) && filled(bench.medium + 512, 1024, 0x5A) && filled(bench.medium + 1536, 512, 0));
        command(&bench, 1024, 0x00, WRITE_TWO_FROM_ONE);
        EQUAL(send_packet(&bench, packet, sizeof packet), COLLECTOR_STALL);
        EQUAL(control(&bench, CLEAR_OUT), COLLECTOR_ACK);
        expect_status(&bench, "\x00\x04\x00\x00", 1);
        expect_unit_sense(&bench.unit, 0x07, 0x27, 0);
    }
}

void write_switch_commands(void)
{
    store store = {.medium = calloc(COLLECTOR_MAX_BLOCKS, COLLECTOR_BLOCK_SIZE)};

    CHECK(store.medium != NULL);
    range_first(&store);
    free(store.medium);
    meetings();
    fields_first();
    other_commands();
    mode_sense();
    changes();
    stored();
}
