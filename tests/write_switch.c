/*
 * The write switch (document 02, A4): the event that sets it, and that nothing else moves it; and records that hold it.
 */
#include "write_switch.h"

#include "records.h"

#include <string.h>

const char *const mode_data[POSITIONS] = {"\x03\x00\x00\x00", "\x03\x00\x80\x00"};

bool same_but_switch(const bench *a, const bench *b)
{
    bench moved = *a;

    moved.unit.write_switch = b->unit.write_switch;
    return same(&moved, b);
}

void configure_at(bench *bench, uint8_t position)
{
    configure(bench);
    EQUAL(turn_switch(bench, position), COLLECTOR_ACK);
}

void expect_reply(bench *bench, const char *block, const char *data, uint32_t size)
{
    command(bench, size, 0x80, block);
    EQUAL(data_in(bench), size);
    CHECK(memcmp(bench->buffer, data, size) == 0);
    expect_status(bench, "\x00\x00\x00\x00", 0);
}

/* In this state both positions are set and acked, any other is refused, and nothing else changes. */
static void expect_set(const bench *reached)
{
    for (int at = 0; at < POSITIONS * 256; at++) {
        const uint8_t before = (uint8_t)(at / 256), position = (uint8_t)(at % 256);
        bench bench = *reached;

        EQUAL(turn_switch(&bench, before), COLLECTOR_ACK);
        EQUAL(bench.unit.write_switch, before);
        EQUAL(turn_switch(&bench, position), position < POSITIONS ? COLLECTOR_ACK : COLLECTOR_BAD_RECORD);
        EQUAL(bench.unit.write_switch, position < POSITIONS ? position : before);
        CHECK(same_but_switch(&bench, reached));
    }
}

/* An event of this number, from 0 on; UINT32_MAX past the last. A packet of 4 bytes or of 64 is no good wrapper. */
static uint32_t event_of(bench *bench, unsigned event)
{
    static const char *const setups[] = {
        SET_CONFIGURATION,
        MASS_STORAGE_RESET,
        CLEAR_IN,
        CLEAR_OUT,
        SET_IN,
        SET_OUT,
        GET_MAX_LUN,
        SET_NO_CONFIGURATION,
        "\x00\x09\x02\x00\x00\x00\x00\x00",     /* .. 2, which stalls */
        "\x00\x05\x05\x00\x00\x00\x00\x00",     /* Set Address */
        "\x80\x08\x00\x00\x00\x00\x01\x00",     /* Get Configuration */
        "\x80\x06\x00\x01\x00\x00\x12\x00",     /* Get Descriptor */
        "\x82\x00\x00\x00\x02\x00\x02\x00",     /* Get Status */
    };
    const unsigned count = sizeof setups / sizeof setups[0];

    if (event < count)
        return control(bench, setups[event]);
    switch (event - count) {
    case 0:
        return reset(bench);
    case 1:
        return send_packet(bench, "USBC", 4);
    case 2:
        return send_packet(bench, bench->medium, 64);
    case 3:
        return ask(bench);
    default:
        return UINT32_MAX;
    }
}

/* In this state every event is answered alike with the switch open and closed, and leaves it where it is. */
static void expect_unmoved(const bench *reached)
{
    uint32_t answer;
    unsigned event = 0;

    do {
        bench open = *reached, closed = *reached;

        EQUAL(turn_switch(&open, COLLECTOR_SWITCH_OPEN), COLLECTOR_ACK);
        EQUAL(turn_switch(&closed, COLLECTOR_SWITCH_CLOSED), COLLECTOR_ACK);
        answer = event_of(&open, event);
        EQUAL(event_of(&closed, event), answer);
        EQUAL(open.unit.write_switch, COLLECTOR_SWITCH_OPEN);
        EQUAL(closed.unit.write_switch, COLLECTOR_SWITCH_CLOSED);
        CHECK(same_but_switch(&open, &closed));
        event++;
    } while (answer != UINT32_MAX);
}

static void expect_both(const bench *reached)
{
    expect_set(reached);
    expect_unmoved(reached);
}

/* Unconfigured, in each stage, with both pipes halted by the host, with a sense, locked. */
void write_switch_events(void)
{
    bench bench;

    make(&bench);
    expect_both(&bench);
    for (unsigned stage = 0; stage < STAGES; stage++) {
        reach(&bench, stage);
        expect_both(&bench);
        EQUAL(control(&bench, SET_IN), COLLECTOR_ACK);
        EQUAL(control(&bench, SET_OUT), COLLECTOR_ACK);
        expect_both(&bench);
    }
    configure(&bench);
    command(&bench, 0, 0x00, "\x28\x00\x01\x02\x03\x04\x00\x00\x00\x00");
    expect_status(&bench, "\x00\x00\x00\x00", 1);
    expect_unit_sense(&bench.unit, 0x05, 0x21, 0x01020304);
    expect_both(&bench);
    EQUAL(send_packet(&bench, "USBC", 4), COLLECTOR_STALL);
    EQUAL(bench.record.flags, 15);
    expect_both(&bench);
    /* Only making moves it: it opens the switch. */
    EQUAL(turn_switch(&bench, COLLECTOR_SWITCH_CLOSED), COLLECTOR_ACK);
    EQUAL(number_of(collector_make(&bench.record, 42, 1, 2, 3, &bench.unit, 1, bench.medium, MEDIUM)), COLLECTOR_ACK);
    EQUAL(bench.unit.write_switch, COLLECTOR_SWITCH_OPEN);
}

/* A record in the middle of Mode Sense's data, whatever its own switch: the bytes are of the position that it tells. */
static void expect_record(uint8_t position, uint32_t told, uint32_t place, uint32_t left)
{
    bench bench;

    configure(&bench);
    command(&bench, 64, 0x80, MODE_SENSE);
    bench.unit.write_switch = position;
    bench.record.value = told;
    bench.record.place = place;
    bench.record.left = left;
    if (place + left > MODE_SIZE) {
        refused(&bench);
        return;
    }
    EQUAL(send_packet(&bench, bench.buffer, 64), COLLECTOR_NAK);
    if (left == 0) {
        EQUAL(ask(&bench), COLLECTOR_NAK);
        return;
    }
    EQUAL(data_in(&bench), left);
    CHECK(memcmp(bench.buffer, mode_data[told] + place, left) == 0);
    expect_stage(&bench, COLLECTOR_STAGE_PASSED, 0, 0, 0);
    expect_command(&bench, 64, 64 - left);
    EQUAL(bench.unit.write_switch, position);
}

/* An unconfigured device may have it closed: the bulk pipes are silent as ever, and once configured it fails a Write. */
static void unconfigured(void)
{
    bench bench, before;

    make(&bench);
    bench.unit.write_switch = COLLECTOR_SWITCH_CLOSED;
    before = bench;
    EQUAL(ask(&bench), COLLECTOR_SILENT);
    EQUAL(send_packet(&bench, bench.buffer, 64), COLLECTOR_SILENT);
    EQUAL(control(&bench, GET_MAX_LUN), COLLECTOR_STALL);
    EQUAL(reset(&bench), COLLECTOR_ACK);
    CHECK(same(&bench, &before));
    EQUAL(control(&bench, SET_CONFIGURATION), COLLECTOR_ACK);
    EQUAL(bench.unit.write_switch, COLLECTOR_SWITCH_CLOSED);
    command(&bench, 0, 0x00, WRITE_TWO_FROM_ONE);
    expect_unit_sense(&bench.unit, 0x07, 0x27, 0);
}

/* The reserved bytes of the unit are no part of it. */
static void beside_reserved(uint8_t value)
{
    bench bench;

    configure(&bench);
    for (uint8_t position = 0; position < POSITIONS; position++) {
        bench.unit.reserved0 = value;
        memset(bench.unit.reserved1, value, sizeof bench.unit.reserved1);
        EQUAL(turn_switch(&bench, position), COLLECTOR_ACK);
        bench.unit.reserved0 = value;
        memset(bench.unit.reserved1, value, sizeof bench.unit.reserved1);
        expect_reply(&bench, MODE_SENSE, mode_data[position], MODE_SIZE);
    }
}

void write_switch_records(void)
{
    for (uint32_t at = 0; at < POSITIONS * POSITIONS * 6 * 6; at++)
        expect_record(at % POSITIONS, at / POSITIONS % POSITIONS, at / 4 % 6, at / 4 / 6);
    for (int value = 0; value < 256; value++)
        beside_reserved((uint8_t)value);
    unconfigured();
}
