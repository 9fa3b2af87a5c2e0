/*
 * A device with all that is lent to it, the events on it, and the checks of the tests.
 */
#include "bench.h"

#include <stdio.h>
#include <stdlib.h>
#include <string.h>

unsigned checks;

void equal(uint64_t actual, uint64_t expected, const char *text, const char *file, int line)
{
    checks++;
    if (actual == expected)
        return;
    printf("interface: FAILED at %s:%d: %s is %llu, not %llu\n", file, line, text, (unsigned long long)actual,
           (unsigned long long)expected);
    exit(1);
}

bool same_record(const collector_record *a, const collector_record *b)
{
    collector_record both[2] = {*a, *b};

    both[0].reserved0 = both[1].reserved0 = 0;
    return memcmp(&both[0], &both[1], sizeof both[0]) == 0;
}

bool same_unit(const collector_unit *a, const collector_unit *b)
{
    return a->first == b->first && a->blocks == b->blocks && a->sense_key == b->sense_key &&
           a->sense_asc == b->sense_asc && a->sense_ascq == b->sense_ascq &&
           a->sense_information == b->sense_information && a->write_switch == b->write_switch;
}

bool same(const bench *a, const bench *b)
{
    return same_record(&a->record, &b->record) && same_unit(&a->unit, &b->unit) &&
           memcmp(a->medium, b->medium, sizeof a->medium) == 0 && memcmp(a->buffer, b->buffer, sizeof a->buffer) == 0;
}

bool filled(const uint8_t *bytes, size_t length, uint8_t value)
{
    return length == 0 || (bytes[0] == value && memcmp(bytes, bytes + 1, length - 1) == 0);
}

uint32_t number_of(collector_answer answer)
{
    CHECK(answer.number == COLLECTOR_DATA || answer.count == 0);
    return answer.number;
}

uint32_t number_shown(collector_shown shown)
{
    const bool none = shown.source == COLLECTOR_SOURCE_NONE && shown.start == 0 && shown.count == 0;

    CHECK(shown.number == COLLECTOR_DATA || none);
    return shown.number;
}

uint32_t reset(bench *bench)
{
    return number_of(collector_bus_reset(&bench->record, &bench->unit, 1));
}

uint32_t control(bench *bench, const char *setup)
{
    return number_of(collector_control(&bench->record, &bench->unit, 1, (const uint8_t *)setup, 8, bench->buffer, 64));
}

uint32_t send_packet(bench *bench, const void *packet, size_t length)
{
    return number_of(collector_bulk_out(&bench->record, &bench->unit, 1, bench->medium, MEDIUM, packet, length));
}

size_t data_in(bench *bench)
{
    uint8_t *buffer = bench->buffer;
    const size_t size = sizeof bench->buffer;
    collector_answer answer;

    memset(buffer, FILL, size);
    answer = collector_bulk_in(&bench->record, &bench->unit, 1, bench->medium, MEDIUM, buffer, size);
    EQUAL(answer.number, COLLECTOR_DATA);
    CHECK(filled(buffer + answer.count, size - answer.count, FILL));
    return answer.count;
}

uint32_t ask(bench *bench)
{
    return number_of(collector_bulk_in(&bench->record, &bench->unit, 1, bench->medium, MEDIUM, bench->buffer, 64));
}

uint32_t show(bench *bench, const void *reply, size_t length)
{
    return number_shown(
        collector_show(&bench->record, &bench->unit, 1, bench->medium, MEDIUM, (const uint8_t *)reply, length));
}

uint32_t tell_reply(bench *bench)
{
    return number_of(collector_reply(&bench->record, &bench->unit, 1, bench->buffer, 64));
}

uint32_t turn_switch(bench *bench, uint8_t position)
{
    return number_of(collector_set_switch(&bench->record, &bench->unit, 1, position, 0));
}

void make(bench *bench)
{
    memset(bench, FILL, sizeof *bench);
    for (size_t at = 0; at < MEDIUM; at++)
        bench->medium[at] = (uint8_t)(at / 64);
    bench->unit.first = 0;
    bench->unit.blocks = BLOCKS;
    EQUAL(number_of(collector_make(&bench->record, 42, 0x1209, 0x0001, 0x0100, &bench->unit, 1, bench->medium, MEDIUM)),
          COLLECTOR_ACK);
}

void configure(bench *bench)
{
    make(bench);
    EQUAL(control(bench, SET_CONFIGURATION), COLLECTOR_ACK);
}

void wrapper(uint8_t packet[31], uint32_t announced, uint8_t direction, const char *block)
{
    memset(packet, 0, 31);
    memcpy(packet, "USBC\x01\x02\x03\x04", 8);
    for (int byte = 0; byte < 4; byte++)
        packet[8 + byte] = (uint8_t)(announced >> 8 * byte);
    packet[12] = direction;
    packet[14] = 10;
    memcpy(packet + 15, block, 10);
}

void command(bench *bench, uint32_t announced, uint8_t direction, const char *block)
{
    uint8_t packet[31];

    wrapper(packet, announced, direction, block);
    EQUAL(send_packet(bench, packet, sizeof packet), COLLECTOR_ACK);
}

void expect_command(const bench *bench, uint32_t announced, uint32_t residue)
{
    EQUAL(bench->record.tag, 0x04030201);
    EQUAL(bench->record.announced, announced);
    EQUAL(bench->record.residue, residue);
}

void expect_stage(const bench *bench, uint8_t stage, uint32_t place, uint32_t left, uint32_t value)
{
    EQUAL(bench->record.stage, stage);
    EQUAL(bench->record.place, place);
    EQUAL(bench->record.left, left);
    EQUAL(bench->record.value, value);
    EQUAL(bench->record.extra, 0);
}

void expect_unit_sense(const collector_unit *unit, uint8_t key, uint8_t asc, uint32_t information)
{
    EQUAL(unit->sense_key, key);
    EQUAL(unit->sense_asc, asc);
    EQUAL(unit->sense_ascq, 0x00);
    EQUAL(unit->sense_information, information);
}

void expect_status(bench *bench, const char *residue, uint8_t status)
{
    EQUAL(data_in(bench), 13);
    CHECK(memcmp(bench->buffer, "USBS\x01\x02\x03\x04", 8) == 0);
    CHECK(memcmp(bench->buffer + 8, residue, 4) == 0);
    EQUAL(bench->buffer[12], status);
    expect_stage(bench, COLLECTOR_STAGE_READY, 0, 0, 0);
    EQUAL(bench->record.tag, 0);
    EQUAL(bench->record.announced, 0);
    EQUAL(bench->record.residue, 0);
    EQUAL(bench->record.unit, 0);
}
