/*
 * The C interface as C sees it: the layout of record and unit, every function, every number, and what a call leaves unchanged.
 * Exit status 1 at the first failure.
 */
#include "bench.h"
#include "ledger.h"
#include "medium_size.h"
#include "product_pages.h"
#include "records.h"
#include "refused_block.h"
#include "several_units.h"
#include "showing.h"
#include "tables.h"
#include "write_switch.h"

#include <inttypes.h>
#include <stdio.h>
#include <string.h>

static void layout(void)
{
    EQUAL(sizeof(collector_record), 560);
    EQUAL(_Alignof(collector_record), 8);
    EQUAL(sizeof(collector_unit), 20);
    EQUAL(_Alignof(collector_unit), 4);
    EQUAL(sizeof(collector_answer), 16);
    EQUAL(offsetof(collector_answer, number), 0);
    EQUAL(offsetof(collector_answer, count), 8);
    EQUAL(sizeof(collector_shown), 24);
    EQUAL(_Alignof(collector_shown), 8);
#define IN(type, field, place, size)            \
    EQUAL(offsetof(type, field), place);        \
    EQUAL(sizeof((type *)0)->field, size)
#define AT(field, place, size) IN(collector_record, field, place, size)
    AT(number, 0, 8);
    AT(vendor, 8, 2);
    AT(product, 10, 2);
    AT(release, 12, 2);
    AT(reserved0, 14, 2);
    AT(residue, 16, 4);
    AT(place, 20, 4);
    AT(left, 24, 4);
    AT(value, 28, 4);
    AT(extra, 32, 4);
    AT(tag, 36, 4);
    AT(announced, 40, 4);
    AT(stage, 44, 1);
    AT(flags, 45, 1);
    AT(address, 46, 1);
    AT(unit, 47, 1);
    AT(part, 48, 512);
#undef AT
#define AT(field, place, size) IN(collector_unit, field, place, size)
    AT(first, 0, 4);
    AT(blocks, 4, 4);
    AT(sense_key, 8, 1);
    AT(sense_asc, 9, 1);
    AT(sense_ascq, 10, 1);
    AT(reserved0, 11, 1);
    AT(sense_information, 12, 4);
    AT(write_switch, 16, 1);
    AT(reserved1, 17, 3);
#undef AT
#define AT(field, place, size) IN(collector_shown, field, place, size)
    AT(number, 0, 4);
    AT(source, 4, 4);
    AT(start, 8, 8);
    AT(count, 16, 8);
#undef AT
#undef IN
}

static uint32_t make_number(bench *bench, uint64_t number)
{
    return number_of(collector_make(&bench->record, number, 1, 2, 3, &bench->unit, 1, bench->medium, MEDIUM));
}

static void making(void)
{
    static const collector_record zero;
    static const collector_record fresh = {.number = 42, .vendor = 0x1209, .product = 0x0001, .release = 0x0100};
    static const collector_unit whole = {.first = 0, .blocks = BLOCKS};
    bench bench;

    make(&bench);
    CHECK(same_record(&bench.record, &fresh));
    CHECK(same_unit(&bench.unit, &whole));
    memset(&bench.record, FILL, sizeof bench.record);
    EQUAL(make_number(&bench, COLLECTOR_MAX_NUMBER + 1), COLLECTOR_BAD_NUMBER);
    CHECK(same_record(&bench.record, &zero));
    CHECK(same_unit(&bench.unit, &whole));
    EQUAL(make_number(&bench, COLLECTOR_MAX_NUMBER), COLLECTOR_ACK);
    EQUAL(bench.record.number, 999999999999);
}

/* Numbers 10 to 14 in their order, and silence after them; nothing changes. */
static void refusals(void)
{
    static uint8_t other[MEDIUM + 512];
    static const size_t bad[] = {0, MEDIUM - 1, MEDIUM - 512, MEDIUM + 512};
    bench bench, before;
    collector_record *record = &bench.record;
    collector_unit *unit = &bench.unit;
    uint8_t packet[65] = {0};

    make(&bench);
    before = bench;
    for (size_t at = 0; at < sizeof bad / sizeof bad[0]; at++) {
        EQUAL(number_of(collector_bulk_out(record, unit, 1, other, bad[at], packet, 65)), COLLECTOR_BAD_MEDIUM);
        EQUAL(number_of(collector_bulk_in(record, unit, 1, other, bad[at], bench.buffer, 63)), COLLECTOR_BAD_MEDIUM);
    }
    EQUAL(number_of(collector_bulk_in(record, unit, 1, bench.medium, MEDIUM, bench.buffer, 63)), COLLECTOR_SHORT_BUFFER);
    EQUAL(number_of(collector_bulk_out(record, unit, 1, bench.medium, MEDIUM, packet, 65)), COLLECTOR_LONG_PACKET);
    EQUAL(number_of(collector_control(record, unit, 1, packet, 7, bench.buffer, 63)), COLLECTOR_SHORT_BUFFER);
    EQUAL(number_of(collector_control(record, unit, 1, packet, 7, bench.buffer, 64)), COLLECTOR_BAD_SETUP);
    EQUAL(number_of(collector_control(record, unit, 1, packet, 9, bench.buffer, 64)), COLLECTOR_BAD_SETUP);
    EQUAL(send_packet(&bench, packet, 31), COLLECTOR_SILENT);
    EQUAL(ask(&bench), COLLECTOR_SILENT);
    CHECK(same(&bench, &before));
    record->stage = before.record.stage = 11;
    EQUAL(reset(&bench), COLLECTOR_BAD_RECORD);
    EQUAL(number_of(collector_control(record, unit, 1, packet, 7, bench.buffer, 0)), COLLECTOR_BAD_RECORD);
    EQUAL(number_of(collector_bulk_out(record, unit, 1, bench.medium, 0, packet, 65)), COLLECTOR_BAD_RECORD);
    EQUAL(number_of(collector_bulk_in(record, unit, 1, bench.medium, 0, bench.buffer, 0)), COLLECTOR_BAD_RECORD);
    EQUAL(turn_switch(&bench, COLLECTOR_SWITCH_CLOSED), COLLECTOR_BAD_RECORD);
    CHECK(same(&bench, &before));
    CHECK(filled(other, sizeof other, 0));
}

static void control_requests(void)
{
    bench bench, before;
    collector_answer answer;

    make(&bench);
    before = bench;
    EQUAL(control(&bench, GET_MAX_LUN), COLLECTOR_STALL);
    EQUAL(control(&bench, "\x80\x06\x00\x01\x00\x00\x00\x00"), COLLECTOR_DATA);
    CHECK(same(&bench, &before));
    EQUAL(control(&bench, "\x00\x05\x7F\x00\x00\x00\x00\x00"), COLLECTOR_ACK);
    EQUAL(bench.record.address, 0x7F);
    EQUAL(control(&bench, SET_CONFIGURATION), COLLECTOR_ACK);
    EQUAL(bench.record.flags, COLLECTOR_FLAG_CONFIGURED);
    before = bench;
    EQUAL(control(&bench, "\x00\x05\x01\x00\x00\x00\x00\x00"), COLLECTOR_STALL);
    CHECK(same(&bench, &before));
    answer = collector_control(&bench.record, &bench.unit, 1, (const uint8_t *)GET_MAX_LUN, 8, bench.buffer,
                               sizeof bench.buffer);
    EQUAL(answer.number, COLLECTOR_DATA);
    EQUAL(answer.count, 1);
    EQUAL(bench.buffer[0], 0);
    CHECK(filled(bench.buffer + 1, sizeof bench.buffer - 1, FILL));
    answer = collector_control(&bench.record, &bench.unit, 1, (const uint8_t *)"\x80\x06\x00\x01\x00\x00\x12\x00", 8,
                               bench.buffer, 64);
    EQUAL(answer.count, 18);
    CHECK(memcmp(bench.buffer, "\x12\x01\x00\x02\x00\x00\x00\x40\x09\x12\x01\x00\x00\x01\x01\x02\x03\x01", 18) == 0);
    CHECK(same_record(&bench.record, &before.record));
    EQUAL(control(&bench, SET_IN), COLLECTOR_ACK);
    EQUAL(bench.record.flags, COLLECTOR_FLAG_CONFIGURED | COLLECTOR_FLAG_HALT_IN);
    EQUAL(ask(&bench), COLLECTOR_STALL);
    EQUAL(reset(&bench), COLLECTOR_ACK);
    EQUAL(bench.record.flags, 0);
    EQUAL(bench.record.address, 0);
}

static void expect_serial(uint64_t number)
{
    char digits[13];
    bench bench;

    make(&bench);
    bench.record.number = number;
    EQUAL(control(&bench, "\x80\x06\x03\x03\x09\x04\xFF\x00"), COLLECTOR_DATA);
    snprintf(digits, sizeof digits, "%012" PRIu64, number);
    EQUAL(bench.buffer[0], 2 + 2 * 12);
    EQUAL(bench.buffer[1], 0x03);
    for (int at = 0; at < 12; at++) {
        EQUAL(bench.buffer[2 + 2 * at], (uint8_t)digits[at]);
        EQUAL(bench.buffer[3 + 2 * at], 0);
    }
    CHECK(filled(bench.buffer + 26, sizeof bench.buffer - 26, FILL));
    expect_page_digits(number, digits);
}

/* The device makes the twelve digits in six pairs: each pair of digits at each place, zeros and then nines at the others. They are
 * the same as a USB string and in the product pages. */
static void serial_numbers(void)
{
    for (uint64_t place = 1; place < COLLECTOR_MAX_NUMBER; place *= 100)
        for (uint64_t pair = 0; pair < 100; pair++) {
            expect_serial(pair * place);
            expect_serial(COLLECTOR_MAX_NUMBER - pair * place);
        }
}

/* A broken wrapper locks; Clear Feature does not free the pipes until the command is dropped. */
static void lock(void)
{
    bench bench, before;

    configure(&bench);
    before = bench;
    EQUAL(ask(&bench), COLLECTOR_NAK);
    CHECK(same(&bench, &before));
    EQUAL(send_packet(&bench, "USBC", 4), COLLECTOR_STALL);
    before.record.flags = 15;
    CHECK(same(&bench, &before));
    EQUAL(control(&bench, CLEAR_IN), COLLECTOR_ACK);
    EQUAL(control(&bench, CLEAR_OUT), COLLECTOR_ACK);
    EQUAL(send_packet(&bench, "USBC", 4), COLLECTOR_STALL);
    EQUAL(ask(&bench), COLLECTOR_STALL);
    CHECK(same(&bench, &before));
    EQUAL(control(&bench, MASS_STORAGE_RESET), COLLECTOR_ACK);
    EQUAL(bench.record.flags, COLLECTOR_FLAG_CONFIGURED | COLLECTOR_FLAG_HALT_IN | COLLECTOR_FLAG_HALT_OUT);
    EQUAL(control(&bench, CLEAR_IN), COLLECTOR_ACK);
    EQUAL(control(&bench, CLEAR_OUT), COLLECTOR_ACK);
    EQUAL(bench.record.flags, COLLECTOR_FLAG_CONFIGURED);
}

static void write_and_read(void)
{
    bench bench, before;
    uint8_t packet[64], block[512];

    configure(&bench);
    before = bench;
    command(&bench, 1024, 0x00, WRITE_TWO_FROM_ONE);
    for (int at = 0; at < 16; at++) {
        expect_stage(&bench, COLLECTOR_STAGE_DATA_OUT, 1 + at / 8, 2 - at / 8, at % 8 * 64);
        expect_command(&bench, 1024, 1024 - at / 8 * 512);
        CHECK(filled(bench.record.part + at % 8 * 64, 512 - at % 8 * 64, 0));
        EQUAL(ask(&bench), COLLECTOR_NAK);
        memset(packet, 0x80 + at, sizeof packet);
        EQUAL(send_packet(&bench, packet, sizeof packet), COLLECTOR_ACK);
        memcpy(block + at % 8 * 64, packet, sizeof packet);
        if (at % 8 == 7)
            memcpy(before.medium + 512 * (1 + at / 8), block, sizeof block);
        CHECK(memcmp(bench.medium, before.medium, MEDIUM) == 0);
    }
    expect_stage(&bench, COLLECTOR_STAGE_PASSED, 0, 0, 0);
    CHECK(filled(bench.record.part, 512, 0));
    EQUAL(send_packet(&bench, packet, sizeof packet), COLLECTOR_NAK);
    expect_status(&bench, "\x00\x00\x00\x00", 0);
    command(&bench, 1024, 0x80, READ_TWO_FROM_ONE);
    for (int at = 0; at < 16; at++) {
        expect_stage(&bench, COLLECTOR_STAGE_DATA_IN, 512 + 64 * at, 1024 - 64 * at, 0);
        expect_command(&bench, 1024, 1024 - 64 * at);
        EQUAL(data_in(&bench), 64);
        CHECK(filled(bench.buffer, 64, (uint8_t)(0x80 + at)));
    }
    expect_status(&bench, "\x00\x00\x00\x00", 0);
    CHECK(memcmp(bench.medium, before.medium, MEDIUM) == 0);
}

/* Data-out of any length but 64 ends the write: phase error, and then the lock. */
static void broken_write(void)
{
    bench bench, before;

    configure(&bench);
    before = bench;
    command(&bench, 1024, 0x00, WRITE_TWO_FROM_ONE);
    EQUAL(send_packet(&bench, bench.buffer, 64), COLLECTOR_ACK);
    EQUAL(send_packet(&bench, bench.buffer, 10), COLLECTOR_ACK);
    expect_stage(&bench, COLLECTOR_STAGE_PHASE_ERROR, 0, 0, 0);
    expect_command(&bench, 1024, 1024);
    EQUAL(bench.record.flags, COLLECTOR_FLAG_CONFIGURED | COLLECTOR_FLAG_HALT_OUT);
    EQUAL(bench.unit.sense_key, 0x0B);
    EQUAL(bench.unit.sense_asc, 0x4B);
    EQUAL(bench.unit.sense_ascq, 0x00);
    EQUAL(bench.unit.sense_information, 0);
    CHECK(filled(bench.record.part, 512, 0));
    expect_status(&bench, "\x00\x04\x00\x00", 2);
    EQUAL(bench.record.flags, 15);
    CHECK(memcmp(bench.medium, before.medium, MEDIUM) == 0);
}

/* Of a known command's last byte, its control byte, bits 0 to 2 fail it with 05/24/00 and the others are ignored. */
static void control_byte(void)
{
    static const char *const six[] = {TEST_UNIT_READY, REQUEST_SENSE, INQUIRY, MODE_SENSE, ALLOW_REMOVAL};
    static const char *const ten[] = {READ_CAPACITY, READ_TWO_FROM_ONE, WRITE_TWO_FROM_ONE, VERIFY_TWO_FROM_ONE};
    bench bench, before;
    char block[10];

    for (int at = 0; at < 9 * 8; at++) {
        const int code = at / 8, bit = at % 8;

        memcpy(block, code < 5 ? six[code] : ten[code - 5], sizeof block);
        block[code < 5 ? 5 : 9] = (char)(1 << bit);
        configure(&bench);
        before = bench;
        command(&bench, 1024, 0x00, block);
        EQUAL(bench.record.stage == COLLECTOR_STAGE_FAILED, bit < 3);
        EQUAL(bench.unit.sense_key, bit < 3 ? 0x05 : 0x00);
        EQUAL(bench.unit.sense_asc, bit < 3 ? 0x24 : 0x00);
        EQUAL(bench.unit.sense_ascq, 0x00);
        if (bit < 3) {
            expect_command(&bench, 1024, 1024);
            EQUAL(bench.record.flags, COLLECTOR_FLAG_CONFIGURED | COLLECTOR_FLAG_HALT_OUT);
            EQUAL(send_packet(&bench, bench.buffer, 64), COLLECTOR_STALL);
            expect_status(&bench, "\x00\x04\x00\x00", 1);
        }
        CHECK(memcmp(bench.medium, before.medium, MEDIUM) == 0);
    }
}

/* Inquiry's allocation length, of its pages too, is bytes 3 and 4, big endian; Request Sense's and Mode Sense's is byte 4. Each with
 * all 65,536 values of the two bytes, 256 bytes announced: a length over the reply's changes nothing. */
static void allocation_lengths(void)
{
    static const struct {
        const char *block, *reply;
        uint32_t size, range;
    } rows[] = {
        {REQUEST_SENSE, "\x70\0\0\0\0\0\0\x0A\0\0\0\0\0\0\0\0\0\0", 18, 256},
        {INQUIRY, "\x00\x80\x05\x02\x1F\0\0\0" "COLLECT METER EXPORT    0100", 36, 65536},
        {MODE_SENSE, "\x03\0\0\0", 4, 256},
        {PAGE_00, "\0\0\0\x03\0\x80\x83", 7, 65536},
        {PAGE_80, "\0\x80\0\x0C" "000000000042", 16, 65536},
        {PAGE_83, "\0\x83\0\x18\x02\x01\0\x14" "COLLECT 000000000042", 28, 65536},
    };
    bench bench;
    char block[10];

    configure(&bench);
    for (uint32_t at = 0; at < 6 * 65536; at++) {
        const uint32_t code = at / 65536, both = at % 65536, size = rows[code].size;
        const uint32_t allocated = both % rows[code].range, sent = allocated < size ? allocated : size;
        const char residue[4] = {(char)((256 - sent) % 256), (char)((256 - sent) / 256), 0, 0};

        memcpy(block, rows[code].block, sizeof block);
        block[3] = (char)(both / 256);
        block[4] = (char)(both % 256);
        command(&bench, 256, 0x80, block);
        if (sent > 0) {
            EQUAL(data_in(&bench), sent);
            CHECK(memcmp(bench.buffer, rows[code].reply, sent) == 0);
        }
        EQUAL(ask(&bench), COLLECTOR_STALL);
        EQUAL(control(&bench, CLEAR_IN), COLLECTOR_ACK);
        expect_status(&bench, residue, 0);
    }
}

int main(void)
{
    layout();
    making();
    medium_sizes();
    refusals();
    control_requests();
    serial_numbers();
    lock();
    write_and_read();
    broken_write();
    control_byte();
    allocation_lengths();
    page_codes();
    page_records();
    refused_blocks();
    refused_block_records();
    write_switch_events();
    write_switch_commands();
    write_switch_records();
    records_that_do_not_decode();
    records_that_do_not_fit();
    tables_at_making();
    tables_of_largest_units();
    tables_that_do_not_fit();
    units_that_do_not_fit();
    media_of_tables();
    addressed_units();
    blocks_of_units();
    senses_of_units();
    switches_of_units();
    histories_apart_in_one_unit();
    tables_kept();
    tables_at_their_end();
    worked_ledger();
    random_ledgers();
    shown_reads();
    shown_replies();
    shown_in_each_stage();
    lent_replies();
    replies_of_records();
    shown_and_copied();
    printf("interface: %u checks passed\n", checks);
    return 0;
}
