/*
 * Records that no event leaves: each event refuses them and changes nothing.
 */
#include "records.h"

#include "bench.h"

void reach(bench *bench, unsigned stage)
{
    configure(bench);
    switch (stage) {
    case COLLECTOR_STAGE_READY:
        expect_stage(bench, COLLECTOR_STAGE_READY, 0, 0, 0);
        return;
    case COLLECTOR_STAGE_DATA_OUT:
        command(bench, 1025, 0x00, WRITE_TWO_FROM_ONE);
        EQUAL(send_packet(bench, bench->buffer, 64), COLLECTOR_ACK);
        expect_stage(bench, COLLECTOR_STAGE_DATA_OUT, 1, 2, 64);
        expect_command(bench, 1025, 1025);
        CHECK(filled(bench->record.part, 64, FILL));
        return;
    case COLLECTOR_STAGE_DATA_IN:
        command(bench, 1025, 0x80, READ_TWO_FROM_ONE);
        EQUAL(data_in(bench), 64);
        expect_stage(bench, COLLECTOR_STAGE_DATA_IN, 576, 960, 0);
        expect_command(bench, 1025, 961);
        return;
    case COLLECTOR_STAGE_REQUEST_SENSE:
        command(bench, 0, 0x00, UNKNOWN_CODE);
        EQUAL(bench->unit.sense_key, 0x05);
        EQUAL(bench->unit.sense_asc, 0x20);
        EQUAL(bench->unit.sense_ascq, 0x00);
        expect_status(bench, "\x00\x00\x00\x00", 1);
        command(bench, 18, 0x80, REQUEST_SENSE);
        expect_stage(bench, COLLECTOR_STAGE_REQUEST_SENSE, 0, 18, 0x05 + 256 * 0x20);
        EQUAL(bench->unit.sense_key, 0x00);
        EQUAL(bench->unit.sense_asc, 0x00);
        EQUAL(bench->unit.sense_information, 0);
        return;
    case COLLECTOR_STAGE_INQUIRY:
        command(bench, 64, 0x80, INQUIRY);
        expect_stage(bench, COLLECTOR_STAGE_INQUIRY, 0, 36, 0);
        expect_command(bench, 64, 64);
        return;
    case COLLECTOR_STAGE_MODE_SENSE:
        command(bench, 4, 0x80, MODE_SENSE);
        expect_stage(bench, COLLECTOR_STAGE_MODE_SENSE, 0, 4, 0);
        return;
    case COLLECTOR_STAGE_READ_CAPACITY:
        command(bench, 8, 0x80, READ_CAPACITY);
        expect_stage(bench, COLLECTOR_STAGE_READ_CAPACITY, 0, 8, BLOCKS);
        return;
    case COLLECTOR_STAGE_PASSED:
        command(bench, 100, 0x00, TEST_UNIT_READY);
        expect_stage(bench, COLLECTOR_STAGE_PASSED, 0, 0, 0);
        expect_command(bench, 100, 100);
        EQUAL(bench->record.flags, COLLECTOR_FLAG_CONFIGURED | COLLECTOR_FLAG_HALT_OUT);
        return;
    case COLLECTOR_STAGE_FAILED:
        command(bench, 100, 0x80, UNKNOWN_CODE);
        expect_stage(bench, COLLECTOR_STAGE_FAILED, 0, 0, 0);
        EQUAL(bench->record.flags, COLLECTOR_FLAG_CONFIGURED | COLLECTOR_FLAG_HALT_IN);
        return;
    case COLLECTOR_STAGE_PAGE:
        command(bench, 64, 0x80, PAGE_80);
        expect_stage(bench, COLLECTOR_STAGE_PAGE, 0, 16, 0x80);
        expect_command(bench, 64, 64);
        return;
    default:
        command(bench, 18, 0x80, INQUIRY);
        expect_stage(bench, COLLECTOR_STAGE_PHASE_ERROR, 0, 0, 0);
        expect_command(bench, 18, 18);
        EQUAL(bench->record.flags, COLLECTOR_FLAG_CONFIGURED | COLLECTOR_FLAG_HALT_IN);
        return;
    }
}

void refused(const bench *damaged)
{
    bench bench = *damaged;

    EQUAL(reset(&bench), COLLECTOR_BAD_RECORD);
    EQUAL(control(&bench, SET_CONFIGURATION), COLLECTOR_BAD_RECORD);
    EQUAL(send_packet(&bench, bench.buffer, 64), COLLECTOR_BAD_RECORD);
    EQUAL(ask(&bench), COLLECTOR_BAD_RECORD);
    EQUAL(show(&bench, "", 0), COLLECTOR_BAD_RECORD);
    EQUAL(tell_reply(&bench), COLLECTOR_BAD_RECORD);
    EQUAL(turn_switch(&bench, COLLECTOR_SWITCH_OPEN), COLLECTOR_BAD_RECORD);
    EQUAL(turn_switch(&bench, COLLECTOR_SWITCH_CLOSED), COLLECTOR_BAD_RECORD);
    CHECK(same(&bench, damaged));
}

/* Each byte of a field that is to be 0, set to each of its bits. */
static void must_be_zero(const bench *reached, size_t field)
{
    for (int bit = 0; bit < 32; bit++) {
        bench damaged = *reached;
        ((uint8_t *)&damaged.record)[field + bit / 8] = (uint8_t)(1 << bit % 8);
        refused(&damaged);
    }
}

/* The switch at each position that is none. */
static void must_be_a_position(const bench *reached)
{
    for (int position = 2; position < 256; position++) {
        bench damaged = *reached;
        damaged.unit.write_switch = (uint8_t)position;
        refused(&damaged);
    }
}

void records_that_do_not_decode(void)
{
    bench made, passed;

    make(&made);
    must_be_a_position(&made);
    for (unsigned stage = 0; stage < STAGES; stage++) {
        bool transfer = (stage >= COLLECTOR_STAGE_DATA_OUT && stage <= COLLECTOR_STAGE_READ_CAPACITY) ||
                        stage == COLLECTOR_STAGE_PAGE;
        bool valued = stage == COLLECTOR_STAGE_DATA_OUT || stage == COLLECTOR_STAGE_REQUEST_SENSE ||
                      stage == COLLECTOR_STAGE_MODE_SENSE || stage == COLLECTOR_STAGE_READ_CAPACITY ||
                      stage == COLLECTOR_STAGE_PAGE;
        bench reached, damaged;

        reach(&reached, stage);
        must_be_a_position(&reached);
        for (int value = 16; value < 256; value++) {
            damaged = reached;
            damaged.record.flags = (uint8_t)value;
            refused(&damaged);
        }
        for (int value = STAGES; value < 256; value++) {
            damaged = reached;
            damaged.record.stage = (uint8_t)value;
            refused(&damaged);
        }
        if (!transfer) {
            must_be_zero(&reached, offsetof(collector_record, place));
            must_be_zero(&reached, offsetof(collector_record, left));
        }
        if (!valued)
            must_be_zero(&reached, offsetof(collector_record, value));
        if (stage != COLLECTOR_STAGE_REQUEST_SENSE)
            must_be_zero(&reached, offsetof(collector_record, extra));
        for (int bit = 24; bit < 32 && stage == COLLECTOR_STAGE_REQUEST_SENSE; bit++) {
            damaged = reached;
            damaged.record.value |= (uint32_t)1 << bit;
            refused(&damaged);
        }
        for (int bit = 1; bit < 32 && stage == COLLECTOR_STAGE_MODE_SENSE; bit++)
            for (uint32_t position = 0; position < 2; position++) {
                damaged = reached;
                damaged.record.value = position | (uint32_t)1 << bit;
                refused(&damaged);
            }
    }
    /* The status of a command that passed, no pipe halted: an ask for it does not decode the record. */
    configure(&passed);
    command(&passed, 0, 0x00, TEST_UNIT_READY);
    EQUAL(passed.record.flags, COLLECTOR_FLAG_CONFIGURED);
    must_be_a_position(&passed);
    must_be_zero(&passed, offsetof(collector_record, place));
    must_be_zero(&passed, offsetof(collector_record, left));
    must_be_zero(&passed, offsetof(collector_record, value));
    must_be_zero(&passed, offsetof(collector_record, extra));
}

#define DAMAGED_WITH(at_stage, field, with)                     \
    do {                                                        \
        bench damaged;                                          \
        reach(&damaged, at_stage);                              \
        damaged.field = with;                                   \
        refused(&damaged);                                      \
        damaged.unit.write_switch = COLLECTOR_SWITCH_CLOSED;    \
        refused(&damaged);                                      \
    } while (0)
#define REFUSED_WITH(at_stage, field, with) DAMAGED_WITH(at_stage, record.field, with)

/* Document 01's rules under number 10, each broken, with the switch open and closed. */
void records_that_do_not_fit(void)
{
    DAMAGED_WITH(COLLECTOR_STAGE_READY, unit.blocks, 0);
    DAMAGED_WITH(COLLECTOR_STAGE_READY, unit.blocks, COLLECTOR_MAX_BLOCKS + 1);
    REFUSED_WITH(COLLECTOR_STAGE_READY, number, COLLECTOR_MAX_NUMBER + 1);
    REFUSED_WITH(COLLECTOR_STAGE_READY, address, 0x80);
    REFUSED_WITH(COLLECTOR_STAGE_READY, flags, COLLECTOR_FLAG_HALT_IN);
    REFUSED_WITH(COLLECTOR_STAGE_READY, flags, COLLECTOR_FLAG_HALT_OUT);
    REFUSED_WITH(COLLECTOR_STAGE_READY, flags, 14);
    REFUSED_WITH(COLLECTOR_STAGE_READY, flags, 9);
    REFUSED_WITH(COLLECTOR_STAGE_READY, flags, 11);
    REFUSED_WITH(COLLECTOR_STAGE_READY, flags, 13);
    REFUSED_WITH(COLLECTOR_STAGE_PASSED, flags, 0);
    REFUSED_WITH(COLLECTOR_STAGE_DATA_OUT, flags, 0);
    REFUSED_WITH(COLLECTOR_STAGE_DATA_OUT, place, 3);
    REFUSED_WITH(COLLECTOR_STAGE_DATA_OUT, left, 4);
    REFUSED_WITH(COLLECTOR_STAGE_DATA_OUT, place, UINT32_MAX);
    REFUSED_WITH(COLLECTOR_STAGE_DATA_OUT, value, 63);
    REFUSED_WITH(COLLECTOR_STAGE_DATA_OUT, value, 512);
    REFUSED_WITH(COLLECTOR_STAGE_DATA_OUT, residue, 1023);
    REFUSED_WITH(COLLECTOR_STAGE_DATA_OUT, residue, 1026);
    REFUSED_WITH(COLLECTOR_STAGE_DATA_IN, place, MEDIUM - 959);
    REFUSED_WITH(COLLECTOR_STAGE_DATA_IN, place, UINT32_MAX);
    REFUSED_WITH(COLLECTOR_STAGE_DATA_IN, residue, 959);
    REFUSED_WITH(COLLECTOR_STAGE_DATA_IN, residue, 1026);
    REFUSED_WITH(COLLECTOR_STAGE_REQUEST_SENSE, place, 1);
    REFUSED_WITH(COLLECTOR_STAGE_INQUIRY, left, 37);
    REFUSED_WITH(COLLECTOR_STAGE_MODE_SENSE, residue, 3);
    REFUSED_WITH(COLLECTOR_STAGE_READ_CAPACITY, announced, 7);
    REFUSED_WITH(COLLECTOR_STAGE_PASSED, residue, 101);
    REFUSED_WITH(COLLECTOR_STAGE_PAGE, value, 0x81);
    REFUSED_WITH(COLLECTOR_STAGE_PAGE, value, 0x180);
    REFUSED_WITH(COLLECTOR_STAGE_PAGE, place, 1);
    REFUSED_WITH(COLLECTOR_STAGE_PAGE, left, 17);
    REFUSED_WITH(COLLECTOR_STAGE_PAGE, residue, 15);
    REFUSED_WITH(COLLECTOR_STAGE_PAGE, flags, 0);
    REFUSED_WITH(COLLECTOR_STAGE_FAILED, announced, 99);
    REFUSED_WITH(COLLECTOR_STAGE_PHASE_ERROR, announced, 17);
}
