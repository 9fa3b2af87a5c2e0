/*
 * The reply that is lent to the showing call (document 02, A11): the record's, as collector_reply gives it, and no other.
 */
#include "showing.h"

#include "records.h"

#include <stdlib.h>
#include <string.h>

enum { UNIT = 2 };

/* The replies of collector 42 about its unit 2: of six blocks, its switch closed, where block 6 was refused. Byte 4 of the command
 * is the allocation length, but of Read Capacity, which has none. */
static const struct told {
    uint8_t stage;
    const char *block, *bytes;
    size_t size;
} told[] = {
    {COLLECTOR_STAGE_REQUEST_SENSE, REQUEST_SENSE, "\xF0\0\x05\0\0\0\x06\x0A\0\0\0\0\x21\0\0\0\0\0", 18},
    {COLLECTOR_STAGE_INQUIRY, INQUIRY, "\0\x80\x05\x02\x1F\0\0\0" "COLLECT METER EXPORT    0100", 36},
    {COLLECTOR_STAGE_MODE_SENSE, MODE_SENSE, "\x03\0\x80\0", 4},
    {COLLECTOR_STAGE_READ_CAPACITY, READ_CAPACITY, "\0\0\0\x05\0\0\x02\0", 8},
    {COLLECTOR_STAGE_PAGE, PAGE_00, "\0\0\0\x03\0\x80\x83", 7},
    {COLLECTOR_STAGE_PAGE, PAGE_80, "\0\x80\0\x0C" "000000000042", 16},
    {COLLECTOR_STAGE_PAGE, PAGE_83, "\0\x83\0\x18\x02\x01\0\x14" "COLLECT 000000000042", 28},
};

enum { TOLD = sizeof told / sizeof told[0] };

/* The device at the first so many bytes of a reply. */
static board sending(const struct told *told, size_t length, uint32_t announced)
{
    board board;
    char block[10];

    board_configure(&board, UNITS);
    board_blocks(&board, UNIT, 0x2F, 6, 1, 0);
    board_status(&board, 0, 1);
    EQUAL(board_switch(&board, COLLECTOR_SWITCH_CLOSED, UNIT), COLLECTOR_ACK);
    memcpy(block, told->block, sizeof block);
    if (told->stage != COLLECTOR_STAGE_READ_CAPACITY)
        block[4] = (char)length;
    board_command(&board, UNIT, announced, 0x80, block);
    return board;
}

static void expect_reply(const board *board, const void *bytes, size_t length)
{
    uint8_t reply[COLLECTOR_PACKET_SIZE];

    EQUAL(reply_of(board, reply), length);
    CHECK(memcmp(reply, bytes, length) == 0);
}

/* Each other length is refused, with the right bytes as far as they go, and each other byte. A medium that is wrong too is not
 * looked at, nor is a halt or the configuration. The right reply's medium is. */
static void expect_no_other(const board *reached, const char *bytes, size_t length)
{
    uint8_t reply[COLLECTOR_PACKET_SIZE + 1] = {0};
    board board = *reached;

    memcpy(reply, bytes, length);
    for (int wrong = 0; wrong < 2; wrong++) {
        for (size_t other = 0; other <= sizeof reply; other++)
            if (other != length)
                expect_unshown(&board, reply, other, COLLECTOR_BAD_RECORD);
        for (size_t bit = 0; bit < 8 * length; bit++) {
            reply[bit / 8] ^= 1 << bit % 8;
            expect_unshown(&board, reply, length, COLLECTOR_BAD_RECORD);
            reply[bit / 8] ^= 1 << bit % 8;
        }
        board.length -= 1;
        expect_unshown(&board, reply, length, COLLECTOR_BAD_MEDIUM);
    }
    board.length = 0;
    expect_unshown(&board, reply, length, COLLECTOR_BAD_MEDIUM);
    board.length = reached->length - COLLECTOR_BLOCK_SIZE;
    expect_unshown(&board, reply, length, COLLECTOR_BAD_MEDIUM);
}

/* A reply cut to each length, with nothing more announced and with 28 bytes more. Sent, it is the record's no longer. */
static void cut_reply(const struct told *told, size_t length, uint32_t more)
{
    board board = sending(told, length, (uint32_t)length + more), halted = board;

    EQUAL(board.record.stage, length ? told->stage : COLLECTOR_STAGE_PASSED);
    expect_reply(&board, told->bytes, length);
    expect_no_other(&board, told->bytes, length);
    EQUAL(board_control(&halted, SET_IN), COLLECTOR_ACK);
    expect_reply(&halted, told->bytes, length);
    expect_no_other(&halted, told->bytes, length);
    expect_unshown(&halted, told->bytes, length, COLLECTOR_STALL);
    if (length > 0) {
        expect_shown(&board, told->bytes, length, COLLECTOR_SOURCE_REPLY, 0, length);
        EQUAL(board.record.residue, more);
        EQUAL(board.record.flags, COLLECTOR_FLAG_CONFIGURED | (more ? COLLECTOR_FLAG_HALT_IN : 0));
        expect_reply(&board, "", 0);
        expect_no_other(&board, "", 0);
    }
}

/* Bytes of the reply are due from `place` on, as no event leaves it unless that is 0: the reply is all bytes before them too. */
static void middle_of_reply(const struct told *told, size_t place, size_t left)
{
    board board = sending(told, told->size, 64);

    board.record.place = (uint32_t)place;
    board.record.left = (uint32_t)left;
    expect_reply(&board, told->bytes, place + left);
    if (place > 0)
        expect_unshown(&board, told->bytes + place, left, COLLECTOR_BAD_RECORD);
    if (left > 0)
        expect_shown(&board, told->bytes, place + left, COLLECTOR_SOURCE_REPLY, place, left);
    else
        expect_unshown(&board, told->bytes, place, COLLECTOR_NAK);
}

/* The reply may stand in the medium itself. */
static void reply_in_medium(const struct told *told)
{
    board board = sending(told, told->size, 64);

    memcpy(board.medium + 100, told->bytes, told->size);
    expect_shown(&board, board.medium + 100, told->size, COLLECTOR_SOURCE_REPLY, 0, told->size);
}

/* A length is not cut to 32 bits: the empty reply, and Inquiry's first byte, with 2^32 zeros more. */
static void long_reply(void)
{
    const size_t more = (size_t)1 << 32;
    uint8_t *zeros = calloc(more + 1, 1);
    board board = sending(&told[1], 1, 1);

    CHECK(zeros != NULL);
    expect_unshown(&board, zeros, more + 1, COLLECTOR_BAD_RECORD);
    expect_shown(&board, zeros, 1, COLLECTOR_SOURCE_REPLY, 0, 1);
    board_configure(&board, UNITS);
    board_reach(&board, UNIT, COLLECTOR_STAGE_DATA_IN);
    expect_unshown(&board, zeros, more, COLLECTOR_BAD_RECORD);
    free(zeros);
}

void lent_replies(void)
{
    for (int at = 0; at < TOLD; at++) {
        const size_t size = told[at].size;

        for (size_t length = told[at].stage == COLLECTOR_STAGE_READ_CAPACITY ? size : 0; length <= size; length++) {
            cut_reply(&told[at], length, 0);
            cut_reply(&told[at], length, 28);
        }
        for (size_t place = 0; place <= size; place++)
            for (size_t left = 0; left <= size - place; left++)
                middle_of_reply(&told[at], place, left);
        reply_in_medium(&told[at]);
    }
    long_reply();
}

/* The buffer is asked for after record and table, and not for more than 64 bytes; a refusal changes nothing. */
static void reply_refused(const board *reached)
{
    uint8_t buffer[COLLECTOR_PACKET_SIZE], reply[COLLECTOR_PACKET_SIZE];
    board board = *reached;

    memset(buffer, FILL, sizeof buffer);
    for (size_t length = 0; length < COLLECTOR_PACKET_SIZE; length++) {
        EQUAL(number_of(collector_reply(&board.record, board.units, board.count, buffer, length)), COLLECTOR_SHORT_BUFFER);
        EQUAL(number_of(collector_reply(&board.record, board.units, 0, buffer, length)), COLLECTOR_BAD_RECORD);
    }
    CHECK(filled(buffer, sizeof buffer, FILL));
    CHECK(same_board(&board, reached));
    EQUAL(collector_reply(&board.record, board.units, board.count, buffer, sizeof buffer).count, reply_of(&board, reply));
}

/* Every stage, and a device that is not configured: where no reply is being sent, none is the record's. */
void replies_of_records(void)
{
    board board;

    board_make(&board, UNITS);
    reply_refused(&board);
    expect_reply(&board, "", 0);
    expect_no_other(&board, "", 0);
    expect_unshown(&board, NO_REPLY, COLLECTOR_SILENT);
    for (unsigned stage = COLLECTOR_STAGE_READY; stage < STAGES; stage++) {
        board_configure(&board, UNITS);
        board_reach(&board, UNIT, stage);
        reply_refused(&board);
        if (sends_reply(stage))
            continue;
        expect_reply(&board, "", 0);
        expect_no_other(&board, "", 0);
        EQUAL(board_control(&board, SET_IN), COLLECTOR_ACK);
        expect_reply(&board, "", 0);
        expect_no_other(&board, "", 0);
    }
}
