/*
 * A host for a board: random events, mostly the next one that is sensible in the device's stage.
 */
#include "host.h"

enum { WRITES_AND_READS = 2 };

/* What a host sends, and what it announces if it knows the device. */
static const struct {
    const char *block;
    uint32_t announced;
    uint8_t direction;
} commands[] = {
    {WRITE_TWO_FROM_ONE, 1024, 0x00},
    {READ_TWO_FROM_ONE, 1024, 0x80},
    {VERIFY_TWO_FROM_ONE, 0, 0x00},
    {TEST_UNIT_READY, 0, 0x00},
    {REQUEST_SENSE, 18, 0x80},
    {INQUIRY, 36, 0x80},
    {"\x12\x00\x00\x00\x05\x00\x00\x00\x00\x00", 5, 0x80},      /* cut by the allocation length */
    {"\x12\x00\x00\x00\x0D\x00\x00\x00\x00\x00", 13, 0x80},     /* to the size of a status wrapper */
    {PAGE_80, 16, 0x80},
    {MODE_SENSE, 4, 0x80},
    {READ_CAPACITY, 8, 0x80},
    {UNKNOWN_CODE, 0, 0x80},
    {"\x28\x00\x00\x00\x00\x05\x00\x00\x02\x00", 1024, 0x80},   /* past the end of every unit */
    {"\x2A\x00\x00\x00\x00\x05\x00\x00\x02\x00", 1024, 0x00},
    {"\x2A\x00\x00\x00\x00\x02\x00\x00\x02\x00", 1024, 0x00},   /* past the end of the smallest unit */
    {"\x2A\x20\x00\x00\x00\x01\x00\x00\x02\x00", 1024, 0x00},   /* a refused bit of byte 1 */
    {"\x2A\x00\x00\x00\x00\x01\x00\x00\x02\x04", 1024, 0x00},   /* NACA */
    {"\x2A\x00\x00\x00\x00\x01\x00\x00\x00\x00", 0, 0x00},      /* no blocks */
};

uint32_t pick(uint32_t *random, uint32_t limit)
{
    *random = 1664525 * *random + 1013904223;
    return (*random >> 8) % limit;
}

/* A wrapper for any unit, one beyond the table now and then; its command and length mostly meet. */
static void command_wrapper(host_event *event, uint32_t *random, size_t units)
{
    const uint32_t known = sizeof commands / sizeof commands[0];
    const uint32_t at = pick(random, 3) ? pick(random, WRITES_AND_READS) : pick(random, known);
    const uint32_t more = pick(random, 6) ? 0 : 1 + pick(random, 600);
    const uint32_t announced = pick(random, 10) ? commands[at].announced + more : pick(random, 1200);
    const uint8_t other = pick(random, 50) == 0 ? 0x80 : 0x00;

    event->kind = BULK_OUT;
    event->length = 31;
    wrapper(event->packet, announced, commands[at].direction ^ other, commands[at].block);
    for (int byte = 0; byte < 4; byte++)
        event->packet[4 + byte] = (uint8_t)pick(random, 256);
    event->packet[13] = (uint8_t)pick(random, (uint32_t)units + (pick(random, 50) == 0));
}

static void data_packet(host_event *event, uint32_t *random)
{
    event->kind = BULK_OUT;
    event->length = pick(random, 60) ? 64 : pick(random, 64);
    for (size_t at = 0; at < event->length; at++)
        event->packet[at] = (uint8_t)pick(random, 256);
}

/* Whatever drops the command. */
static void drop(host_event *event, uint32_t *random)
{
    static const char *const setups[] = {MASS_STORAGE_RESET, SET_CONFIGURATION, SET_NO_CONFIGURATION};
    const uint32_t at = pick(random, 4);

    event->kind = at < 3 ? CONTROL : BUS_RESET;
    event->setup = at < 3 ? setups[at] : NULL;
}

/* A control request, a switch event, or what is not due. */
static void out_of_turn(host_event *event, uint32_t *random, size_t units)
{
    static const char *const setups[] = {CLEAR_IN, CLEAR_OUT, SET_IN, SET_OUT, GET_MAX_LUN};

    switch (pick(random, 6)) {
    case 0:
    case 1:
        event->kind = CONTROL;
        event->setup = setups[pick(random, 5)];
        break;
    case 2:
    case 3:
        event->kind = SWITCH;
        event->position = pick(random, 3) == 0;
        event->unit = (uint8_t)pick(random, 5);
        break;
    case 4:
        command_wrapper(event, random, units);
        break;
    }
}

/* What the stage asks for. */
static void in_turn(host_event *event, uint32_t *random, const board *board)
{
    if (board->record.stage == COLLECTOR_STAGE_READY)
        command_wrapper(event, random, board->count);
    else if (board->record.stage == COLLECTOR_STAGE_DATA_OUT)
        data_packet(event, random);
}

host_event next_event(uint32_t *random, const board *board)
{
    const uint8_t flags = board->record.flags;
    host_event event = {.kind = BULK_IN};

    if (pick(random, 80) == 0) {
        drop(&event, random);
    } else if (pick(random, 25) == 0) {
        out_of_turn(&event, random, board->count);
    } else if (!(flags & COLLECTOR_FLAG_CONFIGURED)) {
        event.kind = CONTROL;
        event.setup = SET_CONFIGURATION;
    } else if (flags & COLLECTOR_FLAG_LOCKED) {
        event.kind = CONTROL;
        event.setup = MASS_STORAGE_RESET;
    } else if (flags != COLLECTOR_FLAG_CONFIGURED && pick(random, 2)) {
        event.kind = CONTROL;
        event.setup = flags & COLLECTOR_FLAG_HALT_IN ? CLEAR_IN : CLEAR_OUT;
    } else {
        in_turn(&event, random, board);
    }
    return event;
}

uint32_t play(board *board, const host_event *event, size_t *handed_out)
{
    collector_answer answer;

    *handed_out = 0;
    switch (event->kind) {
    case BUS_RESET:
        return board_reset(board);
    case CONTROL:
        return board_control(board, event->setup);
    case BULK_OUT:
        return board_send(board, event->packet, event->length);
    case SWITCH:
        return board_switch(board, event->position, event->unit);
    case BULK_IN:
        break;
    }
    answer = collector_bulk_in(&board->record, table_of(board), board->count, medium_of(board), board->length,
                               board->buffer, 64);
    *handed_out = answer.count;
    return number_of(answer);
}
