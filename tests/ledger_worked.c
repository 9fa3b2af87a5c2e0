/*
 * A history whose books are worked out by hand (document 02, A13), and what wrong devices would have handed out in it.
 */
#include "ledger.h"

#include <string.h>

static const host_event ask_event = {.kind = BULK_IN};

static void do_request(audited *audited, const char *setup)
{
    EQUAL(audited_play(audited, &(host_event){.kind = CONTROL, .setup = setup}), COLLECTOR_ACK);
}

/* A wrapper that is accepted. */
static void begin(audited *audited, uint8_t tag, uint8_t unit, uint32_t announced, uint8_t direction, const char *block)
{
    host_event event = {.kind = BULK_OUT, .length = 31};

    wrapper(event.packet, announced, direction, block);
    memcpy(event.packet + 4, (uint8_t[4]){tag}, 4);
    event.packet[13] = unit;
    EQUAL(audited_play(audited, &event), COLLECTOR_ACK);
}

static void send_data(audited *audited, int packets, size_t length)
{
    while (packets-- > 0)
        EQUAL(audited_play(audited, &(host_event){.kind = BULK_OUT, .length = length}), COLLECTOR_ACK);
}

static void take(audited *audited, int packets)
{
    while (packets-- > 0)
        EQUAL(audited_play(audited, &ask_event), COLLECTOR_DATA);
}

static void clear_stall(audited *audited)
{
    EQUAL(audited_play(audited, &ask_event), COLLECTOR_STALL);
    do_request(audited, CLEAR_IN);
}

/* What a wrong device might have answered: out of balance. */
static void expect_wrong(const ledger *ledger, const host_event *event, uint32_t number, const uint8_t *bytes, size_t count)
{
    struct ledger wrong = *ledger;

    ledger_note(&wrong, event, number, bytes, count);
    CHECK(!in_balance(&wrong));
}

/* A status or data, in or out, would be of a command that is over: it has its status, or a drop has cut it. */
static void expect_nothing_due(const audited *audited)
{
    static const uint8_t data[64], status[13] = "USBS";
    const host_event more = {.kind = BULK_OUT, .length = 64};

    expect_wrong(&audited->ledger, &more, COLLECTOR_ACK, NULL, 0);
    expect_wrong(&audited->ledger, &ask_event, COLLECTOR_DATA, data, sizeof data);
    expect_wrong(&audited->ledger, &ask_event, COLLECTOR_DATA, status, sizeof status);
}

/* Takes the status wrapper that is due. No command may come before it, and it can have no other tag or residue. */
static void take_status(audited *audited)
{
    const ledger due = audited->ledger;
    host_event next = {.kind = BULK_OUT, .length = 31};
    uint8_t *status = audited->board.buffer;

    wrapper(next.packet, 0, 0x00, TEST_UNIT_READY);
    expect_wrong(&due, &next, COLLECTOR_ACK, NULL, 0);
    take(audited, 1);
    for (int bit = 4 * 8; bit < 12 * 8; bit++) {
        uint8_t other[13];

        memcpy(other, status, sizeof other);
        other[bit / 8] ^= 1 << bit % 8;
        expect_wrong(&due, &ask_event, COLLECTOR_DATA, other, sizeof other);
    }
    expect_nothing_due(audited);
}

/* The open book, as worked out by hand. */
static void expect_book(const ledger *ledger, size_t commands, size_t statuses, const ledger_command *rows,
                        const uint32_t *residues)
{
    EQUAL(ledger->commands, commands);
    EQUAL(ledger->statuses, statuses);
    for (size_t at = 0; at < commands; at++) {
        EQUAL(ledger->command[at].tag, rows[at].tag);
        EQUAL(ledger->command[at].announced, rows[at].announced);
        EQUAL(ledger->command[at].counted, rows[at].counted);
    }
    for (size_t at = 0; at < statuses; at++) {
        EQUAL(ledger->status[at].tag, rows[at].tag);
        EQUAL(ledger->status[at].residue, residues[at]);
    }
}

/* A short read, then a Write that a packet of 10 cuts after one block and one packet; its phase error locks. */
static void cut_write(audited *audited)
{
    static const ledger_command rows[] = {{1, 1200, 1024}, {2, 1024, 512}};

    do_request(audited, SET_CONFIGURATION);
    begin(audited, 1, 0, 1200, 0x80, READ_TWO_FROM_ONE);
    take(audited, 16);
    clear_stall(audited);
    take_status(audited);
    begin(audited, 2, 1, 1024, 0x00, WRITE_TWO_FROM_ONE);
    send_data(audited, 9, 64);
    send_data(audited, 1, 10);
    take_status(audited);
    expect_book(&audited->ledger, 2, 2, rows, (const uint32_t[]){176, 512});
}

/* A phase error found at the wrapper, after a drop: the only command of its book, with no data. */
static void phase_error(audited *audited, uint8_t tag, uint32_t announced, uint8_t direction, const char *block)
{
    const ledger_command rows[] = {{tag, announced, 0}};

    do_request(audited, MASS_STORAGE_RESET);
    expect_book(&audited->ledger, 0, 0, NULL, NULL);
    expect_nothing_due(audited);
    do_request(audited, CLEAR_IN);
    do_request(audited, CLEAR_OUT);
    begin(audited, tag, 0, announced, direction, block);
    do_request(audited, CLEAR_IN);
    take_status(audited);
    expect_book(&audited->ledger, 1, 1, rows, &announced);
}

/* A failure, a short reply and a short write; then a Write that a bus reset cuts with part of a block held. */
static void cut_by_a_drop(audited *audited)
{
    static const ledger_command rows[] = {{6, 512, 0}, {7, 64, 36}, {8, 1100, 1024}, {9, 1024, 512}};

    do_request(audited, SET_CONFIGURATION);
    begin(audited, 6, 1, 512, 0x80, "\x28\x00\x00\x00\x00\x03\x00\x00\x01\x00");
    clear_stall(audited);
    take_status(audited);
    begin(audited, 7, 1, 64, 0x80, INQUIRY);
    take(audited, 1);
    clear_stall(audited);
    take_status(audited);
    begin(audited, 8, 0, 1100, 0x00, WRITE_TWO_FROM_ONE);
    send_data(audited, 16, 64);
    take_status(audited);
    do_request(audited, CLEAR_OUT);
    begin(audited, 9, 0, 1024, 0x00, WRITE_TWO_FROM_ONE);
    send_data(audited, 11, 64);
    expect_book(&audited->ledger, 4, 3, rows, (const uint32_t[]){512, 28, 76});
    EQUAL(audited_play(audited, &(host_event){.kind = BUS_RESET}), COLLECTOR_ACK);
    expect_book(&audited->ledger, 0, 0, NULL, NULL);
    expect_nothing_due(audited);
}

/* The other drop: a Read is cut after one packet. */
static void cut_read(audited *audited)
{
    static const ledger_command rows[] = {{10, 1024, 64}};

    do_request(audited, SET_CONFIGURATION);
    begin(audited, 10, 0, 1024, 0x80, READ_TWO_FROM_ONE);
    take(audited, 1);
    expect_book(&audited->ledger, 1, 0, rows, NULL);
    do_request(audited, SET_NO_CONFIGURATION);
    expect_book(&audited->ledger, 0, 0, NULL, NULL);
    expect_nothing_due(audited);
}

void worked_ledger(void)
{
    audited audited;

    audited_make(&audited, 2);
    memcpy(audited.board.medium + COLLECTOR_BLOCK_SIZE, "USBS", 4);     /* a packet of 64 is data, however it opens */
    cut_write(&audited);
    phase_error(&audited, 3, 18, 0x80, INQUIRY);
    phase_error(&audited, 4, 1024, 0x80, WRITE_TWO_FROM_ONE);
    phase_error(&audited, 5, 1023, 0x00, WRITE_TWO_FROM_ONE);
    cut_by_a_drop(&audited);
    cut_read(&audited);
}
