/*
 * The auditors' ledger (document 02, A13): an accountant who sees the units' sizes, the events and their answers with the bytes
 * handed out, and nothing of record and table. A book runs from one command drop to the next.
 */
#include "ledger.h"

#include "store.h"

#include <string.h>

enum { COMMAND_WRAPPER = 31, STATUS_WRAPPER = 13 };

static uint32_t little_endian(const uint8_t *bytes)
{
    return bytes[0] | (uint32_t)bytes[1] << 8 | (uint32_t)bytes[2] << 16 | (uint32_t)bytes[3] << 24;
}

static uint32_t big_endian(const uint8_t *bytes)
{
    return (uint32_t)bytes[0] << 24 | (uint32_t)bytes[1] << 16 | (uint32_t)bytes[2] << 8 | bytes[3];
}

void ledger_open(ledger *ledger, size_t units)
{
    memset(ledger, 0, sizeof *ledger);
    ledger->units = units;
    memcpy(ledger->blocks, sizes, sizeof ledger->blocks);
}

/* The book ends, the next begins empty. The switches stay. */
static void drop_command(ledger *ledger)
{
    ledger->left = ledger->held = 0;
    ledger->commands = ledger->statuses = 0;
    ledger->stray = 0;
    ledger->unreadable = 0;
}

static void count_bytes(ledger *ledger, size_t bytes)
{
    if (ledger->commands > 0)
        ledger->command[ledger->commands - 1].counted += bytes;
    else
        ledger->stray += bytes;
}

/* The blocks that an accepted wrapper's Write takes: none unless it passes its checks, and at least 512 bytes a block are
 * announced out. */
static uint32_t blocks_to_take(const ledger *ledger, const uint8_t *packet)
{
    const uint8_t *block = packet + 15, unit = packet[13];
    const uint32_t blocks = (uint32_t)block[7] << 8 | block[8];
    const bool fields = (block[1] & 0xE0) == 0 && (block[9] & 0x07) == 0;
    const bool range = (uint64_t)big_endian(block + 2) + blocks <= ledger->blocks[unit];
    const bool out = (packet[12] & 0x80) == 0 && little_endian(packet + 8) >= COLLECTOR_BLOCK_SIZE * blocks;

    return block[0] == WRITE && fields && range && !ledger->closed[unit] && out ? blocks : 0;
}

static void take_wrapper(ledger *ledger, const uint8_t *packet, size_t length)
{
    if (length != COMMAND_WRAPPER || memcmp(packet, "USBC", 4) != 0 || packet[13] >= ledger->units) {
        ledger->unreadable++;
        return;
    }
    CHECK(ledger->commands < BOOK);
    ledger->command[ledger->commands++] =
        (ledger_command){little_endian(packet + 4), little_endian(packet + 8), 0};
    ledger->left = blocks_to_take(ledger, packet);
    ledger->held = 0;
}

/* Data of the Write under way: each 512 bytes held are a block that arrived; another length than 64 ends the Write. */
static void take_data(ledger *ledger, size_t length)
{
    if (length != COLLECTOR_PACKET_SIZE) {
        ledger->left = ledger->held = 0;
        return;
    }
    ledger->held += COLLECTOR_PACKET_SIZE;
    if (ledger->held == COLLECTOR_BLOCK_SIZE) {
        ledger->held = 0;
        ledger->left--;
        count_bytes(ledger, COLLECTOR_BLOCK_SIZE);
    }
}

/* A status wrapper is known by its 13 bytes and their first four: no reply is such, and a Read hands out 64. */
static void hand_out(ledger *ledger, const uint8_t *bytes, size_t length)
{
    if (length != STATUS_WRAPPER || memcmp(bytes, "USBS", 4) != 0) {
        count_bytes(ledger, length);
        return;
    }
    CHECK(ledger->statuses < BOOK);
    ledger->status[ledger->statuses++] = (ledger_status){little_endian(bytes + 4), little_endian(bytes + 8)};
}

static bool drops(const char *setup)
{
    return memcmp(setup, SET_CONFIGURATION, 8) == 0 || memcmp(setup, SET_NO_CONFIGURATION, 8) == 0 ||
           memcmp(setup, MASS_STORAGE_RESET, 8) == 0;
}

/* Refusals, NAK, stalls and silence do nothing, and the control pipe's data is none of the bulk pipes'. */
void ledger_note(ledger *ledger, const host_event *event, uint32_t number, const uint8_t *bytes, size_t count)
{
    if (event->kind == BULK_IN && number == COLLECTOR_DATA)
        hand_out(ledger, bytes, count);
    if (number != COLLECTOR_ACK)
        return;
    if (event->kind == BUS_RESET || (event->kind == CONTROL && drops(event->setup)))
        drop_command(ledger);
    else if (event->kind == BULK_OUT && ledger->left > 0)
        take_data(ledger, event->length);
    else if (event->kind == BULK_OUT)
        take_wrapper(ledger, event->packet, event->length);
    else if (event->kind == SWITCH)
        ledger->closed[event->unit] = event->position == COLLECTOR_SWITCH_CLOSED;
}

/* The statuses have the commands' tags, in order, and are as many or one fewer; in each the announced length is the residue and
 * the bytes counted; no data came without a command. */
bool in_balance(const ledger *ledger)
{
    if (ledger->statuses != ledger->commands && ledger->statuses + 1 != ledger->commands)
        return false;
    for (size_t at = 0; at < ledger->statuses; at++) {
        const ledger_command *command = &ledger->command[at];
        const ledger_status *status = &ledger->status[at];

        if (status->tag != command->tag || command->announced != status->residue + command->counted)
            return false;
    }
    return ledger->stray == 0 && ledger->unreadable == 0;
}

void audited_make(audited *audited, size_t units)
{
    board_make(&audited->board, units);
    ledger_open(&audited->ledger, units);
}

uint32_t audited_play(audited *audited, const host_event *event)
{
    size_t count;
    const uint32_t number = play(&audited->board, event, &count);

    ledger_note(&audited->ledger, event, number, audited->board.buffer, count);
    CHECK(in_balance(&audited->ledger));
    return number;
}
