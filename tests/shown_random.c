/*
 * Random histories of one to four units in which each ask is made both ways (document 02, A11): shown on the device, copied on a
 * copy of it. The ledger (A13) is fed with the bytes that were shown.
 */
#include "showing.h"

#include "ledger.h"
#include "records.h"

#include <string.h>

enum { STEPS = 100000 };

/* What random histories have met: packets of each unit's Reads and of each reply, with a residue and a halt at the end; asks with a
 * status due, with nothing due, halted, unconfigured. */
typedef struct met {
    unsigned reads[UNITS], replies[STAGES], halts, statuses, idle, stalls, silent;
} met;

static bool status_due(const collector_record *record)
{
    return COLLECTOR_STAGE_PASSED <= record->stage && record->stage <= COLLECTOR_STAGE_PHASE_ERROR;
}

static void meet(met *met, const collector_record *before, const board *board, collector_shown shown)
{
    if (shown.source == COLLECTOR_SOURCE_MEDIUM)
        met->reads[before->unit]++;
    else if (shown.source == COLLECTOR_SOURCE_REPLY)
        met->replies[before->stage]++;
    met->halts += shown.number == COLLECTOR_DATA && (board->record.flags & COLLECTOR_FLAG_HALT_IN);
    met->statuses += shown.number == COLLECTOR_NAK && status_due(before);
    met->idle += shown.number == COLLECTOR_NAK && !status_due(before);
    met->stalls += shown.number == COLLECTOR_STALL;
    met->silent += shown.number == COLLECTOR_SILENT;
}

static void expect_met(const met *met, size_t units)
{
    for (size_t unit = 0; unit < units; unit++)
        CHECK(met->reads[unit] > 1000);
    for (unsigned stage = COLLECTOR_STAGE_READY; stage < STAGES; stage++)
        CHECK(!sends_reply(stage) || met->replies[stage] > 10);
    CHECK(met->halts > 100);
    CHECK(met->statuses > 100);
    CHECK(met->idle > 10);
    CHECK(met->stalls > 100);
    CHECK(met->silent > 0);
}

/* Where a packet of data is due next, by the record. */
static size_t place_of(const board *board)
{
    const collector_record *record = &board->record;

    if (record->stage != COLLECTOR_STAGE_DATA_IN)
        return record->place;
    return COLLECTOR_BLOCK_SIZE * (size_t)board->units[record->unit].first + record->place;
}

/* A reply that is not the record's: one byte too long, one too short or with another byte. */
static void lend_another(board *board, uint32_t *random, const uint8_t *reply, size_t length)
{
    uint8_t other[COLLECTOR_PACKET_SIZE + 1] = {0};
    const uint32_t how = length > 0 ? pick(random, 3) : 0;

    memcpy(other, reply, length);
    if (how == 2)
        other[pick(random, (uint32_t)length)] ^= 1 << pick(random, 8);
    expect_unshown(board, other, how == 0 ? length + 1 : how == 1 ? length - 1 : length, COLLECTOR_BAD_RECORD);
}

/* Both calls have the same number and bytes and leave the same device. Only a status is not shown: it is asked for then. */
static void ask_both_ways(audited *audited, uint32_t *random, met *met)
{
    static const host_event event = {.kind = BULK_IN};
    board *board = &audited->board, copied = *board;
    const struct board before = *board;
    uint8_t reply[COLLECTOR_PACKET_SIZE];
    const size_t length = reply_of(board, reply);
    size_t count;
    const uint32_t number = play(&copied, &event, &count);
    collector_shown shown;

    EQUAL(length, sends_reply(before.record.stage) ? before.record.place + before.record.left : 0);
    if (pick(random, 4) == 0)
        lend_another(board, random, reply, length);
    shown = board_show(board, reply, length);
    meet(met, &before.record, board, shown);
    if (status_due(&before.record) && number == COLLECTOR_DATA) {
        EQUAL(shown.number, COLLECTOR_NAK);
        EQUAL(audited_play(audited, &event), COLLECTOR_DATA);
        return;
    }
    EQUAL(shown.number, number);
    EQUAL(shown.count, count);
    if (number == COLLECTOR_DATA) {
        const uint8_t *packet = collector_packet(shown, board->medium, reply);

        EQUAL(shown.start, place_of(&before));
        CHECK(memcmp(packet, copied.buffer, count) == 0);
        ledger_note(&audited->ledger, &event, number, packet, count);
    }
    CHECK(in_balance(&audited->ledger));
    memcpy(copied.buffer, board->buffer, sizeof copied.buffer);
    CHECK(same_board(board, &copied));
}

void shown_and_copied(void)
{
    for (size_t units = 1; units <= UNITS; units++) {
        uint32_t random = 100 + (uint32_t)units;
        met met = {0};
        audited audited;

        audited_make(&audited, units);
        for (int at = 0; at < STEPS; at++) {
            const host_event event = next_event(&random, &audited.board);

            if (event.kind == BULK_IN)
                ask_both_ways(&audited, &random, &met);
            else
                audited_play(&audited, &event);
        }
        expect_met(&met, units);
    }
}
