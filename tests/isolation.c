/*
 * Two histories that differ only in the bytes of one unit, B: in its starting blocks and in the data written to it (document 02,
 * A7). Everything else is equal: the numbers and counts of all answers, all bytes but those read from B, the other units' blocks.
 */
#include "several_units.h"

#include "host.h"

#include <string.h>

enum { STEPS = 20000 };

typedef struct twins {
    board one, other;
    uint8_t b;
    uint32_t random;
    unsigned read_apart, stored_apart;      /* packets read from B that differ, blocks stored in B that differ */
} twins;

static bool runs_in_b(const twins *twins, uint8_t stage)
{
    return twins->one.record.stage == stage && twins->one.record.unit == twins->b;
}

/* The same event, but that data for B is other bytes. Gives back whether it is such data. */
static bool apart_in_b(const twins *twins, host_event *event)
{
    if (event->kind != BULK_OUT || !runs_in_b(twins, COLLECTOR_STAGE_DATA_OUT))
        return false;
    for (size_t at = 0; at < event->length; at++)
        event->packet[at] ^= 0xFF;
    return true;
}

/* One event of both histories, with equal numbers and counts. */
static void step(twins *twins)
{
    const host_event event = next_event(&twins->random, &twins->one);
    const bool reads = event.kind == BULK_IN && runs_in_b(twins, COLLECTOR_STAGE_DATA_IN);
    const uint32_t left = twins->one.record.left;
    board *one = &twins->one, *other = &twins->other;
    host_event changed = event;
    const bool writes = apart_in_b(twins, &changed);
    size_t count, twin_count;

    EQUAL(play(other, &changed, &twin_count), play(one, &event, &count));
    EQUAL(twin_count, count);
    if (writes && event.length == 64 && one->record.left < left)
        twins->stored_apart++;
    if (reads && memcmp(one->buffer, other->buffer, sizeof one->buffer) != 0) {
        twins->read_apart++;
        memcpy(other->buffer, one->buffer, sizeof one->buffer);
    }
}

/* All is equal but B's blocks and, while one of them is gathered, its bytes. */
static void expect_alike(const twins *twins)
{
    const collector_unit *b = &twins->one.units[twins->b];
    const size_t first = COLLECTOR_BLOCK_SIZE * (size_t)b->first, size = COLLECTOR_BLOCK_SIZE * (size_t)b->blocks;
    board other = twins->other;

    memcpy(other.medium + first, twins->one.medium + first, size);
    if (runs_in_b(twins, COLLECTOR_STAGE_DATA_OUT))
        memcpy(other.record.part, twins->one.record.part, sizeof other.record.part);
    CHECK(same_board(&other, &twins->one));
}

void histories_apart_in_one_unit(void)
{
    for (size_t count = 2; count <= UNITS; count++)
        for (uint8_t b = 0; b < count; b++) {
            twins twins = {.b = b, .random = (uint32_t)(10 * count + b)};

            board_configure(&twins.one, count);
            twins.other = twins.one;
            for (size_t at = 0; at < COLLECTOR_BLOCK_SIZE * (size_t)sizes[b]; at++)
                twins.other.medium[COLLECTOR_BLOCK_SIZE * (size_t)twins.one.units[b].first + at] ^= 0x55;
            for (int at = 0; at < STEPS; at++) {
                step(&twins);
                expect_alike(&twins);
            }
            CHECK(twins.read_apart > 100 && twins.stored_apart > 10);
        }
}
