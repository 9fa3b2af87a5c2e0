/*
 * Random histories of one to four units with the ledger beside them (document 02, A13), and what they must have met.
 */
#include "ledger.h"

#include <string.h>

enum { STEPS = 100000 };

/* What random histories have met. */
enum { DROPS = 4, CUT_STAGES = 3, ENDS = 6 };

typedef struct met {
    unsigned cuts[DROPS][CUT_STAGES];
    unsigned ends[ENDS];
} met;

static int drop_of(const host_event *event)
{
    static const char *const setups[] = {MASS_STORAGE_RESET, SET_CONFIGURATION, SET_NO_CONFIGURATION};

    if (event->kind == BUS_RESET)
        return DROPS - 1;
    for (int at = 0; at < DROPS - 1; at++)
        if (event->kind == CONTROL && memcmp(event->setup, setups[at], 8) == 0)
            return at;
    return -1;
}

/* A command is cut by a drop: with data-in under way, with part of a block held, with its status due. */
static void meet_cut(met *met, const collector_record *before, int drop)
{
    const uint8_t stage = before->stage;

    met->cuts[drop][0] += stage == COLLECTOR_STAGE_DATA_IN && before->residue < before->announced;
    met->cuts[drop][1] += stage == COLLECTOR_STAGE_DATA_OUT && before->value > 0;
    met->cuts[drop][2] += COLLECTOR_STAGE_PASSED <= stage && stage <= COLLECTOR_STAGE_PHASE_ERROR;
}

/* A status: of a transfer that is complete, that is short in and out, a phase error with and without data, a failure. */
static void meet_end(met *met, const ledger *ledger, uint8_t verdict, bool out)
{
    const ledger_command *command = &ledger->command[ledger->commands - 1];
    const bool moved = command->counted > 0, shorter = command->counted < command->announced;

    met->ends[0] += verdict == 0 && moved && !shorter;
    met->ends[1] += verdict == 0 && moved && shorter && !out;
    met->ends[2] += verdict == 0 && moved && shorter && out;
    met->ends[3] += verdict == 1 && shorter;
    met->ends[4] += verdict == 2 && moved;
    met->ends[5] += verdict == 2 && !moved;
}

static void expect_met(const met *met)
{
    for (int drop = 0; drop < DROPS; drop++)
        for (int stage = 0; stage < CUT_STAGES; stage++)
            CHECK(met->cuts[drop][stage] > 0);
    for (int end = 0; end < ENDS; end++)
        CHECK(met->ends[end] > 0);
}

static void random_history(size_t units)
{
    uint32_t random = (uint32_t)units;
    bool out = false;
    met met = {0};
    audited audited;

    audited_make(&audited, units);
    for (int at = 0; at < STEPS; at++) {
        const collector_record before = audited.board.record;
        const host_event event = next_event(&random, &audited.board);
        const size_t statuses = audited.ledger.statuses;
        const uint32_t number = audited_play(&audited, &event);

        if (number == COLLECTOR_ACK && drop_of(&event) >= 0)
            meet_cut(&met, &before, drop_of(&event));
        else if (audited.ledger.statuses > statuses)
            meet_end(&met, &audited.ledger, audited.board.buffer[12], out);
        else if (number == COLLECTOR_ACK && event.kind == BULK_OUT && before.stage == COLLECTOR_STAGE_READY)
            out = (event.packet[12] & 0x80) == 0;
    }
    expect_met(&met);
}

void random_ledgers(void)
{
    for (size_t units = 1; units <= UNITS; units++)
        random_history(units);
}
