/*
 * The auditors' ledger (document 02, A13): an accountant who sees the units' sizes, the events and their answers with the bytes
 * handed out, and nothing of record and table. A book runs from one command drop to the next.
 */
#ifndef LEDGER_H
#define LEDGER_H

#include "host.h"

enum { BOOK = 256 };    /* the most commands of a book in these tests */

/* A command wrapper that was accepted, with the bytes counted from the history since. */
typedef struct ledger_command {
    uint32_t tag, announced;
    uint64_t counted;
} ledger_command;

/* A status wrapper that was handed out. */
typedef struct ledger_status {
    uint32_t tag, residue;
} ledger_status;

typedef struct ledger {
    /* The tally of arrived blocks: what decides a Write, and the one that is under way. */
    size_t units;
    uint32_t blocks[UNITS];
    bool closed[UNITS];
    uint32_t left, held;        /* blocks still to arrive, 0 where no Write is under way; bytes held of the next */
    /* The book. */
    size_t commands, statuses;
    ledger_command command[BOOK];
    ledger_status status[BOOK];
    uint64_t stray;             /* data-in bytes handed out before any command */
    unsigned unreadable;        /* packets taken as command wrappers that are none */
} ledger;

/* For a fresh collector of the first so many units of `sizes`. */
void ledger_open(ledger *ledger, size_t units);

/* Books an event, its answer's number, and the bytes that bulk-in handed out. */
void ledger_note(ledger *ledger, const host_event *event, uint32_t number, const uint8_t *bytes, size_t count);

bool in_balance(const ledger *ledger);

/* A device with the ledger beside it. */
typedef struct audited {
    board board;
    ledger ledger;
} audited;

void audited_make(audited *audited, size_t units);

/* Plays an event and books it; the ledger must then be in balance. Gives back the answer's number. */
uint32_t audited_play(audited *audited, const host_event *event);

void worked_ledger(void);
void random_ledgers(void);

#endif
