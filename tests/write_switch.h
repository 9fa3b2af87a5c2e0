/*
 * The write switch (document 02, A4).
 */
#ifndef WRITE_SWITCH_H
#define WRITE_SWITCH_H

#include "bench.h"

enum { POSITIONS = 2, MODE_SIZE = 4 };

/* Mode Sense's data with the switch open, then closed. */
extern const char *const mode_data[POSITIONS];

bool same_but_switch(const bench *a, const bench *b);

/* A configured device whose switch is at this position. */
void configure_at(bench *bench, uint8_t position);

/* The command passes and sends these bytes, just as many as are announced. */
void expect_reply(bench *bench, const char *block, const char *data, uint32_t size);

void write_switch_events(void);
void write_switch_commands(void);
void write_switch_records(void);

#endif
