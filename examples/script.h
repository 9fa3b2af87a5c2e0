/*
 * The scripted controller's script: what the host and somebody at the switches do, and what the device has to do.
 */
#ifndef SCRIPT_H
#define SCRIPT_H

#include "controller.h"

/* Data is copied to the controller, or sent from where it stands in the memory that the controller reads by itself. */
typedef enum outcome { NOTHING, DATA, DATA_IN_PLACE, ACK, NAK, STALL, SILENCE } outcome;

/* A line of the script that is no event: somebody moves a write switch. An event follows it. */
enum { SWITCH = CONTROLLER_OFF + 1 };

typedef struct step {
    const char *name;
    int event;              /* a controller_event, or SWITCH */
    const char *packet;     /* what the host sends; of SWITCH the district and the position */
    size_t length;
    outcome outcome;        /* what the device has to do */
    const char *data;
    size_t count;
} step;

extern const step script[];
extern const size_t steps;

#endif
