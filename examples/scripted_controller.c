/*
 * A controller without hardware: it plays a host from a script, and compares what the firmware hands over with the answers
 * that the script prescribes. Exit status 1 at the first mismatch.
 */
#include "script.h"

#include <stdio.h>
#include <stdlib.h>
#include <string.h>

static size_t next;                 /* the step before it is under way */
static size_t told;                 /* the firmware knows the switches that the steps before it moved */
static bool answered = true;
static uint8_t address, expected_address;
static const uint8_t *memory;       /* what the firmware lets the controller read by itself */
static size_t memory_size;

static void fail(const char *what)
{
    printf("firmware: FAILED at step %zu of %zu, %s: %s\n", next, steps, script[next - 1].name, what);
    exit(1);
}

static controller_endpoint endpoint_of(int event)
{
    switch (event) {
    case CONTROLLER_OUT:
        return CONTROLLER_BULK_OUT;
    case CONTROLLER_IN:
        return CONTROLLER_BULK_IN;
    default:
        return CONTROLLER_CONTROL;
    }
}

static void end_step(const step *step)
{
    if (!answered)
        fail("nothing was handed over");
    if (step->event == CONTROLLER_RESET)
        expected_address = 0;
    else if (step->event == CONTROLLER_SETUP && memcmp(step->packet, "\x00\x05", 2) == 0)
        expected_address = (uint8_t)step->packet[2];
    if (address != expected_address)
        fail("wrong address");
}

void controller_memory(const uint8_t *start, size_t size)
{
    memory = start;
    memory_size = size;
}

controller_event controller_poll(void)
{
    if (next > 0)
        end_step(&script[next - 1]);
    if (next == steps) {
        printf("firmware: %zu steps, each answered as documents 01 and 02 say\n", steps);
        return CONTROLLER_OFF;
    }
    while (script[next].event == SWITCH)
        next++;
    answered = script[next].outcome == NOTHING;
    return (controller_event)script[next++].event;
}

size_t controller_read(controller_endpoint endpoint, uint8_t *packet)
{
    const step *step = &script[next - 1];

    if (step->packet == NULL || endpoint != endpoint_of(step->event))
        fail("read where no packet came");
    memcpy(packet, step->packet, step->length);
    return step->length;
}

static void handed_over(controller_endpoint endpoint, outcome outcome, const uint8_t *data, size_t length)
{
    static const char *const names[] = {"nothing", "data", "data in place", "ack", "nak", "stall", "silence"};
    const step *step = &script[next - 1];

    if (answered)
        fail("handed over where nothing was due");
    if (endpoint != endpoint_of(step->event))
        fail("handed over on another endpoint");
    if (outcome != step->outcome)
        fail(names[outcome]);
    if (length != step->count || (length > 0 && memcmp(data, step->data, length) != 0))
        fail("other data");
    answered = true;
}

static bool in_memory(const uint8_t *data, size_t length)
{
    const uintptr_t start = (uintptr_t)memory, place = (uintptr_t)data;

    return start <= place && place + length <= start + memory_size;
}

void controller_data(controller_endpoint endpoint, const uint8_t *data, size_t length)
{
    handed_over(endpoint, in_memory(data, length) ? DATA_IN_PLACE : DATA, data, length);
}

void controller_ack(controller_endpoint endpoint)
{
    handed_over(endpoint, ACK, NULL, 0);
}

void controller_nak(controller_endpoint endpoint)
{
    handed_over(endpoint, NAK, NULL, 0);
}

void controller_stall(controller_endpoint endpoint)
{
    handed_over(endpoint, STALL, NULL, 0);
}

void controller_silence(controller_endpoint endpoint)
{
    handed_over(endpoint, SILENCE, NULL, 0);
}

void controller_address(uint8_t new_address)
{
    address = new_address;
}

bool controller_switch_moved(uint8_t *district, uint8_t *position)
{
    while (told < next) {
        const step *step = &script[told++];

        if (step->event == SWITCH) {
            *district = (uint8_t)step->packet[0];
            *position = (uint8_t)step->packet[1];
            return true;
        }
    }
    return false;
}
