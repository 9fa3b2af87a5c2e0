/*
 * The main loop of a collector that serves two districts, each with its own unit: poll the controller for an event, see which
 * write switches were moved, call the device, hand its answer to the hardware.
 */
#include "collector.h"
#include "controller.h"

#include <stdbool.h>

enum { NORTH_BLOCKS = 64, SOUTH_BLOCKS = 32, UNITS = 2 };

static collector_record record;
static collector_unit units[UNITS] = {
    {.first = 0, .blocks = NORTH_BLOCKS},
    {.first = NORTH_BLOCKS, .blocks = SOUTH_BLOCKS},
};
static uint8_t medium[(NORTH_BLOCKS + SOUTH_BLOCKS) * COLLECTOR_BLOCK_SIZE];

/* Lent as the reply, with length 0: no reply is kept here. */
static const uint8_t no_reply[1];

/* False for a refusal: not the host but this program is at fault. */
static bool hand_over(controller_endpoint endpoint, collector_answer answer, const uint8_t *buffer)
{
    switch (answer.number) {
    case COLLECTOR_DATA:
        controller_data(endpoint, buffer, answer.count);
        return true;
    case COLLECTOR_ACK:
        controller_ack(endpoint);
        return true;
    case COLLECTOR_NAK:
        controller_nak(endpoint);
        return true;
    case COLLECTOR_STALL:
        controller_stall(endpoint);
        return true;
    case COLLECTOR_SILENT:
        controller_silence(endpoint);
        return true;
    default:
        return false;
    }
}

/* The host asks for a packet. Of a Read it is handed over where it stands in the medium; everything else is copied. */
static bool send_packet(void)
{
    uint8_t buffer[COLLECTOR_PACKET_SIZE];
    collector_answer answer;
    const collector_shown shown = collector_show(&record, units, UNITS, medium, sizeof medium, no_reply, 0);

    if (shown.number == COLLECTOR_DATA) {
        controller_data(CONTROLLER_BULK_IN, collector_packet(shown, medium, no_reply), shown.count);
        return true;
    }
    answer = collector_bulk_in(&record, units, UNITS, medium, sizeof medium, buffer, sizeof buffer);
    return hand_over(CONTROLLER_BULK_IN, answer, buffer);
}

static bool serve(controller_event event)
{
    uint8_t packet[CONTROLLER_PACKET_SIZE];
    uint8_t buffer[COLLECTOR_PACKET_SIZE];
    collector_answer answer;
    size_t length;

    switch (event) {
    case CONTROLLER_RESET:
        answer = collector_bus_reset(&record, units, UNITS);
        controller_address(record.address);
        return answer.number == COLLECTOR_ACK;
    case CONTROLLER_SETUP:
        length = controller_read(CONTROLLER_CONTROL, packet);
        answer = collector_control(&record, units, UNITS, packet, length, buffer, sizeof buffer);
        controller_address(record.address);
        return hand_over(CONTROLLER_CONTROL, answer, buffer);
    case CONTROLLER_OUT:
        length = controller_read(CONTROLLER_BULK_OUT, packet);
        answer = collector_bulk_out(&record, units, UNITS, medium, sizeof medium, packet, length);
        return hand_over(CONTROLLER_BULK_OUT, answer, buffer);
    case CONTROLLER_IN:
        return send_packet();
    default:
        return false;
    }
}

/* Tells the device of each write switch that was moved; making opened them all. A district's number is its unit's. */
static bool follow_switches(void)
{
    uint8_t district, position;

    while (controller_switch_moved(&district, &position))
        if (collector_set_switch(&record, units, UNITS, position, district).number != COLLECTOR_ACK)
            return false;
    return true;
}

int main(void)
{
    const uint64_t number = 42;
    const uint16_t vendor = 0x1209, product = 0x0001, release = 0x0100;
    controller_event event;

    if (collector_make(&record, number, vendor, product, release, units, UNITS, medium, sizeof medium).number !=
        COLLECTOR_ACK)
        return 1;
    controller_memory(medium, sizeof medium);
    while ((event = controller_poll()) != CONTROLLER_OFF)
        if (!follow_switches() || !serve(event))
            return 1;
    return 0;
}
