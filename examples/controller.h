/*
 * A USB device controller as the main loop in firmware.c sees it. For real hardware these functions are its driver's;
 * scripted_controller.c plays a host in their place.
 */
#ifndef CONTROLLER_H
#define CONTROLLER_H

#include <stdbool.h>
#include <stddef.h>
#include <stdint.h>

enum { CONTROLLER_PACKET_SIZE = 64 };

typedef enum controller_endpoint {
    CONTROLLER_CONTROL = 0x00,
    CONTROLLER_BULK_OUT = 0x02,
    CONTROLLER_BULK_IN = 0x81
} controller_endpoint;

typedef enum controller_event {
    CONTROLLER_RESET,   /* the host reset the bus */
    CONTROLLER_SETUP,   /* a control request's setup packet came */
    CONTROLLER_OUT,     /* a packet came on bulk-out */
    CONTROLLER_IN,      /* the host asks for a packet on bulk-in */
    CONTROLLER_OFF      /* the cable was pulled */
} controller_event;

/* The memory that the hardware reads by itself. Data in it is sent from where it stands, and must stay until the next event; other
   data is copied to the hardware first. */
void controller_memory(const uint8_t *memory, size_t size);

/* Waits for the next event. */
controller_event controller_poll(void);

/* Copies the packet of the event, at most CONTROLLER_PACKET_SIZE bytes, and gives back its length. */
size_t controller_read(controller_endpoint endpoint, uint8_t *packet);

/* What the device does on the wire: each event but a reset is answered by one of these. An acknowledgement on the
   control endpoint is the request's status stage; data on it is the data stage, and the hardware adds the status. */
void controller_data(controller_endpoint endpoint, const uint8_t *data, size_t length);
void controller_ack(controller_endpoint endpoint);
void controller_nak(controller_endpoint endpoint);
void controller_stall(controller_endpoint endpoint);
void controller_silence(controller_endpoint endpoint);

/* Sets the address that the hardware answers to; it takes effect after the status stage. */
void controller_address(uint8_t address);

/* The districts' write switches, numbered from 0. Somebody may move them at any time; no event tells of it. Gives back whether
   one was moved that was not told of yet, which, and where it went: 0 open, 1 closed. Those that are closed when the power
   comes on count as moved. */
bool controller_switch_moved(uint8_t *district, uint8_t *position);

#endif
