/*
 * The collector's USB drive: the device end of Bulk-Only mass storage, one to four logical units of 512-byte blocks.
 *
 * The controller's driver calls one function for each thing that happens on the bus, and does on the wire what the
 * answer's number says. For a packet that the host asks for there are two: collector_bulk_in copies it to a buffer,
 * collector_show says where it stands. One more function tells the device where a unit's write switch is, and one tells
 * the caller the reply that is being sent. The state is in the caller's record and in the caller's table of units, all
 * blocks are in the caller's medium; the library has no variables of its own, allocates nothing, waits for nothing and
 * calls nothing but memcpy and memset.
 * The functions are proved against the specification in crates/machine; "document 01", as the change requests in
 * docs/requests amend it, is its text.
 *
 * Platform: x86-64, System V calling convention. Link libcapi.a.
 */
#ifndef COLLECTOR_H
#define COLLECTOR_H

#include <stddef.h>
#include <stdint.h>

#ifdef __cplusplus
extern "C" {
#endif

#define COLLECTOR_PACKET_SIZE 64u                 /* of a bulk packet, at most; of an answer buffer, at least */
#define COLLECTOR_BLOCK_SIZE 512u
#define COLLECTOR_MAX_UNITS 4u
#define COLLECTOR_MAX_BLOCKS 1048576u             /* of one unit */
#define COLLECTOR_MAX_MEDIUM_SIZE 2147483648u     /* four units of 1,048,576 blocks */
#define COLLECTOR_MAX_NUMBER 999999999999u        /* the largest collector number: twelve digits */
#define COLLECTOR_SETUP_SIZE 8u

/* An answer's number: what to do on the wire. */
#define COLLECTOR_DATA 0u           /* send the buffer's first `count` bytes, or those shown; 0 are an empty packet */
#define COLLECTOR_ACK 1u            /* taken: acknowledge; for a control request, its status stage */
#define COLLECTOR_NAK 2u            /* not now: the host tries again */
#define COLLECTOR_STALL 3u          /* answer STALL */
#define COLLECTOR_SILENT 4u         /* answer nothing: a bulk event on a device that is not configured */
/* A number from 10 on is a refusal: the call was at fault, not the host. */
#define COLLECTOR_BAD_RECORD 10u    /* record and table do not fit together, the switch's position is over 1, or the
                                       reply lent to collector_show is not the record's */
#define COLLECTOR_BAD_MEDIUM 11u    /* the medium's length is not 512 times the sum of the units' blocks */
#define COLLECTOR_SHORT_BUFFER 12u  /* answer buffer under 64 bytes */
#define COLLECTOR_LONG_PACKET 13u   /* bulk-out packet over 64 bytes */
#define COLLECTOR_BAD_SETUP 14u     /* setup not 8 bytes */
#define COLLECTOR_BAD_NUMBER 15u    /* collector number over COLLECTOR_MAX_NUMBER */
#define COLLECTOR_BAD_UNIT 18u      /* the switch event's unit is beyond the table */

/* A record's stage: what the bulk pipes are at. */
#define COLLECTOR_STAGE_READY 0u            /* a command wrapper is due */
#define COLLECTOR_STAGE_DATA_OUT 1u         /* a Write's data */
#define COLLECTOR_STAGE_DATA_IN 2u          /* a Read's data */
#define COLLECTOR_STAGE_REQUEST_SENSE 3u    /* 3 to 6: the reply to the command so named */
#define COLLECTOR_STAGE_INQUIRY 4u
#define COLLECTOR_STAGE_MODE_SENSE 5u
#define COLLECTOR_STAGE_READ_CAPACITY 6u
#define COLLECTOR_STAGE_PASSED 7u           /* 7 to 9: the status wrapper is due */
#define COLLECTOR_STAGE_FAILED 8u
#define COLLECTOR_STAGE_PHASE_ERROR 9u
#define COLLECTOR_STAGE_PAGE 10u            /* a product page: the reply to Inquiry with EVPD set */

/* The bits of a record's flags. */
#define COLLECTOR_FLAG_CONFIGURED 1u
#define COLLECTOR_FLAG_HALT_IN 2u
#define COLLECTOR_FLAG_HALT_OUT 4u
#define COLLECTOR_FLAG_LOCKED 8u    /* Clear Feature does not free the pipes until the command is dropped */

/* A write switch's positions. While it is closed, a Write to its unit fails and Mode Sense of it shows a write-protected
   medium. */
#define COLLECTOR_SWITCH_OPEN 0u    /* as made */
#define COLLECTOR_SWITCH_CLOSED 1u

/* Where a packet stands that collector_show shows. */
#define COLLECTOR_SOURCE_NONE 0u    /* there is none */
#define COLLECTOR_SOURCE_MEDIUM 1u
#define COLLECTOR_SOURCE_REPLY 2u

#define COLLECTOR_UNIT_SIZE 20
#define COLLECTOR_UNIT_ALIGN 4
#define COLLECTOR_RECORD_SIZE 560
#define COLLECTOR_RECORD_ALIGN 8

/*
 * One logical unit: its part of the medium, its sense and its write switch. The caller owns an array of one to four of
 * them, the table, and lends it with every call; a unit's number is its place in the table. Before making, the caller
 * fills in `first` and `blocks` of each; after it the caller keeps the table beside the record, may copy it, store it and
 * read it, and should not write to it.
 */
typedef struct collector_unit {
    uint32_t first;         /* the unit's first block in the medium: 0 for unit 0, then where the unit before it ends */
    uint32_t blocks;        /* its number of blocks, 1 to COLLECTOR_MAX_BLOCKS */
    uint8_t sense_key;      /* the unit's sense, with sense_information */
    uint8_t sense_asc;
    uint8_t sense_ascq;
    uint8_t reserved0;      /* reserved bytes are not looked at and have no defined content */
    uint32_t sense_information;     /* of a sense 05/21/00 the first block outside the unit; of others 0 */
    uint8_t write_switch;   /* COLLECTOR_SWITCH_OPEN or COLLECTOR_SWITCH_CLOSED */
    uint8_t reserved1[3];
} collector_unit;

/*
 * The state that the units share. collector_make fills it, the other functions change it in place; the caller keeps it,
 * may copy it, store it and read it, and should not write to it. `address` is what the controller has to answer to: set
 * it in the hardware after an acknowledged Set Address, and after a bus reset, which leaves it 0.
 */
typedef struct collector_record {
    uint64_t number;        /* the collector number */
    uint16_t vendor;
    uint16_t product;
    uint16_t release;
    uint16_t reserved0;     /* as the unit's */
    uint32_t residue;       /* of the command in hand, as are tag, announced and unit; 0 where none is */
    uint32_t place;         /* stage 1: the next block, of the unit; 2: the next byte of the unit's part of the medium;
                               3 to 6 and 10: the next byte of the reply; else 0 */
    uint32_t left;          /* stage 1: blocks still due; 2 to 6 and 10: bytes still due; else 0 */
    uint32_t value;         /* stage 1: bytes held of the next block; 3: the sense that is sent, key + 256 * ASC +
                               65536 * ASCQ; 5: the switch's position that is told; 6: the blocks that are told;
                               10: the page's code; else 0 */
    uint32_t extra;         /* stage 3: the information of the sense that is sent; else 0 */
    uint32_t tag;
    uint32_t announced;     /* the transfer length that the host announced */
    uint8_t stage;
    uint8_t flags;
    uint8_t address;
    uint8_t unit;           /* the unit that the command in hand is for */
    uint8_t part[512];      /* the block being gathered; zeros where none is */
} collector_record;

typedef struct collector_answer {
    uint32_t number;        /* COLLECTOR_DATA to COLLECTOR_BAD_UNIT */
    size_t count;           /* COLLECTOR_DATA: the bytes written to the buffer; else 0 */
} collector_answer;

/* The answer of collector_show. collector_packet makes a pointer of it. */
typedef struct collector_shown {
    uint32_t number;        /* as collector_answer's */
    uint32_t source;        /* COLLECTOR_DATA: COLLECTOR_SOURCE_MEDIUM or _REPLY; else COLLECTOR_SOURCE_NONE */
    size_t start;           /* COLLECTOR_DATA: where the packet begins, in the medium or in the reply; else 0 */
    size_t count;           /* COLLECTOR_DATA: its bytes, 1 to 64; else 0 */
} collector_shown;

#ifdef __cplusplus
#define COLLECTOR_LAYOUT(fact) static_assert(fact, #fact)
#define COLLECTOR_ALIGN_OF(type) alignof(type)
#else
#define COLLECTOR_LAYOUT(fact) _Static_assert(fact, #fact)
#define COLLECTOR_ALIGN_OF(type) _Alignof(type)
#endif
COLLECTOR_LAYOUT(sizeof(collector_unit) == COLLECTOR_UNIT_SIZE);
COLLECTOR_LAYOUT(COLLECTOR_ALIGN_OF(collector_unit) == COLLECTOR_UNIT_ALIGN);
COLLECTOR_LAYOUT(offsetof(collector_unit, first) == 0);
COLLECTOR_LAYOUT(offsetof(collector_unit, blocks) == 4);
COLLECTOR_LAYOUT(offsetof(collector_unit, sense_key) == 8);
COLLECTOR_LAYOUT(offsetof(collector_unit, sense_asc) == 9);
COLLECTOR_LAYOUT(offsetof(collector_unit, sense_ascq) == 10);
COLLECTOR_LAYOUT(offsetof(collector_unit, sense_information) == 12);
COLLECTOR_LAYOUT(offsetof(collector_unit, write_switch) == 16);
COLLECTOR_LAYOUT(sizeof(collector_record) == COLLECTOR_RECORD_SIZE);
COLLECTOR_LAYOUT(COLLECTOR_ALIGN_OF(collector_record) == COLLECTOR_RECORD_ALIGN);
COLLECTOR_LAYOUT(offsetof(collector_record, unit) == 47);
COLLECTOR_LAYOUT(offsetof(collector_record, part) == 48);
COLLECTOR_LAYOUT(sizeof(collector_answer) == 16);
COLLECTOR_LAYOUT(sizeof(collector_shown) == 24);
COLLECTOR_LAYOUT(COLLECTOR_ALIGN_OF(collector_shown) == 8);
COLLECTOR_LAYOUT(offsetof(collector_shown, source) == 4);
COLLECTOR_LAYOUT(offsetof(collector_shown, start) == 8);
COLLECTOR_LAYOUT(offsetof(collector_shown, count) == 16);
#undef COLLECTOR_LAYOUT
#undef COLLECTOR_ALIGN_OF

/*
 * What the caller keeps true, for every call:
 * - each pointer is valid for its length (the table's: for its units, of which no more than the first four are read) and
 *   not null, also where the length is 0;
 * - what the call may write (the record of all but collector_reply; the table of all but collector_bulk_in,
 *   collector_show and collector_reply; the medium of collector_bulk_out; a buffer) overlaps nothing else lent to it.
 *   What it only reads may overlap: medium and reply of collector_show too;
 * - no two calls run at once on one record, on one table or on one medium;
 * - record, table and medium belong together: the table that the record was made with is lent to each event, with as
 *   many units, and nobody else writes it; the medium is lent to each bulk event. The caller may read all three at any
 *   time between calls. Another table that fits too, and another medium of the same length, are not noticed.
 *
 * Everything else is checked. Each function answers every input, checks in the order that is written here and
 * answers the first that fails. A refusal (10 to 18) and NAK and SILENT change no field, block or buffer; reserved bytes
 * are no fields, and a refused making is told below. Only these calls write to the table: a making that is acknowledged,
 * a bulk-out packet that is a command wrapper or data of a wrong length, a drop of the command, a setting of a switch.
 * Any bytes may be handed over as a record and as a table. They are answered COLLECTOR_BAD_RECORD where they break the
 * rules of number 10 in documents 01 and 02. Of the table: one to four units, each of 1 to COLLECTOR_MAX_BLOCKS blocks,
 * `first` 0 and then the sum of the blocks before, each write_switch 0 or 1, and every sense zero while the device is
 * not configured. Of both: the record's unit is in the table, whatever the stage, and the blocks and bytes of stages 1
 * and 2 are in that unit. COLLECTOR_BAD_RECORD too where flags is over 15, stage over 10, a place, left, value or extra
 * not 0 in a stage that does not use it, value 2^24 or more in stage 3, value over 1 in stage 5, or value other than 00,
 * 80 or 83 hex in stage 10.
 */

/*
 * Makes a device: fresh, unconfigured, address 0, with the units whose `first` and `blocks` the table has; every unit's
 * sense is set to zero and every switch opened. The medium is neither read nor changed; what the record held before does
 * not matter, nor what senses and switches the table had.
 *   COLLECTOR_BAD_RECORD   the table has not 1 to 4 units, a unit not 1 to COLLECTOR_MAX_BLOCKS blocks, or the parts do
 *                          not follow on from block 0
 *   COLLECTOR_BAD_MEDIUM   the length is not 512 times the sum of the units' blocks
 *   COLLECTOR_BAD_NUMBER   the number is over COLLECTOR_MAX_NUMBER
 *   COLLECTOR_ACK          the device is made
 * Each refusal keeps the table and leaves all fields of the record 0. That record is no device and must not be used, but
 * no call would say so: with a table that fits, all senses zero, it is a collector of number 0 like any other.
 */
collector_answer collector_make(collector_record *record, uint64_t number, uint16_t vendor, uint16_t product,
                                uint16_t release, collector_unit *units, size_t unit_count, const uint8_t *medium,
                                size_t medium_len);

/*
 * The host reset the bus. The command in hand is dropped (a part block is not stored), halts, lock and the sense of every
 * unit are cleared, address and configuration are 0. Identity, parts, switches and medium stay.
 *   COLLECTOR_BAD_RECORD
 *   COLLECTOR_ACK
 */
collector_answer collector_bus_reset(collector_record *record, collector_unit *units, size_t unit_count);

/*
 * A control request came: its 8 setup bytes. Changes the record only where it answers ACK, and the buffer only where
 * it answers DATA, and of it the first `count` bytes only. Of the table it changes the senses alone: an acknowledged Set
 * Configuration or Mass Storage Reset drops the command and clears the sense of every unit. No request moves a switch.
 *   COLLECTOR_BAD_RECORD
 *   COLLECTOR_SHORT_BUFFER
 *   COLLECTOR_BAD_SETUP
 *   COLLECTOR_DATA         the data stage's bytes, at most the length that the host asked for, at most 64
 *   COLLECTOR_ACK          done; no data stage
 *   COLLECTOR_STALL        not a request of this device, or not in this state
 */
collector_answer collector_control(collector_record *record, collector_unit *units, size_t unit_count,
                                   const uint8_t *setup, size_t setup_len, uint8_t *buffer, size_t buffer_len);

/*
 * A packet came on bulk-out (endpoint 02 hex): a command wrapper or data. A wrapper names its unit; block numbers are that
 * unit's own. Blocks reach the medium whole, with the packet that completes them; no other byte of the medium changes. Of
 * the table it changes the sense of the command's unit alone. A Write that comes with its unit's switch closed is answered
 * ACK, as every good wrapper, takes no data and fails with sense 07/27/00; so does one of no blocks.
 *   COLLECTOR_BAD_RECORD
 *   COLLECTOR_BAD_MEDIUM
 *   COLLECTOR_LONG_PACKET
 *   COLLECTOR_SILENT       not configured
 *   COLLECTOR_STALL        bulk-out is halted: nothing changes. Or a wrapper was due and this is none that can be
 *                          accepted, as for a unit beyond the table: both pipes are halted and the device is locked
 *   COLLECTOR_NAK          neither a wrapper nor data is due
 *   COLLECTOR_ACK          taken
 */
collector_answer collector_bulk_out(collector_record *record, collector_unit *units, size_t unit_count,
                                    uint8_t *medium, size_t medium_len, const uint8_t *packet, size_t packet_len);

/*
 * The host asks for a packet on bulk-in (endpoint 81 hex). A packet counts as sent once it is answered: call again
 * only when the host has acknowledged it. Table and medium are read only.
 *   COLLECTOR_BAD_RECORD
 *   COLLECTOR_BAD_MEDIUM
 *   COLLECTOR_SHORT_BUFFER
 *   COLLECTOR_SILENT       not configured
 *   COLLECTOR_STALL        bulk-in is halted; nothing changes
 *   COLLECTOR_NAK          neither data nor status is due
 *   COLLECTOR_DATA         a packet of data, 1 to 64 bytes, or the status wrapper, 13 bytes: they are the buffer's
 *                          first `count` bytes; its others stay
 */
collector_answer collector_bulk_in(collector_record *record, const collector_unit *units, size_t unit_count,
                                   const uint8_t *medium, size_t medium_len, uint8_t *buffer, size_t buffer_len);

/*
 * The host asks for a packet on bulk-in: as collector_bulk_in, but for data alone, and without a copy. A packet of a Read
 * is shown where it stands in the medium, that of a reply where it stands in `reply`. The number, the bytes and what
 * becomes of the record are those of collector_bulk_in: a packet counts as sent once it is shown. It is in the caller's
 * own memory, and stays what it is until the caller changes the medium or the reply, by collector_bulk_out or otherwise.
 * Table, medium and reply are read only.
 * The reply must be the record's. In stages 3 to 6 and 10 that is the whole reply to the command in hand, as its
 * allocation length cuts it: the first place + left bytes of the reply's data. In every other stage, with a status due
 * too, it is empty: a length of 0. collector_reply gives it.
 *   COLLECTOR_BAD_RECORD   also where the reply has another length or other bytes than the record's
 *   COLLECTOR_BAD_MEDIUM
 *   COLLECTOR_SILENT       not configured
 *   COLLECTOR_STALL        bulk-in is halted; nothing changes
 *   COLLECTOR_NAK          no data is due; a status wrapper may be, which collector_bulk_in hands out
 *   COLLECTOR_DATA         a packet of data, 1 to 64 bytes: they are the `count` bytes at `start` of its source
 * A firmware need not know what is due, nor keep a reply. It shows first, with a reply of length 0, which is right for
 * every Read. Where the answer is not COLLECTOR_DATA, nothing has changed: it then calls collector_bulk_in, which answers
 * everything else, a reply, a status, a halt.
 */
collector_shown collector_show(collector_record *record, const collector_unit *units, size_t unit_count,
                               const uint8_t *medium, size_t medium_len, const uint8_t *reply, size_t reply_len);

/* The packet that is shown, of the medium and the reply that were lent. Only where the number is COLLECTOR_DATA. */
static inline const uint8_t *collector_packet(collector_shown shown, const uint8_t *medium, const uint8_t *reply)
{
    return (shown.source == COLLECTOR_SOURCE_REPLY ? reply : medium) + shown.start;
}

/*
 * The record's reply, as collector_show wants it: for a caller that has replies shown too. It is no event: nothing
 * changes but the buffer, and there is nothing to do on the wire. The reply stays the same from the command wrapper until
 * its packet is sent, whatever is halted or cleared and wherever a switch is moved.
 *   COLLECTOR_BAD_RECORD
 *   COLLECTOR_SHORT_BUFFER
 *   COLLECTOR_DATA         the reply: the buffer's first `count` bytes; its others stay. 0 bytes where none is being sent,
 *                          on a device that is not configured too
 */
collector_answer collector_reply(const collector_record *record, const collector_unit *units, size_t unit_count,
                                 uint8_t *buffer, size_t buffer_len);

/*
 * This unit's write switch is at this position, COLLECTOR_SWITCH_OPEN or COLLECTOR_SWITCH_CLOSED: sets it in the table and
 * changes nothing else. There is nothing to do on the wire. It may be called between any two calls, with the position
 * that is set already too: configured or not, halted, locked, in the middle of a command. The position counts from the
 * next command wrapper on: a Write under way goes on, and a Mode Sense sends what its wrapper found. No reset and no
 * request moves a switch, but collector_make opens them all: so call this for each unit after each making.
 *   COLLECTOR_BAD_RECORD   also where the position is over 1
 *   COLLECTOR_BAD_UNIT     the table has no unit of this number
 *   COLLECTOR_ACK          set
 */
collector_answer collector_set_switch(collector_record *record, collector_unit *units, size_t unit_count,
                                      uint8_t position, uint8_t unit);

#ifdef __cplusplus
}
#endif

#endif
