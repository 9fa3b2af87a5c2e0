/*
 * The script: a host finds the collector of firmware.c, with a district's unit each for north and south, writes and reads both,
 * and meets their switches. The answers are those that documents 01 and 02 prescribe. A Read's data is sent from the medium, not
 * from a copy.
 */
#include "script.h"

#define BYTES(text) text, sizeof text - 1
#define NONE NULL, 0

/* A host's and a device's lines of the script. */
#define RESET CONTROLLER_RESET, NONE, NOTHING, NONE
#define SETUP(bytes) CONTROLLER_SETUP, BYTES(bytes)
#define OUT(bytes) CONTROLLER_OUT, BYTES(bytes)
#define ASK CONTROLLER_IN, NONE
#define SENDS(bytes) DATA, BYTES(bytes)
#define SHOWS(bytes) DATA_IN_PLACE, BYTES(bytes)
#define ACKS ACK, NONE
#define NAKS NAK, NONE
#define STALLS STALL, NONE
#define IS_SILENT SILENCE, NONE
#define OPENED(district) SWITCH, BYTES(district "\x00"), NOTHING, NONE
#define CLOSED(district) SWITCH, BYTES(district "\x01"), NOTHING, NONE

/* The districts' units, and one that there is not. */
#define NORTH "\x00"
#define SOUTH "\x01"
#define NOBODY "\x02"

/* A command wrapper: tag (its first byte), announced length, direction, unit, block length, command block of 16 bytes. */
#define CBW(tag, announced, direction, unit, block) OUT("USBC" tag "\x00\x00\x00" announced direction unit block)
#define HOST_IN "\x80"
#define HOST_OUT "\x00"
#define ZEROS6 "\x00\x00\x00\x00\x00\x00"
#define ZEROS10 ZEROS6 "\x00\x00\x00\x00"
/* Commands: of no data, of a reply, of one block or none. */
#define TEST_UNIT_READY(tag, unit) CBW(tag, "\x00\x00\x00\x00", HOST_OUT, unit, "\x06" ZEROS6 ZEROS10)
#define REQUEST_SENSE(tag, unit) \
    CBW(tag, "\x12\x00\x00\x00", HOST_IN, unit, "\x06" "\x03\x00\x00\x00\x12\x00" ZEROS10)
#define INQUIRY(tag, unit) CBW(tag, "\x24\x00\x00\x00", HOST_IN, unit, "\x06" "\x12\x00\x00\x00\x24\x00" ZEROS10)
#define MODE_SENSE(tag, unit) CBW(tag, "\x04\x00\x00\x00", HOST_IN, unit, "\x06" "\x1A\x00\x3F\x00\x04\x00" ZEROS10)
#define READ_CAPACITY(tag, unit) CBW(tag, "\x08\x00\x00\x00", HOST_IN, unit, "\x0A" "\x25\x00\x00\x00" ZEROS6 ZEROS6)
#define READ(tag, unit, block) \
    CBW(tag, "\x00\x02\x00\x00", HOST_IN, unit, "\x0A" "\x28\x00\x00\x00\x00" block "\x00\x00\x01\x00" ZEROS6)
#define WRITE(tag, unit, block) \
    CBW(tag, "\x00\x02\x00\x00", HOST_OUT, unit, "\x0A" "\x2A\x00\x00\x00\x00" block "\x00\x00\x01\x00" ZEROS6)
#define WRITE_NONE(tag, unit) \
    CBW(tag, "\x00\x00\x00\x00", HOST_OUT, unit, "\x0A" "\x2A\x00\x00\x00\x00\x05\x00\x00\x00\x00" ZEROS6)
/* A status wrapper: tag, residue, status. */
#define CSW(tag, residue, status) SENDS("USBS" tag "\x00\x00\x00" residue status)
#define PASSED(tag) CSW(tag, "\x00\x00\x00\x00", "\x00")
#define FAILED(tag, residue) CSW(tag, residue "\x00\x00", "\x01")
/* Sense data: its first byte and key, the block of a range failure, ASC. */
#define SENSE(first, key, block, asc) \
    SENDS(first "\x00" key "\x00\x00\x00" block "\x0A\x00\x00\x00\x00" asc "\x00\x00\x00\x00\x00")
#define NO_SENSE SENSE("\x70", "\x00", "\x00", "\x00")

/* A block that is written and read back, 64 bytes a packet, each with a first byte of its own. */
#define ROW(digit) digit "23456789abcdef0123456789abcdef0123456789abcdef0123456789abcdef!"
#define CLEAR_IN SETUP("\x02\x01\x00\x00\x81\x00\x00\x00")
#define CLEAR_OUT SETUP("\x02\x01\x00\x00\x02\x00\x00\x00")
#define MASS_STORAGE_RESET SETUP("\x21\xFF\x00\x00\x00\x00\x00\x00")

const step script[] = {
    {"north's switch closed before the cable was plugged in", CLOSED(NORTH)},
    {"bus reset", RESET},
    {"Get Descriptor, device", SETUP("\x80\x06\x00\x01\x00\x00\x40\x00"),
     SENDS("\x12\x01\x00\x02\x00\x00\x00\x40\x09\x12\x01\x00\x00\x01\x01\x02\x03\x01")},
    {"Set Address 5", SETUP("\x00\x05\x05\x00\x00\x00\x00\x00"), ACKS},
    {"Get Descriptor, configuration's head", SETUP("\x80\x06\x00\x02\x00\x00\x09\x00"),
     SENDS("\x09\x02\x20\x00\x01\x01\x00\xC0\x00")},
    {"Get Descriptor, configuration", SETUP("\x80\x06\x00\x02\x00\x00\xFF\x00"),
     SENDS("\x09\x02\x20\x00\x01\x01\x00\xC0\x00"
           "\x09\x04\x00\x00\x02\x08\x06\x50\x00"
           "\x07\x05\x81\x02\x40\x00\x00"
           "\x07\x05\x02\x02\x40\x00\x00")},
    {"Get Descriptor, serial number", SETUP("\x80\x06\x03\x03\x09\x04\xFF\x00"),
     SENDS("\x1A\x03" "0\0" "0\0" "0\0" "0\0" "0\0" "0\0" "0\0" "0\0" "0\0" "0\0" "4\0" "2\0")},
    {"ask before the configuration", ASK, IS_SILENT},
    {"Get Max LUN before the configuration", SETUP("\xA1\xFE\x00\x00\x00\x00\x01\x00"), STALLS},
    {"Set Configuration 1", SETUP("\x00\x09\x01\x00\x00\x00\x00\x00"), ACKS},
    {"Get Max LUN, two units", SETUP("\xA1\xFE\x00\x00\x00\x00\x01\x00"), SENDS("\x01")},

    {"Inquiry, north", INQUIRY("\x01", NORTH), ACKS},
    {"Inquiry's data", ASK, SENDS("\x00\x80\x05\x02\x1F\x00\x00\x00" "COLLECT METER EXPORT    0100")},
    {"Inquiry's status", ASK, PASSED("\x01")},
    {"ask where nothing is due", ASK, NAKS},
    {"Inquiry, south", INQUIRY("\x02", SOUTH), ACKS},
    {"Inquiry's data", ASK, SENDS("\x00\x80\x05\x02\x1F\x00\x00\x00" "COLLECT METER EXPORT    0100")},
    {"Inquiry's status", ASK, PASSED("\x02")},
    {"Read Capacity, north", READ_CAPACITY("\x03", NORTH), ACKS},
    {"64 blocks", ASK, SENDS("\x00\x00\x00\x3F\x00\x00\x02\x00")},
    {"Read Capacity's status", ASK, PASSED("\x03")},
    {"Read Capacity, south", READ_CAPACITY("\x04", SOUTH), ACKS},
    {"32 blocks", ASK, SENDS("\x00\x00\x00\x1F\x00\x00\x02\x00")},
    {"Read Capacity's status", ASK, PASSED("\x04")},

    {"Write north's block 5, its switch closed", WRITE("\x05", NORTH, "\x05"), ACKS},
    {"stalled data", OUT(ROW("0")), STALLS},
    {"failed status, residue 512", ASK, FAILED("\x05", "\x00\x02")},
    {"Clear Feature, bulk-out", CLEAR_OUT, ACKS},
    {"Mode Sense, south", MODE_SENSE("\x06", SOUTH), ACKS},
    {"Mode Sense's data, not write-protected", ASK, SENDS("\x03\x00\x00\x00")},
    {"Mode Sense's status", ASK, PASSED("\x06")},
    {"Write south's block 5", WRITE("\x07", SOUTH, "\x05"), ACKS},
    {"Write's packet 1", OUT(ROW("A")), ACKS},
    {"Write's packet 2", OUT(ROW("B")), ACKS},
    {"south's switch closed within the data", CLOSED(SOUTH)},
    {"north's switch opened", OPENED(NORTH)},
    {"ask within the data", ASK, NAKS},
    {"Write's packet 3", OUT(ROW("C")), ACKS},
    {"Write's packet 4", OUT(ROW("D")), ACKS},
    {"Write's packet 5", OUT(ROW("E")), ACKS},
    {"Write's packet 6", OUT(ROW("F")), ACKS},
    {"Write's packet 7", OUT(ROW("G")), ACKS},
    {"Write's packet 8", OUT(ROW("H")), ACKS},
    {"packet where status is due", OUT(ROW("9")), NAKS},
    {"Write's status", ASK, PASSED("\x07")},

    {"Request Sense, north", REQUEST_SENSE("\x08", NORTH), ACKS},
    {"sense 07/27/00", ASK, SENSE("\x70", "\x07", "\x00", "\x27")},
    {"Request Sense's status", ASK, PASSED("\x08")},
    {"Mode Sense, south", MODE_SENSE("\x09", SOUTH), ACKS},
    {"Mode Sense's data, write-protected", ASK, SENDS("\x03\x00\x80\x00")},
    {"Mode Sense's status", ASK, PASSED("\x09")},
    {"Mode Sense, north", MODE_SENSE("\x0A", NORTH), ACKS},
    {"Mode Sense's data, not write-protected", ASK, SENDS("\x03\x00\x00\x00")},
    {"Mode Sense's status", ASK, PASSED("\x0A")},
    {"Write north's block 5", WRITE("\x0B", NORTH, "\x05"), ACKS},
    {"Write's packet 1", OUT(ROW("1")), ACKS},
    {"Write's packet 2", OUT(ROW("2")), ACKS},
    {"Write's packet 3", OUT(ROW("3")), ACKS},
    {"Write's packet 4", OUT(ROW("4")), ACKS},
    {"Write's packet 5", OUT(ROW("5")), ACKS},
    {"Write's packet 6", OUT(ROW("6")), ACKS},
    {"Write's packet 7", OUT(ROW("7")), ACKS},
    {"Write's packet 8", OUT(ROW("8")), ACKS},
    {"Write's status", ASK, PASSED("\x0B")},
    {"Write of no block, south, its switch closed", WRITE_NONE("\x0C", SOUTH), ACKS},
    {"failed status", ASK, FAILED("\x0C", "\x00\x00")},
    {"Write of no block, north", WRITE_NONE("\x0D", NORTH), ACKS},
    {"its status", ASK, PASSED("\x0D")},

    {"Read south's block 5", READ("\x0E", SOUTH, "\x05"), ACKS},
    {"Read's packet 1", ASK, SHOWS(ROW("A"))},
    {"Read's packet 2", ASK, SHOWS(ROW("B"))},
    {"Read's packet 3", ASK, SHOWS(ROW("C"))},
    {"Read's packet 4", ASK, SHOWS(ROW("D"))},
    {"Read's packet 5", ASK, SHOWS(ROW("E"))},
    {"Read's packet 6", ASK, SHOWS(ROW("F"))},
    {"Read's packet 7", ASK, SHOWS(ROW("G"))},
    {"Read's packet 8", ASK, SHOWS(ROW("H"))},
    {"Read's status", ASK, PASSED("\x0E")},
    {"Read north's block 5", READ("\x0F", NORTH, "\x05"), ACKS},
    {"Read's packet 1", ASK, SHOWS(ROW("1"))},
    {"Read's packet 2", ASK, SHOWS(ROW("2"))},
    {"Read's packet 3", ASK, SHOWS(ROW("3"))},
    {"Read's packet 4", ASK, SHOWS(ROW("4"))},
    {"Read's packet 5", ASK, SHOWS(ROW("5"))},
    {"Read's packet 6", ASK, SHOWS(ROW("6"))},
    {"Read's packet 7", ASK, SHOWS(ROW("7"))},
    {"Read's packet 8", ASK, SHOWS(ROW("8"))},
    {"Read's status", ASK, PASSED("\x0F")},

    {"Read south's block 32, past its end", READ("\x10", SOUTH, "\x20"), ACKS},
    {"stalled data", ASK, STALLS},
    {"Get Status, bulk-in halted", SETUP("\x82\x00\x00\x00\x81\x00\x02\x00"), SENDS("\x01\x00")},
    {"Clear Feature, bulk-in", CLEAR_IN, ACKS},
    {"failed status, residue 512", ASK, FAILED("\x10", "\x00\x02")},
    {"Request Sense, north", REQUEST_SENSE("\x11", NORTH), ACKS},
    {"no sense", ASK, NO_SENSE},
    {"Request Sense's status", ASK, PASSED("\x11")},
    {"Request Sense, south", REQUEST_SENSE("\x12", SOUTH), ACKS},
    {"sense 05/21/00, block 32", ASK, SENSE("\xF0", "\x05", "\x20", "\x21")},
    {"Request Sense's status", ASK, PASSED("\x12")},

    {"Write of no block, south", WRITE_NONE("\x13", SOUTH), ACKS},
    {"failed status", ASK, FAILED("\x13", "\x00\x00")},
    {"wrapper for a unit that there is not", TEST_UNIT_READY("\x14", NOBODY), STALLS},
    {"Clear Feature, bulk-in, in vain", CLEAR_IN, ACKS},
    {"stalled ask", ASK, STALLS},
    {"Mass Storage Reset", MASS_STORAGE_RESET, ACKS},
    {"Clear Feature, bulk-in", CLEAR_IN, ACKS},
    {"Clear Feature, bulk-out", CLEAR_OUT, ACKS},
    {"Request Sense, south", REQUEST_SENSE("\x15", SOUTH), ACKS},
    {"no sense", ASK, NO_SENSE},
    {"Request Sense's status", ASK, PASSED("\x15")},

    {"Write of no block, south", WRITE_NONE("\x16", SOUTH), ACKS},
    {"failed status", ASK, FAILED("\x16", "\x00\x00")},
    {"Read north's block 5 again", READ("\x17", NORTH, "\x05"), ACKS},
    {"bus reset within the data", RESET},
    {"Get Configuration", SETUP("\x80\x08\x00\x00\x00\x00\x01\x00"), SENDS("\x00")},
    {"ask after the reset", ASK, IS_SILENT},
};

const size_t steps = sizeof script / sizeof script[0];
