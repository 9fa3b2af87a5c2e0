/*
 * A device with all that is lent to it, the events on it, and the checks of the tests.
 */
#ifndef BENCH_H
#define BENCH_H

#include "collector.h"

#include <stdbool.h>

enum { BLOCKS = 4, MEDIUM = BLOCKS * 512, FILL = 0xEE };

/* Each ends the program with a message and status 1 where it fails. */
#define CHECK(condition) equal(condition, true, #condition, __FILE__, __LINE__)
#define EQUAL(actual, expected) equal(actual, expected, #actual, __FILE__, __LINE__)

void equal(uint64_t actual, uint64_t expected, const char *text, const char *file, int line);
extern unsigned checks;

typedef struct bench {
    collector_record record;
    collector_unit unit;        /* the table: one unit over the whole medium */
    uint8_t medium[MEDIUM];
    uint8_t buffer[100];
} bench;

/* Compare all but reserved bytes, which have no defined content. */
bool same_record(const collector_record *a, const collector_record *b);
bool same_unit(const collector_unit *a, const collector_unit *b);
bool same(const bench *a, const bench *b);
bool filled(const uint8_t *bytes, size_t length, uint8_t value);

/* An answer's number; its count must be 0 unless it is data. So must all that is shown. */
uint32_t number_of(collector_answer answer);
uint32_t number_shown(collector_shown shown);

/* A fresh device, then also a configured one: number 42, vendor 1209 hex, product 1, release 0100 hex. */
void make(bench *bench);
void configure(bench *bench);

/* The events with the bench's table, medium and buffer. */
uint32_t reset(bench *bench);
uint32_t control(bench *bench, const char *setup);
uint32_t send_packet(bench *bench, const void *packet, size_t length);
uint32_t ask(bench *bench);
uint32_t show(bench *bench, const void *reply, size_t length);
uint32_t tell_reply(bench *bench);
uint32_t turn_switch(bench *bench, uint8_t position);

/* Asks for data, which must come; gives back its count. The rest of the buffer must stay. */
size_t data_in(bench *bench);

/* A wrapper: tag 04030201 hex, a command block of 10 bytes. Sends one, which must be accepted. */
void wrapper(uint8_t packet[31], uint32_t announced, uint8_t direction, const char *block);
void command(bench *bench, uint32_t announced, uint8_t direction, const char *block);

/* What the record must hold: of the command in hand; of its stage, which has no extra number. */
void expect_command(const bench *bench, uint32_t announced, uint32_t residue);
void expect_stage(const bench *bench, uint8_t stage, uint32_t place, uint32_t left, uint32_t value);

/* The sense that a unit must hold; its qualifier is 00. */
void expect_unit_sense(const collector_unit *unit, uint8_t key, uint8_t asc, uint32_t information);

/* Asks for the status wrapper, which must come, and leave the device ready, no command in hand. */
void expect_status(bench *bench, const char *residue, uint8_t status);

#define SET_CONFIGURATION "\x00\x09\x01\x00\x00\x00\x00\x00"
#define SET_NO_CONFIGURATION "\x00\x09\x00\x00\x00\x00\x00\x00"
#define CLEAR_IN "\x02\x01\x00\x00\x81\x00\x00\x00"
#define CLEAR_OUT "\x02\x01\x00\x00\x02\x00\x00\x00"
#define SET_IN "\x02\x03\x00\x00\x81\x00\x00\x00"
#define SET_OUT "\x02\x03\x00\x00\x02\x00\x00\x00"
#define MASS_STORAGE_RESET "\x21\xFF\x00\x00\x00\x00\x00\x00"
#define GET_MAX_LUN "\xA1\xFE\x00\x00\x00\x00\x01\x00"

#define TEST_UNIT_READY "\x00\x00\x00\x00\x00\x00\x00\x00\x00\x00"
#define REQUEST_SENSE "\x03\x00\x00\x00\x12\x00\x00\x00\x00\x00"
#define INQUIRY "\x12\x00\x00\x00\x24\x00\x00\x00\x00\x00"
#define PAGE_00 "\x12\x01\x00\x00\xFF\x00\x00\x00\x00\x00"
#define PAGE_80 "\x12\x01\x80\x00\xFF\x00\x00\x00\x00\x00"
#define PAGE_83 "\x12\x01\x83\x00\xFF\x00\x00\x00\x00\x00"
#define MODE_SENSE "\x1A\x00\x3F\x00\x04\x00\x00\x00\x00\x00"
#define ALLOW_REMOVAL "\x1E\x00\x00\x00\x00\x00\x00\x00\x00\x00"
#define READ_CAPACITY "\x25\x00\x00\x00\x00\x00\x00\x00\x00\x00"
#define READ_TWO_FROM_ONE "\x28\x00\x00\x00\x00\x01\x00\x00\x02\x00"
#define WRITE_TWO_FROM_ONE "\x2A\x00\x00\x00\x00\x01\x00\x00\x02\x00"
#define VERIFY_TWO_FROM_ONE "\x2F\x00\x00\x00\x00\x01\x00\x00\x02\x00"
#define UNKNOWN_CODE "\xFF\x00\x00\x00\x00\x00\x00\x00\x00\x00"

#endif
