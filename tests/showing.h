/*
 * Packets shown where they stand (document 02, A11): the showing call and the record's reply, with all that a board lends.
 */
#ifndef SHOWING_H
#define SHOWING_H

#include "board.h"

/* The reply that is lent where none is being sent: of no bytes. */
#define NO_REPLY "", 0

/* Whether a reply is being sent in this stage. */
bool sends_reply(unsigned stage);

/* Asks for the next packet to be shown, with this reply lent. What is shown lies in the medium or in the reply; nothing but the
 * record changes, and that only with data. */
collector_shown board_show(board *board, const void *reply, size_t length);

/* The packet must be shown at this place, with the bytes of the copying call, and must leave the record as that does. */
void expect_shown(board *board, const void *reply, size_t length, uint32_t source, size_t start, size_t count);

/* Nothing must be shown, for this number. */
void expect_unshown(board *board, const void *reply, size_t length, uint32_t number);

/* Writes the record's reply and gives back its length. Nothing else may change, nor the buffer's rest. */
size_t reply_of(const board *board, uint8_t reply[COLLECTOR_PACKET_SIZE]);

void shown_reads(void);
void shown_replies(void);
void shown_in_each_stage(void);
void lent_replies(void);
void replies_of_records(void);
void shown_and_copied(void);

#endif
