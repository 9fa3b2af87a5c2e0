/*
 * Packets shown where they stand (document 02, A11): the showing call and the record's reply, with all that a board lends.
 */
#include "showing.h"

#include <string.h>

bool sends_reply(unsigned stage)
{
    return (COLLECTOR_STAGE_REQUEST_SENSE <= stage && stage <= COLLECTOR_STAGE_READ_CAPACITY) ||
           stage == COLLECTOR_STAGE_PAGE;
}

collector_shown board_show(board *board, const void *reply, size_t length)
{
    const struct board before = *board;
    const collector_shown shown = collector_show(&board->record, table_of(board), board->count, medium_of(board),
                                                 board->length, reply, length);

    if (number_shown(shown) == COLLECTOR_DATA) {
        const bool replied = shown.source == COLLECTOR_SOURCE_REPLY;
        const size_t size = replied ? length : board->length;

        CHECK(replied || shown.source == COLLECTOR_SOURCE_MEDIUM);
        CHECK(1 <= shown.count && shown.count <= COLLECTOR_PACKET_SIZE);
        CHECK(shown.start <= size && shown.count <= size - shown.start);
    } else {
        CHECK(same_record(&board->record, &before.record));
    }
    CHECK(same_table(board->units, before.units));
    CHECK(memcmp(board->medium, before.medium, sizeof board->medium) == 0);
    CHECK(memcmp(board->buffer, before.buffer, sizeof board->buffer) == 0);
    return shown;
}

void expect_shown(board *board, const void *reply, size_t length, uint32_t source, size_t start, size_t count)
{
    const uint8_t *packet = (source == COLLECTOR_SOURCE_REPLY ? (const uint8_t *)reply : medium_of(board)) + start;
    struct board copied = *board;
    const collector_shown shown = board_show(board, reply, length);

    EQUAL(shown.number, COLLECTOR_DATA);
    EQUAL(shown.source, source);
    EQUAL(shown.start, start);
    EQUAL(shown.count, count);
    CHECK(collector_packet(shown, medium_of(board), reply) == packet);
    board_data(&copied, packet, count);
    CHECK(same_record(&board->record, &copied.record));
}

void expect_unshown(board *board, const void *reply, size_t length, uint32_t number)
{
    EQUAL(board_show(board, reply, length).number, number);
}

size_t reply_of(const board *board, uint8_t reply[COLLECTOR_PACKET_SIZE])
{
    struct board asked = *board;
    collector_answer answer;

    memset(asked.buffer, FILL, sizeof asked.buffer);
    answer = collector_reply(&asked.record, table_of(&asked), asked.count, asked.buffer, sizeof asked.buffer);
    EQUAL(answer.number, COLLECTOR_DATA);
    CHECK(answer.count <= COLLECTOR_PACKET_SIZE);
    CHECK(filled(asked.buffer + answer.count, sizeof asked.buffer - answer.count, FILL));
    memcpy(reply, asked.buffer, answer.count);
    memcpy(asked.buffer, board->buffer, sizeof asked.buffer);
    CHECK(same_board(&asked, board));
    return answer.count;
}
