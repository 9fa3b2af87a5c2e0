/*
 * Inquiry's product pages (document 02, A2): which are served, the digits in them, and records in the middle of one.
 */
#include "product_pages.h"

#include "bench.h"

#include <string.h>

/* The pages of collector 42. */
static const struct page {
    uint8_t code;
    uint32_t size;
    const char *bytes;
} pages[] = {
    {0x00, 7, "\x00\x00\x00\x03\x00\x80\x83"},
    {0x80, 16, "\x00\x80\x00\x0C" "000000000042"},
    {0x83, 28, "\x00\x83\x00\x18\x02\x01\x00\x14" "COLLECT " "000000000042"},
};

enum { PAGES = sizeof pages / sizeof pages[0] };

static const struct page *page_of(uint32_t code)
{
    for (int at = 0; at < PAGES; at++)
        if (pages[at].code == code)
            return &pages[at];
    return NULL;
}

static void inquiry(bench *bench, uint32_t announced, uint8_t flags, uint8_t code)
{
    char block[10] = INQUIRY;

    block[1] = (char)flags;
    block[2] = (char)code;
    command(bench, announced, 0x80, block);
}

void expect_page_digits(uint64_t number, const char *digits)
{
    bench bench;

    configure(&bench);
    bench.record.number = number;
    for (int at = 1; at < PAGES; at++) {
        const struct page *page = &pages[at];

        inquiry(&bench, page->size, 0x01, page->code);
        EQUAL(data_in(&bench), page->size);
        CHECK(memcmp(bench.buffer, page->bytes, page->size - 12) == 0);
        CHECK(memcmp(bench.buffer + page->size - 12, digits, 12) == 0);
        expect_status(&bench, "\x00\x00\x00\x00", 0);
    }
}

/* Every byte 1 and byte 2. With bit 0 of the first set three pages are served, with it clear code 0 alone, the standard data;
 * the other bits are ignored. 36 bytes are announced and allocated. */
void page_codes(void)
{
    bench bench;

    configure(&bench);
    for (uint32_t both = 0; both < 65536; both++) {
        const uint8_t flags = (uint8_t)(both / 256), code = (uint8_t)(both % 256);
        const struct page *page = flags & 1 ? page_of(code) : NULL;
        const bool standard = !(flags & 1) && code == 0;
        const uint32_t sent = page ? page->size : standard ? 36 : 0;
        const char residue[4] = {(char)(36 - sent), 0, 0, 0};

        inquiry(&bench, 36, flags, code);
        if (page)
            expect_stage(&bench, COLLECTOR_STAGE_PAGE, 0, page->size, code);
        EQUAL(bench.record.stage == COLLECTOR_STAGE_INQUIRY, standard);
        EQUAL(bench.unit.sense_key, sent ? 0x00 : 0x05);
        EQUAL(bench.unit.sense_asc, sent ? 0x00 : 0x24);
        EQUAL(bench.unit.sense_ascq, 0x00);
        if (sent) {
            EQUAL(data_in(&bench), sent);
            if (page)
                CHECK(memcmp(bench.buffer, page->bytes, sent) == 0);
        }
        if (sent < 36) {
            EQUAL(ask(&bench), COLLECTOR_STALL);
            EQUAL(control(&bench, CLEAR_IN), COLLECTOR_ACK);
        }
        expect_status(&bench, residue, sent ? 0 : 1);
    }
}

/* A record that sends `left` bytes of a page from `place` on: every event refuses it where they do not lie in the page, or where there
 * is no such page. */
static void expect_record(uint32_t value, uint32_t place, uint32_t left)
{
    const struct page *page = page_of(value);
    const bool fits = page && (uint64_t)place + left <= page->size;
    bench bench, before, other;

    configure(&bench);
    inquiry(&bench, 64, 0x01, 0x83);
    bench.record.value = value;
    bench.record.place = place;
    bench.record.left = left;
    other = before = bench;
    EQUAL(send_packet(&other, other.buffer, 64), fits ? COLLECTOR_NAK : COLLECTOR_BAD_RECORD);
    CHECK(same(&other, &before));
    EQUAL(control(&other, MASS_STORAGE_RESET), fits ? COLLECTOR_ACK : COLLECTOR_BAD_RECORD);
    EQUAL(same(&other, &before), !fits);
    other = before;
    EQUAL(reset(&other), fits ? COLLECTOR_ACK : COLLECTOR_BAD_RECORD);
    EQUAL(same(&other, &before), !fits);
    other = before;
    EQUAL(turn_switch(&other, COLLECTOR_SWITCH_CLOSED), fits ? COLLECTOR_ACK : COLLECTOR_BAD_RECORD);
    EQUAL(same(&other, &before), !fits);
    if (fits && left > 0) {
        EQUAL(data_in(&bench), left);
        CHECK(memcmp(bench.buffer, page->bytes + place, left) == 0);
        expect_stage(&bench, COLLECTOR_STAGE_PASSED, 0, 0, 0);
        expect_command(&bench, 64, 64 - left);
        return;
    }
    EQUAL(ask(&bench), fits ? COLLECTOR_NAK : COLLECTOR_BAD_RECORD);
    CHECK(same(&bench, &before));
}

void page_records(void)
{
    for (uint32_t value = 0; value < 256; value++) {
        const uint32_t most = page_of(value) ? 32 : 2;

        for (uint32_t place = 0; place < most; place++)
            for (uint32_t left = 0; left < most; left++)
                expect_record(value, place, left);
    }
    for (int at = 0; at < PAGES; at++) {
        for (int bit = 8; bit < 32; bit++)
            expect_record(pages[at].code | (uint32_t)1 << bit, 0, 1);
        expect_record(pages[at].code, UINT32_MAX, 1);
        expect_record(pages[at].code, UINT32_MAX, 0);
        expect_record(pages[at].code, 1, UINT32_MAX);
    }
}
