/*
 * Inquiry's product pages (document 02, A2).
 */
#ifndef PRODUCT_PAGES_H
#define PRODUCT_PAGES_H

#include <stdint.h>

/* Pages 80 and 83 of the collector with this number end in these twelve digits. */
void expect_page_digits(uint64_t number, const char *digits);

void page_codes(void);
void page_records(void);

#endif
