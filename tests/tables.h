/*
 * Tables of units (document 02, A7): which are made, and which record and table fit together.
 */
#ifndef TABLES_H
#define TABLES_H

void tables_at_making(void);
void tables_of_largest_units(void);
void tables_that_do_not_fit(void);
void units_that_do_not_fit(void);
void media_of_tables(void);

#endif
