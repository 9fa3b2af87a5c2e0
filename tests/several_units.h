/*
 * Commands to one of several units (document 02, A7).
 */
#ifndef SEVERAL_UNITS_H
#define SEVERAL_UNITS_H

void addressed_units(void);
void blocks_of_units(void);
void senses_of_units(void);
void switches_of_units(void);
void histories_apart_in_one_unit(void);
void tables_kept(void);
void tables_at_their_end(void);

#endif
