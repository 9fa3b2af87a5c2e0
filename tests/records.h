/*
 * Records that no event leaves: each event refuses them and changes nothing.
 */
#ifndef RECORDS_H
#define RECORDS_H

enum { STAGES = 11 };

typedef struct bench bench;

/* A device in each stage, and what its record then holds. */
void reach(bench *bench, unsigned stage);

/* The record is refused by every call, and none changes anything. */
void refused(const bench *damaged);

void records_that_do_not_decode(void);
void records_that_do_not_fit(void);

#endif
