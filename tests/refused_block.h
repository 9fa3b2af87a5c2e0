/*
 * The block that a range failure tells (document 02, A8).
 */
#ifndef REFUSED_BLOCK_H
#define REFUSED_BLOCK_H

void refused_blocks(void);
void refused_block_records(void);

#endif
