/*
 * Units of each size that is served, and media that are not their unit's size.
 */
#ifndef MEDIUM_SIZE_H
#define MEDIUM_SIZE_H

void medium_sizes(void);

#endif
