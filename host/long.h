/*
 * Lengths above 32 bits.
 */
#ifndef LONG_H
#define LONG_H

#include "reference.h"

#include <stdbool.h>
#include <stdio.h>

/* Makes good calls of each kind with one length 2^32 too large, each length by turns, and compares: whether nothing
   differs. Says on a file how many, and what differs. */
bool long_lengths_agree(struct reference *, FILE *to);

#endif
