/*
 * One call of the archive beside the reference's.
 */
#ifndef TRIAL_H
#define TRIAL_H

#include "reference.h"

#include <stdbool.h>
#include <stdint.h>
#include <stdio.h>

extern const char *const kind_names[KINDS];

/* Whether calls of this kind take this part. */
bool takes(unsigned kind, unsigned part);

/* Makes a call of the archive with the numbers of a case and these parts: what it returns. */
uint64_t archive_make(const struct host_case *, uint8_t *const at[PARTS], const size_t lengths[PARTS]);

/* Makes the call of a case in lent memory and compares every octet: whether nothing differs. What differs is printed
   to a file, with the whole case. Salt chooses how memory is placed. */
bool agrees(const struct host_case *, uint64_t salt, FILE *to);

/* Prints a case and what the archive makes of it. */
void print_trial(const struct host_case *, uint64_t salt, FILE *to);

#endif
