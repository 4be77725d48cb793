/* A pool or an interval saved to a file, and loaded from one. */
#ifndef RANGEKEEPER_FILES_H
#define RANGEKEEPER_FILES_H

#include "places.h"

/* Writes what the place holds into the file: NULL, and *bytes becomes the number of bytes; or what is wrong. */
const char *file_save(const struct place *p, const char *file, size_t *bytes);

/* Makes the place hold what the file says, in place of what it held: NULL, and *bytes becomes the number of bytes that were used. Or what is
 * wrong, and the place is as it was. `line` is remembered as the line of the load. */
const char *file_load(struct place *p, const char *file, uint64_t line, size_t *bytes);

#endif
