/* What a pool or an interval looks like: in text, and as a picture. */
#ifndef RANGEKEEPER_SHOW_H
#define RANGEKEEPER_SHOW_H

#include "places.h"

void show(const struct place *p);
/* false where the file cannot be written */
bool map(const char *path);

#endif
