/* The named pools and id intervals of a script, and the line that granted what is granted in each. */
#ifndef RANGEKEEPER_PLACES_H
#define RANGEKEEPER_PLACES_H

#include <stdbool.h>
#include <stddef.h>
#include <stdint.h>

#define MOST_PLACES 64
#define LONGEST_NAME 31

/* the line that granted what starts at `key` */
struct grant {
    uint64_t key;
    uint64_t line; /* 0: no grant */
    bool loaded;   /* it was granted before it was loaded on that line */
};

struct place {
    char name[LONGEST_NAME + 1];
    bool ids;
    uint64_t *mem;
    size_t words;
    uint64_t base, last; /* of an interval: the lowest and the highest id */
    struct grant *grants;
    size_t slots, used;
};

struct place *place_find(const char *name, size_t len);
/* NULL where there is no room for one more */
struct place *place_add(const char *name, size_t len);
struct place *place_at(size_t i);

void grant_note(struct place *p, uint64_t key, uint64_t line);
void grant_note_loaded(struct place *p, uint64_t key, uint64_t line);
void grant_drop(struct place *p, uint64_t key);
/* all of them */
void grant_forget(struct place *p);
uint64_t grant_line(const struct place *p, uint64_t key);
/* since when it is granted, in words */
const char *grant_since(const struct place *p, uint64_t key);
/* the keys in order, to be freed by the caller */
uint64_t *grant_keys(const struct place *p);

#endif
