/* The named pools and id intervals of a script: a short list, searched by name; the grants of each in a table by first address. */
#include "places.h"

#include <inttypes.h>
#include <stdio.h>
#include <stdlib.h>
#include <string.h>

static struct place places[MOST_PLACES];
static size_t count;

static void *must(void *p)
{
    if (p == NULL) {
        fputs("rangekeeper: no memory\n", stderr);
        exit(2);
    }
    return p;
}

struct place *place_find(const char *name, size_t len)
{
    for (size_t i = 0; i < count; i++)
        if (strlen(places[i].name) == len && memcmp(places[i].name, name, len) == 0)
            return &places[i];
    return NULL;
}

struct place *place_add(const char *name, size_t len)
{
    if (count == MOST_PLACES || len > LONGEST_NAME)
        return NULL;
    struct place *p = &places[count++];
    memcpy(p->name, name, len);
    p->slots = 64;
    p->grants = must(calloc(p->slots, sizeof *p->grants));
    return p;
}

struct place *place_at(size_t i)
{
    return i < count ? &places[i] : NULL;
}

static size_t home(const struct place *p, uint64_t key)
{
    return (size_t)((key ^ key >> 32) * 0x9e3779b97f4a7c15u >> 20) & (p->slots - 1);
}

/* the slot of a key, or the free one where it would go: a quarter of the slots is always free */
static size_t slot(const struct place *p, uint64_t key)
{
    size_t i = home(p, key);
    while (p->grants[i].line != 0 && p->grants[i].key != key)
        i = (i + 1) & (p->slots - 1);
    return i;
}

static void grant_put(struct place *p, uint64_t key, uint64_t line, bool loaded)
{
    if ((p->used + 1) * 4 > p->slots * 3) {
        struct grant *old = p->grants;
        size_t n = p->slots;
        p->slots = n * 2;
        p->grants = must(calloc(p->slots, sizeof *p->grants));
        for (size_t i = 0; i < n; i++)
            if (old[i].line != 0)
                p->grants[slot(p, old[i].key)] = old[i];
        free(old);
    }
    size_t i = slot(p, key);
    if (p->grants[i].line == 0)
        p->used++;
    p->grants[i] = (struct grant){key, line, loaded};
}

void grant_note(struct place *p, uint64_t key, uint64_t line)
{
    grant_put(p, key, line, false);
}

void grant_note_loaded(struct place *p, uint64_t key, uint64_t line)
{
    grant_put(p, key, line, true);
}

void grant_forget(struct place *p)
{
    memset(p->grants, 0, p->slots * sizeof *p->grants);
    p->used = 0;
}

void grant_drop(struct place *p, uint64_t key)
{
    size_t hole = slot(p, key);
    if (p->grants[hole].line == 0)
        return;
    p->used--;
    /* what stands behind moves up where its home lies before the hole */
    for (size_t i = (hole + 1) & (p->slots - 1); p->grants[i].line != 0; i = (i + 1) & (p->slots - 1)) {
        size_t from_home = (i - home(p, p->grants[i].key)) & (p->slots - 1), from_hole = (i - hole) & (p->slots - 1);
        if (from_home >= from_hole) {
            p->grants[hole] = p->grants[i];
            hole = i;
        }
    }
    p->grants[hole].line = 0;
}

uint64_t grant_line(const struct place *p, uint64_t key)
{
    return p->grants[slot(p, key)].line;
}

const char *grant_since(const struct place *p, uint64_t key)
{
    static char out[4][48];
    static unsigned k;
    const struct grant *g = &p->grants[slot(p, key)];
    char *o = out[k++ % 4];
    snprintf(o, sizeof out[0], "since %sline %" PRIu64, g->loaded ? "before the load on " : "", g->line);
    return o;
}

static int by_number(const void *a, const void *b)
{
    uint64_t x = *(const uint64_t *)a, y = *(const uint64_t *)b;
    return x < y ? -1 : x > y;
}

uint64_t *grant_keys(const struct place *p)
{
    uint64_t *keys = must(malloc((p->used + 1) * sizeof *keys));
    size_t n = 0;
    for (size_t i = 0; i < p->slots; i++)
        if (p->grants[i].line != 0)
            keys[n++] = p->grants[i].key;
    qsort(keys, n, sizeof *keys, by_number);
    return keys;
}
