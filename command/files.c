/* Files of saved allocators: opened, read and written here. What stands in them is written and judged by the library alone (docs/FORMAT.md). */
#include "files.h"
#include "../include/rangekeeper.h"

#include <errno.h>
#include <stdio.h>
#include <stdlib.h>
#include <string.h>

static const char *const no_memory = "there is no memory for it";

const char *file_save(const struct place *p, const char *file, size_t *bytes)
{
    size_t length = (p->ids ? rk_id_saved_bytes : rk_address_saved_bytes)(p->mem, p->words);
    uint8_t *saved = malloc(length + 1);
    if (saved == NULL)
        return no_memory;
    uint32_t reason = (p->ids ? rk_id_save : rk_address_save)(p->mem, p->words, saved, length, bytes);
    if (reason != RK_DONE) {
        free(saved);
        return "there is nothing to be saved";
    }
    FILE *out = fopen(file, "wb");
    bool right = out != NULL && fwrite(saved, 1, *bytes, out) == *bytes;
    int why = errno;
    if (out != NULL && fclose(out) != 0 && right) {
        right = false;
        why = errno;
    }
    free(saved);
    return right ? NULL : strerror(why);
}

typedef uint32_t loader(const uint8_t *, size_t, uint64_t *, size_t, size_t *);

/* the file's bytes as far as the library wants them, to be freed by the caller: more are read only where it says that they end too early.
 * NULL, and errno says why */
static uint8_t *read_saved(const char *file, loader *load, size_t *length)
{
    FILE *in = fopen(file, "rb");
    if (in == NULL)
        return NULL;
    size_t room = 1 << 16, n = 0, at;
    uint64_t none = 0;
    uint8_t *all = malloc(room);
    while (all != NULL) {
        n += fread(all + n, 1, room - n, in);
        if (n < room || load(all, n, &none, 0, &at) != RK_SAVED_SHORT)
            break;
        uint8_t *more = realloc(all, room *= 2);
        if (more == NULL)
            free(all);
        all = more;
    }
    int why = errno;
    if (all != NULL && ferror(in)) {
        free(all);
        all = NULL;
    }
    fclose(in);
    errno = why;
    *length = n;
    return all;
}

/* word i of bytes that the library has accepted */
static uint64_t word(const uint8_t *bytes, size_t i)
{
    uint64_t w = 0;
    for (size_t k = 8; k-- > 0;)
        w = w << 8 | bytes[8 * i + k];
    return w;
}

static const char *flaw_text(uint32_t flaw, size_t at)
{
    static const char *const flaws[] = {
        "it ends too early", "it is no saved allocator of this kind", "it is of another version", "a check does not fit what stands before it",
        "no such pool or interval", "a limit above 4096", "no range, or more than the limit", "neither free nor granted",
        "out of order", "outside of the pool or the interval", "two free ranges that touch",
    };
    static char out[96];
    uint32_t i = flaw - RK_SAVED_SHORT;
    snprintf(out, sizeof out, "byte %zu: %s", at, i < sizeof flaws / sizeof *flaws ? flaws[i] : "?");
    return out;
}

/* what is granted now, as granted before the load on this line */
static void note_all(struct place *p, uint64_t next, uint64_t line)
{
    grant_forget(p);
    if (p->ids) {
        for (uint64_t id = p->base; id < next; id++)
            if (rk_id_is_allocated(p->mem, p->words, (uint32_t)id) != 0)
                grant_note_loaded(p, id, line);
        return;
    }
    uint64_t at = p->base, start, end, tag;
    while (rk_address_at(p->mem, p->words, at, &start, &end, &tag) == RK_DONE) {
        if (tag != 0)
            grant_note_loaded(p, start, line);
        if (end >= p->last)
            break;
        at = end + 1;
    }
}

const char *file_load(struct place *p, const char *file, uint64_t line, size_t *bytes)
{
    loader *load = p->ids ? rk_id_load : rk_address_load;
    size_t length;
    uint8_t *all = read_saved(file, load, &length);
    if (all == NULL)
        return strerror(errno);
    /* with no words the library says what is wrong, or that there is no room: then the bytes are right, and say how many words they take */
    uint64_t none = 0, *mem = NULL;
    size_t at = 0, words = 0;
    uint32_t reason = load(all, length, &none, 0, &at);
    if (reason == RK_NO_ROOM) {
        words = p->ids ? rk_id_words((uint32_t)word(all, 2), (uint32_t)word(all, 3)) : rk_address_words((size_t)word(all, 4));
        mem = calloc(words, sizeof *mem);
        if (mem == NULL) {
            free(all);
            return no_memory;
        }
        reason = load(all, length, mem, words, &at);
    }
    if (reason != RK_DONE) {
        free(mem);
        free(all);
        return flaw_text(reason, at);
    }
    free(p->mem);
    p->mem = mem;
    p->words = words;
    p->base = word(all, 2);
    p->last = word(all, 3);
    note_all(p, word(all, 4), line);
    free(all);
    *bytes = at;
    return NULL;
}
