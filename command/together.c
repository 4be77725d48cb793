/* Several allocate lines, all or none: they are gathered, and then asked for by rk_both or rk_all_three. */
#include "../include/rangekeeper.h"
#include "lines.h"

#include <inttypes.h>
#include <stdio.h>
#include <string.h>

static size_t group, group_size; /* how many lines were read of how many */
static struct grouped {
    struct asked asked;
    uint64_t line;
    char text[RK_LONGEST_LINE + 2];
} grouped[3];

static void refuse_group(const char *why)
{
    refuse_line(0, "%s: nothing of the group is done", why);
    group_size = 0;
}

/* the lines of the group are all here */
static void do_together(void)
{
    const struct asked *a = &grouped[0].asked, *b = &grouped[1].asked;
    struct place *p = a->place, *q = b->place, *ids = group_size == 3 ? grouped[2].asked.place : NULL;
    uint64_t first = 0, second = 0;
    uint32_t id = 0, refused = 0, reason;
    if (ids == NULL)
        reason = rk_both(p->mem, p->words, a->a, a->b, (uint32_t)a->policy, a->address, q->mem, q->words, b->a, b->b, (uint32_t)b->policy, b->address, &first, &second, &refused);
    else
        reason = rk_all_three(p->mem, p->words, a->a, a->b, (uint32_t)a->policy, a->address, q->mem, q->words, b->a, b->b, (uint32_t)b->policy, b->address,
            ids->mem, ids->words, &first, &second, &id, &refused);
    operations += group_size;
    if (reason != RK_DONE) {
        printf("together: line %" PRIu64 " is refused %s, so none is granted\n", grouped[refused - 1].line, reason_word(reason));
    } else {
        struct { struct place *place; uint64_t start, end; } got[3] = {{p, first, first + (a->a - 1)}, {q, second, second + (b->a - 1)}, {ids, id, id}};
        for (size_t i = 0; i < group_size; i++) {
            printf("%s => %s\n", grouped[i].text, value_text(got[i].place, got[i].start, got[i].end));
            grant_note(got[i].place, got[i].start, grouped[i].line);
        }
    }
    group_size = 0;
}

/* a line of the group: two pools' requests, then one for an id, and no claims */
void together_line(uint32_t kind, const uint64_t w[9], const char *line)
{
    struct asked q = {place_find(line + w[0], w[1]), w[2], w[3], w[4], w[5], w[6], w[7], w[8]};
    bool id = group == 2;
    if (kind != (id ? RK_ALLOCATE_ID : RK_ALLOCATE))
        refuse_group(id ? "allocate and an interval expected after together 3" : "allocate, a pool and a request expected after together");
    else if (q.place == NULL || q.place->ids != id)
        refuse_group(id ? "an interval that is declared expected" : "a pool that is declared expected");
    else if (q.claim != RK_UNSAID)
        refuse_group("no claim expected after together");
    else if (group == 1 && q.place == grouped[0].asked.place)
        refuse_group("two pools expected after together");
    else {
        grouped[group].asked = q;
        grouped[group].line = line_number;
        strcpy(grouped[group].text, text);
        if (++group == group_size)
            do_together();
    }
}

void together_begin(size_t lines)
{
    group = 0;
    group_size = lines;
}

bool together_open(void)
{
    return group < group_size;
}

void together_end(const char *why)
{
    if (together_open())
        refuse_group(why);
}
