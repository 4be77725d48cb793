/* Pictures: a bar with what is free and granted, and below it each stretch in order. Both forms walk the same stretches. */
#include "show.h"
#include "command.h"
#include "../include/rangekeeper.h"

#include <inttypes.h>
#include <stdio.h>
#include <stdlib.h>
#include <string.h>
#include <sys/ioctl.h>
#include <unistd.h>

struct stretch {
    uint64_t start, end, line; /* line 0: free */
};

/* a place's stretches in order; the number of them, and the stretches to be freed by the caller */
static size_t stretches(const struct place *p, struct stretch **out)
{
    size_t n = 0;
    struct stretch *s;
    if (!p->ids) {
        s = malloc((size_t)(rk_address_count(p->mem, p->words) + 1) * sizeof *s);
        uint64_t at = p->base, tag;
        while (s != NULL && rk_address_at(p->mem, p->words, at, &s[n].start, &s[n].end, &tag) == RK_DONE) {
            s[n].line = tag == 0 ? 0 : grant_line(p, s[n].start);
            n++;
            if (s[n - 1].end >= p->last)
                break;
            at = s[n - 1].end + 1;
        }
    } else {
        uint64_t *keys = grant_keys(p), next = p->base;
        s = malloc((p->used * 2 + 1) * sizeof *s);
        for (size_t i = 0; s != NULL && i < p->used; i++) {
            if (next < keys[i])
                s[n++] = (struct stretch){next, keys[i] - 1, 0};
            s[n++] = (struct stretch){keys[i], keys[i], grant_line(p, keys[i])};
            next = keys[i] + 1;
        }
        if (s != NULL && next <= p->last)
            s[n++] = (struct stretch){next, p->last, 0};
        free(keys);
    }
    if (s == NULL) {
        fputs("rangekeeper: no memory\n", stderr);
        exit(2);
    }
    *out = s;
    return n;
}

static size_t width(void)
{
    struct winsize w;
    if (isatty(STDOUT_FILENO) && ioctl(STDOUT_FILENO, TIOCGWINSZ, &w) == 0 && w.ws_col > 12)
        return w.ws_col - 2u;
    return 72;
}

static void label(char *out, size_t size, const struct place *p, const struct stretch *s)
{
    char ends[48] = "";
    if (!p->ids)
        ends[rk_window((uint8_t *)ends, sizeof ends - 1, s->start, s->end)] = 0;
    else if (s->start == s->end)
        snprintf(ends, sizeof ends, "%" PRIu64, s->start);
    else
        snprintf(ends, sizeof ends, "%" PRIu64 "..%" PRIu64, s->start, s->end);
    char how[64] = "free";
    if (s->line != 0)
        snprintf(how, sizeof how, "granted %s", grant_since(p, s->start));
    if (p->ids)
        snprintf(out, size, "%s  %s", ends, how);
    else
        snprintf(out, size, "%s  0x%" PRIx64 "  %s", ends, s->end - s->start + 1, how);
}

void show(const struct place *p)
{
    struct stretch *s;
    size_t n = stretches(p, &s), cells = width();
    if (p->last - p->base < cells)
        cells = (size_t)(p->last - p->base) + 1;
    uint8_t *bar = malloc(cells);
    if (bar == NULL)
        exit(2);
    rk_bar_clear(bar, cells);
    for (size_t i = 0; i < n; i++)
        rk_bar_paint(bar, cells, p->base, p->last, s[i].start, s[i].end, s[i].line != 0);
    printf("%s\n[%.*s]\n", p->name, (int)cells, (char *)bar);
    for (size_t i = 0; i < n; i++) {
        char text[160];
        label(text, sizeof text, p, &s[i]);
        printf("  %s\n", text);
    }
    uint64_t left = 0, largest = 0;
    if (p->ids)
        printf("  %" PRIu64 " free\n", rk_id_free_count(p->mem, p->words));
    else if (rk_address_left(p->mem, p->words, &left, &largest) == RK_DONE)
        printf("  0x%" PRIx64 " free, 0x%" PRIx64 " in one range at most\n", left, largest);
    free(bar);
    free(s);
}

/* where an address of a place lies on a line of `wide` points */
static double point(const struct place *p, uint64_t offset, double wide)
{
    return wide * ((double)offset / ((double)(p->last - p->base) + 1.0));
}

bool map(const char *path)
{
    FILE *f = fopen(path, "w");
    if (f == NULL)
        return false;
    const double wide = 900;
    unsigned y = 20;
    /* the height is not known before the end: a first walk counts the lines of text */
    unsigned high = 40;
    for (size_t k = 0; place_at(k) != NULL; k++) {
        struct stretch *s;
        high += 70 + 18 * (unsigned)stretches(place_at(k), &s);
        free(s);
    }
    fprintf(f,
        "<svg xmlns=\"http://www.w3.org/2000/svg\" width=\"960\" height=\"%u\" font-family=\"monospace\" font-size=\"13\">\n"
        "<rect width=\"960\" height=\"%u\" fill=\"#ffffff\"/>\n",
        high, high);
    for (size_t k = 0; place_at(k) != NULL; k++) {
        const struct place *p = place_at(k);
        struct stretch *s;
        size_t n = stretches(p, &s);
        fprintf(f, "<text x=\"30\" y=\"%u\" font-weight=\"bold\">%s</text>\n", y + 13, p->name);
        y += 22;
        for (size_t i = 0; i < n; i++) {
            char text[160];
            label(text, sizeof text, p, &s[i]);
            double x = point(p, s[i].start - p->base, wide), e = point(p, s[i].end - p->base, wide) + point(p, 1, wide);
            fprintf(f, "<rect x=\"%.2f\" y=\"%u\" width=\"%.2f\" height=\"24\" fill=\"%s\" stroke=\"#333333\" stroke-width=\"0.5\"><title>%s</title></rect>\n",
                30 + x, y, e - x < 0.5 ? 0.5 : e - x, s[i].line != 0 ? "#c05020" : "#d8ecd8", text);
        }
        y += 42;
        for (size_t i = 0; i < n; i++) {
            char text[160];
            label(text, sizeof text, p, &s[i]);
            fprintf(f, "<rect x=\"30\" y=\"%u\" width=\"10\" height=\"10\" fill=\"%s\"/><text x=\"48\" y=\"%u\">%s</text>\n", y - 10, s[i].line != 0 ? "#c05020" : "#d8ecd8", y, text);
            y += 18;
        }
        y += 6;
        free(s);
    }
    fputs("</svg>\n", f);
    return fclose(f) == 0;
}
