/* rangekeeper: replays a script of operations on named pools and id intervals, and checks what a monitor claims to have answered.
 *
 * This file reads, prints and remembers line numbers. What a line means, what each operation answers, whether a claim is right, which state
 * is gone on from, how a window is written and what the bar shows are proved, in the crates `script`, `replay`, `pool_audit`, `id_audit`,
 * `addresses`, `ids`, `fields`, `keeping` and `picture`; nothing here computes an answer. */
#include "../include/rangekeeper.h"
#include "command.h"
#include "files.h"
#include "lines.h"
#include "places.h"
#include "show.h"

#include <inttypes.h>
#include <stdarg.h>
#include <stdio.h>
#include <stdlib.h>
#include <string.h>

uint64_t line_number, operations;
char text[RK_LONGEST_LINE + 2];
static uint64_t claims, wrong, bad;

/* an operation's answer: what is granted or freed, or a refusal with its reason as `start` */
struct answer {
    uint64_t kind; /* an enum rk_claim_kind */
    uint64_t start, end;
};

const char *reason_word(uint64_t reason)
{
    static const char *const words[] = {
        "done", "overflow", "out-of-range", "already-released", "never-allocated", "not-available", "invalid-range",
        "invalid-alignment", "unaligned", "underflow", "invalid-size", "no-room", "invalid-policy", "no-state",
    };
    return reason < sizeof words / sizeof *words ? words[reason] : "?";
}

void refuse_line(size_t column, const char *what, ...)
{
    va_list rest;
    va_start(rest, what);
    printf("line %" PRIu64 ", column %zu: ", line_number, column + 1);
    vprintf(what, rest);
    putchar('\n');
    va_end(rest);
    bad++;
}

static const char *window_text(uint64_t low, uint64_t high)
{
    static char out[4][48];
    static unsigned k;
    char *o = out[k++ % 4];
    o[rk_window((uint8_t *)o, sizeof out[0] - 1, low, high)] = 0;
    return o;
}

const char *value_text(const struct place *p, uint64_t start, uint64_t end)
{
    static char out[4][24];
    static unsigned k;
    if (!p->ids)
        return window_text(start, end);
    char *o = out[k++ % 4];
    snprintf(o, sizeof out[0], "%" PRIu64, start);
    return o;
}

static const char *claim_text(const struct asked *q)
{
    static char out[64];
    switch (q->claim) {
    case RK_WINDOW: return window_text(q->claim_a, q->claim_b);
    case RK_ID: snprintf(out, sizeof out, "%" PRIu64, q->claim_a); return out;
    case RK_FREED: return "freed";
    case RK_YES: return "yes";
    case RK_NO: return "no";
    default: snprintf(out, sizeof out, "refused %s", reason_word(q->claim_a)); return out;
    }
}

/* ---- what became of an operation, and the lines that granted what is granted */

/* the first granted range or id that lies in start..end */
static bool in_the_way(const struct place *p, uint64_t start, uint64_t end, struct answer *out)
{
    if (p->ids) {
        out->start = out->end = start;
        return grant_line(p, start) != 0;
    }
    uint64_t at = start < p->base ? p->base : start, tag;
    while (at <= end && at <= p->last && rk_address_at(p->mem, p->words, at, &out->start, &out->end, &tag) == RK_DONE) {
        if (tag != 0)
            return true;
        if (out->end >= p->last)
            return false;
        at = out->end + 1;
    }
    return false;
}

/* remembers the line of a grant, and forgets that of what is freed: what was answered, or claimed and gone on from */
static void remember(struct place *p, uint64_t kind, uint64_t start, bool taking)
{
    if (kind == RK_REFUSED)
        return;
    if (taking)
        grant_note(p, start, line_number);
    else
        grant_drop(p, start);
}

static void say_answer(const struct place *p, bool taking, const struct answer *r)
{
    if (r->kind == RK_REFUSED)
        printf("refused %s", reason_word(r->start));
    else if (taking || p->ids)
        printf("%s", value_text(p, r->start, r->end));
    else
        printf("freed");
}

/* says why a claimed range or id is not the answer; `stayed`: the block is as it was before */
static void say_why(const struct asked *q, const struct answer *r, bool stayed)
{
    const struct place *p = q->place;
    uint64_t a = q->claim_a, b = p->ids ? q->claim_a : q->claim_b;
    struct answer way;
    if (b < a)
        printf("that is no range");
    else if (stayed && in_the_way(p, a, b, &way))
        printf("%s is granted %s", value_text(p, way.start, way.end), grant_since(p, way.start));
    else if (a < p->base || p->last < b) {
        if (p->ids)
            printf("%s has the ids %" PRIu64 " to %" PRIu64, p->name, p->base, p->last);
        else
            printf("%s has the addresses %s", p->name, window_text(p->base, p->last));
    }
    else if (r->kind == RK_REFUSED)
        printf("refused %s is right", reason_word(r->start));
    else if (!p->ids && b - a != q->a - 1)
        printf("0x%" PRIx64 " addresses were asked for", q->a);
    else if (!p->ids && a % q->b != 0)
        printf("it starts at no multiple of 0x%" PRIx64, q->b);
    else
        printf("%s is %s", value_text(p, r->start, r->end),
            p->ids ? "the lowest that is free" : q->policy == RK_FIRST ? "the lowest place" : q->policy == RK_LAST ? "the highest place" : "what was asked for");
}

/* names what is wrong with a claim; `since` says when what is given back was granted */
static void say_wrong(const struct asked *q, bool taking, const struct answer *r, bool stayed, uint64_t why, const char *since)
{
    struct place *p = q->place;
    struct answer way;
    uint64_t end = p->ids ? q->a : q->b;
    printf("line %" PRIu64 ": claimed %s, but ", line_number, claim_text(q));
    if (taking && q->claim != RK_REFUSED)
        say_why(q, r, stayed);
    else if (!taking && r->kind != RK_REFUSED && q->claim == RK_REFUSED)
        printf("it was granted %s", since);
    else {
        say_answer(p, taking, r);
        printf(" is right");
        if (!taking && r->kind == RK_REFUSED && q->a <= end && in_the_way(p, q->a, end, &way))
            printf(": %s is granted %s", value_text(p, way.start, way.end), grant_since(p, way.start));
    }
    if (stayed)
        printf("; cannot go on from the claim (%s)", reason_word(why));
    putchar('\n');
}

/* ---- lines */

static void say_flaw(uint64_t flaw, size_t at)
{
    switch (flaw) {
    case RK_LINE_TOO_LONG: refuse_line(at, "line too long, at most %d bytes expected", RK_LONGEST_LINE); break;
    case RK_UNKNOWN_WORD: refuse_line(at, "unknown word, pool, ids, allocate, free, in-use, show, together, save or load expected"); break;
    case RK_NAME_EXPECTED: refuse_line(at, "a name of letters, digits, - and _ expected"); break;
    case RK_NAME_TOO_LONG: refuse_line(at, "name too long, at most %d bytes expected", LONGEST_NAME); break;
    case RK_NUMBER_EXPECTED: refuse_line(at, "a number expected, decimal, or hexadecimal after 0x"); break;
    case RK_NUMBER_TOO_LARGE: refuse_line(at, "number too large: addresses have 64 bits, ids 32"); break;
    case RK_WINDOW_EXPECTED: refuse_line(at, "a window a..b expected"); break;
    case RK_ALIGN_EXPECTED: refuse_line(at, "align and an alignment expected"); break;
    case RK_POLICY_EXPECTED: refuse_line(at, "first, last, or exact and an address expected"); break;
    case RK_CLAIM_EXPECTED: refuse_line(at, "a window, an id, freed, yes, no, or refused and a reason expected after =>"); break;
    case RK_REASON_EXPECTED: refuse_line(at, "a reason expected, as not-available or no-room"); break;
    case RK_COUNT_EXPECTED: refuse_line(at, "2 or 3 expected: so many allocate lines follow"); break;
    case RK_TO_EXPECTED: refuse_line(at, "to and a file expected"); break;
    case RK_FROM_EXPECTED: refuse_line(at, "from and a file expected"); break;
    case RK_FILE_EXPECTED: refuse_line(at, "a file expected"); break;
    default: refuse_line(at, "something left over, => and a claim or the line's end expected"); break;
    }
}

static void declare(uint32_t kind, const uint64_t w[9], const char *name)
{
    if (place_find(name, w[1]) != NULL) {
        refuse_line(w[0], "%.*s is declared twice", (int)w[1], name);
        return;
    }
    bool ids = kind == RK_IDS;
    size_t limit = w[4] == 0 ? RK_MOST_RANGES : w[5] > RK_MOST_RANGES ? 0 : (size_t)w[5];
    size_t words = ids ? rk_id_words((uint32_t)w[2], (uint32_t)w[3]) : rk_address_words(limit);
    uint64_t *mem = words == 0 ? NULL : calloc(words, sizeof *mem);
    uint32_t reason = ids ? rk_id_new(mem, mem == NULL ? 0 : words, (uint32_t)w[2], (uint32_t)w[3])
                          : rk_address_new(mem, mem == NULL ? 0 : words, w[2], w[3], limit);
    struct place *p = reason == RK_DONE ? place_add(name, w[1]) : NULL;
    if (p == NULL) {
        free(mem);
        if (reason != RK_DONE)
            refuse_line(w[0], "refused %s: %s expected", reason_word(reason), ids ? "a lowest id that is not above the highest" : "a pool within 64 bits, and a limit of 1 to 4096");
        else
            refuse_line(w[0], "no room for more than %d pools and intervals", MOST_PLACES);
        return;
    }
    p->ids = ids;
    p->mem = mem;
    p->words = words;
    p->base = w[2];
    p->last = ids ? w[3] : w[2] + (w[3] - 1);
}

/* a line that saves or loads */
static void keep(uint32_t kind, const uint64_t w[9], const char *line)
{
    static char file[RK_LONGEST_LINE + 1];
    struct place *p = place_find(line + w[0], w[1]);
    size_t bytes = 0;
    memcpy(file, line + w[2], w[3]);
    file[w[3]] = 0;
    if (p == NULL) {
        refuse_line(w[0], "%.*s is not declared", (int)w[1], line + w[0]);
        return;
    }
    if (strlen(file) != w[3]) {
        refuse_line(w[2], "a file with no zero byte in its name expected");
        return;
    }
    const char *why = kind == RK_SAVE ? file_save(p, file, &bytes) : file_load(p, file, line_number, &bytes);
    if (why != NULL) {
        refuse_line(w[2], "%s: %s", file, why);
        return;
    }
    operations++;
    printf("%s => %zu bytes\n", text, bytes);
}

static void operate(uint32_t kind, const uint64_t w[9], const char *line, size_t bytes)
{
    struct asked q = {place_find(line + w[0], w[1]), w[2], w[3], w[4], w[5], w[6], w[7], w[8]};
    struct place *p = q.place;
    if (p == NULL) {
        refuse_line(w[0], "%.*s is not declared", (int)w[1], line + w[0]);
        return;
    }
    if (kind == RK_SHOW) {
        show(p);
        return;
    }
    if (p->ids != (kind == RK_ALLOCATE_ID || kind == RK_FREE_ID || kind == RK_IN_USE)) {
        refuse_line(w[0], p->ids ? "%s has ids: allocate %s, or free %s and an id expected" : "%s has addresses: a size, align, and a policy, or a window expected",
            p->name, p->name, p->name);
        return;
    }
    bool taking = kind == RK_ALLOCATE || kind == RK_ALLOCATE_ID;
    uint64_t told[5];
    const char *since = taking ? "" : grant_since(p, q.a);
    if (kind == RK_IN_USE)
        rk_use_line((const uint8_t *)line, bytes, p->mem, p->words, told);
    else
        (p->ids ? rk_id_line : rk_pool_line)((const uint8_t *)line, bytes, p->mem, p->words, told);
    if (told[0] == RK_UNFIT) {
        if (kind == RK_IN_USE)
            refuse_line(strlen(text), "another claim expected: yes or no");
        else
            refuse_line(strlen(text), "another claim expected: %s, or refused and a reason", taking ? p->ids ? "an id" : "a window" : "freed");
        return;
    }
    struct answer r = {told[1], told[2], told[3]};
    operations++;
    claims += told[0] != RK_ANSWERED;
    if (kind == RK_IN_USE) {
        const char *is = told[1] == RK_YES ? "yes" : "no";
        if (told[0] == RK_ANSWERED)
            printf("%s => %s\n", text, is);
        else if (told[0] != RK_RIGHT) {
            wrong++;
            printf("line %" PRIu64 ": claimed %s, but ", line_number, claim_text(&q));
            if (told[1] == RK_YES)
                printf("%" PRIu64 " is granted %s\n", q.a, grant_since(p, q.a));
            else
                printf("no is right\n");
        }
        return;
    }
    switch (told[0]) {
    case RK_ANSWERED:
        printf("%s => ", text);
        if (!taking && r.kind != RK_REFUSED)
            printf("freed");
        else
            say_answer(p, taking, &r);
        putchar('\n');
        remember(p, r.kind, r.start, taking);
        break;
    case RK_RIGHT:
        remember(p, q.claim, taking || q.claim == RK_ID ? q.claim_a : q.a, taking);
        break;
    default:
        wrong++;
        say_wrong(&q, taking, &r, told[0] == RK_STAYED, told[4], since);
        if (told[0] == RK_FOLLOWED)
            remember(p, q.claim, taking || q.claim == RK_ID ? q.claim_a : q.a, taking);
        break;
    }
}

static void replay(const char *line, size_t bytes)
{
    uint64_t w[9];
    uint32_t kind = rk_line((const uint8_t *)line, bytes, w);
    if (kind == RK_BLANK)
        return;
    if (kind == RK_WRONG) {
        say_flaw(w[2], (size_t)w[3]);
        together_end("the group has a bad line");
        return;
    }
    size_t from = strspn(line, " \t\r"), to = strcspn(line, "#");
    while (to > from && strchr(" \t\r", line[to - 1]) != NULL)
        to--;
    memcpy(text, line + from, to - from);
    text[to - from] = 0;
    if (together_open())
        together_line(kind, w, line);
    else if (kind == RK_TOGETHER)
        together_begin((size_t)w[2]);
    else if (kind == RK_POOL || kind == RK_IDS)
        declare(kind, w, line + w[0]);
    else if (kind == RK_SAVE || kind == RK_LOAD)
        keep(kind, w, line);
    else
        operate(kind, w, line, bytes);
}

static void read_lines(FILE *in)
{
    static char line[RK_LONGEST_LINE + 3];
    size_t n = 0;
    for (int c = getc(in), any = 0;; c = getc(in)) {
        if (c == EOF ? any : c == '\n') {
            line[n] = 0;
            line_number++;
            replay(line, n);
            n = 0;
            any = 0;
        } else if (c != EOF) {
            any = 1;
            if (n <= RK_LONGEST_LINE)
                line[n++] = (char)c; /* one byte too many is enough to be refused */
        }
        if (c == EOF)
            return;
    }
}

static const char help[] =
    "rangekeeper [--map OUT.svg] [FILE]: replays operations on address pools and id intervals, and checks claimed answers.\n"
    "Reads standard input where no file is named. A line is one of:\n"
    "  pool NAME BASE SIZE [limit N]                       addresses from BASE on, at most N ranges (1 to 4096)\n"
    "  ids NAME LOW HIGH                                   the ids from LOW to HIGH\n"
    "  allocate NAME SIZE align A first|last|exact ADDR [=> A..B | => refused REASON]\n"
    "  allocate NAME [=> ID | => refused REASON]           an id\n"
    "  free NAME A..B [=> freed | => refused REASON]\n"
    "  free NAME ID [=> freed | => ID | => refused REASON]\n"
    "  in-use NAME ID [=> yes | => no]                     whether an id is granted\n"
    "  show NAME                                           a bar (. free, # granted, + both), each range, what is left\n"
    "  together 2|3                                        the allocate lines that follow, of two pools and an interval: all or none\n"
    "  save NAME to FILE                                   writes what NAME holds into FILE\n"
    "  load NAME from FILE                                 NAME holds what FILE says, in place of what it held\n"
    "Words are separated by blanks; # starts a comment. Numbers are decimal, or hexadecimal after 0x; _ may stand after\n"
    "the first digit. Names are letters, digits, - and _, at most 31 bytes; a line has at most 1000 bytes.\n"
    "REASON: not-available, no-room, overflow, underflow, invalid-size, invalid-alignment, invalid-range, unaligned,\n"
    "out-of-range, never-allocated, already-released.\n"
    "Without a claim the answer is printed in the same form. A right claim prints nothing; a wrong one prints what is right\n"
    "and why, and the replay goes on from the claim where that is possible.\n"
    "--map OUT.svg writes a picture of every pool and interval as they are at the end.\n"
    "Exit status: 0 all right, 1 a claim is wrong, 2 bad input.\n";

int main(int argc, char **argv)
{
    const char *file = NULL, *svg = NULL;
    for (int i = 1; i < argc; i++) {
        if (strcmp(argv[i], "--help") == 0) {
            fputs(help, stdout);
            return 0;
        }
        if (strcmp(argv[i], "--map") == 0 && i + 1 < argc)
            svg = argv[++i];
        else if (file == NULL && (argv[i][0] != '-' || argv[i][1] == 0))
            file = argv[i];
        else {
            fprintf(stderr, "rangekeeper: %s is not understood; --help says what is\n", argv[i]);
            return 2;
        }
    }
    FILE *in = file == NULL || strcmp(file, "-") == 0 ? stdin : fopen(file, "r");
    if (in == NULL) {
        perror(file);
        return 2;
    }
    read_lines(in);
    together_end("the file ends before the group");
    if (ferror(in)) {
        perror(file == NULL ? "standard input" : file);
        return 2;
    }
    if (svg != NULL && !map(svg)) {
        perror(svg);
        return 2;
    }
    printf("%" PRIu64 " operations, %" PRIu64 " claims checked, %" PRIu64 " wrong", operations, claims, wrong);
    if (bad != 0)
        printf("; %" PRIu64 " lines refused", bad);
    putchar('\n');
    return fflush(stdout) != 0 || bad != 0 ? 2 : wrong != 0 ? 1 : 0;
}
