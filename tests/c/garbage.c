/* Blocks of garbage of every length from 0 to 200 words, and of some up to 720, are lent to every function. What is seen: only known answers; after a refusal, and
 * after a question, the block and the out-parameters as they were; and nothing outside the block touched, by guard words on one side and
 * pages that cannot be read or written on the other.
 *
 * Garbage is of four kinds: any words; small words; a new allocator of either kind with a few words spoilt; and one that is cut short. The
 * last two get past what a header shows.
 */
#define _DEFAULT_SOURCE
#include <inttypes.h>
#include <stdio.h>
#include <stdlib.h>
#include <string.h>
#include <sys/mman.h>
#include <unistd.h>

#include "random.h"
#include "rangekeeper.h"

#define LONGEST 720 /* three of a table's blocks */
#define GUARDS 64
#define ROUNDS 3
#define FUNCTIONS 13
#define LAST_REASON RK_NO_STATE

static uint64_t calls, done, refused;

/* a number of the kind that breaks things: the ends, powers of two and their neighbours, small ones, any */
static uint64_t odd_number(void)
{
    switch (below(6)) {
    case 0: return below(4);
    case 1: return UINT64_MAX - below(4);
    case 2: return (UINT64_C(1) << below(64)) - 1 + below(3);
    case 3: return below(300);
    case 4: return below(1 << 16);
    default: return next();
    }
}

/* ---- where a block stands */

struct place {
    uint64_t *mem;          /* the block */
    uint64_t *guard;        /* the guard words beside it */
    const char *name;
};

static uint64_t *page_start, *page_end;

/* two pages between two that nobody may touch */
static void make_pages(void)
{
    size_t page = (size_t)sysconf(_SC_PAGESIZE);
    unsigned char *all = mmap(NULL, 4 * page, PROT_NONE, MAP_PRIVATE | MAP_ANONYMOUS, -1, 0);
    if (all == MAP_FAILED || mprotect(all + page, 2 * page, PROT_READ | PROT_WRITE) != 0) {
        perror("pages");
        exit(1);
    }
    page_start = (uint64_t *)(void *)(all + page);
    page_end = (uint64_t *)(void *)(all + 3 * page);
}

static struct place place_of(unsigned kind, size_t words)
{
    struct place p;
    if (kind == 0) {
        p.name = "before the forbidden page";
        p.mem = page_end - words;
        p.guard = p.mem - GUARDS;
    } else {
        p.name = "behind the forbidden page";
        p.mem = page_start;
        p.guard = p.mem + words;
    }
    return p;
}

static uint64_t guard_word(size_t i)
{
    return UINT64_C(0xfeedface00000000) + i;
}

/* ---- what is in it */

static void spoil(uint64_t *mem, size_t words)
{
    uint64_t n = below(4);
    while (words != 0 && n-- != 0)
        mem[below(words)] = odd_number();
}

static void fill(unsigned kind, uint64_t *mem, size_t words)
{
    static uint64_t whole[4 * LONGEST];
    size_t i;
    uint64_t start;
    uint32_t id, highest;
    for (i = 0; i < words; i++)
        mem[i] = kind == 0 ? next() : odd_number();
    if (kind < 2 || words == 0)
        return;
    if (below(2) == 0) {
        size_t limit = 1;
        while (limit < LONGEST && rk_address_words(limit + 1) <= (kind == 2 ? words : 4 * LONGEST))
            limit++;
        if (rk_address_new(whole, 4 * LONGEST, odd_number() / 2, 1 + below(UINT64_MAX / 2), limit) == RK_DONE)
            for (i = below(90); i != 0; i--)
                (void)rk_address_allocate(whole, 4 * LONGEST, 1 + below(50), 1, (uint32_t)below(2), 0, &start);
    } else {
        highest = (uint32_t)below(64 * words);
        if (rk_id_new(whole, 4 * LONGEST, 0, highest) == RK_DONE)
            for (i = below(90); i != 0; i--)
                (void)rk_id_allocate(whole, 4 * LONGEST, &id);
    }
    memcpy(mem, whole, words * sizeof *mem);
    spoil(mem, words);
}

/* ---- a call, and what is seen of it */

static void fail(const struct place *p, size_t words, const char *function, const char *what)
{
    printf("%s, %zu words %s: %s\n", function, words, p->name, what);
    exit(1);
}

static void call(const struct place *p, size_t words, unsigned function)
{
    static const char *const names[] = {
        "rk_address_new", "rk_address_allocate", "rk_address_free", "rk_address_at", "rk_address_count", "rk_address_base",
        "rk_address_end", "rk_address_left", "rk_id_new", "rk_id_allocate", "rk_id_free", "rk_id_is_allocated",
        "rk_id_free_count",
    };
    static uint64_t before[LONGEST + 1];
    const uint64_t was = UINT64_C(0x0123456789abcdef);
    uint64_t a = was, b = was, c = was;
    uint32_t d = 0x01234567;
    uint32_t reason = RK_DONE;
    int asks = 0; /* whether the function may change nothing at all */
    size_t limit;
    size_t i;

    memcpy(before, p->mem, words * sizeof *before);
    switch (function) {
    case 0:
        limit = (size_t)odd_number();
        reason = rk_address_new(p->mem, words, odd_number(), odd_number(), limit);
        if (reason == RK_DONE && words < rk_address_words(limit))
            fail(p, words, names[function], "made in fewer words than it takes");
        break;
    case 1:
        reason = rk_address_allocate(p->mem, words, odd_number(), UINT64_C(1) << below(8), (uint32_t)below(4), odd_number(), &a);
        break;
    case 2:
        reason = rk_address_free(p->mem, words, odd_number(), odd_number());
        break;
    case 3:
        reason = rk_address_at(p->mem, words, odd_number(), &a, &b, &c);
        asks = 1;
        break;
    case 4:
        (void)rk_address_count(p->mem, words);
        asks = 1;
        break;
    case 5:
        (void)rk_address_base(p->mem, words);
        asks = 1;
        break;
    case 6:
        (void)rk_address_end(p->mem, words);
        asks = 1;
        break;
    case 7:
        reason = rk_address_left(p->mem, words, &a, &b);
        if (reason == RK_DONE && a < b)
            fail(p, words, names[function], "the largest free range has more addresses than are free");
        asks = 1;
        break;
    case 8:
        reason = rk_id_new(p->mem, words, (uint32_t)below(100), (uint32_t)odd_number());
        break;
    case 9:
        reason = rk_id_allocate(p->mem, words, &d);
        break;
    case 10:
        reason = rk_id_free(p->mem, words, (uint32_t)odd_number());
        break;
    case 11:
        if (rk_id_is_allocated(p->mem, words, (uint32_t)odd_number()) > 1)
            fail(p, words, names[function], "neither yes nor no");
        asks = 1;
        break;
    default:
        if (rk_id_free_count(p->mem, words) > UINT64_C(0x100000000))
            fail(p, words, names[function], "more ids than there are");
        asks = 1;
        break;
    }
    calls++;
    if (reason > LAST_REASON)
        fail(p, words, names[function], "an unknown reason");
    if (reason != RK_DONE) {
        refused++;
        if (a != was || b != was || c != was || d != 0x01234567)
            fail(p, words, names[function], "an out-parameter was written after a refusal");
    } else {
        done++;
    }
    if ((reason != RK_DONE || asks) && memcmp(before, p->mem, words * sizeof *before) != 0)
        fail(p, words, names[function], "the block was changed");
    for (i = 0; i < GUARDS; i++)
        if (p->guard[i] != guard_word(i))
            fail(p, words, names[function], "a guard word was changed");
}

int main(void)
{
    size_t words, i;
    unsigned where, kind, round, function;
    make_pages();
    for (words = 0; words <= LONGEST; words += words < 200 ? 1 : 13)
        for (where = 0; where < 2; where++) {
            struct place p = place_of(where, words);
            for (i = 0; i < GUARDS; i++)
                p.guard[i] = guard_word(i);
            for (kind = 0; kind < 4; kind++)
                for (round = 0; round < ROUNDS; round++)
                    for (function = 0; function < FUNCTIONS; function++) {
                        fill(kind, p.mem, words);
                        call(&p, words, function);
                        /* and what that left, to another */
                        call(&p, words, (unsigned)below(FUNCTIONS));
                    }
        }
    printf("%" PRIu64 " calls on garbage: %" PRIu64 " refused, %" PRIu64 " answered, nothing else touched\n", calls, refused, done);
    return refused != 0 && done != 0 ? 0 : 1;
}
