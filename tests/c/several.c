/* The functions that take several blocks: the copies, rk_both and rk_all_three. On pools and ids with a random history, and on blocks with a
 * few words spoilt. What is seen: a copy is refused just where the header says, holds what its source holds, and answers alike; both or
 * neither is what the two calls one after the other say, and leaves nothing behind where one is refused; and no word beside a block changes.
 */
#include <inttypes.h>
#include <stdio.h>
#include <stdlib.h>
#include <string.h>

#include "random.h"
#include "rangekeeper.h"

#define LONGEST 600
#define GUARDS 16
#define MOST 24 /* ranges */
#define ROUNDS 20000

struct block {
    size_t words;
    uint64_t before[GUARDS], mem[LONGEST], behind[GUARDS];
};

static uint64_t copies, copies_refused, granted, none[4], spoilt;

static void want(int right, const char *what)
{
    if (!right) {
        printf("wrong: %s\n", what);
        exit(1);
    }
}

static uint64_t guard_word(size_t i)
{
    return UINT64_C(0xfeedface00000000) + i;
}

static void clear(struct block *b, size_t words)
{
    size_t i;
    b->words = words;
    for (i = 0; i < LONGEST; i++)
        b->mem[i] = next();
    for (i = 0; i < GUARDS; i++)
        b->before[i] = b->behind[i] = guard_word(i);
}

/* no word beside the block, nor in its array behind it, is another than in `old` */
static void guarded(const struct block *b, const struct block *old)
{
    size_t i;
    for (i = 0; i < GUARDS; i++)
        want(b->before[i] == guard_word(i) && b->behind[i] == guard_word(i), "a guard word was changed");
    for (i = b->words; i < LONGEST; i++)
        want(b->mem[i] == old->mem[i], "a word behind the block was changed");
}

static int same_words(const struct block *a, const struct block *b)
{
    return a->words == b->words && memcmp(a->mem, b->mem, sizeof a->mem) == 0;
}

/* the same pool: the same ends, and range by range the same */
static int same_pool(const struct block *a, const struct block *b)
{
    uint64_t i, n = rk_address_count(a->mem, a->words), at = rk_address_base(a->mem, a->words);
    if (n != rk_address_count(b->mem, b->words) || at != rk_address_base(b->mem, b->words)
        || rk_address_end(a->mem, a->words) != rk_address_end(b->mem, b->words))
        return 0;
    for (i = 0; i < n; i++) {
        uint64_t s = 0, e = 0, t = 0, s2 = 0, e2 = 0, t2 = 0;
        if (rk_address_at(a->mem, a->words, at, &s, &e, &t) != RK_DONE || rk_address_at(b->mem, b->words, at, &s2, &e2, &t2) != RK_DONE
            || s != s2 || e != e2 || t != t2)
            return 0;
        at = e + 1;
    }
    return 1;
}

/* a pool of few addresses with a random history; its limit */
static size_t make_pool(struct block *b)
{
    size_t limit = 1 + (size_t)below(MOST), n;
    uint64_t start, base = below(3) == 0 ? UINT64_MAX - ((UINT64_C(1) << 20) - 1) : below(3) == 0 ? 0 : next() / 2;
    clear(b, rk_address_words(limit) + (size_t)below(4));
    want(rk_address_new(b->mem, b->words, base, 1 + below(below(2) == 0 ? 64 : UINT64_C(1) << 20), limit) == RK_DONE, "a pool is made");
    for (n = (size_t)below(16); n != 0; n--) {
        if (below(3) != 0)
            (void)rk_address_allocate(b->mem, b->words, 1 + below(6), UINT64_C(1) << below(3), (uint32_t)below(2), 0, &start);
        else {
            uint64_t s = 0, e = 0, t = 0;
            if (rk_address_at(b->mem, b->words, base + below(64), &s, &e, &t) == RK_DONE && t != 0)
                want(rk_address_free(b->mem, b->words, s, e) == RK_DONE, "what is granted is given back");
        }
    }
    return limit;
}

static void make_ids(struct block *b, uint32_t *low, uint32_t *high)
{
    size_t n;
    uint32_t id;
    *low = below(3) == 0 ? UINT32_MAX - 3 : (uint32_t)below(1000);
    *high = *low + (uint32_t)below(*low > 5000 ? 4 : 200);
    clear(b, rk_id_words(*low, *high) + (size_t)below(4));
    want(rk_id_new(b->mem, b->words, *low, *high) == RK_DONE, "ids are made");
    for (n = (size_t)below(*high - *low + UINT64_C(20)); n != 0; n--)
        if (below(3) != 0)
            (void)rk_id_allocate(b->mem, b->words, &id);
        else
            (void)rk_id_free(b->mem, b->words, *low + (uint32_t)below(*high - *low + UINT64_C(1)));
}

/* ---- copies */

static void copy_pool(void)
{
    struct block a, b, old, olda;
    size_t limit = make_pool(&a), wanted = limit + (size_t)below(6) - 2, n;
    int fits;
    uint32_t reason;
    clear(&b, (size_t)below(LONGEST));
    if (below(20) == 0)
        wanted = 4097;
    old = b;
    olda = a;
    fits = wanted >= limit && wanted <= 4096 && rk_address_words(wanted) <= b.words;
    reason = rk_address_copy(a.mem, a.words, b.mem, b.words, wanted);
    want(reason == (fits ? RK_DONE : RK_NO_ROOM), "a copy is refused just where limit or block do not suffice");
    want(same_words(&a, &olda), "the source is as it was");
    guarded(&b, &old);
    copies++;
    if (reason != RK_DONE) {
        copies_refused++;
        want(same_words(&b, &old), "after a refusal the block is as it was");
        return;
    }
    want(same_pool(&a, &b), "a copy holds what its source holds");
    for (n = 0; n < 10; n++) {
        uint64_t x = 0, y = 0, size = 1 + below(6), base = rk_address_base(a.mem, a.words), s = base + below(64);
        uint32_t p = (uint32_t)below(3), r1, r2;
        if (below(3) == 0) {
            r1 = rk_address_free(a.mem, a.words, s, s + size - 1);
            r2 = rk_address_free(b.mem, b.words, s, s + size - 1);
        } else {
            r1 = rk_address_allocate(a.mem, a.words, size, 1, p, s, &x);
            r2 = rk_address_allocate(b.mem, b.words, size, 1, p, s, &y);
        }
        if (wanted > limit && r1 == RK_NO_ROOM)
            return;
        want(r1 == r2 && x == y && same_pool(&a, &b), "a copy answers alike");
    }
}

static void copy_ids(void)
{
    struct block a, b, old, olda;
    uint32_t low, high, id;
    int fits;
    uint32_t reason;
    size_t n;
    make_ids(&a, &low, &high);
    clear(&b, (size_t)below(16));
    old = b;
    olda = a;
    fits = rk_id_words(low, high) <= b.words;
    reason = rk_id_copy(a.mem, a.words, b.mem, b.words);
    want(reason == (fits ? RK_DONE : RK_NO_ROOM), "a copy of ids is refused just where the block is too short");
    want(same_words(&a, &olda), "the source of ids is as it was");
    guarded(&b, &old);
    copies++;
    if (reason != RK_DONE) {
        copies_refused++;
        want(same_words(&b, &old), "after a refusal the block for ids is as it was");
        return;
    }
    for (id = low;; id++) {
        want(rk_id_is_allocated(a.mem, a.words, id) == rk_id_is_allocated(b.mem, b.words, id), "the same ids are granted");
        if (id == high)
            break;
    }
    for (n = 0; n < 10; n++) {
        uint32_t x = 0, y = 0, r1, r2, i = low + (uint32_t)below(high - low + UINT64_C(1));
        if (below(2) == 0) {
            r1 = rk_id_allocate(a.mem, a.words, &x);
            r2 = rk_id_allocate(b.mem, b.words, &y);
        } else {
            r1 = rk_id_free(a.mem, a.words, i);
            r2 = rk_id_free(b.mem, b.words, i);
        }
        want(r1 == r2 && x == y, "a copy of ids answers alike");
    }
}

/* ---- both or neither, all or none */

struct request {
    uint64_t size, alignment, address;
    uint32_t policy;
};

static struct request request_for(const struct block *b)
{
    struct request q;
    q.size = below(20) == 0 ? 0 : 1 + below(12);
    q.alignment = below(20) == 0 ? 3 : UINT64_C(1) << below(3);
    q.policy = (uint32_t)below(3) + (below(30) == 0);
    q.address = (rk_address_base(b->mem, b->words) + below(64)) & ~(uint64_t)(q.alignment == 3 ? 0 : q.alignment - 1);
    return q;
}

static uint32_t alone(struct block *b, const struct request *q, uint64_t *start)
{
    return rk_address_allocate(b->mem, b->words, q->size, q->alignment, q->policy, q->address, start);
}

static void together(int three)
{
    struct block a, b, c, olda, oldb, oldc, aloneA, aloneB, aloneC;
    struct request q, w;
    uint64_t s = 7, t = 8, alone_s = 7, alone_t = 8;
    uint32_t id = 9, alone_id = 9, refused = 6, which = 6, reason, expected, low, high;
    (void)make_pool(&a);
    (void)make_pool(&b);
    make_ids(&c, &low, &high);
    q = request_for(&a);
    w = request_for(&b);
    olda = aloneA = a;
    oldb = aloneB = b;
    oldc = aloneC = c;
    /* one after the other, on copies */
    if (q.policy > 2 || w.policy > 2) {
        expected = RK_INVALID_POLICY;
        which = q.policy > 2 ? 1 : 2;
    } else {
        expected = alone(&aloneA, &q, &alone_s);
        which = expected != RK_DONE ? 1 : which;
        if (expected == RK_DONE) {
            expected = alone(&aloneB, &w, &alone_t);
            which = expected != RK_DONE ? 2 : which;
        }
        if (expected == RK_DONE && three) {
            expected = rk_id_allocate(aloneC.mem, aloneC.words, &alone_id);
            which = expected != RK_DONE ? 3 : which;
        }
    }
    if (three)
        reason = rk_all_three(a.mem, a.words, q.size, q.alignment, q.policy, q.address, b.mem, b.words, w.size, w.alignment, w.policy,
                              w.address, c.mem, c.words, &s, &t, &id, &refused);
    else
        reason = rk_both(a.mem, a.words, q.size, q.alignment, q.policy, q.address, b.mem, b.words, w.size, w.alignment, w.policy,
                         w.address, &s, &t, &refused);
    want(reason == expected && refused == which, "the answer of one call after the other");
    guarded(&a, &olda);
    guarded(&b, &oldb);
    guarded(&c, &oldc);
    if (reason == RK_DONE) {
        granted++;
        want(s == alone_s && t == alone_t && (!three || id == alone_id), "what is granted");
        want(same_words(&a, &aloneA) && same_words(&b, &aloneB) && (!three || same_words(&c, &aloneC)), "what the blocks then hold");
        return;
    }
    none[refused]++;
    want(s == 7 && t == 8 && id == 9, "an out-parameter was written after a refusal");
    want(same_pool(&a, &olda) && same_pool(&b, &oldb), "after a refusal each pool is as it was");
    want(refused != 1 || same_words(&a, &olda), "a pool that refuses is word for word as it was");
    want(refused == 3 || same_words(&b, &oldb), "and so is a second one that was not given anything");
    want(same_words(&c, &oldc), "and so are the ids");
}

/* ---- spoilt blocks: known answers, and nothing beside them touched */

static void spoil(struct block *b)
{
    size_t n;
    for (n = (size_t)below(4); n != 0; n--)
        b->mem[below(b->words + 1)] = below(3) == 0 ? next() : below(3) == 0 ? UINT64_MAX - below(3) : below(70);
}

static void garbage(void)
{
    struct block a, b, c, olda, oldb, oldc;
    uint64_t s = 7, t = 8;
    uint32_t id = 9, refused = 0, low, high, reason;
    size_t limit = make_pool(&a);
    make_pool(&b);
    make_ids(&c, &low, &high);
    spoil(&a);
    spoil(&b);
    spoil(&c);
    olda = a;
    oldb = b;
    oldc = c;
    spoilt++;
    switch (below(4)) {
    case 0:
        reason = rk_address_copy(a.mem, a.words, b.mem, b.words, limit + (size_t)below(3));
        want(reason == RK_DONE || reason == RK_NO_ROOM || reason == RK_NO_STATE, "a known answer of a copy");
        want(reason == RK_DONE || same_words(&b, &oldb), "a refused copy");
        want(same_words(&a, &olda), "a spoilt source is as it was");
        break;
    case 1:
        reason = rk_id_copy(c.mem, c.words, b.mem, b.words);
        want(reason == RK_DONE || reason == RK_NO_ROOM || reason == RK_NO_STATE, "a known answer of a copy of ids");
        want(reason == RK_DONE || same_words(&b, &oldb), "a refused copy of ids");
        want(same_words(&c, &oldc), "a spoilt source of ids is as it was");
        break;
    case 2:
        reason = rk_both(a.mem, a.words, 1 + below(9), 1, (uint32_t)below(3), next(), b.mem, b.words, 1 + below(9), 1, (uint32_t)below(3), next(),
                         &s, &t, &refused);
        want(reason <= RK_NO_STATE && refused <= 2 && (reason == RK_DONE) == (refused == 0), "a known answer of rk_both");
        break;
    default:
        reason = rk_all_three(a.mem, a.words, 1 + below(9), 1, (uint32_t)below(3), next(), b.mem, b.words, 1 + below(9), 1, (uint32_t)below(3),
                              next(), c.mem, c.words, &s, &t, &id, &refused);
        want(reason <= RK_NO_STATE && refused <= 3 && (reason == RK_DONE) == (refused == 0), "a known answer of rk_all_three");
        break;
    }
    guarded(&a, &olda);
    guarded(&b, &oldb);
    guarded(&c, &oldc);
}

/* several [ROUNDS] */
int main(int words, char **word)
{
    unsigned long i, rounds = words > 1 ? strtoul(word[1], NULL, 10) : ROUNDS;
    for (i = 0; i < rounds; i++) {
        copy_pool();
        copy_ids();
        together(0);
        together(1);
        garbage();
    }
    printf("%" PRIu64 " copies, %" PRIu64 " of them refused; together: %" PRIu64 " granted, refused by the first %" PRIu64 ", by the second %" PRIu64
           ", by the ids %" PRIu64 "; %" PRIu64 " calls on spoilt blocks\n",
           copies, copies_refused, granted, none[1], none[2], none[3], spoilt);
    return copies_refused != 0 && granted != 0 && none[1] != 0 && none[2] != 0 && none[3] != 0 ? 0 : 1;
}
