/* Saved allocators, from C: round trips of every state of small pools and intervals, every truncation and every flipped bit of what was
 * saved, blocks of garbage, and bytes made by changing saved ones and sealing them again, which the library must accept exactly where a reader that was written
 * apart from it, below, does.
 *
 * What is lent to the library ends where a page begins that cannot be read or written.
 *
 *     saved              all of that, and the last two for some rounds
 *     saved SECONDS      the last two, for so many seconds
 */
#define _DEFAULT_SOURCE
#include <stdio.h>
#include <stdlib.h>
#include <string.h>
#include <sys/mman.h>
#include <time.h>
#include <unistd.h>

#include "random.h"
#include "rangekeeper.h"

#define MOST_WORDS 360
#define MOST_BYTES 1024

static uint64_t trips, truncations, flips, blocks, random_reads, accepted, failures;

static void fail(const char *what)
{
    if (failures++ < 20)
        printf("FAIL %s\n", what);
}

/* memory whose end cannot be passed */
static uint8_t *guarded(void)
{
    size_t page = (size_t)sysconf(_SC_PAGESIZE);
    uint8_t *at = mmap(NULL, 2 * page, PROT_READ | PROT_WRITE, MAP_PRIVATE | MAP_ANONYMOUS, -1, 0);
    if (at == MAP_FAILED || mprotect(at + page, page, PROT_NONE) != 0) {
        printf("no guarded memory\n");
        exit(2);
    }
    return at + page;
}

static uint8_t *bytes_end, *words_end;

/* ---- bytes and words */

static uint64_t word(const uint8_t *bytes, size_t i)
{
    uint64_t w = 0;
    int k;
    for (k = 7; 0 <= k; k--)
        w = w << 8 | bytes[8 * i + (size_t)k];
    return w;
}

static void put(uint8_t *bytes, size_t i, uint64_t w)
{
    int k;
    for (k = 0; k < 8; k++)
        bytes[8 * i + (size_t)k] = (uint8_t)(w >> (8 * k));
}

static uint64_t check(const uint8_t *bytes, size_t n)
{
    uint64_t c = 0;
    size_t i;
    for (i = 0; i < n; i++)
        c = 3 * c + word(bytes, i);
    return c;
}

/* ---- the reader that was written apart from the library: whether bytes begin with a saved allocator of the kind */

static int framed(const uint8_t *bytes, size_t length, const char *letters, uint64_t *n)
{
    if (length < 64 || memcmp(bytes, letters, 8) != 0 || word(bytes, 1) != 1)
        return 0;
    *n = word(bytes, 5);
    if (word(bytes, 6) != check(bytes, 6) || (length - 64) / 8 < *n)
        return 0;
    return word(bytes, (size_t)*n + 7) == check(bytes, (size_t)*n + 7);
}

static int is_pool(const uint8_t *bytes, size_t length, uint64_t *limit)
{
    uint64_t n, i, before = 0, last;
    int free_before = 0;
    if (!framed(bytes, length, "RKsavedA", &n))
        return 0;
    last = word(bytes, 3);
    *limit = word(bytes, 4);
    if (last < word(bytes, 2) || last - word(bytes, 2) == UINT64_MAX)
        return 0;
    if (*limit > 4096 || n == 0 || n % 2 != 0 || n / 2 > *limit)
        return 0;
    for (i = 0; i < n / 2; i++) {
        uint64_t start = word(bytes, (size_t)(7 + 2 * i)), tag = word(bytes, (size_t)(8 + 2 * i));
        if (i == 0 ? start != word(bytes, 2) : start <= before)
            return 0;
        if (start > last || tag > 1 || (free_before && tag == 0))
            return 0;
        before = start;
        free_before = tag == 0;
    }
    return 1;
}

static int is_ids(const uint8_t *bytes, size_t length)
{
    uint64_t n, i, low, high, new_id, least;
    if (!framed(bytes, length, "RKsavedI", &n))
        return 0;
    low = word(bytes, 2);
    high = word(bytes, 3);
    new_id = word(bytes, 4);
    if (high < low || high > UINT32_MAX || new_id < low || new_id > high + 1)
        return 0;
    least = low;
    for (i = 0; i < n; i++) {
        uint64_t id = word(bytes, (size_t)(7 + i));
        if (id < least || id >= new_id)
            return 0;
        least = id + 1;
    }
    return 1;
}

/* ---- a kind of allocator, for the tests that are alike for both */

struct kind {
    const char *name;
    size_t (*saved_bytes)(const uint64_t *, size_t);
    uint32_t (*save)(const uint64_t *, size_t, uint8_t *, size_t, size_t *);
    uint32_t (*load)(const uint8_t *, size_t, uint64_t *, size_t, size_t *);
};

static const struct kind pools = {"pool", rk_address_saved_bytes, rk_address_save, rk_address_load};
static const struct kind intervals = {"ids", rk_id_saved_bytes, rk_id_save, rk_id_load};

static const struct kind *other(const struct kind *k)
{
    return k == &pools ? &intervals : &pools;
}

/* a refusal leaves the block as it was */
static uint32_t load_kept(const struct kind *k, const uint8_t *bytes, size_t length, uint64_t *mem, size_t words, size_t *at)
{
    uint64_t *lent = (uint64_t *)(void *)(words_end - words * sizeof *mem);
    uint32_t reason;
    memcpy(lent, mem, words * sizeof *mem);
    memcpy(bytes_end - length, bytes, length);
    reason = k->load(bytes_end - length, length, lent, words, at);
    if (reason != RK_DONE && memcmp(lent, mem, words * sizeof *mem) != 0)
        fail("a refusal changed the block");
    if (memcmp(bytes_end - length, bytes, length) != 0)
        fail("a load changed the bytes");
    memcpy(mem, lent, words * sizeof *mem);
    if (reason != RK_DONE && reason != RK_NO_ROOM && (reason < RK_SAVED_SHORT || RK_SAVED_TOUCHING < reason))
        fail("an unknown reason");
    if (RK_SAVED_SHORT <= reason && length < *at)
        fail("a flaw behind the end");
    return reason;
}

/* what is saved of a block is read into another, and saved again */
static void round_trip(const struct kind *k, const uint64_t *mem, size_t words, int thorough)
{
    uint8_t bytes[MOST_BYTES], again[MOST_BYTES], kept[MOST_BYTES];
    uint64_t copy[MOST_WORDS] = {0}, fresh[MOST_WORDS] = {0};
    size_t size = k->saved_bytes(mem, words), written = 7, at = 7, i, bit;
    trips++;
    memset(bytes, 0xa5, sizeof bytes);
    memcpy(kept, bytes, sizeof bytes);
    if (size == 0 || sizeof bytes < size + 8) {
        fail("size");
        return;
    }
    if (k->save(mem, words, bytes, size - 1, &written) != RK_NO_ROOM || written != 7 || memcmp(bytes, kept, sizeof bytes) != 0)
        fail("one byte too few");
    if (k->save(mem, words, bytes, sizeof bytes, &written) != RK_DONE || written != size)
        fail("save");
    if (memcmp(bytes + size, kept + size, sizeof bytes - size) != 0)
        fail("bytes behind the end");
    memset(copy, 0x5a, sizeof copy);
    memcpy(fresh, copy, sizeof copy);
    if (load_kept(k, bytes, sizeof bytes, copy, words, &at) != RK_DONE || at != size)
        fail("load");
    memset(bytes_end - size, 0, size);
    if (k->save(mem, words, bytes_end - size, size, &written) != RK_DONE || memcmp(bytes_end - size, bytes, size) != 0)
        fail("just enough bytes");
    memcpy(again, kept, sizeof again);
    if (k->save(copy, words, again, sizeof again, &written) != RK_DONE || written != size || memcmp(again, bytes, sizeof bytes) != 0)
        fail("saved again");
    memcpy(copy, fresh, sizeof copy);
    at = 7;
    if (load_kept(k, bytes, size, copy, 4, &at) != RK_NO_ROOM || at != 7)
        fail("a short block");
    if (load_kept(other(k), bytes, size, copy, words, &at) != RK_SAVED_KIND || at != 0)
        fail("another kind");
    if (!thorough)
        return;
    for (i = 0; i < size; i++) {
        truncations++;
        if (load_kept(k, bytes, i, copy, words, &at) != RK_SAVED_SHORT || at != i)
            fail("a truncation");
    }
    for (bit = 0; bit < 8 * size; bit++) {
        uint32_t reason;
        bytes[bit / 8] ^= (uint8_t)(1u << bit % 8);
        flips++;
        reason = load_kept(k, bytes, sizeof bytes, copy, words, &at);
        if (reason == RK_DONE || reason == RK_NO_ROOM)
            fail("a flipped bit");
        bytes[bit / 8] ^= (uint8_t)(1u << bit % 8);
    }
}

/* ---- every state of small pools and intervals */

/* the addresses of a pool of `size`, each free, or granted in a range that starts there or goes on: a word of base 3 */
static void pools_of(uint64_t size, uint64_t base, size_t limit)
{
    uint64_t code, codes = 1, i;
    for (i = 0; i < size; i++)
        codes *= 3;
    for (code = 0; code < codes; code++) {
        uint64_t mem[MOST_WORDS] = {0}, rest = code, start;
        int cell[8], right = 1;
        size_t words = rk_address_words(limit);
        for (i = 0; i < size; i++, rest /= 3)
            cell[i] = (int)(rest % 3);
        for (i = 0; i < size; i++)
            if (cell[i] == 2 && (i == 0 || cell[i - 1] == 0))
                right = 0;
        if (!right || rk_address_new(mem, words, base, size, limit) != RK_DONE)
            continue;
        for (i = 0; i < size && right; i++)
            if (cell[i] == 1) {
                uint64_t n = 1;
                while (i + n < size && cell[i + n] == 2)
                    n++;
                right = rk_address_allocate(mem, words, n, 1, RK_EXACT, base + i, &start) == RK_DONE;
            }
        if (right)
            round_trip(&pools, mem, words, trips < 200);
    }
}

/* the ids below the next new one, each granted or free */
static void ids_of(uint32_t low, uint32_t n)
{
    uint32_t new_ids, set, i, id;
    for (new_ids = 0; new_ids <= n; new_ids++)
        for (set = 0; set < 1u << new_ids; set++) {
            uint64_t mem[MOST_WORDS] = {0};
            size_t words = rk_id_words(low, low + n - 1);
            if (rk_id_new(mem, words, low, low + n - 1) != RK_DONE)
                fail("new");
            for (i = 0; i < new_ids; i++)
                if (rk_id_allocate(mem, words, &id) != RK_DONE)
                    fail("allocate");
            for (i = 0; i < new_ids; i++)
                if (set >> i & 1 && rk_id_free(mem, words, low + i) != RK_DONE)
                    fail("free");
            round_trip(&intervals, mem, words, trips % 7 == 0);
        }
}

/* ---- blocks of garbage */

/* any words, or an allocator of which some words were spoilt */
static void garbage(size_t words)
{
    uint64_t *mem = (uint64_t *)(void *)(words_end - 8 * words), before[MOST_WORDS], start;
    uint8_t kept[MOST_BYTES];
    const struct kind *k = below(2) ? &pools : &intervals;
    size_t length = below(3) ? MOST_BYTES : below(MOST_BYTES), written = 7, i;
    uint8_t *bytes = bytes_end - length;
    uint32_t reason, id;
    for (i = 0; i < words; i++)
        mem[i] = next();
    if (below(8) && 8 <= words) {
        if (below(2)) {
            rk_address_new(mem, words, below(100), 1 + below(40), 1 + below(12));
            for (i = below(6); i != 0; i--)
                rk_address_allocate(mem, words, 1 + below(6), 1, (uint32_t)below(2), 0, &start);
        } else {
            rk_id_new(mem, words, (uint32_t)below(8), (uint32_t)(8 + below(30 * words)));
            for (i = below(30); i != 0; i--)
                rk_id_allocate(mem, words, &id);
        }
        for (i = below(4); i != 0; i--)
            mem[below(words)] = below(2) ? below(20) : next();
    }
    memcpy(before, mem, 8 * words);
    for (i = 0; i < length; i++)
        bytes[i] = (uint8_t)next();
    memcpy(kept, bytes, length);
    reason = k->save(mem, words, bytes, length, &written);
    blocks++;
    if (memcmp(before, mem, 8 * words) != 0)
        fail("a save changed the block");
    if (reason == RK_DONE ? written != k->saved_bytes(mem, words) || length < written : reason != RK_NO_ROOM && reason != RK_NO_STATE)
        fail("an answer of garbage");
    if (reason != RK_DONE && (written != 7 || memcmp(bytes, kept, length) != 0))
        fail("a refusal changed the bytes");
    if (reason == RK_DONE && memcmp(bytes + written, kept + written, length - written) != 0)
        fail("garbage behind the end");
}

/* ---- bytes that were changed and sealed again */

static uint64_t odd_word(const uint8_t *bytes, size_t i)
{
    switch (below(6)) {
    case 0: return word(bytes, i) + 1;
    case 1: return word(bytes, i) - 1;
    case 2: return below(10);
    case 3: return UINT64_MAX - below(3);
    case 4: return word(bytes, 7 + below(6));
    default: return (UINT64_C(1) << below(64)) - below(2);
    }
}

static void seal(uint8_t *bytes, size_t room)
{
    uint64_t n;
    put(bytes, 6, check(bytes, 6));
    n = word(bytes, 5);
    if (n <= (room - 64) / 8)
        put(bytes, (size_t)n + 7, check(bytes, (size_t)n + 7));
}

static void random_read(void)
{
    const struct kind *k = below(2) ? &pools : &intervals;
    uint64_t mem[MOST_WORDS] = {0}, start, limit = 0;
    uint8_t bytes[MOST_BYTES];
    size_t words = MOST_WORDS, written = 0, at = 0, changes = below(4), length;
    uint32_t reason, id;
    int wanted, i;
    if (k == &pools) {
        rk_address_new(mem, words, below(3) ? below(100) : UINT64_MAX - 40, 1 + below(40), 1 + below(12));
        for (i = (int)below(8); 0 < i; i--)
            rk_address_allocate(mem, words, 1 + below(6), 1, (uint32_t)below(2), 0, &start);
    } else {
        rk_id_new(mem, words, (uint32_t)(below(3) ? below(20) : UINT32_MAX - 10), below(2) ? UINT32_MAX : (uint32_t)(20 + below(10)));
        rk_id_new(mem, words, (uint32_t)below(8), (uint32_t)(8 + below(8)));
        for (i = (int)below(12); 0 < i; i--)
            if (below(3))
                rk_id_allocate(mem, words, &id);
            else
                rk_id_free(mem, words, (uint32_t)below(16));
    }
    for (i = 0; i < MOST_BYTES; i++)
        bytes[i] = (uint8_t)next();
    if (k->save(mem, words, bytes, sizeof bytes, &written) != RK_DONE)
        fail("save of a random state");
    for (i = 0; (size_t)i < changes; i++) {
        size_t at_word = below(3) ? 7 + below(written / 8 - 6) : below(8);
        put(bytes, at_word, odd_word(bytes, at_word));
    }
    if (below(8))
        seal(bytes, sizeof bytes);
    length = below(10) ? sizeof bytes : below(sizeof bytes);
    wanted = k == &pools ? is_pool(bytes, length, &limit) : is_ids(bytes, length);
    reason = load_kept(k, bytes, length, mem, words, &at);
    random_reads++;
    if (wanted != (reason == RK_DONE || reason == RK_NO_ROOM))
        fail("the other reader says otherwise");
    if (reason == RK_DONE) {
        uint8_t again[MOST_BYTES];
        accepted++;
        memcpy(again, bytes, sizeof again);
        if (k->save(mem, words, again, sizeof again, &written) != RK_DONE || written != at || memcmp(again, bytes, sizeof bytes) != 0)
            fail("what was accepted is saved otherwise");
    }
}

int main(int argc, char **argv)
{
    uint64_t i, seconds = 1 < argc ? strtoul(argv[1], NULL, 10) : 0;
    time_t from = time(NULL);
    bytes_end = guarded();
    words_end = guarded();
    if (seconds == 0) {
        uint64_t size;
        for (size = 1; size <= 8; size++) {
            pools_of(size, 0, 8);
            pools_of(size, 0x1000, 3);
            pools_of(size, UINT64_MAX - size + 1, 20);
        }
        for (i = 1; i <= 5; i++) {
            ids_of(0, (uint32_t)i);
            ids_of(32, (uint32_t)i);
            ids_of(UINT32_MAX - (uint32_t)i + 1, (uint32_t)i);
        }
        for (i = 0; i < 200000; i++) {
            random_read();
            garbage(i % (MOST_WORDS + 1));
        }
    }
    while (seconds != 0 && (uint64_t)(time(NULL) - from) < seconds)
        for (i = 0; i < 1000; i++) {
            random_read();
            garbage(below(MOST_WORDS + 1));
        }
    printf("%llu round trips, %llu truncations, %llu flipped bits, %llu blocks of garbage, %llu random reads, %llu of them accepted, "
           "%llu failures\n",
           (unsigned long long)trips, (unsigned long long)truncations, (unsigned long long)flips, (unsigned long long)blocks,
           (unsigned long long)random_reads, (unsigned long long)accepted, (unsigned long long)failures);
    return failures != 0;
}
