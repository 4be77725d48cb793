/* A small monitor: it reserves a window of addresses and an interrupt number for each of three cards, gives one card's back, and is refused
 * what cannot be had. The blocks are its own memory; the library keeps nothing. */
#include <inttypes.h>
#include <stdio.h>
#include <stdlib.h>

#include "rangekeeper.h"

/* Below 4 GiB, where devices are reached through memory. */
#define WINDOWS_BASE UINT64_C(0xd0000000)
#define WINDOWS_SIZE UINT64_C(0x20000000)
#define LOWEST_IRQ 5
#define HIGHEST_IRQ 23

struct block {
    uint64_t *mem;
    size_t words;
};

struct card {
    const char *name;
    uint64_t size, alignment;
    uint32_t policy;
    uint64_t address; /* for RK_EXACT alone */
    uint64_t start;
    uint32_t irq;
};

static const char *reason_name(uint32_t reason)
{
    switch (reason) {
    case RK_DONE: return "done";
    case RK_OVERFLOW: return "overflow";
    case RK_OUT_OF_RANGE: return "out of range";
    case RK_ALREADY_RELEASED: return "already released";
    case RK_NEVER_ALLOCATED: return "never allocated";
    case RK_RESOURCE_NOT_AVAILABLE: return "not available";
    case RK_INVALID_RANGE: return "invalid range";
    case RK_INVALID_ALIGNMENT: return "invalid alignment";
    case RK_UNALIGNED_ADDRESS: return "unaligned address";
    case RK_UNDERFLOW: return "underflow";
    case RK_INVALID_SIZE: return "invalid size";
    case RK_NO_ROOM: return "no room";
    case RK_INVALID_POLICY: return "invalid policy";
    case RK_NO_STATE: return "no state";
    default: return "unknown";
    }
}

/* A block need not be cleared first: whatever it holds, a new allocator is written over it. */
static struct block block_of(size_t words)
{
    struct block b = { malloc(words * sizeof(uint64_t)), words };
    if (b.mem == NULL) {
        fputs("out of memory\n", stderr);
        exit(1);
    }
    return b;
}

static void insist(uint32_t reason, const char *what)
{
    if (reason != RK_DONE) {
        fprintf(stderr, "%s: %s\n", what, reason_name(reason));
        exit(1);
    }
}

static void plug_in(struct block windows, struct block irqs, struct card *c)
{
    insist(rk_address_allocate(windows.mem, windows.words, c->size, c->alignment, c->policy, c->address, &c->start), c->name);
    insist(rk_id_allocate(irqs.mem, irqs.words, &c->irq), c->name);
    printf("%-8s window 0x%" PRIx64 "..0x%" PRIx64 ", interrupt %" PRIu32 "\n", c->name, c->start, c->start + (c->size - 1), c->irq);
}

static void pull_out(struct block windows, struct block irqs, const struct card *c)
{
    insist(rk_address_free(windows.mem, windows.words, c->start, c->start + (c->size - 1)), c->name);
    insist(rk_id_free(irqs.mem, irqs.words, c->irq), c->name);
    printf("%-8s given back\n", c->name);
}

/* All ranges, free and granted, in order. */
static void show(struct block windows)
{
    uint64_t at = rk_address_base(windows.mem, windows.words);
    uint64_t last = rk_address_end(windows.mem, windows.words);
    uint64_t start, end, tag;
    printf("%" PRIu64 " ranges:\n", rk_address_count(windows.mem, windows.words));
    for (;;) {
        insist(rk_address_at(windows.mem, windows.words, at, &start, &end, &tag), "range");
        printf("  0x%" PRIx64 "..0x%" PRIx64 " %s\n", start, end, tag == 0 ? "free" : "granted");
        if (end == last)
            return;
        at = end + 1;
    }
}

int main(void)
{
    struct card cards[] = {
        { "network", 0x1000, 0x1000, RK_FIRST, 0, 0, 0 },
        { "disk", 0x4000, 0x4000, RK_FIRST, 0, 0, 0 },
        { "display", 0x1000000, 0x1000000, RK_LAST, 0, 0, 0 },
    };
    const size_t limit = 64;
    struct block windows = block_of(rk_address_words(limit));
    struct block irqs = block_of(rk_id_words(LOWEST_IRQ, HIGHEST_IRQ));
    uint64_t start = 0;
    uint32_t reason;
    size_t i;

    insist(rk_address_new(windows.mem, windows.words, WINDOWS_BASE, WINDOWS_SIZE, limit), "windows");
    insist(rk_id_new(irqs.mem, irqs.words, LOWEST_IRQ, HIGHEST_IRQ), "interrupts");

    for (i = 0; i < sizeof cards / sizeof cards[0]; i++)
        plug_in(windows, irqs, &cards[i]);
    show(windows);

    pull_out(windows, irqs, &cards[1]);
    show(windows);

    /* What is granted is not granted again, and what is refused changes nothing. */
    reason = rk_address_allocate(windows.mem, windows.words, 0x1000, 0x1000, RK_EXACT, cards[0].start, &start);
    printf("the network card's window once more: %s\n", reason_name(reason));
    reason = rk_address_free(windows.mem, windows.words, cards[1].start, cards[1].start + (cards[1].size - 1));
    printf("the disk's window given back once more: %s\n", reason_name(reason));
    reason = rk_id_free(irqs.mem, irqs.words, cards[1].irq);
    printf("the disk's interrupt given back once more: %s\n", reason_name(reason));

    plug_in(windows, irqs, &cards[1]);
    show(windows);

    free(irqs.mem);
    free(windows.mem);
    return 0;
}
