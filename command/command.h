/* The names of the proved crate `command`: a line of a script in words, a line carried out on a block, a window as text, the bar of a picture. A slice is a pointer and a
 * number of bytes. Every function is total; its contract stands in the crate, under the same name. */
#ifndef RANGEKEEPER_COMMAND_H
#define RANGEKEEPER_COMMAND_H

#include <stdbool.h>
#include <stddef.h>
#include <stdint.h>

/* What a line says, and its nine words: the name's place and length, two numbers, a kind with a number, and the claim's kind with two. */
enum rk_line_kind {
    RK_BLANK,
    RK_POOL,        /* base, size; 1 and the limit where it is said */
    RK_IDS,         /* lowest, highest */
    RK_ALLOCATE,    /* size, alignment; policy and address */
    RK_ALLOCATE_ID,
    RK_FREE,        /* start, end */
    RK_FREE_ID,     /* id */
    RK_SHOW,
    RK_WRONG,       /* flaw, place */
    RK_IN_USE,      /* id */
    RK_TOGETHER,    /* how many lines */
    RK_SAVE,        /* the file's place and length */
    RK_LOAD         /* the same */
};
enum rk_claim_kind { RK_UNSAID, RK_WINDOW, RK_ID, RK_FREED, RK_REFUSED, RK_YES, RK_NO };
enum rk_flaw {
    RK_LINE_TOO_LONG = 1,
    RK_UNKNOWN_WORD,
    RK_NAME_EXPECTED,
    RK_NAME_TOO_LONG,
    RK_NUMBER_EXPECTED,
    RK_NUMBER_TOO_LARGE,
    RK_WINDOW_EXPECTED,
    RK_ALIGN_EXPECTED,
    RK_POLICY_EXPECTED,
    RK_CLAIM_EXPECTED,
    RK_REASON_EXPECTED,
    RK_LEFT_OVER,
    RK_COUNT_EXPECTED,
    RK_TO_EXPECTED,
    RK_FROM_EXPECTED,
    RK_FILE_EXPECTED
};
#define RK_LONGEST_LINE 1000
/* What became of a line on a block; then four words: the right answer, as a claim's kind with two numbers, and a reason. */
enum rk_outcome {
    RK_UNFIT,       /* no operation on such a block, or a claim that its operation cannot answer: nothing was done */
    RK_ANSWERED,    /* nothing was claimed: the answer */
    RK_RIGHT,       /* the claim is right */
    RK_FOLLOWED,    /* it is wrong: the right answer; the block goes on from the claim */
    RK_STAYED       /* it is wrong: the right answer, and the reason why the block is as it was */
};

uint32_t rk_line(const uint8_t *line, size_t bytes, uint64_t words[9]);
/* carry the line's operation out on the pool, or the interval of ids, in `mem` */
void rk_pool_line(const uint8_t *line, size_t bytes, uint64_t *mem, size_t words, uint64_t told[5]);
void rk_id_line(const uint8_t *line, size_t bytes, uint64_t *mem, size_t words, uint64_t told[5]);
/* ask whether the line's id of the interval in `mem` is granted */
void rk_use_line(const uint8_t *line, size_t bytes, const uint64_t *mem, size_t words, uint64_t told[5]);
size_t rk_window(uint8_t *out, size_t bytes, uint64_t low, uint64_t high);
void rk_bar_clear(uint8_t *bar, size_t cells);
void rk_bar_paint(uint8_t *bar, size_t cells, uint64_t base, uint64_t last, uint64_t start, uint64_t end, bool granted);

#endif
