/* What the kinds of lines share: the line that is replayed, what is said of it, and the kinds that have a file of their own. */
#ifndef RANGEKEEPER_LINES_H
#define RANGEKEEPER_LINES_H

#include "command.h"
#include "places.h"

extern uint64_t line_number, operations;

/* the line that is replayed, without its comment and the blanks at its ends */
extern char text[RK_LONGEST_LINE + 2];

/* what is asked, as rk_line says it */
struct asked {
    struct place *place;
    uint64_t a, b, policy, address, claim, claim_a, claim_b;
};

const char *reason_word(uint64_t reason);
const char *value_text(const struct place *p, uint64_t start, uint64_t end);
void refuse_line(size_t column, const char *what, ...);

/* several lines, all or none: the first line of them, the others, and an end before the last */
void together_begin(size_t lines);
bool together_open(void);
void together_line(uint32_t kind, const uint64_t w[9], const char *line);
void together_end(const char *why);

#endif
