/* What accesses and direct translations come upon where a descriptor does not
 * match (document 02, P4; ruling 16): counted, so that a test which meets one of
 * these cases too seldom can say so. */
#ifndef REASONS_H
#define REASONS_H

#include <stdbool.h>
#include "model.h"
#include "pair.h"

#define REASON_CALLS 4u
#define REASON_CASES 12u

typedef struct {
    unsigned long seen[REASON_CALLS][REASON_CASES];
} reasons;

/* A call that is granted, and the state before it. */
void reasons_note(reasons *r, const model *m, call c);

/* Prints the counts.  Gives the name of a case that was seen fewer than "least"
 * times, or NULL. */
const char *reasons_report(const reasons *r, const char *where, unsigned long least);

/* Whether the space alone differs in some descriptor of this unit or one above. */
bool reasons_near(const model *m, call c, unsigned unit);

#endif
