/* Many lines at once, in each way to lend the text and the area; and tallied, where there is a tally. */
#ifndef BATCH_H
#define BATCH_H

#include "field.h"

/* ---- Tallies */

struct tally {
    uint32_t counts[PARTYID_TALLY_COUNTS];
};

struct tally zeros(void);

/* The tally with another count at a place. */
struct tally with(struct tally tally, size_t at, uint32_t count);

/* An area of exactly the counts, with these in it, and none where there is no tally. It is ended with the counts that are expected in it. */
struct area lend_tally(enum area_kind kind, const struct tally *before);
uint32_t *counts_of(struct area lent);
void end_tally(struct area lent, const struct tally *after);

/* ---- Batches */

enum { MOST_NUMBERS = 64 };

struct batch {
    struct partyid_batch says;
    uint32_t numbers[MOST_NUMBERS];
    struct tally after; /* where the lines are tallied */
};

/* The lines of a text, with room for so many numbers; tallied where `before` is not null. */
void lines(struct bytes text, const struct tally *before, size_t room, struct batch expected);

/* With room for no number, for one, and so on: a line is answered, as it is alone, where there is room for all four of its numbers. */
void lines_by_room(struct bytes text, const struct tally *before);

#endif
