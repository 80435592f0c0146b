/* Ranges of what flights touch, in trees: those that overlap a range are found without a look at
 * the others. */
#ifndef SPANS_H
#define SPANS_H

#include "common.h"

/* A range of a space: of a file, of the memory of a process, of slots, or of names. */
struct span {
	u64 space, from, to;
	struct flight *flight;
	const struct touch *touch;
	struct span *next_of_flight;

	/* In a tree by space, start and number, whose shape is that of a heap by `weight`. */
	struct span **root;
	u64 number, weight;
	struct span *left, *right;
	u64 last;	/* the greatest `to` of it and those below */
	u32 open;	/* how many of these are not closed */
	bool is_closed; /* the entry of its flight is outside */
};

/* A look for spans: of each that overlaps, `look` says whether it is closed now. Where `is_met`,
 * only those that are not closed are looked at. */
struct search {
	u64 space, from, to;
	bool is_met;
	bool (*look)(struct search *search, const struct span *span);
	void *context;
};

void add_span(struct span **root, struct span *span);
void remove_span(struct span *span);
void search_spans(struct span *root, struct search *search);

#endif
