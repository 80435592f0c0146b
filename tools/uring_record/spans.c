#include "spans.h"

/* Whether a span stands before another. */
static bool is_before(const struct span *one, const struct span *other)
{
	if (one->space != other->space)
		return one->space < other->space;
	if (one->from != other->from)
		return one->from < other->from;
	return one->number < other->number;
}

/* Reckons what a span has of those below it. */
static void reckon(struct span *span)
{
	span->last = span->to;
	span->open = !span->is_closed;
	for (unsigned side = 0; side < 2; side++) {
		const struct span *below = side ? span->right : span->left;
		if (!below)
			continue;
		span->last = below->last > span->last ? below->last : span->last;
		span->open += below->open;
	}
}

/* Puts two trees together, of which all of the first stands before the second. */
static struct span *join(struct span *one, struct span *other)
{
	if (!one || !other)
		return one ? one : other;
	struct span *top = one->weight > other->weight ? one : other;
	if (top == one)
		one->right = join(one->right, other);
	else
		other->left = join(one, other->left);
	reckon(top);
	return top;
}

/* Takes a tree apart into what stands before a span, and the rest. */
static void part(struct span *tree, const struct span *at, struct span **one, struct span **other)
{
	if (!tree) {
		*one = *other = NULL;
	} else if (is_before(tree, at)) {
		part(tree->right, at, &tree->right, other);
		*one = tree;
		reckon(tree);
	} else {
		part(tree->left, at, one, &tree->left);
		*other = tree;
		reckon(tree);
	}
}

/* A number like a random one. */
static u64 next_weight(void)
{
	static u64 state = 88172645463325252ULL;

	state ^= state << 13;
	state ^= state >> 7;
	state ^= state << 17;
	return state;
}

void add_span(struct span **root, struct span *span)
{
	static u64 numbers;
	struct span *one, *other;

	span->root = root;
	span->number = numbers++;
	span->weight = next_weight();
	span->left = span->right = NULL;
	reckon(span);
	part(*root, span, &one, &other);
	*root = join(join(one, span), other);
}

/* Takes a span out of a tree that has it. */
static struct span *without(struct span *tree, const struct span *span)
{
	if (tree == span)
		return join(tree->left, tree->right);
	if (is_before(span, tree))
		tree->left = without(tree->left, span);
	else
		tree->right = without(tree->right, span);
	reckon(tree);
	return tree;
}

void remove_span(struct span *span)
{
	*span->root = without(*span->root, span);
}

void search_spans(struct span *root, struct search *search)
{
	if (!root || root->last <= search->from || (search->is_met && !root->open))
		return;
	if (root->space >= search->space)
		search_spans(root->left, search);
	if (root->space == search->space && root->from < search->to && root->to > search->from &&
	    !(search->is_met && root->is_closed))
		root->is_closed = search->look(search, root);
	if (root->space < search->space ||
	    (root->space == search->space && root->from < search->to))
		search_spans(root->right, search);
	reckon(root);
}
