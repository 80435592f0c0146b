/* The results, in the form of a report (docs/FORMAT.md). */
#ifndef RESULTS_H
#define RESULTS_H

void write_results(void);
/* The entries and nothing else, where the rest cannot be looked at. */
void write_entries_alone(void);

/* The position that a description has where its own cannot be had: behind the greatest file. */
#define STAND_IN ((1ULL << 40) + 8191)

#endif
