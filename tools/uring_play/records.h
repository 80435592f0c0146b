/* The parts of a trace that version 3 has of its own (docs/FORMAT.md). */
#ifndef RECORDS_H
#define RECORDS_H

#include "trace.h"

/* The rest of the header; gives how many descriptors of the table are full. */
u32 take_records_header(void);
/* The bytes of a file. */
void take_ranges(struct item *item);
/* The full descriptors, and all records. */
void take_records(u32 full);

#endif
