/* The bytes of a trace, field by field. The first field that fails ends the player with status 1
 * and the line of docs/FORMAT.md. */
#ifndef TEXT_H
#define TEXT_H

#include "common.h"

void open_text(const u8 *bytes, u64 length);
void refuse(const char *kind, u64 at) __attribute__((noreturn));
/* Where the next field is, and how many bytes are left. */
u64 text_at(void);
u64 text_left(void);
/* The next bytes, or Short at the length of the text. */
const u8 *take(u64 count);
/* A number of so many bytes; one that is in a range, or the trace is refused at it. */
u64 take_number(u32 count);
u64 take_between(u32 count, u64 least, u64 most, const char *kind);
u32 take_limited(u32 count, u64 most, const char *kind);

#endif
