/* What the fields of an entry say. */
#ifndef ENTRY_H
#define ENTRY_H

#include "trace.h"

/* Fields of an entry. */
struct fields {
	u8 opcode, flags;
	i32 fd;
	u64 offset, address, user;
	u32 length, own_flags, file_index;
	u16 buffer, personality;
};
struct fields fields_of(const struct entry *entry);

/* A path of an entry: of RENAMEAT and LINKAT the old one and, as the second, the new one. */
struct span {
	const u8 *bytes;
	u64 length;
};
/* Whether it has a last slash, or a component `.` or `..`; one that is empty or too long has not.
 */
bool is_odd(struct span path);
enum { MOST_PATH = 4095 };
struct span path_of(const struct entry *entry);
struct span new_path_of(const struct entry *entry);
/* open(2) on x86-64; the profile has no other flags. */
#define KNOWN_OPEN_FLAGS 0x1fdfc3U
#define CREATED_DIRECTORY 0x10040U

/* Whether an opcode has a path, and whether it has two. */
bool is_on_names(u8 opcode);
bool has_two_paths(u8 opcode);

/* Whether version 3 alone serves an opcode, and whether the profile serves it. */
bool is_advice(u8 opcode);
bool is_stat(u8 opcode);
bool is_served(u8 opcode);
/* How many bytes a read or write asks for. */
u64 asked_of(const struct entry *entry);
/* The registered buffer that a READ_FIXED or WRITE_FIXED names; NULL if there is none. */
struct buffer *buffer_of(const struct entry *entry);
bool is_read(u8 opcode);
bool is_transfer(u8 opcode);
/* Whether a result is a failure that breaks a chain, by the profile. */
bool is_failure(const struct entry *entry, i32 result);
/* Whether an entry may have so many side bytes, of which those of the lengths of its vectors are
 * there; and whether they fit it, so that the kernel is shown nothing else. */
bool fits_count(const struct entry *entry, u64 count);
bool fits(const struct entry *entry);
/* How many side bytes the lengths of its vectors have. */
u64 lengths_of(const struct entry *entry);
#endif
