/* What the kernel and the file system lack, found out before the play. */
#ifndef LACKS_H
#define LACKS_H

#include "common.h"

/* Asks a ring which opcodes the kernel serves (IORING_REGISTER_PROBE). */
void try_kernel(void);
/* Tries modes of FALLOCATE and flags of RENAMEAT, with files of the player's own. */
void try_file_system(void);

bool lacks_opcode(u8 opcode);
bool lacks_mode(u32 mode);
bool lacks_rename(u32 flags);

#endif
