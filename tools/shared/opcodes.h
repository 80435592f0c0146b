/* The names of the operations of linux/io_uring.h. */
#ifndef OPCODES_H
#define OPCODES_H

#include "integers.h"

/* NULL of any other opcode. */
const char *name_of_opcode(u32 opcode);

#endif
