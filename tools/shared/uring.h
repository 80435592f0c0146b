/* Names of linux/io_uring.h, with those that an older header lacks. */
#ifndef URING_H
#define URING_H

#include <linux/io_uring.h>

#define SETUP_SINGLE_ISSUER (1U << 12)
#define SETUP_NO_MMAP (1U << 14)
#define SETUP_REGISTERED_FD_ONLY (1U << 15)
#define SETUP_NO_SQARRAY (1U << 16)
#define ENTER_REGISTERED_RING (1U << 4)
#define REGISTER_USE_REGISTERED_RING (1U << 31)

enum {
	REGISTER_RING_FDS = 20,
	UNREGISTER_RING_FDS = 21,
	REGISTER_PBUF_RING = 22,
	REGISTER_CLONE_BUFFERS = 30,
	REGISTER_RESIZE_RINGS = 33,
};

/* The opcodes that the profile serves, two of them in version 3 alone. FTRUNCATE is younger than
 * many a header. */
enum opcode {
	OP_NOP = 0,
	OP_READV = 1,
	OP_WRITEV = 2,
	OP_FSYNC = 3,
	OP_READ_FIXED = 4,
	OP_WRITE_FIXED = 5,
	OP_SYNC_FILE_RANGE = 8,
	OP_FALLOCATE = 17,
	OP_OPENAT = 18,
	OP_CLOSE = 19,
	OP_STATX = 21,
	OP_READ = 22,
	OP_WRITE = 23,
	OP_FADVISE = 24,
	OP_RENAMEAT = 35,
	OP_UNLINKAT = 36,
	OP_MKDIRAT = 37,
	OP_LINKAT = 39,
	OP_FTRUNCATE = 55,
};

#define FLAG_FIXED ((unsigned char)IOSQE_FIXED_FILE)
#define FLAG_DRAIN ((unsigned char)IOSQE_IO_DRAIN)
#define FLAG_LINK ((unsigned char)IOSQE_IO_LINK)
#define FLAG_HARD ((unsigned char)IOSQE_IO_HARDLINK)
#define FLAG_ASYNC ((unsigned char)IOSQE_ASYNC)
#define FLAG_SELECT ((unsigned char)IOSQE_BUFFER_SELECT)
#define FLAG_SKIP ((unsigned char)(1U << 6))

/* The own flags of a read or write that version 3 serves: RWF_DSYNC and RWF_SYNC. */
#define SERVED_RW_FLAGS 6U

/* The most bytes that one read or write moves. */
#define MOST_MOVED 0x7ffff000ULL
/* An offset that stands for the position of the description. */
#define AT_POSITION UINT64_MAX

#endif
