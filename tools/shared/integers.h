/* Integer types by their width. */
#ifndef INTEGERS_H
#define INTEGERS_H

#include <stdint.h>

typedef uint8_t u8;
typedef uint16_t u16;
typedef uint32_t u32;
typedef uint64_t u64;
typedef int32_t i32;
typedef int64_t i64;

static inline u64 min64(u64 one, u64 other)
{
	return one < other ? one : other;
}

#endif
