#ifndef HEADER_H
#define HEADER_H
#include <stdint.h>

/* One bit: 1 << n. */
enum { BIT = 1 << 3, OTHER_BIT = 1 << (WIDTH - 1) };

#endif
