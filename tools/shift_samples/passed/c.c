#include <stdint.h>
#include <sys/types.h>
#include "x << n.h"
#define WIDE (1u << 3 | 1u << WIDTH)
// x << n \
   x << n
/* x << n /* x << n */

uint64_t shifts(uint64_t x, const struct counts *counts) {
    const char *text = "x << n \" x << n", quote = '"', other = '\'';
    uint64_t a = x << 3 | x >> 0x1Fu | UINT64_C(1) << PEERS_GPC0;
    a <<= 3;
    a >>= WIDTH - 1;
    a = x << // x << n
        WIDTH;
    a = x << (4 * 8) | x << (WIDTH * 8) | x << WIDTH * 8;
    while (x --> 0) a = counts->wide > 3 ? x >> 3 : x;
    return a < x && x > a;
}
