#ifndef HEADER_H
#define HEADER_H
#include <stdint.h>

static inline uint32_t bit(unsigned n) {
    return 1u << n; // refused
}

#endif
