#include <stdint.h>
#define SHIFTED(x, n) ((x) << (n)) /* refused */
#define BIT(N) (1u << (N)) /* refused */
#define LONG(x, n) \
    ((x) >> n) /* refused */

uint64_t shifts(uint64_t x, unsigned n, struct counts *counts) {
    uint64_t a = x << n;  // refused
    a = a >> (n);         // refused
    a >>= n + 1;          // refused
    a <<=n;               // refused
    a = a<<n;             // refused
    a = x << // refused
        n;
    a = x
        >> n; // refused
    a = x << WIDTH(3);         // refused
    a = x >> counts->width;    // refused
    a = x-->>n;                // refused
    a = 1u << (unsigned)n;     // refused
    a = 1u << (sizeof x * n);  // refused
    a = counts->wide >> n;     // refused
    a = a < x >> n;            // refused
    a = x >> 3 ? x >> n : x;   // refused
    a = both(A < x, B < a >> n); // refused
    a = both(Low < x, High < a >> (n)); // refused
    a = both(Low < x, High < a >> where); // refused
    return '"' + '\'' + L'"' + "\""[0] + u8"\""[0] << n; /* " */ // refused
}
