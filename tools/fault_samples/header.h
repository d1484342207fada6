/* Behind a line stand the changes that are found in it; a line without them has none. if (1 < 2) { x = 3; } */
#ifndef SAMPLE_H
#define SAMPLE_H

#include <stddef.h>

#if SAMPLE_OF > 2
extern "C" {
#endif

#define SAMPLE_PLACES 8 // number: 8 -> 9 | number: 8 -> 7
#define SAMPLE_TWICE(n) (2 * (n))

enum sample_slot { SAMPLE_A = 0, // number: 0 -> 1 | values: 0, SAMPLE_B = 5 -> 5, SAMPLE_B = 0
    SAMPLE_B = 5 }; // number: 5 -> 6 | number: 5 -> 4

struct sample {
    size_t len;
    unsigned char bytes[4];
};

int sample_read(const unsigned char *bytes, size_t len);

static inline int sample_matches(int n) { return n == SAMPLE_PLACES * 2; } // comparison: == -> != | arithmetic: * -> / | constant: SAMPLE_PLACES -> SAMPLE_A | constant: SAMPLE_PLACES -> SAMPLE_B | number: 2 -> 3 | number: 2 -> 1

static inline const char *sample_text(int n, struct sample *of) {
    if (n <= 2 || of->len) { // comparison: <= -> < | condition: n <= 2 || of->len -> !(n <= 2 || of->len) | connective: || -> && | number: 2 -> 3 | number: 2 -> 1
        of->len = 0; // dropped: of->len = 0; -> nothing | number: 0 -> 1
        n++;
    }
    switch (n) {
    case SAMPLE_A: return "a"; // results: "a"; case SAMPLE_B: return "b" -> "b"; case SAMPLE_B: return "a"
    case SAMPLE_B: return "b"; // results: "b"; default: return "none" -> "none"; default: return "b"
    default: return "none";
    }
}
#endif
