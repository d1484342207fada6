/* Runs all tests, with lent memory at either edge. The arguments are the files of sizes and offsets, and of texts. */
#include "test.h"

int main(int argc, char **argv) {
    CHECK(argc == 3);
    test_layout(argv[1]);
    test_texts(argv[2]);
    for (edge = EDGE_AFTER; edge <= EDGE_BEFORE; edge++) {
        test_opening();
        test_bytes();
        test_listing();
        test_definition();
        test_offsets();
        test_times();
        test_counts();
        test_sending();
        test_unsound();
        test_random();
        test_freeing();
    }
    puts("C tests passed");
    return 0;
}
