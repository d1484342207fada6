/* Runs all tests. The arguments are the edge at which lent memory lies, and the files of sizes and offsets, and of texts. */
#include "test.h"

int main(int argc, char **argv) {
    CHECK(argc == 4);
    choose_edge(argv[1]);
    test_layout(argv[2]);
    test_texts(argv[3]);
    test_opening();
    test_bytes();
    test_definition();
    test_sending();
    test_unsound();
    test_random();
    test_freeing();
    printf("C tests passed, with lent memory at the edge '%s'\n", argv[1]);
    return 0;
}
