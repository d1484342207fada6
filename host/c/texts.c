/* The archive's version is the header's. The text of each number is that of texts.txt, which the Rust test reads too. */
#include "test.h"

static bool unknown(const char *text) { return strstr(text, "has this number") != NULL; }

void test_texts(const char *file) {
    FILE *from = fopen(file, "r");
    char line[120];
    bool known[400] = {false};
    CHECK(peers_version() >> 16 == PEERS_VERSION && (peers_version() & 0xFFFF) == PEERS_LAYOUT);
    CHECK(peers_matches());
    CHECK(from != NULL);
    while (fgets(line, sizeof line, from) != NULL) {
        char *text;
        unsigned long number = strtoul(line, &text, 10);
        CHECK(number < 400 && *text == ' ');
        text++;
        text[strcspn(text, "\n")] = 0;
        CHECK(strcmp(number < PEERS_MORE ? peers_refusal_text((uint32_t)number) : peers_answer_text((uint32_t)number), text) == 0);
        if (number != 0 && number < PEERS_MORE) CHECK(strcmp(peers_answer_text((uint32_t)number), text) == 0);
        known[number] = true;
    }
    for (uint32_t number = 0; number < 400; number++) {
        CHECK(unknown(peers_refusal_text(number)) == !(known[number] && number < PEERS_MORE));
        CHECK(unknown(peers_answer_text(number)) == !(known[number] && number != 0));
    }
    fclose(from);
}
