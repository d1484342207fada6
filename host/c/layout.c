/* Sizes and offsets are those of layout.txt, which the Rust test reads too. No struct has padding: its size is the sum of its fields'. */
#include "test.h"

/* A struct's size and alignment, or a field's offset and size. */
struct line {
    const char *name;
    size_t number, align, size;
};

#define ALIGN(type) offsetof(struct { char first; type second; }, second)
#define SIZE(name) {#name, sizeof(struct peers_##name), ALIGN(struct peers_##name), 0}
#define FIELD(name, field) {#name "." #field, offsetof(struct peers_##name, field), 0, sizeof((struct peers_##name *)0)->field}

static const struct line lines[] = {
    SIZE(table), FIELD(table, held), FIELD(table, key_type), FIELD(table, timed), FIELD(table, data_types),
    FIELD(table, name_len), FIELD(table, key_len), FIELD(table, expiry), FIELD(table, periods), FIELD(table, name),
    SIZE(entry), FIELD(entry, held), FIELD(entry, server_id), FIELD(entry, timed), FIELD(entry, remaining),
    FIELD(entry, table), FIELD(entry, key_len), FIELD(entry, key), FIELD(entry, values),
    SIZE(store), FIELD(store, tables), FIELD(store, counts), FIELD(store, entries),
    SIZE(binding), FIELD(binding, bound), FIELD(binding, updated), FIELD(binding, id), FIELD(binding, previous),
    SIZE(connection), FIELD(connection, phase), FIELD(connection, closed), FIELD(connection, number),
    FIELD(connection, current), FIELD(connection, local_len), FIELD(connection, remote_len), FIELD(connection, local),
    FIELD(connection, remote), FIELD(connection, bindings),
    SIZE(sending), FIELD(sending, defined), FIELD(sending, sent), FIELD(sending, last),
    SIZE(session), FIELD(session, connection), FIELD(session, len), FIELD(session, buffer), FIELD(session, sending),
    SIZE(outcome), FIELD(outcome, taken), FIELD(outcome, reply_len), FIELD(outcome, number), FIELD(outcome, count),
    FIELD(outcome, values),
    SIZE(opened), FIELD(opened, session), FIELD(opened, outcome),
    SIZE(sent), FIELD(sent, number), FIELD(sent, len),
};

void test_layout(const char *file) {
    FILE *from = fopen(file, "r");
    size_t rest = 0; /* bytes of the struct that belong to no field so far */
    CHECK(from != NULL);
    for (size_t i = 0; i < sizeof lines / sizeof *lines; i++) {
        const struct line *line = &lines[i];
        char expected[80], own[80];
        CHECK(fgets(expected, sizeof expected, from) != NULL);
        if (line->align) {
            CHECK(rest == 0);
            rest = line->number;
            snprintf(own, sizeof own, "%s %zu %zu\n", line->name, line->number, line->align);
        } else {
            rest -= line->size;
            snprintf(own, sizeof own, "%s %zu\n", line->name, line->number);
        }
        CHECK(strcmp(expected, own) == 0);
    }
    CHECK(rest == 0);
    CHECK(fgetc(from) == EOF);
    fclose(from);
}
