/* Sizes and offsets, and then limits and the numbers of types, places and phases, are those of constants.txt, which the Rust test reads too. No
 * struct has padding: its size is the sum of its fields'. */
#include "test.h"

/* A struct's size and alignment, or a field's offset and size. */
struct line {
    const char *name;
    size_t number, align, size;
};

#define ALIGN(type) offsetof(struct { char first; type second; }, second)
#define SIZE(name) {#name, sizeof(struct peers_##name), ALIGN(struct peers_##name), 0}
#define FIELD(name, field) {#name "." #field, offsetof(struct peers_##name, field), 0, sizeof((struct peers_##name *)0)->field}

static const struct line lines[] = {
    SIZE(table), FIELD(table, held), FIELD(table, key_type), FIELD(table, timed), FIELD(table, data_types),
    FIELD(table, name_len), FIELD(table, key_len), FIELD(table, expiry), FIELD(table, periods), FIELD(table, name),
    SIZE(entry), FIELD(entry, held), FIELD(entry, server_id), FIELD(entry, timed), FIELD(entry, remaining),
    FIELD(entry, table), FIELD(entry, key_len), FIELD(entry, key), FIELD(entry, values),
    SIZE(store), FIELD(store, tables), FIELD(store, counts), FIELD(store, entries),
    SIZE(binding), FIELD(binding, bound), FIELD(binding, updated), FIELD(binding, id), FIELD(binding, previous),
    SIZE(connection), FIELD(connection, phase), FIELD(connection, closed), FIELD(connection, number),
    FIELD(connection, current), FIELD(connection, local_len), FIELD(connection, remote_len), FIELD(connection, local),
    FIELD(connection, remote), FIELD(connection, bindings),
    SIZE(sending), FIELD(sending, defined), FIELD(sending, sent), FIELD(sending, last),
    SIZE(session), FIELD(session, connection), FIELD(session, len), FIELD(session, buffer), FIELD(session, sending),
    SIZE(outcome), FIELD(outcome, taken), FIELD(outcome, reply_len), FIELD(outcome, number), FIELD(outcome, count),
    FIELD(outcome, values),
    SIZE(opened), FIELD(opened, session), FIELD(opened, outcome),
    SIZE(sent), FIELD(sent, number), FIELD(sent, len),
};

/* A constant of the header. */
struct constant {
    const char *name;
    unsigned long number;
};

#define IS(name) {#name, name}

static const struct constant constants[] = {
    IS(PEERS_TABLES), IS(PEERS_ENTRIES), IS(PEERS_NAME_MAX), IS(PEERS_KEY_MAX), IS(PEERS_RATES), IS(PEERS_VALUES), IS(PEERS_UNFINISHED_MAX),
    IS(PEERS_BUFFER), IS(PEERS_OPENING_ROOM), IS(PEERS_READING_ROOM), IS(PEERS_SEND_ROOM),
    IS(PEERS_KEY_INTEGER), IS(PEERS_KEY_IPV4), IS(PEERS_KEY_IPV6), IS(PEERS_KEY_STRING), IS(PEERS_KEY_BINARY),
    IS(PEERS_SERVER_ID), IS(PEERS_GPT0), IS(PEERS_GPC0), IS(PEERS_GPC0_RATE), IS(PEERS_CONN_CNT), IS(PEERS_CONN_RATE), IS(PEERS_CONN_CUR),
    IS(PEERS_SESS_CNT), IS(PEERS_SESS_RATE), IS(PEERS_HTTP_REQ_CNT), IS(PEERS_HTTP_REQ_RATE), IS(PEERS_HTTP_ERR_CNT),
    IS(PEERS_HTTP_ERR_RATE), IS(PEERS_BYTES_IN_CNT), IS(PEERS_BYTES_IN_RATE), IS(PEERS_BYTES_OUT_CNT), IS(PEERS_BYTES_OUT_RATE),
    IS(PEERS_GPC1), IS(PEERS_GPC1_RATE),
    IS(PEERS_SLOT_GPT0), IS(PEERS_SLOT_GPC0), IS(PEERS_SLOT_GPC0_RATE), IS(PEERS_SLOT_CONN_CNT), IS(PEERS_SLOT_CONN_RATE),
    IS(PEERS_SLOT_CONN_CUR), IS(PEERS_SLOT_SESS_CNT), IS(PEERS_SLOT_SESS_RATE), IS(PEERS_SLOT_HTTP_REQ_CNT), IS(PEERS_SLOT_HTTP_REQ_RATE),
    IS(PEERS_SLOT_HTTP_ERR_CNT), IS(PEERS_SLOT_HTTP_ERR_RATE), IS(PEERS_SLOT_BYTES_IN_CNT), IS(PEERS_SLOT_BYTES_IN_RATE),
    IS(PEERS_SLOT_BYTES_OUT_CNT), IS(PEERS_SLOT_BYTES_OUT_RATE), IS(PEERS_SLOT_GPC1), IS(PEERS_SLOT_GPC1_RATE),
    IS(PEERS_PERIOD_GPC0_RATE), IS(PEERS_PERIOD_CONN_RATE), IS(PEERS_PERIOD_SESS_RATE), IS(PEERS_PERIOD_HTTP_REQ_RATE),
    IS(PEERS_PERIOD_HTTP_ERR_RATE), IS(PEERS_PERIOD_BYTES_IN_RATE), IS(PEERS_PERIOD_BYTES_OUT_RATE), IS(PEERS_PERIOD_GPC1_RATE),
    IS(PEERS_AWAITING_HELLO), IS(PEERS_AWAITING_STATUS), IS(PEERS_ESTABLISHED),
};

static void test_constants(FILE *from) {
    for (size_t i = 0; i < sizeof constants / sizeof *constants; i++) {
        char expected[80], own[80];
        CHECK(fgets(expected, sizeof expected, from) != NULL);
        snprintf(own, sizeof own, "%s %lu\n", constants[i].name, constants[i].number);
        CHECK(strcmp(expected, own) == 0);
    }
}

void test_layout(const char *file) {
    FILE *from = fopen(file, "r");
    size_t rest = 0; /* bytes of the struct that belong to no field so far */
    CHECK(from != NULL);
    for (size_t i = 0; i < sizeof lines / sizeof *lines; i++) {
        const struct line *line = &lines[i];
        char expected[80], own[80];
        CHECK(fgets(expected, sizeof expected, from) != NULL);
        if (line->align) {
            CHECK(rest == 0);
            rest = line->number;
            snprintf(own, sizeof own, "%s %zu %zu\n", line->name, line->number, line->align);
        } else {
            rest -= line->size;
            snprintf(own, sizeof own, "%s %zu\n", line->name, line->number);
        }
        CHECK(strcmp(expected, own) == 0);
    }
    CHECK(rest == 0);
    test_constants(from);
    CHECK(fgetc(from) == EOF);
    fclose(from);
}
