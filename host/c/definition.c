/* Fields of a definition, on each side of each boundary. */
#include "test.h"

/* Offers a definition of this body to a new record and store, and checks its answer's number and what is left. */
static void judged(struct state state, const uint8_t *body, size_t len, uint32_t number) {
    uint8_t message[200], reply[12];
    size_t whole = put_message(message, 130, body, len);
    establish(state);
    struct peers_outcome outcome = call(state, message, whole, 12, reply);
    CHECK(outcome.number == number && outcome.taken == whole && state.session->len == 0);
    if (number == PEERS_TABLE) {
        CHECK(outcome.reply_len == 0 && state.session->connection.closed == 0 && state.store->tables[0].held == 1);
        return;
    }
    CHECK(outcome.reply_len == 2 && memcmp(reply, "\1\0", 2) == 0);
    CHECK(state.session->connection.closed == 1 && state.session->connection.number == number);
    CHECK(all_zero(state.store, sizeof *state.store));
    CHECK(call(state, message, whole, 12, reply).number == PEERS_REFUSED_CLOSED);
}

/* The same of a definition with this name and these integers after it. */
static void defined(struct state state, const uint8_t *name, size_t name_len, const uint64_t *fields, size_t count, uint32_t number) {
    uint8_t body[150] = {1, (uint8_t)name_len};
    size_t len = 2 + name_len;
    memcpy(body + 2, name, name_len);
    for (size_t i = 0; i < count; i++) len += put_int(body + len, fields[i]);
    judged(state, body, len, number);
}

/* ---- key types */

static void taken(struct state state, uint64_t type, uint64_t key_len) {
    defined(state, (const uint8_t *)"t", 1, (const uint64_t[]){type, key_len, 0}, 3, PEERS_TABLE);
    CHECK(state.store->tables[0].key_type == type && state.store->tables[0].key_len == key_len);
}

static void refused(struct state state, const uint64_t *fields, size_t count, uint32_t number) {
    defined(state, (const uint8_t *)"t", 1, fields, count, number);
}

static void refused_keys(struct state state, uint64_t type, uint64_t key_len) {
    refused(state, (const uint64_t[]){type, key_len, 0}, 3, PEERS_REFUSED_RANGE);
}

static void key_types(struct state state) {
    static const uint64_t high[] = {1u << 8, 1u << 16, UINT64_C(1) << 32, UINT64_C(1) << 63};
    CHECK(PEERS_KEY_INTEGER == 2 && PEERS_KEY_IPV4 == 4 && PEERS_KEY_IPV6 == 5 && PEERS_KEY_STRING == 6 && PEERS_KEY_BINARY == 7);
    for (uint64_t type = 0; type < 300; type++) {
        if (is_key_type(type)) continue;
        refused_keys(state, type, 4);
        refused_keys(state, type, 16);
        /* before the key length is looked at */
        refused(state, &type, 1, PEERS_REFUSED_RANGE);
    }
    for (size_t i = 0; i < sizeof high / sizeof *high; i++)
        for (uint64_t type = 0; type < 8; type++) refused_keys(state, high[i] + type, 4);
    /* the key type isn't there, the key length isn't there */
    refused(state, NULL, 0, PEERS_REFUSED_CUT);
    refused(state, (const uint64_t[]){PEERS_KEY_INTEGER}, 1, PEERS_REFUSED_CUT);
}

static void key_lengths_of_a_type(struct state state, const struct key_lengths *kind) {
    for (uint64_t key_len = 0; key_len < 70; key_len++) {
        if (kind->least <= key_len && key_len <= kind->most) taken(state, kind->type, key_len);
        else refused_keys(state, kind->type, key_len);
    }
    refused_keys(state, kind->type, 256 + kind->most);
    refused_keys(state, kind->type, (UINT64_C(1) << 32) + kind->most);
    refused_keys(state, kind->type, UINT64_MAX);
}

/* A held table of another key type with the same lengths is another. */
static void held_key_type(struct state state) {
    static const uint8_t ipv4[] = {10, 130, 6, 1, 1, 't', PEERS_KEY_IPV4, 4, 0};
    uint8_t reply[12];
    taken(state, PEERS_KEY_INTEGER, 4);
    CHECK(call(state, ipv4, sizeof ipv4, 12, reply).number == PEERS_REFUSED_DISAGREES);
    taken(state, PEERS_KEY_IPV4, 4);
    CHECK(call(state, ipv4, sizeof ipv4, 12, reply).number == PEERS_TABLE);
}

/* ---- names */

/* The byte as a whole name, and first and last of longer ones; whole definitions, and such that end after the name. */
static void byte_of_a_name(struct state state, uint8_t byte) {
    static const uint64_t fields[] = {PEERS_KEY_INTEGER, 4, 0};
    static const struct {
        size_t len, at;
    } places[] = {{1, 0}, {2, 0}, {2, 1}, {32, 0}, {32, 31}};
    for (size_t i = 0; i < sizeof places / sizeof *places; i++) {
        uint8_t name[32];
        size_t len = places[i].len;
        memset(name, 'a', sizeof name);
        name[places[i].at] = byte;
        defined(state, name, len, fields, 3, is_plain(byte) ? PEERS_TABLE : PEERS_REFUSED_TABLE_NAME);
        if (is_plain(byte)) continue;
        defined(state, name, len, fields, 0, PEERS_REFUSED_TABLE_NAME);
        defined(state, name, len, (const uint64_t[]){3}, 1, PEERS_REFUSED_TABLE_NAME);
        defined(state, name, len, (const uint64_t[]){UINT64_MAX}, 1, PEERS_REFUSED_TABLE_NAME);
    }
}

/* What comes before a name decides first. */
static void before_a_name(struct state state) {
    static const uint8_t cut[] = {1, 2, '\n'}, empty[] = {1, 0, '\n'};
    uint8_t body[40] = {1, 33}, id[10];
    memset(body + 2, '\n', sizeof body - 2);
    judged(state, cut, sizeof cut, PEERS_REFUSED_CUT);
    judged(state, empty, sizeof empty, PEERS_REFUSED_RANGE);
    judged(state, body, sizeof body, PEERS_REFUSED_RANGE);
    body[1] = 32;
    judged(state, body, 33, PEERS_REFUSED_CUT);
    judged(state, body, 34, PEERS_REFUSED_TABLE_NAME);
    size_t len = put_int(id, UINT64_C(1) << 32);
    memcpy(id + len, "\1\n", 2);
    judged(state, id, len + 2, PEERS_REFUSED_RANGE);
}

/* With all table places held, and a held name in front. */
static void name_before_places(struct state state) {
    static const uint8_t message[] = {10, 130, 7, 9, 2, 'a', '\n', PEERS_KEY_INTEGER, 4, 0};
    uint8_t reply[12];
    establish(state);
    for (uint32_t i = 0; i < PEERS_TABLES; i++) define(state, i, (const char[]){(char)('a' + i), 0}, PEERS_KEY_INTEGER, 4, 0);
    CHECK(call(state, message, sizeof message, 12, reply).number == PEERS_REFUSED_TABLE_NAME);
}

void test_definition(void) {
    struct state state = lend_state();
    key_types(state);
    for (size_t i = 0; i < KEY_TYPES; i++) key_lengths_of_a_type(state, &key_lengths[i]);
    held_key_type(state);
    for (int byte = 0; byte < 256; byte++) byte_of_a_name(state, (uint8_t)byte);
    before_a_name(state);
    name_before_places(state);
    give_back_state(state);
}
