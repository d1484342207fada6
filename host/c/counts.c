/* The counts of entries by table: what each kind of call does to them. That they are what walking finds, every call of these tests checks. */
#include "test.h"

static bool counts_are(const struct peers_store *store, const uint32_t counts[PEERS_TABLES]) {
    return memcmp(store->counts, counts, sizeof store->counts) == 0;
}

#define COUNTS(...) CHECK(counts_are(state.store, (const uint32_t[PEERS_TABLES]){__VA_ARGS__}))

/* Offers a message, which must be answered with this number. */
static void offered(struct state state, uint8_t kind, const void *body, size_t len, uint32_t number) {
    uint8_t message[1028], reply[12];
    size_t whole = put_message(message, kind, body, len);
    CHECK(call(state, message, whole, 12, reply).number == number);
}

/* Tables `a` to `d` at places 0 to 3, with IDs 0 to 3; a timed update of a number as the key in one of them. */
static void four_tables(struct state state) {
    static const char *const names[] = {"a", "b", "c", "d"};
    establish(state);
    for (uint32_t id = 0; id < 4; id++) define(state, id, names[id], PEERS_KEY_INTEGER, 4, 0);
}

static void put(struct state state, uint8_t table, uint32_t key, uint32_t time) {
    uint8_t bytes[4];
    offered(state, 131, &table, 1, PEERS_SWITCH);
    timed_update(state, key, time, bytes, put_four(bytes, key), NULL, 0);
}

static void empty(struct state state) {
    open_answerer(state);
    COUNTS(0);
    four_tables(state);
    COUNTS(0);
}

/* A new entry adds one to its table, by each form of an update; a replaced one leaves the counts. */
static void new_and_replaced(struct state state) {
    four_tables(state);
    put(state, 0, 1, 9);
    COUNTS(1);
    put(state, 3, 1, 9);
    COUNTS(1, 0, 0, 1);
    put(state, 0, 2, 9);
    COUNTS(2, 0, 0, 1);
    put(state, 0, 1, 5);
    put(state, 3, 1, 5);
    COUNTS(2, 0, 0, 1);
    /* new in the first round, replaced in the second */
    for (uint32_t round = 0; round < 2; round++) {
        update(state, 7, "key1", 4, NULL, 0);
        COUNTS(2, 0, 0, round ? 4 : 2);
        offered(state, 129, "key2", 4, PEERS_UPDATE);
        COUNTS(2, 0, 0, round ? 4 : 3);
        offered(state, 134, "\0\0\0\5key3", 8, PEERS_UPDATE);
        COUNTS(2, 0, 0, 4);
    }
}

/* Messages that put no entry, accepted and refused. */
static void others(struct state state) {
    static const struct {
        uint8_t kind;
        const char *body;
        size_t len;
        uint32_t number;
    } messages[] = {
        {130, "\0\1a\2\4\0", 6, PEERS_TABLE},
        {130, "\7\1e\2\4\0", 6, PEERS_TABLE},
        {131, "\1", 1, PEERS_SWITCH},
        {132, "\1\0\0\0\1", 5, PEERS_ACKNOWLEDGEMENT},
        {200, "", 0, PEERS_SKIPPED},
        {128, "\0\0\0\1key", 7, PEERS_REFUSED_CUT},
        {133, "\0\0\0\1\0\0\0\1key", 11, PEERS_REFUSED_CUT},
        {130, "\0\1a\3", 4, PEERS_REFUSED_RANGE},
        {130, "\0\1a\4\4\0", 6, PEERS_REFUSED_DISAGREES},
        {130, "\0\1 ", 3, PEERS_REFUSED_TABLE_NAME},
        {131, "\11", 1, PEERS_REFUSED_UNBOUND},
    };
    for (size_t i = 0; i < sizeof messages / sizeof *messages; i++) {
        uint8_t reply[12];
        four_tables(state);
        put(state, 2, 1, 9);
        put(state, 2, 2, 9);
        put(state, 0, 1, 9);
        offered(state, messages[i].kind, messages[i].body, messages[i].len, messages[i].number);
        COUNTS(1, 0, 2);
        /* too little room, and on a closed session */
        CHECK(call(state, (const uint8_t *)"\0\4", 2, 11, reply).number == PEERS_REFUSED_ROOM);
        call(state, (const uint8_t *)"\1\0", 2, 12, reply);
        CHECK(call(state, (const uint8_t *)"\0\4", 2, 12, reply).number == PEERS_REFUSED_CLOSED);
        COUNTS(1, 0, 2);
    }
}

/* All entries in one table, one more that is refused, and time that frees them. */
static void full(struct state state) {
    four_tables(state);
    for (uint32_t key = 0; key < PEERS_ENTRIES; key++) {
        put(state, 2, key, key);
        COUNTS(0, 0, key + 1);
    }
    put(state, 2, 77, 77);
    COUNTS(0, 0, PEERS_ENTRIES);
    offered(state, 128, "\0\0\0\1none", 8, PEERS_REFUSED_ENTRIES);
    COUNTS(0, 0, PEERS_ENTRIES);
    pass_time(state.store, 99, 0);
    COUNTS(0, 0, 28);
    pass_time(state.store, UINT32_MAX, 0);
    COUNTS(0);
}

/* Time takes one off for each entry that it frees, from the entry's own table; a freed place counts again when it is taken. */
static void times(struct state state) {
    four_tables(state);
    for (uint32_t key = 0; key < 24; key++) put(state, (uint8_t)(key % 4), key, key / 4);
    update(state, 1, "none", 4, NULL, 0);
    COUNTS(6, 6, 6, 7);
    for (uint32_t left = 6; left-- > 0;) {
        pass_time(state.store, left == 5 ? 0 : 1, 0);
        COUNTS(left, left, left, left + 1);
    }
    put(state, 1, 5, 1);
    COUNTS(0, 1, 0, 1);
    CHECK(state.store->entries[0].held == 1 && state.store->entries[0].table == 1);
}

void test_counts(void) {
    struct state state = lend_state();
    empty(state);
    new_and_replaced(state);
    others(state);
    full(state);
    times(state);
    give_back_state(state);
}
