/* What becomes of a record whose table is freed, and the way to free one; entries that the host frees and that time frees; what becomes of
 * a store in which the host left a count. */
#include "test.h"

static const struct peers_table *named(const struct peers_store *store, const char *name) {
    for (size_t i = 0; i < PEERS_TABLES; i++) {
        const struct peers_table *table = &store->tables[i];
        if (table->held && table->name_len == strlen(name) && memcmp(table->name, name, table->name_len) == 0) return table;
    }
    return NULL;
}

/* Frees the table at place 0 with its entries, as the header says. */
static void free_first(struct peers_store *store) {
    for (size_t i = 0; i < PEERS_ENTRIES; i++)
        if (store->entries[i].held && store->entries[i].table == 0) free_entry(store, i);
    CHECK(store->counts[0] == 0);
    store->tables[0].held = 0;
}

/* An incremental update of the key `keyt` with 9. */
static const uint8_t incremental[] = "\x0A\x81\x05keyt\x09";
#define INCREMENTAL (sizeof incremental - 1)

/* A record with table `t` bound and updated, and a store whose table and entries are then freed. */
static void freed(struct state state) {
    establish(state);
    define(state, 1, "t", PEERS_KEY_INTEGER, 4, 1u << PEERS_GPC0);
    update(state, 1, "keyt", 4, (const uint64_t[]){5}, 1);
    free_first(state.store);
}

/* Another record on the same store defines `other`, which takes the free place. */
static void take_the_place(struct state state) {
    struct state other = lend_state();
    establish(other);
    *other.store = *state.store;
    define(other, 7, "other", PEERS_KEY_INTEGER, 4, 1u << PEERS_GPC0);
    *state.store = *other.store;
    CHECK(named(state.store, "other") == &state.store->tables[0]);
    give_back_state(other);
}

static void old_record(struct state state) {
    uint8_t reply[12];
    freed(state);
    /* while the place is free every call is refused, and changes nothing */
    struct peers_outcome outcome = call(state, incremental, INCREMENTAL, 12, reply);
    CHECK(outcome.number == PEERS_REFUSED_UNSOUND && outcome.taken == 0);
    /* once the place is taken the update goes to the wrong table, and is acknowledged: this is what the rule forbids */
    take_the_place(state);
    outcome = call(state, incremental, INCREMENTAL, 12, reply);
    CHECK(outcome.number == PEERS_UPDATE && outcome.values[0] == 0 && outcome.reply_len == 8);
    CHECK(memcmp(reply, "\x0A\x84\x05\x01\x00\x00\x00\x02", 8) == 0);
    CHECK(state.store->entries[0].held == 1 && state.store->entries[0].table == 0);
    CHECK(named(state.store, "t") == NULL);
}

static void new_record(struct state state) {
    static struct peers_store store;
    uint8_t reply[12];
    freed(state);
    take_the_place(state);
    store = *state.store;
    establish(state);
    *state.store = store;
    /* a new record has no current table, so the peer's incremental update is refused */
    struct peers_outcome outcome = call(state, incremental, INCREMENTAL, 12, reply);
    CHECK(outcome.number == PEERS_REFUSED_UNBOUND);
    CHECK(memcmp(&store, state.store, sizeof store) == 0);
    /* and with the table defined anew it goes where it belongs */
    establish(state);
    *state.store = store;
    define(state, 1, "t", PEERS_KEY_INTEGER, 4, 1u << PEERS_GPC0);
    update(state, 1, "keyt", 4, (const uint64_t[]){5}, 1);
    CHECK(named(state.store, "t") == &state.store->tables[1]);
    CHECK(state.store->entries[0].held == 1 && state.store->entries[0].table == 1);
}

/* An entry goes whenever the host likes, and its key is new again. */
static void entry_alone(struct state state) {
    uint8_t reply[12];
    establish(state);
    define(state, 1, "t", PEERS_KEY_INTEGER, 4, 1u << PEERS_GPC0);
    update(state, 1, "keyt", 4, (const uint64_t[]){5}, 1);
    free_entry(state.store, 0);
    CHECK(state.store->counts[0] == 0);
    /* the place keeps the table's number, but nothing more is held there: the count stays */
    free_entry(state.store, 0);
    CHECK(state.store->counts[0] == 0);
    struct peers_outcome outcome = call(state, incremental, INCREMENTAL, 12, reply);
    CHECK(outcome.number == PEERS_UPDATE && outcome.values[2] == 0 && outcome.values[3] == 0);
    CHECK(state.store->entries[0].values[PEERS_SLOT_GPC0] == 9 && state.store->counts[0] == 1);
    /* a table that goes before its entries leaves a store that is refused, with its count and without */
    state.store->tables[0].held = 0;
    open_answerer_on(state);
    CHECK(call(state, (const uint8_t *)"H", 1, 12, reply).number == PEERS_REFUSED_UNSOUND);
    state.store->counts[0] = 0;
    CHECK(call(state, (const uint8_t *)"H", 1, 12, reply).number == PEERS_REFUSED_UNSOUND);
}

/* Whether reading and passing time are refused with 4, and change nothing. */
static bool is_refused(struct state state) {
    static struct peers_session session;
    static struct peers_store store;
    uint8_t reply[12];
    session = *state.session;
    store = *state.store;
    struct peers_outcome outcome = call(state, incremental, INCREMENTAL, 12, reply);
    pass_time(state.store, UINT32_MAX, PEERS_REFUSED_UNSOUND);
    CHECK(memcmp(&session, state.session, sizeof session) == 0 && memcmp(&store, state.store, sizeof store) == 0);
    return outcome.number == PEERS_REFUSED_UNSOUND && outcome.taken == 0 && outcome.reply_len == 0;
}

/* A count that the host left, or lowered twice, is refused until it is right; then reading goes on. */
static void count_that_was_left(struct state state) {
    uint8_t reply[12];
    establish(state);
    define(state, 1, "t", PEERS_KEY_INTEGER, 4, 1u << PEERS_GPC0);
    update(state, 1, "keyt", 4, (const uint64_t[]){5}, 1);
    update(state, 2, "keyu", 4, (const uint64_t[]){5}, 1);
    state.store->entries[0].held = 0;
    CHECK(is_refused(state));
    state.store->counts[0] = 0;
    CHECK(is_refused(state));
    state.store->counts[0] = 1;
    CHECK(call(state, incremental, INCREMENTAL, 12, reply).number == PEERS_UPDATE);
    CHECK(state.store->counts[0] == 2);
    /* a table that goes with its entries, but without its count */
    state.store->entries[0].held = state.store->entries[1].held = state.store->tables[0].held = 0;
    open_answerer_on(state);
    CHECK(is_refused(state));
    state.store->counts[0] = 0;
    CHECK(call(state, (const uint8_t *)"H", 1, 12, reply).number == PEERS_MORE);
    pass_time(state.store, 0, 0);
}

/* A record that defined the table last, and neither bound nor updated it: refused while the place is free; once another table takes it, that
 * one's entries go to the peer as those of the table that it was told of: this is what the rule forbids. */
static void defined_last(struct state state) {
    uint8_t message[SENT_MAX], reply[12];
    freed(state);
    open_answerer_on(state);
    state.session->connection.phase = PEERS_ESTABLISHED;
    state.store->tables[0].held = 1;
    CHECK(send_part(state, A_TABLE, 0, 7, PEERS_SEND_ROOM, message).number == 0);
    state.store->tables[0].held = 0;
    CHECK(call(state, (const uint8_t *)"\0\4", 2, 12, reply).number == PEERS_REFUSED_UNSOUND);
    CHECK(send_part(state, A_TABLE, 0, 7, PEERS_SEND_ROOM, message).number == PEERS_REFUSED_UNSOUND);
    CHECK(send_part(state, AN_ENTRY, 0, 7, PEERS_SEND_ROOM, message).number == PEERS_REFUSED_UNSOUND);
    take_the_place(state);
    define(state, 7, "other", PEERS_KEY_INTEGER, 4, 1u << PEERS_GPC0);
    update(state, 1, "keyo", 4, (const uint64_t[]){5}, 1);
    CHECK(send_part(state, AN_ENTRY, 0, 7, PEERS_SEND_ROOM, message).len == 12);
    CHECK(memcmp(message, "\x0A\x80\x09\x00\x00\x00\x07keyo\x05", 12) == 0);
    /* a new record has defined nothing */
    open_answerer_on(state);
    CHECK(call(state, (const uint8_t *)"H", 1, 12, reply).number == PEERS_MORE && state.session->sending.defined == 0);
}

/* The host frees one entry, time another: the next key takes the lower place. */
static void by_the_host_and_by_time(struct state state) {
    establish(state);
    define(state, 1, "t", PEERS_KEY_INTEGER, 4, 1u << PEERS_GPC0);
    update(state, 1, "keya", 4, (const uint64_t[]){5}, 1);
    timed_update(state, 2, 7, "keyb", 4, (const uint64_t[]){5}, 1);
    timed_update(state, 3, 8, "keyc", 4, (const uint64_t[]){5}, 1);
    free_entry(state.store, 2);
    pass_time(state.store, 7, 0);
    CHECK(state.store->counts[0] == 1);
    /* the place that the host freed keeps what it held, and its time isn't lowered */
    CHECK(state.store->entries[2].remaining == 8 && all_zero(&state.store->entries[1], sizeof state.store->entries[1]));
    update(state, 4, "keyd", 4, (const uint64_t[]){5}, 1);
    update(state, 5, "keye", 4, (const uint64_t[]){5}, 1);
    CHECK(memcmp(state.store->entries[1].key, "keyd", 4) == 0 && memcmp(state.store->entries[2].key, "keye", 4) == 0);
    CHECK(state.store->entries[1].timed == 0 && state.store->entries[2].timed == 0 && state.store->entries[2].remaining == 0);
}

void test_freeing(void) {
    struct state state = lend_state();
    old_record(state);
    new_record(state);
    entry_alone(state);
    count_that_was_left(state);
    defined_last(state);
    by_the_host_and_by_time(state);
    give_back_state(state);
}
