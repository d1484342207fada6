/* Timed updates, the times that untimed ones take, and time that passes. */
#include "test.h"

static const uint32_t edges[] = {0, 1, 2, 59999, 60000, 60001, 0x7FFFFFFF, 0x80000000, UINT32_MAX - 1, UINT32_MAX};
#define EDGES (sizeof edges / sizeof *edges)

/* An expiry of a table, or none. */
struct expiry {
    bool known;
    uint32_t time;
};

/* Offers a message that must be answered with this number; the values of its answer. */
static struct peers_outcome offered(struct state state, uint8_t kind, const uint8_t *body, size_t len, uint32_t number) {
    uint8_t message[100], reply[12];
    size_t whole = put_message(message, kind, body, len);
    struct peers_outcome outcome = call(state, message, whole, 12, reply);
    CHECK(outcome.number == number && outcome.taken == whole);
    if (number == PEERS_UPDATE) CHECK(outcome.reply_len == 8 && memcmp(reply, "\x0A\x84\x05\x01", 4) == 0);
    return outcome;
}

/* Defines a table of keys of 4 bytes with gpc0, with an expiry or without. */
static void defined(struct state state, struct expiry expiry) {
    uint8_t body[20] = {1, 1, 't', PEERS_KEY_BINARY, 4, 1u << PEERS_GPC0};
    size_t len = 6;
    if (expiry.known) len += put_int(body + len, expiry.time);
    offered(state, 130, body, len, PEERS_TABLE);
}

static bool is_timed(uint8_t kind) { return kind == 133 || kind == 134; }

/* Updates a key by a message of this type; the values of its answer. A timed one has this time. */
static struct peers_outcome committed(struct state state, uint8_t kind, uint32_t time, uint32_t key) {
    uint8_t body[20];
    size_t len = 0;
    if (kind == 128 || kind == 133) len += put_four(body, key);
    if (is_timed(kind)) len += put_four(body + len, time);
    len += put_four(body + len, key);
    body[len++] = 5;
    struct peers_outcome outcome = offered(state, kind, body, len, PEERS_UPDATE);
    CHECK(outcome.count == 4 && outcome.values[0] == 0);
    return outcome;
}

static bool lasts(const struct peers_store *store, size_t place, struct expiry time) {
    const struct peers_entry *entry = &store->entries[place];
    return entry->held == 1 && entry->timed == (time.known ? 1 : 0) && entry->remaining == (time.known ? time.time : 0);
}

static bool is_free(const struct peers_store *store, size_t place) {
    return all_zero(&store->entries[place], sizeof store->entries[place]);
}

/* ---- updates */

/* A new key by a message of one type, then the same key by one of another: the later update's time counts, whatever the entry had. */
static void new_and_replaced(struct state state, struct expiry expiry, const uint8_t kinds[2], uint32_t time) {
    establish(state);
    defined(state, expiry);
    committed(state, 128, 0, 0);
    for (uint64_t i = 0; i < 2; i++) {
        struct peers_outcome outcome = committed(state, kinds[i], time, 1);
        CHECK(outcome.values[2] == 1 && outcome.values[3] == i);
        CHECK(lasts(state.store, 1, is_timed(kinds[i]) ? (struct expiry){true, time} : expiry));
    }
    CHECK(lasts(state.store, 0, expiry));
}

/* Each form after each, with each time. */
static void forms(struct state state, struct expiry expiry) {
    static const uint8_t kinds[] = {128, 129, 133, 134};
    for (size_t i = 0; i < 16; i++)
        for (size_t e = 0; e < EDGES; e++)
            new_and_replaced(state, expiry, (const uint8_t[]){kinds[i / 4], kinds[i % 4]}, edges[e]);
}

/* A later definition leaves entries as they are, and untimed updates take the expiry that is held then. */
static void later_definition(struct state state) {
    static const struct expiry none, five = {true, 5}, seven = {true, 7};
    establish(state);
    defined(state, five);
    committed(state, 128, 0, 0);
    defined(state, seven);
    CHECK(lasts(state.store, 0, five));
    committed(state, 129, 0, 1);
    defined(state, none);
    CHECK(lasts(state.store, 0, five) && lasts(state.store, 1, seven));
    committed(state, 129, 0, 0);
    CHECK(lasts(state.store, 0, none) && lasts(state.store, 1, seven));
}

/* 27 and 28 come before the fields, 29 after them; types from 135 on are skipped. */
static void refusals(struct state state) {
    static const struct expiry none;
    for (uint8_t kind = 133; kind <= 134; kind++) {
        establish(state);
        CHECK(offered(state, kind, NULL, 0, PEERS_REFUSED_UNBOUND).count == 0);
    }
    establish(state);
    defined(state, none);
    offered(state, 134, NULL, 0, PEERS_REFUSED_PREVIOUS);
    for (uint8_t kind = 133; kind <= 134; kind++) {
        uint8_t body[13] = {0};
        establish(state);
        defined(state, none);
        for (uint32_t key = 0; key < PEERS_ENTRIES; key++) committed(state, 133, 7, key);
        memset(body, 0xFF, 12);
        offered(state, kind, kind == 133 ? body : body + 4, kind == 133 ? 13 : 9, PEERS_REFUSED_ENTRIES);
    }
    for (int kind = 135; kind < 256; kind++) {
        establish(state);
        CHECK(offered(state, (uint8_t)kind, NULL, 0, PEERS_SKIPPED).values[0] == (uint64_t)kind);
    }
}

/* ---- passing time */

/* One entry of each time, and one without. */
static void all_times(struct state state) {
    static const struct expiry none;
    establish(state);
    defined(state, none);
    committed(state, 128, 0, 100);
    for (size_t i = 0; i < EDGES; i++) committed(state, 133, edges[i], (uint32_t)i);
}

static void boundaries(struct state state) {
    static const struct expiry none;
    static struct peers_session session;
    for (size_t e = 0; e < EDGES; e++) {
        all_times(state);
        session = *state.session;
        pass_time(state.store, edges[e], 0);
        CHECK(lasts(state.store, 0, none));
        for (size_t i = 0; i < EDGES; i++) {
            if (edges[i] <= edges[e]) CHECK(is_free(state.store, i + 1));
            else CHECK(lasts(state.store, i + 1, (struct expiry){true, edges[i] - edges[e]}));
        }
        CHECK(memcmp(&session, state.session, sizeof session) == 0);
    }
}

/* Passing one time and then another leaves what passing their sum leaves. */
static void twice(struct state state) {
    static struct peers_store both;
    for (size_t a = 0; a < EDGES; a++) {
        for (size_t b = 0; b < EDGES; b++) {
            if (edges[a] > UINT32_MAX - edges[b]) continue;
            all_times(state);
            pass_time(state.store, edges[a] + edges[b], 0);
            both = *state.store;
            all_times(state);
            pass_time(state.store, edges[a], 0);
            pass_time(state.store, edges[b], 0);
            CHECK(memcmp(&both, state.store, sizeof both) == 0);
        }
    }
}

/* Freed places are taken again, the lowest first; a full store takes new keys again. */
static void places(struct state state) {
    static const struct expiry none;
    static const size_t freed[] = {0, 63, 64, 127};
    establish(state);
    defined(state, none);
    for (uint32_t key = 0; key < PEERS_ENTRIES; key++) committed(state, 133, key % 64 == 0 || key % 64 == 63 ? 5 : 6, key);
    pass_time(state.store, 4, 0);
    pass_time(state.store, 1, 0);
    for (size_t i = 0; i < 4; i++) CHECK(is_free(state.store, freed[i]));
    for (uint32_t i = 0; i < 4; i++) {
        struct peers_outcome outcome = committed(state, 134, 9, 200 + i);
        CHECK(outcome.values[2] == freed[i] && outcome.values[3] == 0);
    }
    /* a key whose entry was freed is new */
    pass_time(state.store, 1, 0);
    CHECK(committed(state, 129, 0, 1).values[3] == 0);
    pass_time(state.store, UINT32_MAX, 0);
    CHECK(lasts(state.store, 1, none) && is_free(state.store, 0) && is_free(state.store, 127));
}

/* In the handshake, inside a message and on a closed session. */
static void any_phase(struct state state) {
    static const uint8_t message[] = {10, 133, 13, 0, 0, 0, 9, 0, 0, 0, 3, 0, 0, 0, 1, 5};
    static struct peers_store store;
    uint8_t reply[12];
    open_answerer(state);
    pass_time(state.store, 5, 0);
    for (size_t cut = 1; cut < sizeof message; cut++) {
        establish(state);
        defined(state, (struct expiry){true, 3});
        committed(state, 128, 0, 1);
        CHECK(call(state, message, cut, 12, reply).number == PEERS_MORE);
        /* the entry is freed inside the message that would have replaced it */
        pass_time(state.store, 3, 0);
        struct peers_outcome outcome = call(state, message + cut, sizeof message - cut, 12, reply);
        CHECK(outcome.number == PEERS_UPDATE && outcome.values[3] == 0);
        CHECK(lasts(state.store, 0, (struct expiry){true, 3}));
    }
    CHECK(call(state, (const uint8_t *)"\1\0", 2, 12, reply).number == PEERS_ERROR);
    pass_time(state.store, 2, 0);
    pass_time(state.store, 1, 0);
    CHECK(is_free(state.store, 0) && state.store->tables[0].held == 1);
    /* a new record on this store */
    store = *state.store;
    establish(state);
    *state.store = store;
    defined(state, (struct expiry){false, 0});
    CHECK(committed(state, 128, 0, 1).values[2] == 0);
}

/* A table without expiry on a balancer has expiry 0: its entries go with the next tick, even with one of 0 milliseconds. */
static void expiry_of_zero(struct state state) {
    establish(state);
    defined(state, (struct expiry){true, 0});
    committed(state, 128, 0, 1);
    committed(state, 133, 1, 2);
    pass_time(state.store, 0, 0);
    CHECK(is_free(state.store, 0) && lasts(state.store, 1, (struct expiry){true, 1}));
}

void test_times(void) {
    struct state state = lend_state();
    forms(state, (struct expiry){false, 0});
    forms(state, (struct expiry){true, 0});
    forms(state, (struct expiry){true, 60000});
    forms(state, (struct expiry){true, UINT32_MAX});
    later_definition(state);
    refusals(state);
    boundaries(state);
    twice(state);
    places(state);
    any_phase(state);
    expiry_of_zero(state);
    give_back_state(state);
}
