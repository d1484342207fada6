/* Random bytes as record and store: no crash, and nothing outside of what is lent is touched. */
#include "test.h"

static void fill(void *memory, size_t size) {
    for (size_t i = 0; i < size; i++) ((uint8_t *)memory)[i] = (uint8_t)next();
}

/* Passes a random time: 0, or 4 and no change. */
static void try_time(struct state state, struct peers_store *store) {
    memcpy(store, state.store, sizeof *store);
    uint32_t number = peers_pass_time(state.store, (uint32_t)next());
    CHECK(number == 0 || number == 4);
    CHECK(number == 0 || memcmp(store, state.store, sizeof *store) == 0);
    CHECK(number == 4 || counts_are_right(state.store));
    CHECK(memcmp(store->tables, state.store->tables, sizeof store->tables) == 0);
}

/* Sends a random table and entry, with places and rooms on either side of their limits: the helper looks at what is left. */
static void try_sending(struct state state) {
    uint8_t message[SENT_MAX];
    for (enum part part = A_TABLE; part <= AN_ENTRY; part++) {
        size_t place = next() % 2 ? next() % 3 : next(), room = PEERS_SEND_ROOM - next() % 2;
        send_part(state, part, place, (uint32_t)next(), room, message);
    }
}

/* One call with a random piece and room; a refusal with 1, 2 or 4 must change nothing. Then a table and an entry are sent, and time
 * passes. */
static void try(struct state state, struct peers_session *session, struct peers_store *store) {
    uint8_t piece[40], reply[12];
    size_t len = next() % sizeof piece, room = next() % 30;
    fill(piece, len);
    memcpy(session, state.session, sizeof *session);
    memcpy(store, state.store, sizeof *store);
    struct peers_outcome outcome = call(state, piece, len, room, reply);
    if (outcome.number == 1 || outcome.number == 2 || outcome.number == 4) {
        CHECK(outcome.taken == 0 && outcome.reply_len == 0 && outcome.count == 0);
        CHECK(memcmp(session, state.session, sizeof *session) == 0);
        CHECK(memcmp(store, state.store, sizeof *store) == 0);
    }
    try_sending(state);
    try_time(state, store);
}

void test_random(void) {
    static struct peers_session session, base;
    static struct peers_store store, held;
    struct state state = lend_state();
    establish(state);
    define(state, 1, "t", PEERS_KEY_INTEGER, 4, 1u << PEERS_GPC0);
    update(state, 1, "keys", 4, (const uint64_t[]){5}, 1);
    base = *state.session;
    held = *state.store;
    for (int round = 0; round < 500; round++) {
        fill(state.session, sizeof *state.session);
        fill(state.store, sizeof *state.store);
        try(state, &session, &store);
        /* a random record alone, a random store alone, and one byte of each */
        memcpy(state.store, &held, sizeof held);
        try(state, &session, &store);
        memcpy(state.session, &base, sizeof base);
        fill(state.store, sizeof *state.store);
        try(state, &session, &store);
        memcpy(state.session, &base, sizeof base);
        memcpy(state.store, &held, sizeof held);
        ((uint8_t *)state.session)[next() % sizeof(struct peers_connection)] = (uint8_t)next();
        if (next() % 2) ((uint8_t *)&state.session->sending)[next() % sizeof(struct peers_sending)] = (uint8_t)(next() % 3);
        ((uint8_t *)state.store)[next() % 1200] = (uint8_t)next();
        try(state, &session, &store);
    }
    give_back_state(state);
}
