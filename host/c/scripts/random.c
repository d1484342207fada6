/* Random bytes as record and store: no crash, and nothing outside of what is lent is touched. */
#include "test.h"

static uint64_t next(void) {
    static uint64_t seed = 0x123456789ABCDEF1;
    seed ^= seed << 13;
    seed ^= seed >> 7;
    seed ^= seed << 17;
    return seed;
}

static void fill(void *memory, size_t size) {
    for (size_t i = 0; i < size; i++) ((uint8_t *)memory)[i] = (uint8_t)next();
}

/* Sends a random table and entry, with places and rooms on either side of their limits. */
static void try_sending(struct state state) {
    uint8_t message[SENT_MAX];
    for (enum part part = A_TABLE; part <= AN_ENTRY; part++) {
        size_t place = next() % 2 ? next() % 3 : next(), room = PEERS_SEND_ROOM - next() % 2;
        send_part(state, part, place, (uint32_t)next(), room, message);
    }
}

/* One call with a random piece and room, then a table and an entry are sent, and time passes: the helpers look at what is left. */
static void try(struct state state) {
    uint8_t piece[40], reply[12];
    size_t len = next() % sizeof piece, room = next() % 30;
    fill(piece, len);
    call(state, piece, len, room, reply);
    try_sending(state);
    pass_time(state.store, (uint32_t)next());
}

void test_random(void) {
    static struct peers_session base;
    static struct peers_store held;
    struct state state = lend_state();
    establish(state);
    define(state, 1, "t", PEERS_KEY_INTEGER, 4, 1u << PEERS_GPC0);
    update(state, 1, "keys", 4, (const uint64_t[]){5}, 1);
    base = *state.session;
    held = *state.store;
    for (int round = 0; round < 500; round++) {
        fill(state.session, sizeof *state.session);
        fill(state.store, sizeof *state.store);
        try(state);
        /* a random record alone, a random store alone, and one byte of each */
        memcpy(state.store, &held, sizeof held);
        try(state);
        memcpy(state.session, &base, sizeof base);
        fill(state.store, sizeof *state.store);
        try(state);
        memcpy(state.session, &base, sizeof base);
        memcpy(state.store, &held, sizeof held);
        ((uint8_t *)state.session)[next() % sizeof(struct peers_connection)] = (uint8_t)next();
        if (next() % 2) ((uint8_t *)&state.session->sending)[next() % sizeof(struct peers_sending)] = (uint8_t)(next() % 3);
        ((uint8_t *)state.store)[next() % 1200] = (uint8_t)next();
        try(state);
    }
    give_back_state(state);
}
