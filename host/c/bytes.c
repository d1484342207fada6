/* What a call gives back and leaves has the same bytes, whatever lay before on the stack and in the memory that it writes. */
#include "test.h"

static const uint8_t fills[2] = {0x00, 0xFF};

/* Fills the stack below its caller's frame, where the next function's frames come to lie. */
__attribute__((noinline)) static void fill_stack(uint8_t fill) {
    volatile uint8_t below[512 << 10];
    for (size_t i = 0; i < sizeof below; i++) below[i] = fill;
}

/* ---- opening */

struct opening {
    bool calls;
    const char *local;
    size_t room;
    uint32_t number;
};

static const struct opening openings[] = {
    {false, "east", PEERS_OPENING_ROOM, PEERS_MORE},
    {true, "east", PEERS_OPENING_ROOM, PEERS_MORE},
    {false, "e ast", PEERS_OPENING_ROOM, PEERS_REFUSED_NAME},
    {true, "", PEERS_OPENING_ROOM, PEERS_REFUSED_NAME},
    {false, "east", PEERS_OPENING_ROOM - 1, PEERS_REFUSED_ROOM},
    {true, "east", 0, PEERS_REFUSED_ROOM},
};

__attribute__((noinline)) static void open_to(struct peers_opened *to, const struct opening *opening) {
    const uint8_t *local = (const uint8_t *)opening->local, *remote = (const uint8_t *)"west";
    size_t len = strlen(opening->local);
    uint8_t room[PEERS_OPENING_ROOM];
    if (opening->calls) *to = peers_open_caller(local, len, remote, 4, 7, 0, room, opening->room);
    else *to = peers_open_answerer(local, len, remote, 4, room, opening->room);
}

static void open_over(uint8_t fill, struct peers_opened *to, const struct opening *opening) {
    memset(to, fill, sizeof *to);
    fill_stack(fill);
    open_to(to, opening);
    CHECK(to->outcome.number == opening->number);
}

static void test_openings(void) {
    static struct peers_opened opened[2];
    for (size_t i = 0; i < sizeof openings / sizeof *openings; i++) {
        for (size_t side = 0; side < 2; side++) open_over(fills[side], &opened[side], &openings[i]);
        CHECK(memcmp(&opened[0], &opened[1], sizeof *opened) == 0);
    }
}

/* ---- reading */

struct piece {
    const char *bytes;
    size_t len;
    uint32_t number;
};

static const struct piece pieces[] = {
    {"HAProxyS 2.1\neast\nwe", 20, PEERS_MORE},
    {"st 7 0\n", 7, PEERS_HELLO},
    {"\x0A\x82\x0A\x01\x02t1\x02\x04\x04\xF0\x97\x1C", 13, PEERS_TABLE},
    {"\x0A\x80\x09\x00\x00\x00\x09keyt\x07", 12, PEERS_UPDATE},
    {"\x0A\x81\x05", 3, PEERS_MORE},
    {"keyt\x08", 5, PEERS_UPDATE},
    {"\x0A\x83\x01\x01", 4, PEERS_SWITCH},
    {"\x00\x04", 2, PEERS_HEARTBEAT},
    {"", 0, PEERS_MORE},
    {"\x0A\x83\x01\x02", 4, PEERS_REFUSED_UNBOUND},
    {"\x00\x04", 2, PEERS_REFUSED_CLOSED},
};

__attribute__((noinline)) static void empty_to(struct peers_store *to) { *to = peers_empty_store(); }

__attribute__((noinline)) static void pass_to(uint32_t *to, struct peers_store *store, uint32_t time) {
    *to = peers_pass_time(store, time);
}

__attribute__((noinline)) static void read_to(struct peers_outcome *to, struct state state, const struct piece *piece) {
    uint8_t room[PEERS_READING_ROOM];
    *to = peers_read(state.session, state.store, (const uint8_t *)piece->bytes, piece->len, room, sizeof room);
}

__attribute__((noinline)) static void send_to(struct peers_sent to[2], struct state state, uint32_t id, uint8_t *room) {
    to[0] = peers_send_definition(state.session, state.store, 0, id, room, PEERS_SEND_ROOM);
    to[1] = peers_send_entry(state.session, state.store, 0, id, room + PEERS_SEND_ROOM, PEERS_SEND_ROOM);
}

/* A new record and an empty store. */
static void start_over(uint8_t fill, struct state state) {
    static struct peers_opened opened;
    open_over(fill, &opened, &openings[0]);
    *state.session = opened.session;
    memset(state.store, fill, sizeof *state.store);
    fill_stack(fill);
    empty_to(state.store);
}

static void read_over(uint8_t fill, struct peers_outcome *to, struct state state, const struct piece *piece) {
    memset(to, fill, sizeof *to);
    fill_stack(fill);
    read_to(to, state, piece);
    CHECK(to->number == piece->number);
}

static void pass_over(uint8_t fill, struct peers_store *store, uint32_t time) {
    uint32_t number;
    fill_stack(fill);
    pass_to(&number, store, time);
    CHECK(number == 0);
}

/* A definition and an entry, each to a room of its own. */
static void send_over(uint8_t fill, struct peers_sent to[2], struct state state, uint32_t number, uint8_t *room) {
    memset(to, fill, 2 * sizeof *to);
    memset(room, FILL, 2 * PEERS_SEND_ROOM);
    fill_stack(fill);
    send_to(to, state, 7, room);
    CHECK(to[0].number == number && to[1].number == number);
}

static void check_equal(const struct state states[2]) {
    CHECK(memcmp(states[0].session, states[1].session, sizeof *states[0].session) == 0);
    CHECK(memcmp(states[0].store, states[1].store, sizeof *states[0].store) == 0);
}

/* Sends where the table and its entry are held, and where the handshake is unfinished. */
static void test_sendings(struct state states[2], uint32_t number) {
    struct peers_sent sent[2][2];
    uint8_t rooms[2][2 * PEERS_SEND_ROOM];
    for (size_t side = 0; side < 2; side++) send_over(fills[side], sent[side], states[side], number, rooms[side]);
    CHECK(memcmp(sent[0], sent[1], sizeof sent[0]) == 0 && memcmp(rooms[0], rooms[1], sizeof rooms[0]) == 0);
    check_equal(states);
}

static void test_readings(void) {
    struct state states[2] = {lend_state(), lend_state()};
    struct peers_outcome outcomes[2];
    for (size_t side = 0; side < 2; side++) start_over(fills[side], states[side]);
    CHECK(all_zero(states[0].store, sizeof *states[0].store));
    check_equal(states);
    test_sendings(states, PEERS_REFUSED_HANDSHAKE);
    for (size_t i = 0; i < sizeof pieces / sizeof *pieces; i++) {
        for (size_t side = 0; side < 2; side++) read_over(fills[side], &outcomes[side], states[side], &pieces[i]);
        CHECK(memcmp(&outcomes[0], &outcomes[1], sizeof *outcomes) == 0);
        check_equal(states);
        if (pieces[i].number == PEERS_UPDATE) test_sendings(states, 0);
    }
    test_sendings(states, PEERS_REFUSED_CLOSED);
    for (uint32_t time = 59999; time <= 60000; time++) {
        for (size_t side = 0; side < 2; side++) pass_over(fills[side], states[side].store, time);
        check_equal(states);
    }
    CHECK(all_zero(states[0].store->entries, sizeof states[0].store->entries));
    CHECK(all_zero(states[0].store->counts, sizeof states[0].store->counts));
    for (size_t side = 0; side < 2; side++) give_back_state(states[side]);
}

/* Bytes of the buffer past the unfinished ones don't stay after a call that takes bytes. */
static void test_buffer(void) {
    struct state state = lend_state();
    struct peers_outcome outcome;
    establish(state);
    memset(state.session->buffer, 0xFF, sizeof state.session->buffer);
    read_over(0xFF, &outcome, state, &(const struct piece){"\x0A", 1, PEERS_MORE});
    CHECK(state.session->len == 1 && state.session->buffer[0] == 10);
    CHECK(all_zero(state.session->buffer + 1, sizeof state.session->buffer - 1));
    memset(state.session->buffer + 1, 0xFF, sizeof state.session->buffer - 1);
    read_over(0xFF, &outcome, state, &(const struct piece){"\xC8\x00", 2, PEERS_SKIPPED});
    CHECK(state.session->len == 0 && all_zero(state.session->buffer, sizeof state.session->buffer));
    give_back_state(state);
}

void test_bytes(void) {
    test_openings();
    test_readings();
    test_buffer();
}
