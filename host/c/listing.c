/* The listing's stream, whole, in every division into two pieces, and byte by byte; opening. */
#include "test.h"

static const uint8_t stream[] =
    "HAProxyS 2.1\neast\nwest 7 0\n"
    "\x0A\x82\x0A\x01\x02\x74\x31\x02\x04\x04\xF0\x97\x1C"
    "\x0A\x80\x0B\xFF\xFF\xFF\xFF\x00\x00\x00\x2A\xF4\x94\x01"
    "\x0A\x81\x05\x00\x00\x00\x2A\x05"
    "\x00\x01";
#define STREAM (sizeof stream - 1)

struct expected {
    uint32_t number, count;
    uint64_t values[4];
    size_t reply_len;
    const char *reply;
};

static const struct expected expected[] = {
    {PEERS_HELLO, 2, {7, 0}, 4, "200\n"},
    {PEERS_TABLE, 1, {0}, 0, ""},
    {PEERS_UPDATE, 4, {0, 4294967295, 0, 0}, 8, "\x0A\x84\x05\x01\xFF\xFF\xFF\xFF"},
    {PEERS_UPDATE, 4, {0, 0, 0, 1}, 8, "\x0A\x84\x05\x01\x00\x00\x00\x00"},
    {PEERS_FINISHED, 0, {0}, 2, "\x00\x03"},
};
#define ANSWERS (sizeof expected / sizeof *expected)

static size_t answers;

static void told(const struct peers_outcome *outcome, const uint8_t *reply) {
    CHECK(answers < ANSWERS);
    const struct expected *next = &expected[answers++];
    CHECK(outcome->number == next->number && outcome->count == next->count);
    CHECK(memcmp(outcome->values, next->values, sizeof next->values) == 0);
    CHECK(outcome->reply_len == next->reply_len && memcmp(reply, next->reply, next->reply_len) == 0);
}

static void check_end(struct state state) {
    const struct peers_table *table = &state.store->tables[0];
    const struct peers_entry *entry = &state.store->entries[0];
    CHECK(answers == ANSWERS);
    CHECK(state.session->connection.phase == PEERS_ESTABLISHED && state.session->connection.closed == 0);
    CHECK(state.session->len == 0 && state.session->connection.current == 1);
    CHECK(state.session->connection.bindings[0].bound == 1 && state.session->connection.bindings[0].id == 1);
    CHECK(state.session->connection.bindings[0].updated == 1 && state.session->connection.bindings[0].previous == 0);
    CHECK(table->held == 1 && table->name_len == 2 && memcmp(table->name, "t1", 2) == 0);
    CHECK(table->key_type == PEERS_KEY_INTEGER && table->key_len == 4);
    CHECK(table->data_types == 1u << PEERS_GPC0 && table->timed == 1 && table->expiry == 60000);
    CHECK(entry->held == 1 && entry->table == 0 && entry->key_len == 4);
    CHECK(memcmp(entry->key, "\x00\x00\x00\x2A", 4) == 0 && entry->values[PEERS_SLOT_GPC0] == 5);
    CHECK(entry->timed == 1 && entry->remaining == 60000);
    CHECK(state.store->tables[1].held == 0 && state.store->entries[1].held == 0);
    CHECK(memcmp(state.store->counts, (const uint32_t[PEERS_TABLES]){1}, sizeof state.store->counts) == 0);
}

/* Offers the stream cut at a place, and byte by byte where the place is past its end. */
static void run(struct state state, size_t cut) {
    open_answerer(state);
    answers = 0;
    if (cut <= STREAM) {
        offer(state, stream, cut, told);
        offer(state, stream + cut, STREAM - cut, told);
    } else {
        for (size_t i = 0; i < STREAM; i++) offer(state, stream + i, 1, told);
    }
    check_end(state);
}

void test_listing(void) {
    static struct peers_session session;
    static struct peers_store store;
    struct state state = lend_state();
    run(state, STREAM);
    session = *state.session;
    store = *state.store;
    for (size_t cut = 0; cut <= STREAM + 1; cut++) {
        run(state, cut);
        CHECK(memcmp(&session, state.session, sizeof session) == 0);
        CHECK(memcmp(&store, state.store, sizeof store) == 0);
    }
    give_back_state(state);
}

/* A refused opening: a closed record, all else zero, with which a call answers 2. */
static void refused(struct peers_opened opened, uint32_t number) {
    static const uint8_t piece[1];
    struct peers_session *session = &opened.session;
    struct state state = lend_state();
    uint8_t reply[12];
    CHECK(opened.outcome.number == number && opened.outcome.reply_len == 0 && opened.outcome.count == 0);
    *state.session = opened.session;
    *state.store = peers_empty_store();
    CHECK(call(state, piece, 1, 12, reply).number == PEERS_REFUSED_CLOSED);
    CHECK(session->connection.closed == 1 && session->connection.number == number);
    session->connection.closed = session->connection.number = 0;
    CHECK(all_zero(session, sizeof *session));
    give_back_state(state);
}

void test_opening(void) {
    static const char longest[] = "HAProxyS 2.1\nrrrrrrrrrrrrrrrrrrrrrrrrrrrrrrrr\nllllllllllllllllllllllllllllllll 4294967295 4294967295\n";
    uint8_t names[66], *room = lend(PEERS_OPENING_ROOM);
    memset(names, 'l', 33);
    memset(names + 33, 'r', 33);
    memset(room, FILL, PEERS_OPENING_ROOM);
    struct peers_opened opened = peers_open_answerer(names, 32, names + 33, 32, room, PEERS_OPENING_ROOM);
    CHECK(opened.outcome.number == PEERS_MORE && opened.outcome.reply_len == 0);
    refused(peers_open_answerer(names, 33, names + 33, 32, room, PEERS_OPENING_ROOM), PEERS_REFUSED_NAME);
    refused(peers_open_answerer(names, 32, names + 33, 0, room, PEERS_OPENING_ROOM), PEERS_REFUSED_NAME);
    refused(peers_open_answerer(names, 33, names + 33, 0, room, PEERS_OPENING_ROOM - 1), PEERS_REFUSED_ROOM);
    refused(peers_open_caller(names, 32, names + 33, 33, 1, 1, room, PEERS_OPENING_ROOM), PEERS_REFUSED_NAME);
    refused(peers_open_caller(names, 32, names + 33, 32, 1, 1, room, PEERS_OPENING_ROOM - 1), PEERS_REFUSED_ROOM);
    for (size_t i = 0; i < PEERS_OPENING_ROOM; i++) CHECK(room[i] == FILL);
    opened = peers_open_caller(names, 32, names + 33, 32, UINT32_MAX, UINT32_MAX, room, PEERS_OPENING_ROOM);
    CHECK(opened.outcome.number == PEERS_MORE && opened.outcome.reply_len == 101);
    CHECK(memcmp(room, longest, 101) == 0);
    CHECK(opened.session.connection.phase == PEERS_AWAITING_STATUS);
    give_back(room, PEERS_OPENING_ROOM);
}
