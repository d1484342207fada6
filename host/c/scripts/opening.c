/* Opening: names and rooms on each side of their limits. The scripts open with two names and one room. */
#include "test.h"

/* A refused opening: a closed record, all else zero, with which a call answers 2. */
static void refused(struct peers_opened opened, uint32_t number) {
    static const uint8_t piece[1];
    struct peers_session *session = &opened.session;
    struct state state = lend_state();
    uint8_t reply[12];
    CHECK(opened.outcome.number == number && opened.outcome.reply_len == 0 && opened.outcome.count == 0);
    *state.session = opened.session;
    *state.store = peers_empty_store();
    CHECK(call(state, piece, 1, 12, reply).number == PEERS_REFUSED_CLOSED);
    CHECK(session->connection.closed == 1 && session->connection.number == number);
    session->connection.closed = session->connection.number = 0;
    CHECK(all_zero(session, sizeof *session));
    give_back_state(state);
}

void test_opening(void) {
    static const char longest[] = "HAProxyS 2.1\nrrrrrrrrrrrrrrrrrrrrrrrrrrrrrrrr\nllllllllllllllllllllllllllllllll 4294967295 4294967295\n";
    uint8_t names[66], *room = lend(PEERS_OPENING_ROOM);
    memset(names, 'l', 33);
    memset(names + 33, 'r', 33);
    memset(room, FILL, PEERS_OPENING_ROOM);
    struct peers_opened opened = peers_open_answerer(names, 32, names + 33, 32, room, PEERS_OPENING_ROOM);
    CHECK(opened.outcome.number == PEERS_MORE && opened.outcome.reply_len == 0);
    refused(peers_open_answerer(names, 33, names + 33, 32, room, PEERS_OPENING_ROOM), PEERS_REFUSED_NAME);
    refused(peers_open_answerer(names, 32, names + 33, 0, room, PEERS_OPENING_ROOM), PEERS_REFUSED_NAME);
    refused(peers_open_answerer(names, 33, names + 33, 0, room, PEERS_OPENING_ROOM - 1), PEERS_REFUSED_ROOM);
    refused(peers_open_caller(names, 32, names + 33, 33, 1, 1, room, PEERS_OPENING_ROOM), PEERS_REFUSED_NAME);
    refused(peers_open_caller(names, 32, names + 33, 32, 1, 1, room, PEERS_OPENING_ROOM - 1), PEERS_REFUSED_ROOM);
    for (size_t i = 0; i < PEERS_OPENING_ROOM; i++) CHECK(room[i] == FILL);
    opened = peers_open_caller(names, 32, names + 33, 32, UINT32_MAX, UINT32_MAX, room, PEERS_OPENING_ROOM);
    CHECK(opened.outcome.number == PEERS_MORE && opened.outcome.reply_len == 101);
    CHECK(memcmp(room, longest, 101) == 0);
    CHECK(opened.session.connection.phase == PEERS_AWAITING_STATUS);
    give_back(room, PEERS_OPENING_ROOM);
}
