/* Where a body broke: fields of each message that are cut short, out of range or overflow. */
#include "test.h"

/* A message's body, the refusal, and the offset of the failing field. */
struct broken {
    uint8_t kind;
    const char *body;
    size_t len;
    uint32_t number;
    uint64_t offset;
};

#define OVERFLOW "\xFF\xFF\xFF\xFF\xFF\xFF\xFF\xFF\xFF\xFF"
#define BROKEN(kind, body, number, offset) {kind, body, sizeof body - 1, PEERS_REFUSED_##number, offset}

static const struct broken definitions[] = {
    BROKEN(130, "", CUT, 0),
    BROKEN(130, "\xF0", CUT, 0),
    BROKEN(130, OVERFLOW, RANGE, 0),
    BROKEN(130, "\1", CUT, 1),
    BROKEN(130, "\1\0", RANGE, 1),
    BROKEN(130, "\1\x21", RANGE, 1),
    BROKEN(130, "\1" OVERFLOW "tu", RANGE, 1),
    BROKEN(130, "\1\2", CUT, 2),
    BROKEN(130, "\1\2t", CUT, 2),
    BROKEN(130, "\1\2t\n", TABLE_NAME, 2),
    BROKEN(130, "\1\2t\n\2\4\0", TABLE_NAME, 2),
    BROKEN(130, "\1\2tu", CUT, 4),
    BROKEN(130, "\1\2tu\xF0", CUT, 4),
    BROKEN(130, "\1\2tu\3", RANGE, 4),
    BROKEN(130, "\1\2tu\3\4\0", RANGE, 4),
    BROKEN(130, "\1\2tu" OVERFLOW, RANGE, 4),
    BROKEN(130, "\1\2tu\2", CUT, 5),
    BROKEN(130, "\1\2tu\2\5", RANGE, 5),
    BROKEN(130, "\1\2tu\2\4", CUT, 6),
    BROKEN(130, "\1\2tu\2\4\xFF\xFF\xFF", CUT, 6),
    BROKEN(130, "\1\2tu\2\4\xFF\xFF\xFF\x7F", RANGE, 6),
    /* with gpc0's rate: expiry, the pair's number and its period */
    BROKEN(130, "\1\2tu\2\4\x08\xF0", CUT, 7),
    BROKEN(130, "\1\2tu\2\4\x08" OVERFLOW, RANGE, 7),
    BROKEN(130, "\1\2tu\2\4\x08\5", CUT, 8),
    BROKEN(130, "\1\2tu\2\4\x08\5\2", RANGE, 8),
    BROKEN(130, "\1\2tu\2\4\x08\5\4\5", RANGE, 8),
    BROKEN(130, "\1\2tu\2\4\x08\5\3", CUT, 9),
    BROKEN(130, "\1\2tu\2\4\x08\5\3" OVERFLOW, RANGE, 9),
};

/* On strings up to 8 bytes with server ID, gpc0 and its rate, and bytes in. */
static const struct broken updates[] = {
    BROKEN(131, "", CUT, 0),
    BROKEN(131, OVERFLOW, RANGE, 0),
    BROKEN(132, "", CUT, 0),
    BROKEN(132, OVERFLOW "\0\0\0\1", RANGE, 0),
    BROKEN(132, "\1", CUT, 1),
    BROKEN(132, "\1\0\0\0", CUT, 1),
    BROKEN(132, "\xF0\0\0\0\0", CUT, 2),
    BROKEN(128, "", CUT, 0),
    BROKEN(128, "\0\0\0", CUT, 0),
    BROKEN(128, "\0\0\0\1", CUT, 4),
    BROKEN(128, "\0\0\0\1\x09keykeykey", RANGE, 4),
    BROKEN(128, "\0\0\0\1" OVERFLOW, RANGE, 4),
    BROKEN(128, "\0\0\0\1\3", CUT, 5),
    BROKEN(128, "\0\0\0\1\3ke", CUT, 5),
    BROKEN(128, "\0\0\0\1\3key", CUT, 8),
    BROKEN(128, "\0\0\0\1\3key" OVERFLOW, RANGE, 8),
    BROKEN(128, "\0\0\0\1\3key\1", CUT, 9),
    BROKEN(128, "\0\0\0\1\3key\1\xF0", CUT, 9),
    BROKEN(128, "\0\0\0\1\3key\1" OVERFLOW, RANGE, 9),
    BROKEN(128, "\0\0\0\1\3key\1\xF0\x07", CUT, 11),
    BROKEN(128, "\0\0\0\1\3key\1\xF0\x07" OVERFLOW, RANGE, 11),
    BROKEN(128, "\0\0\0\1\3key\1\xF0\x07\2", CUT, 12),
    BROKEN(128, "\0\0\0\1\3key\1\xF0\x07\2" OVERFLOW, RANGE, 12),
    BROKEN(128, "\0\0\0\1\3key\1\xF0\x07\2\3", CUT, 13),
    BROKEN(128, "\0\0\0\1\3key\1\xF0\x07\2\3" OVERFLOW, RANGE, 13),
    BROKEN(128, "\0\0\0\1\3key\1\xF0\x07\2\3\4", CUT, 14),
    BROKEN(128, "\0\0\0\1\3key\1\xF0\x07\2\3\4" OVERFLOW, RANGE, 14),
    BROKEN(129, "", CUT, 0),
    BROKEN(129, "\x09keykeykey", RANGE, 0),
    BROKEN(129, "\3ke", CUT, 1),
    BROKEN(129, "\3key", CUT, 4),
    BROKEN(129, "\0", CUT, 1),
    BROKEN(133, "", CUT, 0),
    BROKEN(133, "\0\0\0", CUT, 0),
    BROKEN(133, "\0\0\0\1", CUT, 4),
    BROKEN(133, "\0\0\0\1\0", CUT, 4),
    BROKEN(133, "\0\0\0\1\xFF\xFF\xFF", CUT, 4),
    BROKEN(133, "\0\0\0\1\xFF\xFF\xFF\xFF", CUT, 8),
    BROKEN(133, "\0\0\0\1\0\0\0\0\x09keykeykey", RANGE, 8),
    BROKEN(133, "\0\0\0\1\0\0\0\0\3ke", CUT, 9),
    BROKEN(133, "\0\0\0\1\0\0\0\0\3key" OVERFLOW, RANGE, 12),
    BROKEN(133, "\0\0\0\1\0\0\0\0\3key\1\xF0\x07\2\3\4", CUT, 18),
    BROKEN(134, "", CUT, 0),
    BROKEN(134, "\0", CUT, 0),
    BROKEN(134, "\xFF\xFF\xFF", CUT, 0),
    BROKEN(134, "\xFF\xFF\xFF\xFF", CUT, 4),
    BROKEN(134, "\0\0\0\0\x09keykeykey", RANGE, 4),
    BROKEN(134, "\0\0\0\0\3ke", CUT, 5),
    BROKEN(134, "\0\0\0\0\3key" OVERFLOW, RANGE, 8),
    BROKEN(134, "\0\0\0\0\3key\1\xF0\x07\2\3\4", CUT, 14),
};

static void breaks(struct state state, const struct broken *broken) {
    uint8_t message[60], reply[12];
    size_t whole = put_message(message, broken->kind, (const uint8_t *)broken->body, broken->len);
    struct peers_outcome outcome = call(state, message, whole, 12, reply);
    CHECK(outcome.number == broken->number && outcome.count == 1 && outcome.values[0] == broken->offset);
    CHECK(outcome.taken == whole && outcome.reply_len == 2 && memcmp(reply, "\1\0", 2) == 0);
    CHECK(state.session->connection.closed == 1 && state.session->connection.number == broken->number);
}

static void with_strings(struct state state) {
    uint32_t types = 1u << PEERS_SERVER_ID | 1u << PEERS_GPC0 | 1u << PEERS_GPC0_RATE | 1u << PEERS_BYTES_IN_CNT;
    establish(state);
    define(state, 1, "t", PEERS_KEY_STRING, 8, types);
    update(state, 1, "\3key", 4, (const uint64_t[]){1, 2, 3, 4, 5, UINT64_MAX}, 6);
}

void test_offsets(void) {
    struct state state = lend_state();
    for (size_t i = 0; i < sizeof definitions / sizeof *definitions; i++) {
        establish(state);
        breaks(state, &definitions[i]);
    }
    for (size_t i = 0; i < sizeof updates / sizeof *updates; i++) {
        with_strings(state);
        breaks(state, &updates[i]);
    }
    give_back_state(state);
}
