/* Sending what no script reaches: stores and sending states that a host made, the longest message, refusals with a store that isn't sound
 * among them, and places and rooms of more than the script's bytes. What every sending call leaves, `send_part` checks. All else is in
 * second/data/sending.script. */
#include "test.h"

#define ALL 0x7FFFFu

/* Whether a part is sent as these bytes. */
static bool is_sent(struct state state, enum part part, size_t place, uint32_t id, const void *bytes, size_t len) {
    uint8_t message[SENT_MAX];
    struct peers_sent sent = send_part(state, part, place, id, PEERS_SEND_ROOM, message);
    return sent.number == 0 && sent.len == len && memcmp(message, bytes, len) == 0;
}

#define SENT(part, place, id, bytes) CHECK(is_sent(state, part, place, id, bytes, sizeof bytes - 1))

/* The number that a part is refused with, or 0. */
static uint32_t refusal(struct state state, enum part part, size_t place, uint32_t id) {
    uint8_t message[SENT_MAX];
    return send_part(state, part, place, id, PEERS_SEND_ROOM, message).number;
}

/* ---- tables and entries that are put into the store by hand */

static void put_table(struct state state, size_t place, const char *name, struct peers_table table) {
    table.held = 1;
    table.name_len = strlen(name);
    memcpy(table.name, name, table.name_len);
    state.store->tables[place] = table;
}

static void put_entry(struct state state, size_t place, const void *key, size_t key_len, struct peers_entry entry) {
    entry.held = 1;
    entry.key_len = key_len;
    memcpy(entry.key, key, key_len);
    state.store->entries[place] = entry;
    state.store->counts[entry.table]++;
}

/* A table of integers with gpc0. */
static const struct peers_table integers = {.key_type = PEERS_KEY_INTEGER, .key_len = 4, .data_types = 1u << PEERS_GPC0};

/* Periods of every length; those of rates that the table hasn't aren't sent, and neither are they and the expiry where it has no times. */
static void periods(struct state state) {
    static const uint32_t every[PEERS_RATES] = {0, 1, 239, 240, 2287, 2288, 60000, UINT32_MAX};
    struct peers_table table = {.key_type = PEERS_KEY_STRING, .key_len = 64, .data_types = ALL, .timed = 1, .expiry = 60000};
    establish(state);
    memcpy(table.periods, every, sizeof every);
    put_table(state, 0, "all", table);
    SENT(A_TABLE, 0, 300,
         "\x0A\x82\x29\xFC\x03\x03" "all\x06\x40\xFF\xF0\xFE\x00\xF0\x97\x1C\x03\x00\x05\x01\x08\xEF\x0A\xF0\x00\x0C\xFF\x7F\x0E\xF0\x80\x00"
         "\x10\xF0\x97\x1C\x12\xFF\xF0\xFE\xFE\x7E");
    state.store->tables[0].data_types = 1u << PEERS_SERVER_ID | 1u << PEERS_SESS_RATE;
    SENT(A_TABLE, 0, 300, "\x0A\x82\x0F\xFC\x03\x03" "all\x06\x40\xF1\x01\xF0\x97\x1C\x08\xEF");
    state.store->tables[0].data_types = 1u << PEERS_GPC1_RATE;
    SENT(A_TABLE, 0, 300, "\x0A\x82\x14\xFC\x03\x03" "all\x06\x40\xF0\xF1\x7E\xF0\x97\x1C\x12\xFF\xF0\xFE\xFE\x7E");
    state.store->tables[0].timed = 0;
    SENT(A_TABLE, 0, 300, "\x0A\x82\x0B\xFC\x03\x03" "all\x06\x40\xF0\xF1\x7E");
}

/* The longest message there is: a string of 64 bytes with every value at its limit, with ID and time. */
static void longest(struct state state) {
    static const uint8_t four[5] = {0xFF, 0xF0, 0xFE, 0xFE, 0x7E}, eight[10] = {0xFF, 0xF0, 0xFE, 0xFE, 0xFE, 0xFE, 0xFE, 0xFE, 0xFE, 0x0E};
    uint8_t expected[SENT_MAX] = {10, 133, 0xF7, 1, 0xFF, 0xFF, 0xFF, 0xFF, 0xFF, 0xFF, 0xFF, 0xFF, 64}, key[64];
    size_t len = 13 + sizeof key;
    establish(state);
    memset(key, 'k', sizeof key);
    memcpy(expected + 13, key, sizeof key);
    put_table(state, 0, "t", (struct peers_table){.key_type = PEERS_KEY_STRING, .key_len = 64, .data_types = ALL});
    put_entry(state, 0, key, 64, (struct peers_entry){.server_id = -1, .timed = 1, .remaining = UINT32_MAX});
    memcpy(expected + len, eight, 10);
    len += 10;
    for (size_t i = 0; i < PEERS_VALUES; i++) {
        bool wide = i == PEERS_SLOT_BYTES_IN_CNT || i == PEERS_SLOT_BYTES_OUT_CNT;
        state.store->entries[0].values[i] = wide ? UINT64_MAX : UINT32_MAX;
        memcpy(expected + len, wide ? eight : four, wide ? 10 : 5);
        len += wide ? 10 : 5;
    }
    CHECK(len == SENT_MAX && refusal(state, A_TABLE, 0, UINT32_MAX) == 0);
    CHECK(is_sent(state, AN_ENTRY, 0, UINT32_MAX, expected, len));
}

/* Values that the table has no type for, and a remaining time that the entry hasn't, aren't sent. */
static void meaningless(struct state state) {
    establish(state);
    put_table(state, 0, "t", integers);
    put_entry(state, 0, "keyt", 4, (struct peers_entry){.server_id = -1, .remaining = 7});
    memset(state.store->entries[0].values, 0xFF, sizeof state.store->entries[0].values);
    state.store->entries[0].values[PEERS_SLOT_GPC0] = 5;
    CHECK(refusal(state, A_TABLE, 0, 1) == 0);
    SENT(AN_ENTRY, 0, 9, "\x0A\x80\x09\x00\x00\x00\x09keyt\x05");
    SENT(AN_ENTRY, 0, 10, "\x0A\x81\x05keyt\x05");
}

/* A place that the host freed keeps what it held, and isn't sent. */
static void freed(struct state state) {
    establish(state);
    put_table(state, 0, "t", integers);
    put_table(state, 3, "u", integers);
    put_entry(state, 0, "key0", 4, (struct peers_entry){.table = 0});
    put_entry(state, 64, "key1", 4, (struct peers_entry){.table = 0});
    CHECK(refusal(state, A_TABLE, 3, 1) == 0 && refusal(state, A_TABLE, 0, 1) == 0 && refusal(state, AN_ENTRY, 64, 1) == 0);
    state.store->tables[3].held = 0;
    free_entry(state.store, 64);
    CHECK(refusal(state, A_TABLE, 3, 1) == PEERS_REFUSED_PLACE && refusal(state, AN_ENTRY, 64, 2) == PEERS_REFUSED_PLACE);
    SENT(AN_ENTRY, 0, 2, "\x0A\x81\x05key0\x00");
}

/* ---- sending states that are put into the record by hand */

/* Table 0 with entries 0, without a time, and 1, with 7 milliseconds; table 1 with entry 2. */
static void three_entries(struct state state) {
    establish(state);
    put_table(state, 0, "t", integers);
    put_table(state, 1, "u", integers);
    put_entry(state, 0, "key0", 4, (struct peers_entry){.table = 0});
    put_entry(state, 1, "key1", 4, (struct peers_entry){.timed = 1, .remaining = 7});
    put_entry(state, 2, "key2", 4, (struct peers_entry){.table = 1});
}

/* Whether an ID follows another, at all limits; without the mark the last ID isn't looked at. */
static void following(struct state state) {
    static const uint32_t ids[] = {0, 1, 2, 254, 255, 256, 0xFFFF, 0x10000, 0x7FFFFFFF, 0x80000000, UINT32_MAX - 1, UINT32_MAX};
    size_t count = sizeof ids / sizeof *ids;
    uint8_t message[SENT_MAX];
    three_entries(state);
    for (size_t i = 0; i < count * count; i++) {
        uint32_t last = ids[i / count], id = ids[i % count];
        for (size_t place = 0; place < 2; place++) {
            state.session->sending = (struct peers_sending){1, 1, last};
            CHECK(send_part(state, AN_ENTRY, place, id, PEERS_SEND_ROOM, message).number == 0);
            CHECK(message[1] == (place == 0 ? 128 : 133) + (id == (uint32_t)(last + 1) ? 1 : 0));
            state.session->sending = (struct peers_sending){1, 0, last};
            CHECK(send_part(state, AN_ENTRY, place, id, PEERS_SEND_ROOM, message).number == 0);
            CHECK(message[1] == (place == 0 ? 128 : 133));
        }
    }
}

/* A last ID without a table defined last has no effect. */
static void last_without_table(struct state state) {
    three_entries(state);
    state.session->sending = (struct peers_sending){0, 1, 4};
    CHECK(refusal(state, AN_ENTRY, 0, 5) == PEERS_REFUSED_PLACE);
    CHECK(refusal(state, A_TABLE, 0, 1) == 0);
    SENT(AN_ENTRY, 0, 5, "\x0A\x80\x09\x00\x00\x00\x05key0\x00");
}

/* ---- refusals */

static const uint32_t in_order[] = {PEERS_REFUSED_UNSOUND, PEERS_REFUSED_CLOSED, PEERS_REFUSED_SEND_ROOM, PEERS_REFUSED_HANDSHAKE,
                                    PEERS_REFUSED_PLACE};
#define KINDS (sizeof in_order / sizeof *in_order)

/* Brings about all of these refusals, by bits in their order; which of them is given. */
static uint32_t given(struct state state, enum part part, unsigned kinds, uint32_t phase) {
    uint8_t message[SENT_MAX];
    three_entries(state);
    state.session->sending = (struct peers_sending){1, 1, 9};
    if (kinds & 1) state.store->counts[7] = 1;
    if (kinds & 2) state.session->connection.closed = 1;
    if (kinds & 8) state.session->connection.phase = phase;
    size_t room = kinds & 4 ? PEERS_SEND_ROOM - 1 : PEERS_SEND_ROOM, place = kinds & 16 ? 2 : 0;
    return send_part(state, part, place, 10, room, message).number;
}

/* Every set of them: the first in the order is given. Place 2 is a free table place and an entry of another table than the one defined. */
static void order(struct state state) {
    for (unsigned kinds = 0; kinds < 1u << KINDS; kinds++) {
        uint32_t expected = 0;
        for (size_t i = KINDS; i-- > 0;)
            if (kinds & (const unsigned[]){1, 2, 4, 8, 16}[i]) expected = in_order[i];
        for (uint32_t phase = PEERS_AWAITING_HELLO; phase <= PEERS_AWAITING_STATUS; phase++) {
            CHECK(given(state, A_TABLE, kinds, phase) == expected);
            CHECK(given(state, AN_ENTRY, kinds, phase) == expected);
        }
    }
}

/* Places and rooms that a shorter number would take for others. */
static void wide(struct state state) {
    static const size_t places[] = {256, 257, 65536, (size_t)1 << 32, ((size_t)1 << 32) + 1, (size_t)1 << 63, SIZE_MAX - 1, SIZE_MAX};
    static const size_t rooms[] = {65536, 65537, 100000};
    uint8_t message[SENT_MAX];
    three_entries(state);
    CHECK(refusal(state, A_TABLE, 0, 1) == 0);
    for (size_t i = 0; i < sizeof places / sizeof *places; i++) {
        CHECK(refusal(state, A_TABLE, places[i], 1) == PEERS_REFUSED_PLACE);
        CHECK(refusal(state, AN_ENTRY, places[i], 1) == PEERS_REFUSED_PLACE);
    }
    for (size_t i = 0; i < sizeof rooms / sizeof *rooms; i++) {
        CHECK(send_part(state, A_TABLE, 0, 1, rooms[i], message).len == 9);
        CHECK(send_part(state, AN_ENTRY, 0, 1, rooms[i], message).len == 12);
    }
}

void test_sending(void) {
    struct state state = lend_state();
    periods(state);
    longest(state);
    meaningless(state);
    freed(state);
    following(state);
    last_without_table(state);
    order(state);
    wide(state);
    give_back_state(state);
}
