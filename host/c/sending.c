/* Sending: the bytes of each message, refusals in their order, what a call leaves, and a store taught to a second session. What every sending
 * call leaves, `send_part` checks. */
#include "test.h"

#define ALL 0x7FFFFu

/* Whether a part is sent as these bytes. */
static bool is_sent(struct state state, enum part part, size_t place, uint32_t id, const void *bytes, size_t len) {
    uint8_t message[SENT_MAX];
    struct peers_sent sent = send_part(state, part, place, id, PEERS_SEND_ROOM, message);
    return sent.number == 0 && sent.len == len && memcmp(message, bytes, len) == 0;
}

#define SENT(part, place, id, bytes) CHECK(is_sent(state, part, place, id, bytes, sizeof bytes - 1))

/* The number that a part is refused with, or 0. */
static uint32_t refusal(struct state state, enum part part, size_t place, uint32_t id) {
    uint8_t message[SENT_MAX];
    return send_part(state, part, place, id, PEERS_SEND_ROOM, message).number;
}

/* ---- messages, byte for byte; tables and entries are put into the store by hand */

static void put_table(struct state state, size_t place, const char *name, struct peers_table table) {
    table.held = 1;
    table.name_len = strlen(name);
    memcpy(table.name, name, table.name_len);
    state.store->tables[place] = table;
}

static void put_entry(struct state state, size_t place, const void *key, size_t key_len, struct peers_entry entry) {
    entry.held = 1;
    entry.key_len = key_len;
    memcpy(entry.key, key, key_len);
    state.store->entries[place] = entry;
    state.store->counts[entry.table]++;
}

/* A table of integers with gpc0. */
static const struct peers_table integers = {.key_type = PEERS_KEY_INTEGER, .key_len = 4, .data_types = 1u << PEERS_GPC0};

/* The messages of the document's listing. */
static void listing(struct state state) {
    establish(state);
    put_table(state, 0, "t1", integers);
    state.store->tables[0].timed = 1;
    state.store->tables[0].expiry = 60000;
    put_entry(state, 0, "\x00\x00\x00\x2A", 4, (struct peers_entry){.values = {[PEERS_SLOT_GPC0] = 4660}});
    SENT(A_TABLE, 0, 1, "\x0A\x82\x0A\x01\x02\x74\x31\x02\x04\x04\xF0\x97\x1C");
    SENT(AN_ENTRY, 0, UINT32_MAX, "\x0A\x80\x0B\xFF\xFF\xFF\xFF\x00\x00\x00\x2A\xF4\x94\x01");
    state.store->entries[0].values[PEERS_SLOT_GPC0] = 5;
    SENT(AN_ENTRY, 0, 0, "\x0A\x81\x05\x00\x00\x00\x2A\x05");
}

static void definitions(struct state state) {
    establish(state);
    put_table(state, 0, "a", integers);
    SENT(A_TABLE, 0, 0, "\x0A\x82\x06\x00\x01" "a\x02\x04\x04");
    SENT(A_TABLE, 0, 239, "\x0A\x82\x06\xEF\x01" "a\x02\x04\x04");
    SENT(A_TABLE, 0, 240, "\x0A\x82\x07\xF0\x00\x01" "a\x02\x04\x04");
    SENT(A_TABLE, 0, UINT32_MAX, "\x0A\x82\x0A\xFF\xF0\xFE\xFE\x7E\x01" "a\x02\x04\x04");
    /* numbers of a table without times aren't sent; an expiry of 0 is */
    memset(state.store->tables[0].periods, 0xFF, sizeof state.store->tables[0].periods);
    state.store->tables[0].expiry = 7;
    SENT(A_TABLE, 0, 0, "\x0A\x82\x06\x00\x01" "a\x02\x04\x04");
    state.store->tables[0].timed = 1;
    state.store->tables[0].expiry = 0;
    SENT(A_TABLE, 0, 0, "\x0A\x82\x07\x00\x01" "a\x02\x04\x04\x00");
    /* key types, at the last place and with the longest name */
    put_table(state, 7, "Aa0._-/:", (struct peers_table){.key_type = PEERS_KEY_IPV4, .key_len = 4});
    SENT(A_TABLE, 7, 2, "\x0A\x82\x0D\x02\x08" "Aa0._-/:\x04\x04\x00");
    put_table(state, 6, "v6", (struct peers_table){.key_type = PEERS_KEY_IPV6, .key_len = 16});
    SENT(A_TABLE, 6, 2, "\x0A\x82\x07\x02\x02v6\x05\x10\x00");
    put_table(state, 5, "abcdefghijklmnopqrstuvwxyz012345", (struct peers_table){.key_type = PEERS_KEY_STRING, .key_len = 64});
    SENT(A_TABLE, 5, 2, "\x0A\x82\x25\x02\x20" "abcdefghijklmnopqrstuvwxyz012345\x06\x40\x00");
    put_table(state, 4, "b", (struct peers_table){.key_type = PEERS_KEY_BINARY, .key_len = 1});
    SENT(A_TABLE, 4, 2, "\x0A\x82\x06\x02\x01" "b\x07\x01\x00");
}

/* Pairs of the rates that a table has, each with its period. */
static void periods(struct state state) {
    static const uint32_t every[PEERS_RATES] = {0, 1, 239, 240, 2287, 2288, 60000, UINT32_MAX};
    struct peers_table table = {.key_type = PEERS_KEY_STRING, .key_len = 64, .data_types = ALL, .timed = 1, .expiry = 60000};
    establish(state);
    memcpy(table.periods, every, sizeof every);
    put_table(state, 0, "all", table);
    SENT(A_TABLE, 0, 300,
         "\x0A\x82\x29\xFC\x03\x03" "all\x06\x40\xFF\xF0\xFE\x00\xF0\x97\x1C\x03\x00\x05\x01\x08\xEF\x0A\xF0\x00\x0C\xFF\x7F\x0E\xF0\x80\x00"
         "\x10\xF0\x97\x1C\x12\xFF\xF0\xFE\xFE\x7E");
    /* all rates but one are absent, and what is no rate has no pair */
    state.store->tables[0].data_types = 1u << PEERS_SERVER_ID | 1u << PEERS_SESS_RATE;
    SENT(A_TABLE, 0, 300, "\x0A\x82\x0F\xFC\x03\x03" "all\x06\x40\xF1\x01\xF0\x97\x1C\x08\xEF");
    state.store->tables[0].data_types = 1u << PEERS_GPC1_RATE;
    SENT(A_TABLE, 0, 300, "\x0A\x82\x14\xFC\x03\x03" "all\x06\x40\xF0\xF1\x7E\xF0\x97\x1C\x12\xFF\xF0\xFE\xFE\x7E");
    state.store->tables[0].timed = 0;
    SENT(A_TABLE, 0, 300, "\x0A\x82\x0B\xFC\x03\x03" "all\x06\x40\xF0\xF1\x7E");
}

/* A key of each type: only a string has its length. */
static void keys(struct state state) {
    static const struct {
        uint32_t key_type, table_len, len;
        const char *key, *in_body;
        size_t body_len;
    } keys[] = {
        {PEERS_KEY_INTEGER, 4, 4, "\xFF\xFF\xFF\xFE", "\xFF\xFF\xFF\xFE", 4},
        {PEERS_KEY_IPV4, 4, 4, "\x0A\x00\x00\x01", "\x0A\x00\x00\x01", 4},
        {PEERS_KEY_IPV6, 16, 16, "\x20\x01\x0D\xB8 0123456789\x01", "\x20\x01\x0D\xB8 0123456789\x01", 16},
        {PEERS_KEY_STRING, 8, 3, "abc", "\x03" "abc", 4},
        {PEERS_KEY_STRING, 8, 8, "abcdefgh", "\x08" "abcdefgh", 9},
        {PEERS_KEY_STRING, 1, 0, "", "\x00", 1},
        {PEERS_KEY_BINARY, 1, 1, "\x00", "\x00", 1},
        {PEERS_KEY_BINARY, 3, 3, "\x03" "ab", "\x03" "ab", 3},
    };
    for (size_t i = 0; i < sizeof keys / sizeof *keys; i++) {
        uint8_t expected[SENT_MAX] = {10, 128, 0, 0x12, 0x34, 0x56, 0x78};
        establish(state);
        put_table(state, 3, "t", (struct peers_table){.key_type = keys[i].key_type, .key_len = keys[i].table_len});
        put_entry(state, 127, keys[i].key, keys[i].len, (struct peers_entry){.table = 3});
        CHECK(refusal(state, A_TABLE, 3, 1) == 0);
        expected[2] = (uint8_t)(4 + keys[i].body_len);
        memcpy(expected + 7, keys[i].in_body, keys[i].body_len);
        CHECK(is_sent(state, AN_ENTRY, 127, 0x12345678, expected, 7 + keys[i].body_len));
    }
}

/* Each data type alone, in its slot, then all of them in their order. */
static void values(struct state state) {
    static const uint8_t firsts[19] = {
        0, PEERS_SLOT_GPT0, PEERS_SLOT_GPC0, PEERS_SLOT_GPC0_RATE, PEERS_SLOT_CONN_CNT, PEERS_SLOT_CONN_RATE, PEERS_SLOT_CONN_CUR,
        PEERS_SLOT_SESS_CNT, PEERS_SLOT_SESS_RATE, PEERS_SLOT_HTTP_REQ_CNT, PEERS_SLOT_HTTP_REQ_RATE, PEERS_SLOT_HTTP_ERR_CNT,
        PEERS_SLOT_HTTP_ERR_RATE, PEERS_SLOT_BYTES_IN_CNT, PEERS_SLOT_BYTES_IN_RATE, PEERS_SLOT_BYTES_OUT_CNT,
        PEERS_SLOT_BYTES_OUT_RATE, PEERS_SLOT_GPC1, PEERS_SLOT_GPC1_RATE,
    };
    uint8_t expected[7 + 36] = {10, 128, 0, 0, 0, 0, 9, 'k'};
    uint32_t types = 1;
    establish(state);
    put_table(state, 0, "t", (struct peers_table){.key_type = PEERS_KEY_BINARY, .key_len = 1});
    put_entry(state, 0, "k", 1, (struct peers_entry){.server_id = 100});
    for (size_t i = 0; i < PEERS_VALUES; i++) state.store->entries[0].values[i] = 101 + i;
    for (size_t type = 0; type < 19; type++, types *= 2) {
        size_t after = type == 18 ? PEERS_VALUES : firsts[type + 1], count = type == 0 ? 1 : after - firsts[type];
        state.store->tables[0].data_types = types;
        CHECK(refusal(state, A_TABLE, 0, 1) == 0);
        expected[2] = (uint8_t)(5 + count);
        for (size_t i = 0; i < count; i++) expected[8 + i] = (uint8_t)(type == 0 ? 100 : 101 + firsts[type] + i);
        CHECK(is_sent(state, AN_ENTRY, 0, 9, expected, 8 + count));
    }
    state.store->tables[0].data_types = ALL;
    CHECK(refusal(state, A_TABLE, 0, 1) == 0);
    expected[2] = 40;
    for (size_t i = 0; i < 35; i++) expected[8 + i] = (uint8_t)(100 + i);
    CHECK(is_sent(state, AN_ENTRY, 0, 9, expected, 43));
}

/* Server IDs at their limits, and values of each width. */
static void widths(struct state state) {
    struct peers_entry *entry = &state.store->entries[0];
    establish(state);
    put_table(state, 0, "t", (struct peers_table){.key_type = PEERS_KEY_BINARY, .key_len = 1, .data_types = 1u << PEERS_SERVER_ID});
    put_entry(state, 0, "k", 1, (struct peers_entry){.server_id = -1});
    CHECK(refusal(state, A_TABLE, 0, 1) == 0);
    SENT(AN_ENTRY, 0, 9, "\x0A\x80\x0F\x00\x00\x00\x09k\xFF\xF0\xFE\xFE\xFE\xFE\xFE\xFE\xFE\x0E");
    entry->server_id = INT32_MIN;
    SENT(AN_ENTRY, 0, 9, "\x0A\x80\x0F\x00\x00\x00\x09k\xF0\xF1\xFE\xFE\xBE\xFE\xFE\xFE\xFE\x0E");
    entry->server_id = INT32_MAX;
    SENT(AN_ENTRY, 0, 9, "\x0A\x80\x0A\x00\x00\x00\x09k\xFF\xF0\xFE\xFE\x3E");
    entry->server_id = 0;
    SENT(AN_ENTRY, 0, 9, "\x0A\x80\x06\x00\x00\x00\x09k\x00");
    state.store->tables[0].data_types = 1u << PEERS_GPT0 | 1u << PEERS_BYTES_IN_CNT | 1u << PEERS_BYTES_OUT_CNT;
    entry->values[PEERS_SLOT_GPT0] = UINT32_MAX;
    entry->values[PEERS_SLOT_BYTES_IN_CNT] = (uint64_t)UINT32_MAX + 1;
    entry->values[PEERS_SLOT_BYTES_OUT_CNT] = UINT64_MAX;
    SENT(AN_ENTRY, 0, 9,
         "\x0A\x80\x19\x00\x00\x00\x09k\xFF\xF0\xFE\xFE\x7E\xF0\xF1\xFE\xFE\x7E\xFF\xF0\xFE\xFE\xFE\xFE\xFE\xFE\xFE\x0E");
}

/* The longest message there is: a string of 64 bytes with every value at its limit, with ID and time. */
static void longest(struct state state) {
    static const uint8_t four[5] = {0xFF, 0xF0, 0xFE, 0xFE, 0x7E}, eight[10] = {0xFF, 0xF0, 0xFE, 0xFE, 0xFE, 0xFE, 0xFE, 0xFE, 0xFE, 0x0E};
    uint8_t expected[SENT_MAX] = {10, 133, 0xF7, 1, 0xFF, 0xFF, 0xFF, 0xFF, 0xFF, 0xFF, 0xFF, 0xFF, 64}, key[64];
    size_t len = 13 + sizeof key;
    establish(state);
    memset(key, 'k', sizeof key);
    memcpy(expected + 13, key, sizeof key);
    put_table(state, 0, "t", (struct peers_table){.key_type = PEERS_KEY_STRING, .key_len = 64, .data_types = ALL});
    put_entry(state, 0, key, 64, (struct peers_entry){.server_id = -1, .timed = 1, .remaining = UINT32_MAX});
    memcpy(expected + len, eight, 10);
    len += 10;
    for (size_t i = 0; i < PEERS_VALUES; i++) {
        bool wide = i == PEERS_SLOT_BYTES_IN_CNT || i == PEERS_SLOT_BYTES_OUT_CNT;
        state.store->entries[0].values[i] = wide ? UINT64_MAX : UINT32_MAX;
        memcpy(expected + len, wide ? eight : four, wide ? 10 : 5);
        len += wide ? 10 : 5;
    }
    CHECK(len == SENT_MAX && refusal(state, A_TABLE, 0, UINT32_MAX) == 0);
    CHECK(is_sent(state, AN_ENTRY, 0, UINT32_MAX, expected, len));
}

/* ---- forms */

/* Entries 0 without a time, 1 with 7 milliseconds and 2 with none left, of table 0; table 1 has entry 3. */
static void four_entries(struct state state) {
    establish(state);
    put_table(state, 0, "t", integers);
    put_table(state, 1, "u", integers);
    put_entry(state, 0, "key0", 4, (struct peers_entry){.remaining = 7});
    put_entry(state, 1, "key1", 4, (struct peers_entry){.timed = 1, .remaining = 7});
    put_entry(state, 2, "key2", 4, (struct peers_entry){.timed = 1});
    put_entry(state, 3, "key3", 4, (struct peers_entry){.table = 1});
}

/* The four forms, by the IDs and the times. */
static void forms(struct state state) {
    four_entries(state);
    CHECK(refusal(state, A_TABLE, 0, 1) == 0);
    SENT(AN_ENTRY, 0, 5, "\x0A\x80\x09\x00\x00\x00\x05key0\x00");
    SENT(AN_ENTRY, 0, 6, "\x0A\x81\x05key0\x00");
    SENT(AN_ENTRY, 1, 7, "\x0A\x86\x09\x00\x00\x00\x07key1\x00");
    SENT(AN_ENTRY, 2, 8, "\x0A\x86\x09\x00\x00\x00\x00key2\x00");
    SENT(AN_ENTRY, 1, 10, "\x0A\x85\x0D\x00\x00\x00\x0A\x00\x00\x00\x07key1\x00");
    SENT(AN_ENTRY, 1, 10, "\x0A\x85\x0D\x00\x00\x00\x0A\x00\x00\x00\x07key1\x00");
    SENT(AN_ENTRY, 0, 9, "\x0A\x80\x09\x00\x00\x00\x09key0\x00");
    SENT(AN_ENTRY, 2, UINT32_MAX, "\x0A\x85\x0D\xFF\xFF\xFF\xFF\x00\x00\x00\x00key2\x00");
    SENT(AN_ENTRY, 1, 0, "\x0A\x86\x09\x00\x00\x00\x07key1\x00");
    SENT(AN_ENTRY, 0, 1, "\x0A\x81\x05key0\x00");
    /* after a definition, of the same table too, the first goes with its ID */
    CHECK(refusal(state, A_TABLE, 0, 1) == 0);
    SENT(AN_ENTRY, 0, 2, "\x0A\x80\x09\x00\x00\x00\x02key0\x00");
    CHECK(refusal(state, A_TABLE, 1, 1) == 0);
    SENT(AN_ENTRY, 3, 3, "\x0A\x80\x09\x00\x00\x00\x03key3\x00");
    CHECK(refusal(state, A_TABLE, 0, 1) == 0);
    SENT(AN_ENTRY, 1, 4, "\x0A\x85\x0D\x00\x00\x00\x04\x00\x00\x00\x07key1\x00");
}

/* Whether an ID follows another, at all limits; without the mark the last ID isn't looked at. */
static void following(struct state state) {
    static const uint32_t ids[] = {0, 1, 2, 254, 255, 256, 0xFFFF, 0x10000, 0x7FFFFFFF, 0x80000000, UINT32_MAX - 1, UINT32_MAX};
    size_t count = sizeof ids / sizeof *ids;
    uint8_t message[SENT_MAX];
    four_entries(state);
    for (size_t i = 0; i < count * count; i++) {
        uint32_t last = ids[i / count], id = ids[i % count];
        for (size_t place = 0; place < 2; place++) {
            state.session->sending = (struct peers_sending){1, 1, last};
            CHECK(send_part(state, AN_ENTRY, place, id, PEERS_SEND_ROOM, message).number == 0);
            CHECK(message[1] == (place == 0 ? 128 : 133) + (id == (uint32_t)(last + 1) ? 1 : 0));
            state.session->sending = (struct peers_sending){1, 0, last};
            CHECK(send_part(state, AN_ENTRY, place, id, PEERS_SEND_ROOM, message).number == 0);
            CHECK(message[1] == (place == 0 ? 128 : 133));
        }
    }
}

/* A last ID without a table defined last has no effect. */
static void last_without_table(struct state state) {
    four_entries(state);
    state.session->sending = (struct peers_sending){0, 1, 4};
    CHECK(refusal(state, AN_ENTRY, 0, 5) == PEERS_REFUSED_PLACE);
    CHECK(refusal(state, A_TABLE, 0, 1) == 0);
    SENT(AN_ENTRY, 0, 5, "\x0A\x80\x09\x00\x00\x00\x05key0\x00");
}

/* ---- refusals */

static const uint32_t in_order[] = {PEERS_REFUSED_UNSOUND, PEERS_REFUSED_CLOSED, PEERS_REFUSED_SEND_ROOM, PEERS_REFUSED_HANDSHAKE,
                                    PEERS_REFUSED_PLACE};
#define KINDS (sizeof in_order / sizeof *in_order)

/* Brings about all of these refusals, by bits in their order; which of them is given. */
static uint32_t given(struct state state, enum part part, unsigned kinds, uint32_t phase) {
    uint8_t message[SENT_MAX];
    four_entries(state);
    state.session->sending = (struct peers_sending){1, 1, 9};
    if (kinds & 1) state.store->counts[7] = 1;
    if (kinds & 2) state.session->connection.closed = 1;
    if (kinds & 8) state.session->connection.phase = phase;
    size_t room = kinds & 4 ? PEERS_SEND_ROOM - 1 : PEERS_SEND_ROOM, place = kinds & 16 ? 3 : 0;
    return send_part(state, part, place, 10, room, message).number;
}

/* Every set of them: the first in the order is given. */
static void order(struct state state) {
    for (unsigned kinds = 0; kinds < 1u << KINDS; kinds++) {
        uint32_t expected = 0;
        for (size_t i = KINDS; i-- > 0;)
            if (kinds & (const unsigned[]){1, 2, 4, 8, 16}[i]) expected = in_order[i];
        for (uint32_t phase = PEERS_AWAITING_HELLO; phase <= PEERS_AWAITING_STATUS; phase++) {
            CHECK(given(state, A_TABLE, kinds, phase) == expected);
            CHECK(given(state, AN_ENTRY, kinds, phase) == expected);
        }
    }
}

static void rooms(struct state state) {
    static const size_t rooms[] = {0, 1, 12, 101, 267, 1024, 1035, 1036, 1037, 4096, 100000};
    uint8_t message[SENT_MAX];
    for (size_t i = 0; i < sizeof rooms / sizeof *rooms; i++) {
        uint32_t expected = rooms[i] < PEERS_SEND_ROOM ? PEERS_REFUSED_SEND_ROOM : 0;
        four_entries(state);
        CHECK(send_part(state, A_TABLE, 0, 1, rooms[i], message).number == expected);
        state.session->sending.defined = 1;
        CHECK(send_part(state, AN_ENTRY, 0, 1, rooms[i], message).number == expected);
        CHECK(state.session->connection.closed == 0);
    }
}

/* Each place, and such that a shorter number would take for one. */
static void places(struct state state) {
    static const size_t outside[] = {8, 9, 127, 128, 129, 256, (size_t)1 << 32, ((size_t)1 << 32) + 1, (size_t)1 << 63, SIZE_MAX - 1, SIZE_MAX};
    establish(state);
    put_table(state, 0, "t", integers);
    put_table(state, 7, "u", integers);
    put_entry(state, 0, "key0", 4, (struct peers_entry){.table = 0});
    put_entry(state, 63, "key0", 4, (struct peers_entry){.table = 7});
    put_entry(state, 127, "key1", 4, (struct peers_entry){.table = 0});
    /* a free place keeps what it held, and a free table too */
    state.store->entries[64] = state.store->entries[0];
    state.store->entries[64].held = 0;
    state.store->tables[3] = state.store->tables[0];
    state.store->tables[3].held = 0;
    for (size_t place = 0; place < PEERS_ENTRIES; place++) {
        state.session->sending = (struct peers_sending){0, 0, 0};
        CHECK(refusal(state, A_TABLE, place, 1) == (place == 0 || place == 7 ? 0 : PEERS_REFUSED_PLACE));
        state.session->sending = (struct peers_sending){0, 1, 4};
        CHECK(refusal(state, AN_ENTRY, place, 5) == PEERS_REFUSED_PLACE);
        state.session->sending = (struct peers_sending){1, 1, 4};
        CHECK(refusal(state, AN_ENTRY, place, 5) == (place == 0 || place == 127 ? 0 : PEERS_REFUSED_PLACE));
        state.session->sending = (struct peers_sending){8, 1, 4};
        CHECK(refusal(state, AN_ENTRY, place, 5) == (place == 63 ? 0 : PEERS_REFUSED_PLACE));
    }
    state.session->sending = (struct peers_sending){1, 1, 4};
    for (size_t i = 0; i < sizeof outside / sizeof *outside; i++) {
        CHECK(refusal(state, A_TABLE, outside[i], 1) == PEERS_REFUSED_PLACE);
        if (outside[i] >= PEERS_ENTRIES) CHECK(refusal(state, AN_ENTRY, outside[i], 1) == PEERS_REFUSED_PLACE);
    }
    CHECK(state.session->connection.closed == 0);
}

/* ---- reading */

/* A reading call leaves the sending state, also one that closes; `call` compares it. Then nothing more is sent. */
static void reading(struct state state) {
    static const struct {
        const char *piece;
        size_t len;
        uint32_t number;
    } pieces[] = {
        {"", 0, PEERS_MORE},
        {"\x0A", 1, PEERS_MORE},
        {"\x00\x04", 2, PEERS_HEARTBEAT},
        {"\x0A\x84\x05\x01\x00\x00\x00\x09", 8, PEERS_ACKNOWLEDGEMENT},
        {"\x0A\x82\x06\x05\x01t\x02\x04\x04", 9, PEERS_TABLE},
        {"\x0A\x82\x06\x05\x01w\x02\x04\x04", 9, PEERS_TABLE},
        {"\x00\x05", 2, PEERS_REFUSED_HEADER},
        {"\x0A\x80\x00", 3, PEERS_REFUSED_UNBOUND},
        {"\x01\x00", 2, PEERS_ERROR},
    };
    for (size_t i = 0; i < sizeof pieces / sizeof *pieces; i++) {
        uint8_t reply[12];
        four_entries(state);
        CHECK(refusal(state, A_TABLE, 0, 1) == 0 && refusal(state, AN_ENTRY, 0, 9) == 0);
        CHECK(call(state, (const uint8_t *)pieces[i].piece, pieces[i].len, 12, reply).number == pieces[i].number);
        CHECK(state.session->sending.defined == 1 && state.session->sending.sent == 1 && state.session->sending.last == 9);
        if (state.session->connection.closed) CHECK(refusal(state, AN_ENTRY, 1, 10) == PEERS_REFUSED_CLOSED);
        else SENT(AN_ENTRY, 1, 10, "\x0A\x86\x09\x00\x00\x00\x07key1\x00");
    }
}

/* ---- a store taught */

struct kind {
    const char *name;
    uint8_t key_type, key_len;
    uint32_t types;
    size_t times; /* how many of the next are sent: none, or the expiry and the pairs */
    uint64_t time[17];
};

static const struct kind kinds[] = {
    {"integers", PEERS_KEY_INTEGER, 4, 1u << PEERS_GPC0 | 1u << PEERS_GPC0_RATE, 3, {60000, 3, 1000}},
    {"v4", PEERS_KEY_IPV4, 4, 1u << PEERS_SERVER_ID | 1u << PEERS_BYTES_IN_CNT, 0, {0}},
    {"v6", PEERS_KEY_IPV6, 16, 0, 1, {UINT32_MAX}},
    {"strings", PEERS_KEY_STRING, 64, ALL, 17, {0, 3, 1, 5, 2, 8, 300, 10, 4, 12, 5, 14, 6, 16, 70000, 18, UINT32_MAX}},
    {"short", PEERS_KEY_STRING, 1, 1u << PEERS_GPC1_RATE, 0, {0}},
    {"cookies", PEERS_KEY_BINARY, 64, 1u << PEERS_CONN_CUR, 1, {5000}},
    {"byte", PEERS_KEY_BINARY, 1, 1u << PEERS_GPT0, 0, {0}},
    {"empty", PEERS_KEY_INTEGER, 4, ALL, 0, {0}},
};

static void ignore(const struct peers_outcome *outcome, const uint8_t *reply) {
    (void)reply;
    CHECK(outcome->number == PEERS_TABLE || outcome->number == PEERS_UPDATE);
}

static void define_kind(struct state state, uint32_t id, const struct kind *kind) {
    uint8_t body[200], message[210];
    size_t len = put_int(body, id), name_len = strlen(kind->name);
    body[len++] = (uint8_t)name_len;
    memcpy(body + len, kind->name, name_len);
    len += name_len;
    body[len++] = kind->key_type;
    body[len++] = kind->key_len;
    len += put_int(body + len, kind->types);
    for (size_t i = 0; i < kind->times; i++) len += put_int(body + len, kind->time[i]);
    offer(state, message, put_message(message, 130, body, len), ignore);
}

/* A random number, as often as not a short one. */
static uint64_t random_value(bool wide) {
    uint64_t value = next() % 2 ? next() % 300 : next();
    return wide ? value : value % ((uint64_t)UINT32_MAX + 1);
}

/* Random values of a table's data types, as they are encoded. */
static size_t random_values(uint32_t types, uint64_t values[35]) {
    size_t count = 0;
    if (types & 1u << PEERS_SERVER_ID) values[count++] = (uint64_t)(int64_t)(int32_t)random_value(false);
    for (uint32_t type = 1, bit = 2; type < 19; type++, bit *= 2) {
        bool wide = type == PEERS_BYTES_IN_CNT || type == PEERS_BYTES_OUT_CNT;
        bool rate = type == PEERS_GPC0_RATE || type == PEERS_CONN_RATE || (type >= PEERS_SESS_RATE && type % 2 == 0);
        for (size_t i = 0; (types & bit) && i < (rate ? 3 : 1); i++) values[count++] = random_value(wide);
    }
    return count;
}

/* Updates the key of this number, every third with a time. */
static void put_key(struct state state, const struct kind *kind, uint32_t number) {
    uint64_t values[35];
    uint8_t key[65];
    size_t len = kind->key_len, at = kind->key_type == PEERS_KEY_STRING ? 1 : 0;
    if (at) len = number % (kind->key_len + 1);
    memset(key, (int)number, sizeof key);
    if (at) key[0] = (uint8_t)len;
    size_t count = random_values(kind->types, values);
    if (number % 3) update(state, number, key, at + len, values, count);
    else timed_update(state, number, 100 * number, key, at + len, values, count);
}

/* A store filled by reading: all kinds of tables, with free places between entries. In `byte` are entries without a time, and it has an expiry
 * since. */
static void filled(struct state state) {
    struct kind byte = kinds[6];
    establish(state);
    for (uint32_t id = 0; id < 8; id++) define_kind(state, id, &kinds[id]);
    for (uint32_t number = 0; number < PEERS_ENTRIES; number++) {
        define_kind(state, number % 7, &kinds[number % 7]);
        put_key(state, &kinds[number % 7], number);
    }
    byte.times = 1;
    byte.time[0] = 777;
    define_kind(state, 6, &byte);
    pass_time(state.store, 1000, 0);
    for (size_t place = 5; place < PEERS_ENTRIES; place += 11) free_entry(state.store, place);
}

/* A whole store's messages, and the acknowledgements that they ask for. */
struct whole_store {
    uint8_t bytes[(PEERS_TABLES + PEERS_ENTRIES) * SENT_MAX], replies[PEERS_ENTRIES * 12];
    size_t len, replies_len, entries;
    uint32_t tables[PEERS_ENTRIES], ids[PEERS_ENTRIES];
};

static void add(struct state state, struct whole_store *whole, enum part part, size_t place, uint32_t id) {
    uint8_t message[SENT_MAX];
    struct peers_sent sent = send_part(state, part, place, id, PEERS_SEND_ROOM, message);
    CHECK(sent.number == 0);
    memcpy(whole->bytes + whole->len, message, sent.len);
    whole->len += sent.len;
}

static void add_entry(struct state state, struct whole_store *whole, uint32_t table, size_t place, uint32_t id) {
    uint8_t body[9];
    size_t len = put_int(body, table);
    len += put_four(body + len, id);
    add(state, whole, AN_ENTRY, place, id);
    whole->replies_len += put_message(whole->replies + whole->replies_len, 132, body, len);
    whole->tables[whole->entries] = table;
    whole->ids[whole->entries++] = id;
}

/* Teaches all of a store. Tables have IDs of their own or one ID, update IDs follow each other or don't. */
static void teach(struct state state, struct whole_store *whole, bool one_id) {
    uint32_t id = UINT32_MAX - 30;
    memset(whole, 0, sizeof *whole);
    for (size_t table = 0; table < PEERS_TABLES; table++) {
        if (!state.store->tables[table].held) continue;
        uint32_t table_id = one_id ? 300 : (uint32_t)(UINT32_MAX - table);
        add(state, whole, A_TABLE, table, table_id);
        for (size_t place = 0; place < PEERS_ENTRIES; place++) {
            if (!state.store->entries[place].held || state.store->entries[place].table != table) continue;
            add_entry(state, whole, table_id, place, id);
            id = next() % 4 ? id + 1 : (uint32_t)next();
        }
    }
}

static uint8_t replies[PEERS_ENTRIES * 12];
static size_t replies_len, answers;

static void reply_told(const struct peers_outcome *outcome, const uint8_t *reply) {
    CHECK(outcome->number == PEERS_TABLE || (outcome->number == PEERS_UPDATE && outcome->values[3] == 0));
    memcpy(replies + replies_len, reply, outcome->reply_len);
    replies_len += outcome->reply_len;
    answers++;
}

/* Offers a whole store's messages in random pieces. */
static void read_all(struct state state, const struct whole_store *whole, size_t longest) {
    replies_len = answers = 0;
    for (size_t at = 0, len; at < whole->len; at += len) {
        len = 1 + next() % longest;
        if (len > whole->len - at) len = whole->len - at;
        offer(state, whole->bytes + at, len, reply_told);
    }
    CHECK(state.session->connection.closed == 0 && state.session->len == 0);
    CHECK(replies_len == whole->replies_len && memcmp(replies, whole->replies, replies_len) == 0);
}

/* The table of the same name, which must have the same keys, data types, expiry and periods. */
static size_t taught_table(const struct peers_store *store, const struct peers_table *table) {
    for (size_t place = 0; place < PEERS_TABLES; place++) {
        const struct peers_table *other = &store->tables[place];
        if (!other->held || other->name_len != table->name_len || memcmp(other->name, table->name, table->name_len) != 0) continue;
        CHECK(other->key_type == table->key_type && other->key_len == table->key_len && other->data_types == table->data_types);
        CHECK(other->timed == table->timed && (!table->timed || other->expiry == table->expiry));
        static const uint32_t rates[PEERS_RATES] = {1u << 3, 1u << 5, 1u << 8, 1u << 10, 1u << 12, 1u << 14, 1u << 16, 1u << 18};
        for (size_t i = 0; i < PEERS_RATES; i++)
            if (table->timed && (table->data_types & rates[i])) CHECK(other->periods[i] == table->periods[i]);
        return place;
    }
    CHECK(false);
    return 0;
}

/* The entry of the same table and key must have the same values and time; without a time it has its table's expiry there, if any. */
static void taught_entry(const struct peers_store *store, size_t table, const struct peers_entry *entry) {
    const struct peers_table *own = &store->tables[table];
    size_t found = 0;
    for (size_t place = 0; place < PEERS_ENTRIES; place++) {
        const struct peers_entry *other = &store->entries[place];
        if (!other->held || other->table != table || other->key_len != entry->key_len) continue;
        if (memcmp(other->key, entry->key, PEERS_KEY_MAX) != 0) continue;
        found++;
        /* what the table has no type for is 0 in both: nothing but reading wrote these stores */
        CHECK(other->server_id == entry->server_id && memcmp(other->values, entry->values, sizeof entry->values) == 0);
        if (entry->timed) CHECK(other->timed == 1 && other->remaining == entry->remaining);
        else CHECK(other->timed == own->timed && (!own->timed || other->remaining == own->expiry));
    }
    CHECK(found == 1);
}

static void same_contents(const struct peers_store *store, const struct peers_store *taught) {
    size_t tables = 0, entries = 0, places[PEERS_TABLES];
    for (size_t i = 0; i < PEERS_TABLES; i++) {
        if (store->tables[i].held) places[i] = taught_table(taught, &store->tables[i]);
        tables += store->tables[i].held, tables -= taught->tables[i].held;
    }
    for (size_t i = 0; i < PEERS_ENTRIES; i++) {
        if (store->entries[i].held) taught_entry(taught, places[store->entries[i].table], &store->entries[i]);
        entries += store->entries[i].held, entries -= taught->entries[i].held;
    }
    CHECK(tables == 0 && entries == 0);
}

/* The acknowledgements, read by the sender, name each table ID and update ID. */
static void acknowledged(struct state state, const struct whole_store *whole) {
    size_t at = 0;
    for (size_t i = 0; i < whole->entries; i++) {
        uint8_t reply[12];
        struct peers_outcome outcome = call(state, whole->replies + at, whole->replies_len - at, 12, reply);
        CHECK(outcome.number == PEERS_ACKNOWLEDGEMENT && outcome.reply_len == 0);
        CHECK(outcome.values[0] == whole->tables[i] && outcome.values[1] == whole->ids[i]);
        at += outcome.taken;
    }
    CHECK(at == whole->replies_len);
}

/* A sender inside a message teaches an answerer or a caller. */
static void taught(struct state state, struct state other, bool caller, size_t longest) {
    static struct whole_store whole;
    uint8_t reply[12];
    filled(state);
    CHECK(call(state, (const uint8_t *)"\x0A\xC8\x03" "ab", 5, 12, reply).number == PEERS_MORE);
    teach(state, &whole, caller);
    CHECK(call(state, (const uint8_t *)"c", 1, 12, reply).number == PEERS_SKIPPED);
    if (caller) {
        open_caller(other);
        CHECK(call(other, (const uint8_t *)"200\n", 4, 12, reply).number == PEERS_STATUS);
    } else {
        establish(other);
    }
    read_all(other, &whole, longest);
    CHECK(answers == whole.entries + PEERS_TABLES && whole.entries > 60);
    same_contents(state.store, other.store);
    acknowledged(state, &whole);
}

void test_sending(void) {
    struct state state = lend_state(), other = lend_state();
    listing(state);
    definitions(state);
    periods(state);
    keys(state);
    values(state);
    widths(state);
    longest(state);
    forms(state);
    following(state);
    last_without_table(state);
    order(state);
    rooms(state);
    places(state);
    reading(state);
    for (size_t i = 0; i < 8; i++) taught(state, other, i % 2, (const size_t[]){1, 7, 100, 1000000}[i / 2]);
    give_back_state(state);
    give_back_state(other);
}
