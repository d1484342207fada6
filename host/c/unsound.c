/*
 * Each kind of fault of a record or a store, one at a time, and what stands next to it on the other side of its boundary. A fault is
 * refused with 4, by reading and by sending; a call on either side that takes or sends nothing leaves every byte as it was. Passing time looks
 * at the store alone.
 */
#include "test.h"

#define ALL 0x7FFFFu

/* What the cases change. */
static struct peers_session *s;
static struct peers_store *t;

/* The state that a case starts from. */
static struct peers_session base_session;
static struct peers_store base_store;

static void from_base(void) {
    *s = base_session;
    *t = base_store;
}

static void keep_base(void) {
    base_session = *s;
    base_store = *t;
}

/* The answer of a call on the changed state; every byte must be as it was. */
static uint32_t answer(const uint8_t *piece, size_t len) {
    static struct peers_session session;
    static struct peers_store store;
    struct state state = {s, t};
    uint8_t reply[12];
    memcpy(&session, s, sizeof session);
    memcpy(&store, t, sizeof store);
    struct peers_outcome outcome = call(state, piece, len, 12, reply);
    CHECK(outcome.taken == 0 && outcome.reply_len == 0 && outcome.count == 0);
    CHECK(memcmp(&session, s, sizeof session) == 0);
    CHECK(memcmp(&store, t, sizeof store) == 0);
    return outcome.number;
}

/* Passes times on the changed store, which is then as before. */
static void passes(uint32_t number) {
    static struct peers_store store;
    memcpy(&store, t, sizeof store);
    for (uint32_t i = 0; i < 3; i++) {
        pass_time(t, (const uint32_t[]){0, 7, UINT32_MAX}[i], number);
        memcpy(t, &store, sizeof store);
    }
}

/* Both sending calls, with nothing at the place, which change nothing: 4, or what comes after it. */
static bool sending_answers(uint32_t number) {
    struct state state = {s, t};
    uint8_t message[SENT_MAX];
    return send_part(state, A_TABLE, SIZE_MAX, 7, PEERS_SEND_ROOM, message).number == number &&
           send_part(state, AN_ENTRY, SIZE_MAX, 7, PEERS_SEND_ROOM, message).number == number;
}

/* What sending answers on a sound record, where nothing is at the place. */
static uint32_t not_sent(void) {
    if (s->connection.closed) return PEERS_REFUSED_CLOSED;
    return s->connection.phase == PEERS_ESTABLISHED ? PEERS_REFUSED_PLACE : PEERS_REFUSED_HANDSHAKE;
}

static bool is_sound(void) {
    passes(0);
    CHECK(sending_answers(not_sent()));
    uint32_t number = answer((const uint8_t *)"", 0);
    return number == (s->connection.closed ? PEERS_REFUSED_CLOSED : PEERS_MORE);
}

static bool is_refused(void) {
    static const uint8_t heartbeat[] = {0, 4};
    /* where the store is the one that the case started from, the fault is the record's alone */
    passes(memcmp(&base_store, t, sizeof base_store) == 0 ? 0 : PEERS_REFUSED_UNSOUND);
    CHECK(sending_answers(PEERS_REFUSED_UNSOUND));
    return answer((const uint8_t *)"", 0) == PEERS_REFUSED_UNSOUND && answer(heartbeat, 2) == PEERS_REFUSED_UNSOUND;
}

#define SOUND(change) \
    do { \
        from_base(); \
        change; \
        CHECK(is_sound()); \
    } while (0)

#define FAULT(change) \
    do { \
        from_base(); \
        change; \
        CHECK(is_refused()); \
    } while (0)

/* ---- states to start from */

/* Table 0: integers with gpc0, gpc0 rate, bytes in and out, entries 0 and 1. 1: strings up to 8 with all data types, entries 2 and 3.
 * 2: IPv6, entry 4. 3: 64 bytes, entry 5. 4 to 6: integers without entries. 7, current: strings up to 64, entry 6. */
static void eight_tables(struct state state) {
    uint64_t values[35];
    uint8_t key[65];
    for (size_t i = 0; i < 35; i++) values[i] = i;
    establish(state);
    define(state, 10, "integers", PEERS_KEY_INTEGER, 4, 1u << 2 | 1u << 3 | 1u << 13 | 1u << 15);
    update(state, 1, "\0\0\0\1", 4, values, 6);
    update(state, 2, "\0\0\0\2", 4, values, 6);
    define(state, 11, "strings", PEERS_KEY_STRING, 8, ALL);
    update(state, 3, "\2ab", 3, values, 35);
    update(state, 4, "\3abc", 4, values, 35);
    define(state, 12, "addresses", PEERS_KEY_IPV6, 16, 0);
    memset(key, 6, sizeof key);
    update(state, 5, key, 16, values, 0);
    define(state, 13, "cookies", PEERS_KEY_BINARY, 64, 0);
    update(state, 6, key, 64, values, 0);
    define(state, 14, "a", PEERS_KEY_INTEGER, 4, 0);
    define(state, 15, "b", PEERS_KEY_INTEGER, 4, 0);
    define(state, 16, "c", PEERS_KEY_INTEGER, 4, 0);
    define(state, 17, "last", PEERS_KEY_STRING, 64, 0);
    key[0] = 64;
    update(state, 7, key, 65, values, 0);
    keep_base();
}

static void one_table(struct state state) {
    establish(state);
    define(state, 1, "t", PEERS_KEY_INTEGER, 4, 0);
    update(state, 1, "keys", 4, NULL, 0);
    keep_base();
}

static void full(struct state state) {
    establish(state);
    define(state, 1, "t", PEERS_KEY_STRING, 64, 0);
    for (uint8_t key = 0; key < 128; key++) update(state, key, (const uint8_t[]){2, key, 1}, 3, NULL, 0);
    keep_base();
}

/* ---- tables */

static void tables(void) {
    SOUND((void)0);
    SOUND(memset(t->tables[4].name, 'x', 32); t->tables[4].name_len = 32);
    SOUND(t->tables[7].name_len = 1);
    SOUND(t->tables[7].name[4] = 255);
    FAULT(memset(t->tables[4].name, 'x', 32); t->tables[4].name_len = 33);
    FAULT(t->tables[7].name_len = 0);
    FAULT(t->tables[0].name_len = SIZE_MAX);
    FAULT(t->tables[0].held = 2);
    FAULT(t->tables[7].held = 256);
    FAULT(t->tables[7].held = UINT32_MAX);
    SOUND(t->tables[4].data_types = ALL);
    FAULT(t->tables[4].data_types = ALL + 1);
    FAULT(t->tables[4].data_types = UINT32_MAX);
    SOUND(t->tables[4].timed = 1);
    FAULT(t->tables[4].timed = 2);
    FAULT(t->tables[4].timed = 256);
    FAULT(t->tables[4].timed = UINT32_MAX);
    SOUND(t->tables[4].expiry = UINT32_MAX; t->tables[4].periods[7] = UINT32_MAX);
}

static void key_types(void) {
    for (size_t i = 0; i < KEY_TYPES; i++) {
        const struct key_lengths *kind = &key_lengths[i];
        SOUND(t->tables[4].key_type = kind->type; t->tables[4].key_len = kind->least);
        SOUND(t->tables[4].key_type = kind->type; t->tables[4].key_len = kind->most);
        FAULT(t->tables[4].key_type = kind->type; t->tables[4].key_len = kind->least - 1);
        FAULT(t->tables[4].key_type = kind->type; t->tables[4].key_len = kind->most + 1);
        FAULT(t->tables[4].key_type = kind->type; t->tables[4].key_len = kind->most + 256);
        FAULT(t->tables[4].key_type = kind->type; t->tables[4].key_len = UINT32_MAX);
        FAULT(t->tables[4].key_type = kind->type + 256; t->tables[4].key_len = kind->most);
    }
    for (uint32_t type = 0; type < 300; type++) {
        if (is_key_type(type)) continue;
        FAULT(t->tables[4].key_type = type);
        FAULT(t->tables[4].key_type = type; t->tables[4].key_len = 16);
    }
    FAULT(t->tables[4].key_type = UINT32_MAX);
}

static void names(void) {
    SOUND(memcpy(t->tables[4].name, "bx", 2); t->tables[4].name_len = 2);
    SOUND(t->tables[4].name[0] = 'd');
    FAULT(t->tables[4].name[0] = 'b');
    FAULT(t->tables[6].name[0] = 'a');
    FAULT(memcpy(t->tables[0].name, t->tables[7].name, 32); t->tables[0].name_len = t->tables[7].name_len);
    FAULT(t->tables[4].name[0] = 'b'; t->tables[5].name[1] = 9);
    for (int byte = 0; byte < 256; byte++) {
        if (is_plain((uint8_t)byte)) SOUND(t->tables[7].name[3] = (uint8_t)byte);
        else FAULT(t->tables[7].name[3] = (uint8_t)byte);
        SOUND(t->tables[7].name[4] = t->tables[7].name[31] = (uint8_t)byte);
    }
}

/* ---- entries: a change that takes one from a table or adds one goes with the counts, so that the fault is the one that is named */

/* Puts the entry at a place to another table. */
static void move(size_t place, size_t table) {
    t->counts[t->entries[place].table]--;
    t->counts[table]++;
    t->entries[place].table = table;
}

/* Holds a copy of an entry at another place. */
static void copy(size_t from, size_t to) {
    t->entries[to] = t->entries[from];
    t->counts[t->entries[to].table]++;
}

static void entries(void) {
    SOUND(free_entry(t, 0));
    FAULT(t->entries[0].held = 2);
    FAULT(t->entries[0].held = 2; t->counts[0]--);
    FAULT(t->entries[127].held = 2);
    FAULT(t->entries[127].held = 2; t->counts[0]++);
    FAULT(t->entries[127].held = 256);
    FAULT(t->entries[127].held = UINT32_MAX);
    SOUND(move(0, 4));
    SOUND(move(2, 7));
    FAULT(t->entries[0].table = 8);
    FAULT(t->entries[0].table = 8; t->counts[0]--);
    FAULT(t->entries[0].table = SIZE_MAX; t->counts[0]--);
    FAULT(move(0, 2));
    SOUND(t->entries[2].key_len = 0; memset(t->entries[2].key, 0, 64));
    SOUND(t->entries[2].key_len = 8);
    FAULT(t->entries[2].key_len = 9);
    FAULT(t->entries[2].key_len = SIZE_MAX);
    FAULT(t->entries[0].key_len = 3; t->entries[0].key[3] = 0);
    FAULT(t->entries[0].key_len = 5);
    FAULT(t->entries[4].key_len = 15; t->entries[4].key[15] = 0);
    FAULT(t->entries[4].key_len = 17);
    FAULT(t->entries[5].key_len = 63; t->entries[5].key[63] = 0);
    FAULT(t->entries[5].key_len = 65);
    FAULT(t->entries[6].key_len = 65);
    SOUND(t->entries[0].key[3] = 255);
    FAULT(t->entries[0].key[4] = 1);
    FAULT(t->entries[0].key[63] = 128);
    FAULT(t->entries[2].key[2] = 1);
    FAULT(t->entries[4].key[16] = 255);
}

/* Marks of a held entry's time; where there is none, the number isn't looked at. */
static void times(void) {
    for (size_t i = 0; i < 7; i++) {
        struct peers_entry *entry = &t->entries[i];
        for (uint32_t mark = 0; mark < 2; mark++) {
            SOUND(entry->timed = mark);
            SOUND(entry->timed = mark; entry->remaining = 7);
            SOUND(entry->timed = mark; entry->remaining = UINT32_MAX);
        }
        for (uint32_t mark = 2; mark < 300; mark++) FAULT(entry->timed = mark);
        FAULT(entry->timed = 1u << 8 | 1);
        FAULT(entry->timed = 1u << 16 | 1);
        FAULT(entry->timed = 1u << 31 | 1);
        FAULT(entry->timed = UINT32_MAX);
        FAULT(entry->timed = 2; entry->remaining = UINT32_MAX);
    }
    /* a free place isn't looked at, and time doesn't touch it */
    SOUND(t->entries[7].timed = 2);
    SOUND(t->entries[7].timed = 1; t->entries[7].remaining = 7);
    SOUND(t->entries[127].timed = UINT32_MAX; t->entries[127].remaining = UINT32_MAX);
    SOUND(t->entries[0].timed = 2; free_entry(t, 0));
}

static void values(void) {
    for (size_t slot = 0; slot < PEERS_VALUES; slot++) {
        SOUND(t->entries[2].values[slot] = UINT32_MAX);
        if (slot == PEERS_SLOT_BYTES_IN_CNT || slot == PEERS_SLOT_BYTES_OUT_CNT) SOUND(t->entries[2].values[slot] = UINT64_MAX);
        else FAULT(t->entries[2].values[slot] = (uint64_t)UINT32_MAX + 1);
        /* table 3 has no values */
        SOUND(t->entries[5].values[slot] = UINT64_MAX);
    }
    SOUND(t->entries[2].server_id = INT32_MIN);
    SOUND(t->entries[2].server_id = INT32_MAX);
}

static void twins(void) {
    SOUND(t->entries[0].key[3] = 3);
    SOUND(memcpy(t->entries[3].key, t->entries[2].key, 64));
    SOUND(t->entries[0].key[3] = 2; move(0, 4));
    SOUND(t->entries[0].key[3] = 2; free_entry(t, 0));
    FAULT(t->entries[0].key[3] = 2);
    FAULT(copy(0, 127));
    FAULT(copy(6, 7));
    FAULT(memcpy(t->entries[3].key, t->entries[2].key, 64); t->entries[3].key_len = 2);
}

static void twins_in_a_full_store(void) {
    SOUND((void)0);
    FAULT(t->entries[127].key[0] = 0);
    FAULT(t->entries[0].key[0] = 1);
    FAULT(t->entries[127].key[0] = 126);
    FAULT(t->entries[64].key[0] = 63);
}

/* ---- counts */

/* Each count off by one and by more, at held and at free places, and two that make up for each other. */
static void counts(void) {
    static const uint32_t more[] = {1, 2, 128, 256, 65536, 1u << 31, UINT32_MAX};
    for (size_t place = 0; place < PEERS_TABLES; place++) {
        for (size_t i = 0; i < sizeof more / sizeof *more; i++) {
            FAULT(t->counts[place] += more[i]);
            FAULT(t->counts[place] += more[i]; t->counts[(place + 1) % PEERS_TABLES] -= more[i]);
        }
        if (base_store.counts[place] > 0) FAULT(t->counts[place] = 0);
    }
}

/* An entry that goes, comes or is moved without its count. */
static void entries_without_counts(void) {
    FAULT(t->entries[0].held = 0);
    FAULT(t->entries[6].held = 0);
    FAULT(t->entries[0].table = 4);
    FAULT(t->entries[2].table = 7);
    FAULT(t->entries[7] = t->entries[0]; t->entries[7].key[3] = 9);
    SOUND(copy(0, 7); t->entries[7].key[3] = 9);
    FAULT(t->entries[127] = t->entries[0]; t->entries[127].key[3] = 9);
    SOUND(copy(0, 127); t->entries[127].key[3] = 9);
}

/* ---- the record */

static void connection(void) {
    struct peers_connection *c = &s->connection;
    for (uint32_t phase = 0; phase < 300; phase++) {
        if (phase <= PEERS_ESTABLISHED) SOUND(c->phase = phase);
        else FAULT(c->phase = phase);
    }
    FAULT(c->phase = UINT32_MAX);
    for (uint32_t number = 0; number < 300; number++) {
        bool closes = number == 0 || number == 1 || number == 3 || (10 <= number && number <= 15) || (20 <= number && number <= 30);
        if (closes) SOUND(c->closed = 1; c->number = number);
        else FAULT(c->closed = 1; c->number = number);
        if (number > 0) FAULT(c->number = number);
        if (number > 1) FAULT(c->closed = number);
    }
    FAULT(c->closed = 1; c->number = UINT32_MAX);
    FAULT(c->closed = UINT32_MAX);
    SOUND(c->current = 0);
    SOUND(c->current = 1);
    FAULT(c->current = 9);
    FAULT(c->current = 256);
    FAULT(c->current = 257);
    FAULT(c->current = UINT32_MAX);
}

static void peer_names(void) {
    struct peers_connection *c = &s->connection;
    SOUND(c->local_len = 1);
    SOUND(c->remote_len = 1);
    SOUND(memset(c->local, 33, 32); c->local_len = 32);
    SOUND(memset(c->remote, 126, 32); c->remote_len = 32);
    SOUND(c->local[4] = 255);
    FAULT(c->local_len = 0);
    FAULT(c->remote_len = 0);
    FAULT(memset(c->local, 33, 32); c->local_len = 33);
    FAULT(memset(c->remote, 126, 32); c->remote_len = 33);
    FAULT(c->local_len = SIZE_MAX);
    FAULT(c->remote_len = SIZE_MAX);
    FAULT(c->local[0] = 32);
    FAULT(c->local[3] = 127);
    FAULT(c->remote[0] = 127);
    FAULT(c->remote[3] = 32);
}

static void bindings(void) {
    struct peers_binding *b = s->connection.bindings;
    SOUND(b[0].bound = 0);
    SOUND(b[0].updated = 0);
    SOUND(b[0].previous = UINT32_MAX);
    FAULT(b[0].bound = 2);
    FAULT(b[7].bound = 257);
    FAULT(b[7].bound = UINT32_MAX);
    FAULT(b[0].updated = 2);
    FAULT(b[7].updated = 256);
    FAULT(b[7].updated = UINT32_MAX);
    SOUND(b[0].id = 18);
    SOUND(b[0].id = 17; b[0].bound = 0);
    FAULT(b[0].id = 17);
    FAULT(b[0].id = 11);
    FAULT(b[7].id = 16);
    /* the current table without an ID */
    FAULT(b[7].bound = 0);
}

/* The table defined last among all 8, and the mark of a last ID, with such a table and without. */
static void sending(void) {
    struct peers_sending *x = &s->sending;
    for (size_t defined = 0; defined <= PEERS_TABLES; defined++) {
        SOUND(x->defined = defined);
        for (uint32_t mark = 0; mark < 2; mark++) {
            SOUND(x->defined = defined; x->sent = mark);
            SOUND(x->defined = defined; x->sent = mark; x->last = 9);
            SOUND(x->defined = defined; x->sent = mark; x->last = UINT32_MAX);
        }
        FAULT(x->defined = defined; x->sent = 2);
        FAULT(x->defined = defined; x->sent = 1u << 8 | 1);
        FAULT(x->defined = defined; x->sent = 1u << 16);
        FAULT(x->defined = defined; x->sent = 1u << 31 | 1; x->last = 9);
        FAULT(x->defined = defined; x->sent = UINT32_MAX);
        FAULT(x->defined = defined + (size_t)PEERS_TABLES + 1);
        FAULT(x->defined = defined + 256);
        FAULT(x->defined = defined + ((size_t)1 << 32));
        FAULT(x->defined = defined + ((size_t)1 << 63));
        FAULT(x->defined = SIZE_MAX - defined);
        /* a closed record */
        SOUND(s->connection.closed = 1; x->defined = defined; x->sent = 1; x->last = 9);
        FAULT(s->connection.closed = 1; x->defined = defined; x->sent = 2);
    }
    FAULT(s->connection.closed = 1; x->defined = 9);
    SOUND(s->connection.phase = 0; x->defined = 8; x->sent = 1);
    FAULT(s->connection.phase = 0; x->defined = 9);
}

/* With one table held, at place 0, and with none. */
static void defined_not_held(bool held) {
    if (held) SOUND(s->sending.defined = 1);
    else FAULT(s->sending.defined = 1);
    SOUND(s->sending.defined = 0; s->sending.sent = 1; s->sending.last = 9);
    for (size_t place = 1; place < PEERS_TABLES; place++) {
        FAULT(s->sending.defined = place + 1);
        FAULT(s->sending.defined = place + 1; s->sending.sent = 1; s->sending.last = 9);
        FAULT(s->sending.defined = place + 1; s->connection.closed = 1);
    }
    FAULT(s->sending.defined = PEERS_TABLES + 1);
}

/* Leaves no mark of table 0 in the record. */
static void unused(void) {
    s->connection.current = s->connection.bindings[0].bound = s->connection.bindings[0].updated = 0;
}

/* With one table held, at place 0. */
static void tables_not_held(void) {
    struct peers_binding *b = s->connection.bindings;
    SOUND(memset(&t->tables[1], 255, sizeof t->tables[1]); t->tables[1].held = 0);
    SOUND(memset(&t->entries[1], 255, sizeof t->entries[1]); t->entries[1].held = 0);
    SOUND(b[1].id = 5; b[7].previous = 5);
    FAULT(b[1].bound = 1);
    FAULT(b[7].bound = 1);
    FAULT(b[1].updated = 1);
    FAULT(b[7].updated = 1);
    FAULT(s->connection.current = 2);
    FAULT(s->connection.current = 8);
    FAULT(t->entries[0].table = 1; t->counts[0] = 0);
    FAULT(move(0, 1));
    FAULT(move(0, 7));
    FAULT(unused(); t->tables[0].held = 0);
    FAULT(unused(); t->tables[0].held = 0; t->counts[0] = 0);
    SOUND(unused(); t->tables[0].held = 0; free_entry(t, 0));
    /* a free table place is looked at for its count */
    FAULT(unused(); t->tables[0].held = 0; t->entries[0].held = 0);
    FAULT(unused(); t->tables[0].held = 0; free_entry(t, 0); t->counts[0] = UINT32_MAX);
    FAULT(unused(); t->tables[0].held = 0; free_entry(t, 0); t->counts[7] = 1);
}

/* ---- unfinished bytes */

static void hold(const void *bytes, size_t len) {
    memcpy(s->buffer, bytes, len);
    s->len = len;
}

static void unfinished_message(void) {
    static const uint8_t overflow[] = {10, 128, 255, 255, 255, 255, 255, 255, 255, 255, 255, 255};
    uint8_t longest[1028] = {10, 200, 0xF0, 0x31};
    SOUND(hold(longest, 1027));
    FAULT(hold(longest, 1027); s->len = 1028);
    FAULT(hold(longest, 1027); s->len = sizeof s->buffer);
    FAULT(hold(longest, 1027); s->len = sizeof s->buffer + 1);
    FAULT(hold(longest, 1027); s->len = SIZE_MAX);
    SOUND(memset(s->buffer, 255, sizeof s->buffer));
    SOUND(hold("\0", 1));
    SOUND(hold("\x4D", 1));
    FAULT(hold("\0\0", 2));
    FAULT(hold("\0\4", 2));
    FAULT(hold("\0\5", 2));
    FAULT(hold("\1\0", 2));
    FAULT(hold("\1\2", 2));
    SOUND(hold("\x0A\x80", 2));
    FAULT(hold("\x0A\x7F", 2));
    SOUND(hold(overflow, 11));
    FAULT(hold(overflow, 12));
    SOUND(hold("\x0A\x80\xF0\x31", 4));
    FAULT(hold("\x0A\x80\xF1\x31", 4));
    FAULT(hold("\x0A\x80\0", 3));
    SOUND(hold("\x0A\x80\2\1", 4));
    FAULT(hold("\x0A\x80\2\1\1", 5));
    /* a first part ends a message */
    FAULT(hold("\0\4\x0A", 3));
    FAULT(hold("\x0A\x80\0\x0A\x80", 5));
    /* a closed record */
    SOUND(s->connection.closed = 1);
    FAULT(s->connection.closed = 1; hold("\0", 1));
}

static void unfinished_hello(void) {
    char longest[195];
    memset(longest, 'x', sizeof longest);
    longest[64] = longest[129] = '\n';
    SOUND((void)0);
    SOUND(hold(longest, 194));
    FAULT(hold(longest, 195));
    SOUND(hold("\n\n", 2));
    FAULT(hold("\n\n\n", 3));
    FAULT(hold("a\nb\nc\nd", 7));
    SOUND(hold(longest, 64));
    longest[64] = 'x';
    FAULT(hold(longest, 65));
}

static void unfinished_status(void) {
    SOUND((void)0);
    SOUND(hold("xyz", 3));
    FAULT(hold("200\n", 4));
    FAULT(hold("xyz\n", 4));
    FAULT(hold("200\nx", 5));
}

/* ---- the record of a refused opening */

static void refused_opening(void) {
    struct peers_connection *c = &s->connection;
    SOUND((void)0);
    SOUND(c->number = 1);
    FAULT(c->number = 0);
    FAULT(c->number = 2);
    FAULT(c->number = 10);
    FAULT(c->closed = 0);
    FAULT(c->closed = 0; c->number = 0);
    FAULT(c->phase = 1);
    FAULT(c->current = 1);
    FAULT(c->local_len = 1);
    FAULT(c->remote_len = 1);
    FAULT(c->bindings[7].bound = 1);
    FAULT(c->bindings[0].updated = 1);
    FAULT(hold("\0", 1));
    FAULT(s->buffer[PEERS_UNFINISHED_MAX] = 1);
    FAULT(s->buffer[PEERS_BUFFER - 1] = 1);
    FAULT(s->sending.defined = 1);
    FAULT(s->sending.sent = 1);
    FAULT(s->sending.last = 1);
    FAULT(t->tables[0].held = 2);
}

void test_unsound(void) {
    struct state state = lend_state();
    uint8_t room[PEERS_OPENING_ROOM];
    s = state.session;
    t = state.store;
    eight_tables(state);
    tables();
    key_types();
    names();
    entries();
    times();
    values();
    twins();
    counts();
    entries_without_counts();
    connection();
    peer_names();
    bindings();
    sending();
    one_table(state);
    tables_not_held();
    defined_not_held(true);
    counts();
    unfinished_message();
    full(state);
    twins_in_a_full_store();
    counts();
    open_answerer(state);
    keep_base();
    counts();
    defined_not_held(false);
    unfinished_hello();
    open_caller(state);
    keep_base();
    unfinished_status();
    *s = peers_open_answerer((const uint8_t *)"", 0, (const uint8_t *)"", 0, room, sizeof room).session;
    keep_base();
    refused_opening();
    give_back_state(state);
}
