/*
 * Each kind of fault of a record or a store, one at a time, and what stands next to it on the other side of its boundary. A fault is
 * refused with 4, by reading and by sending; a call on either side that takes or sends nothing leaves every byte as it was. Passing time looks
 * at the store alone. No script makes a fault: calls leave none.
 */
#include "test.h"

#define ALL 0x7FFFFu

/* What a mark of 0 or 1 can't be: the numbers next to it, and such that a shorter number would take for a mark. */
#define NO_MARK 2, 3, 255, 256, 257, 1u << 16, 1u << 16 | 1, 1u << 31, 1u << 31 | 1, UINT32_MAX

/* What the cases change. */
static struct peers_session *s;
static struct peers_store *t;

/* The state that a case starts from. */
static struct peers_session base_session;
static struct peers_store base_store;

static void from_base(void) {
    *s = base_session;
    *t = base_store;
}

/* The answer of a call that takes nothing, after which `call` finds every byte as it was. */
static uint32_t answer(const char *piece, size_t len) {
    struct state state = {s, t};
    uint8_t reply[12];
    struct peers_outcome outcome = call(state, (const uint8_t *)piece, len, 12, reply);
    CHECK(outcome.taken == 0 && outcome.count == 0);
    return outcome.number;
}

/* Whether passing times on the changed store gives this number; the store is then as before. */
static bool passes(uint32_t number) {
    static struct peers_store store;
    bool all = true;
    memcpy(&store, t, sizeof store);
    for (size_t i = 0; i < 3; i++) {
        all = all && pass_time(t, (const uint32_t[]){0, 7, UINT32_MAX}[i]) == number;
        memcpy(t, &store, sizeof store);
    }
    return all;
}

/* Both sending calls, with nothing at the place, which change nothing: 4, or what comes after it. */
static bool sending_answers(uint32_t number) {
    struct state state = {s, t};
    uint8_t message[SENT_MAX];
    return send_part(state, A_TABLE, SIZE_MAX, 7, PEERS_SEND_ROOM, message).number == number &&
           send_part(state, AN_ENTRY, SIZE_MAX, 7, PEERS_SEND_ROOM, message).number == number;
}

static bool is_sound(void) {
    uint32_t not_sent = s->connection.phase == PEERS_ESTABLISHED ? PEERS_REFUSED_PLACE : PEERS_REFUSED_HANDSHAKE;
    bool closed = s->connection.closed;
    return passes(0) && sending_answers(closed ? PEERS_REFUSED_CLOSED : not_sent) &&
           answer("", 0) == (closed ? PEERS_REFUSED_CLOSED : PEERS_MORE);
}

static bool is_refused(void) {
    /* where the store is the one that the case started from, the fault is the record's alone */
    bool store_stays = memcmp(&base_store, t, sizeof base_store) == 0;
    return passes(store_stays ? 0 : PEERS_REFUSED_UNSOUND) && sending_answers(PEERS_REFUSED_UNSOUND) &&
           answer("", 0) == PEERS_REFUSED_UNSOUND && answer("\0\4", 2) == PEERS_REFUSED_UNSOUND;
}

#define SOUND(change) \
    do { \
        from_base(); \
        change; \
        CHECK(is_sound()); \
    } while (0)

#define FAULT(change) \
    do { \
        from_base(); \
        change; \
        CHECK(is_refused()); \
    } while (0)

/* The same with each of some numbers in a field. */
#define EACH(kind, field, ...) \
    do { \
        static const uint64_t numbers[] = {__VA_ARGS__}; \
        for (size_t n = 0; n < sizeof numbers / sizeof *numbers; n++) kind(field = numbers[n]); \
    } while (0)
#define SOUNDS(field, ...) EACH(SOUND, field, __VA_ARGS__)
#define FAULTS(field, ...) EACH(FAULT, field, __VA_ARGS__)

/* ---- states to start from */

/* Table 0: integers with gpc0, gpc0 rate, bytes in and out, entries 0 and 1. 1: strings up to 8 with all data types, entries 2 and 3.
 * 2: IPv6, entry 4. 3: 64 bytes, entry 5. 4 to 6: integers without entries. 7, current: strings up to 64, entry 6. */
static void eight_tables(struct state state) {
    uint64_t values[35];
    uint8_t key[65];
    for (size_t i = 0; i < 35; i++) values[i] = i;
    establish(state);
    define(state, 10, "integers", PEERS_KEY_INTEGER, 4, 1u << 2 | 1u << 3 | 1u << 13 | 1u << 15);
    update(state, 1, "\0\0\0\1", 4, values, 6);
    update(state, 2, "\0\0\0\2", 4, values, 6);
    define(state, 11, "strings", PEERS_KEY_STRING, 8, ALL);
    update(state, 3, "\2ab", 3, values, 35);
    update(state, 4, "\3abc", 4, values, 35);
    define(state, 12, "addresses", PEERS_KEY_IPV6, 16, 0);
    memset(key, 6, sizeof key);
    update(state, 5, key, 16, values, 0);
    define(state, 13, "cookies", PEERS_KEY_BINARY, 64, 0);
    update(state, 6, key, 64, values, 0);
    define(state, 14, "a", PEERS_KEY_INTEGER, 4, 0);
    define(state, 15, "b", PEERS_KEY_INTEGER, 4, 0);
    define(state, 16, "c", PEERS_KEY_INTEGER, 4, 0);
    define(state, 17, "last", PEERS_KEY_STRING, 64, 0);
    key[0] = 64;
    update(state, 7, key, 65, values, 0);
}

static void one_table(struct state state) {
    establish(state);
    define(state, 1, "t", PEERS_KEY_INTEGER, 4, 0);
    update(state, 1, "keys", 4, NULL, 0);
}

static void full(struct state state) {
    establish(state);
    define(state, 1, "t", PEERS_KEY_STRING, 64, 0);
    for (uint8_t key = 0; key < 128; key++) update(state, key, (const uint8_t[]){2, key, 1}, 3, NULL, 0);
}

/* ---- marks and lengths */

/* Every kind of mark, at a first and a last place. */
static void marks(void) {
    struct peers_connection *c = &s->connection;
    uint32_t *marks[] = {
        &t->tables[0].held, &t->tables[7].held, &t->tables[4].timed, &t->entries[0].held, &t->entries[127].held, &c->closed,
        &c->bindings[0].bound, &c->bindings[7].bound, &c->bindings[0].updated, &c->bindings[7].updated, &s->sending.sent,
    };
    for (size_t i = 0; i < sizeof marks / sizeof *marks; i++) FAULTS(*marks[i], NO_MARK);
    SOUNDS(t->tables[4].timed, 0, 1);
    SOUND(c->bindings[0].bound = 0);
    SOUND(c->bindings[0].updated = 0);
    /* of entries with the counts that walking finds */
    FAULT(t->entries[0].held = 2; t->counts[0]--);
    FAULT(t->entries[127].held = 2; t->counts[0]++);
}

/* Names of tables and peers; all of them have 4 bytes or more. */
static void name_lengths(void) {
    struct peers_connection *c = &s->connection;
    size_t *lengths[] = {&t->tables[0].name_len, &t->tables[7].name_len, &c->local_len, &c->remote_len};
    for (size_t i = 0; i < sizeof lengths / sizeof *lengths; i++) {
        SOUNDS(*lengths[i], 1, 4);
        FAULTS(*lengths[i], 0, 33, 256, 260, (uint64_t)1 << 32 | 4, SIZE_MAX);
    }
    /* with a byte for each number of the length */
    SOUND(memset(t->tables[4].name, 'x', 32); t->tables[4].name_len = 32);
    FAULT(memset(t->tables[4].name, 'x', 32); t->tables[4].name_len = 33);
    SOUND(memset(c->local, 33, 32); c->local_len = 32);
    FAULT(memset(c->local, 33, 32); c->local_len = 33);
    SOUND(memset(c->remote, 126, 32); c->remote_len = 32);
    FAULT(memset(c->remote, 126, 32); c->remote_len = 33);
}

/* ---- tables */

static void tables(void) {
    SOUND((void)0);
    SOUNDS(t->tables[4].data_types, 0, ALL);
    FAULTS(t->tables[4].data_types, ALL + 1, 1u << 31, UINT32_MAX);
    SOUND(t->tables[4].expiry = UINT32_MAX; t->tables[4].periods[7] = UINT32_MAX);
    for (size_t i = 0; i < KEY_TYPES; i++) {
        const struct key_lengths *kind = &key_lengths[i];
        SOUND(t->tables[4].key_type = kind->type; t->tables[4].key_len = kind->least);
        SOUND(t->tables[4].key_type = kind->type; t->tables[4].key_len = kind->most);
        FAULT(t->tables[4].key_type = kind->type; t->tables[4].key_len = kind->least - 1);
        FAULT(t->tables[4].key_type = kind->type; t->tables[4].key_len = kind->most + 1);
        FAULT(t->tables[4].key_type = kind->type; t->tables[4].key_len = kind->most + 256);
        FAULT(t->tables[4].key_type = kind->type; t->tables[4].key_len = UINT32_MAX);
        FAULT(t->tables[4].key_type = kind->type + 256; t->tables[4].key_len = kind->most);
    }
    for (uint32_t type = 0; type < 300; type++)
        if (!is_key_type(type)) FAULT(t->tables[4].key_type = type);
    FAULTS(t->tables[4].key_type, 1u << 16 | PEERS_KEY_INTEGER, 1u << 31 | PEERS_KEY_INTEGER, UINT32_MAX);
    FAULTS(t->tables[2].key_type, 0, 1, 3, 8, 256 + PEERS_KEY_IPV6);
}

/* Whether a table's name may have this byte. */
static bool is_plain(uint8_t byte) {
    return byte != 0 && strchr("ABCDEFGHIJKLMNOPQRSTUVWXYZabcdefghijklmnopqrstuvwxyz0123456789._-/:", byte) != NULL;
}

static void names(void) {
    /* names are equal, or differ in length or in a byte */
    SOUND(memcpy(t->tables[4].name, "bx", 2); t->tables[4].name_len = 2);
    SOUND(t->tables[4].name[0] = 'd');
    FAULT(t->tables[4].name[0] = 'b');
    FAULT(t->tables[6].name[0] = 'a');
    FAULT(memcpy(t->tables[0].name, t->tables[7].name, 32); t->tables[0].name_len = t->tables[7].name_len);
    FAULT(t->tables[4].name[0] = 'b'; t->tables[5].name[1] = 9);
    /* bytes past a name aren't looked at */
    for (int byte = 0; byte < 256; byte++) {
        if (is_plain((uint8_t)byte)) SOUND(t->tables[7].name[3] = (uint8_t)byte);
        else FAULT(t->tables[7].name[3] = (uint8_t)byte);
        SOUND(t->tables[7].name[4] = t->tables[7].name[31] = (uint8_t)byte);
    }
}

/* ---- entries: a change that takes one from a table or adds one goes with the counts, so that the fault is the one that is named */

/* Puts the entry at a place to another table. */
static void move(size_t place, size_t table) {
    t->counts[t->entries[place].table]--;
    t->counts[table]++;
    t->entries[place].table = table;
}

/* Holds a copy of an entry at another place. */
static void copy(size_t from, size_t to) {
    t->entries[to] = t->entries[from];
    t->counts[t->entries[to].table]++;
}

static void entries(void) {
    SOUND(free_entry(t, 0));
    SOUND(move(0, 4));
    SOUND(move(2, 7));
    FAULT(move(0, 2));
    FAULTS(t->entries[0].table, 8, 256, (uint64_t)1 << 32, SIZE_MAX);
    FAULTS(t->counts[0]--; t->entries[0].table, 8, 256, (uint64_t)1 << 32, SIZE_MAX);
}

/* The length of a key of each kind, and the bytes past it, which are zeros. */
static void keys(void) {
    static const struct {
        size_t place, most;
        bool fixed;
    } rows[] = {{0, 4, true}, {2, 8, false}, {4, 16, true}, {5, 64, true}, {6, 64, false}};
    for (size_t i = 0; i < sizeof rows / sizeof *rows; i++) {
        struct peers_entry *entry = &t->entries[rows[i].place];
        size_t most = rows[i].most;
        SOUND(entry->key_len = most);
        FAULT(entry->key_len = most + 1);
        FAULT(entry->key_len = most + 256);
        FAULT(entry->key_len = most + ((size_t)1 << 32));
        FAULT(entry->key_len = SIZE_MAX);
        if (rows[i].fixed) FAULT(entry->key_len = most - 1; entry->key[most - 1] = 0);
        else SOUND(entry->key_len = 0; memset(entry->key, 0, 64));
    }
    SOUND(t->entries[0].key[3] = 255);
    FAULT(t->entries[0].key[4] = 1);
    FAULT(t->entries[0].key[63] = 128);
    FAULT(t->entries[2].key[2] = 1);
    FAULT(t->entries[4].key[16] = 255);
}

/* Marks of a held entry's time; where there is none, the number isn't looked at. */
static void times(void) {
    for (size_t i = 0; i < 7; i++) {
        struct peers_entry *entry = &t->entries[i];
        for (uint32_t mark = 0; mark < 2; mark++) {
            SOUND(entry->timed = mark);
            SOUND(entry->timed = mark; entry->remaining = 7);
            SOUND(entry->timed = mark; entry->remaining = UINT32_MAX);
        }
        FAULTS(entry->timed, NO_MARK);
        FAULT(entry->timed = 2; entry->remaining = UINT32_MAX);
    }
    /* a free place isn't looked at, and time doesn't touch it */
    SOUND(t->entries[7].timed = 2);
    SOUND(t->entries[7].timed = 1; t->entries[7].remaining = 7);
    SOUND(t->entries[127].timed = UINT32_MAX; t->entries[127].remaining = UINT32_MAX);
    SOUND(t->entries[0].timed = 2; free_entry(t, 0));
}

static void values(void) {
    for (size_t slot = 0; slot < PEERS_VALUES; slot++) {
        SOUND(t->entries[2].values[slot] = UINT32_MAX);
        if (slot == PEERS_SLOT_BYTES_IN_CNT || slot == PEERS_SLOT_BYTES_OUT_CNT) SOUND(t->entries[2].values[slot] = UINT64_MAX);
        else FAULT(t->entries[2].values[slot] = (uint64_t)UINT32_MAX + 1);
        /* table 3 has no values */
        SOUND(t->entries[5].values[slot] = UINT64_MAX);
    }
    SOUNDS(t->entries[2].server_id, (uint32_t)INT32_MIN, INT32_MAX);
}

static void twins(void) {
    SOUND(t->entries[0].key[3] = 3);
    SOUND(memcpy(t->entries[3].key, t->entries[2].key, 64));
    SOUND(t->entries[0].key[3] = 2; move(0, 4));
    SOUND(t->entries[0].key[3] = 2; free_entry(t, 0));
    FAULT(t->entries[0].key[3] = 2);
    FAULT(copy(0, 127));
    FAULT(copy(6, 7));
    FAULT(memcpy(t->entries[3].key, t->entries[2].key, 64); t->entries[3].key_len = 2);
}

static void twins_in_a_full_store(void) {
    SOUND((void)0);
    FAULT(t->entries[127].key[0] = 0);
    FAULT(t->entries[0].key[0] = 1);
    FAULT(t->entries[127].key[0] = 126);
    FAULT(t->entries[64].key[0] = 63);
}

/* ---- counts */

/* Each count off by one and by more, at held and at free places, and two that make up for each other. */
static void counts(void) {
    static const uint32_t more[] = {1, 2, 128, 256, 65536, 1u << 31, UINT32_MAX};
    for (size_t place = 0; place < PEERS_TABLES; place++) {
        for (size_t i = 0; i < sizeof more / sizeof *more; i++) {
            FAULT(t->counts[place] += more[i]);
            FAULT(t->counts[place] += more[i]; t->counts[(place + 1) % PEERS_TABLES] -= more[i]);
        }
        if (base_store.counts[place] > 0) FAULT(t->counts[place] = 0);
    }
}

/* An entry that goes, comes or is moved without its count. */
static void entries_without_counts(void) {
    FAULT(t->entries[0].held = 0);
    FAULT(t->entries[6].held = 0);
    FAULT(t->entries[0].table = 4);
    FAULT(t->entries[2].table = 7);
    FAULT(t->entries[7] = t->entries[0]; t->entries[7].key[3] = 9);
    SOUND(copy(0, 7); t->entries[7].key[3] = 9);
    FAULT(t->entries[127] = t->entries[0]; t->entries[127].key[3] = 9);
    SOUND(copy(0, 127); t->entries[127].key[3] = 9);
}

/* ---- the record */

static void connection(void) {
    struct peers_connection *c = &s->connection;
    SOUNDS(c->phase, 0, 1, 2);
    FAULTS(c->phase, 3, 255, 256, 258, 1u << 16 | 2, 1u << 31 | 2, UINT32_MAX);
    for (uint32_t number = 0; number < 300; number++) {
        bool closes = number == 0 || number == 1 || number == 3 || (10 <= number && number <= 15) || (20 <= number && number <= 30);
        if (closes) SOUND(c->closed = 1; c->number = number);
        else FAULT(c->closed = 1; c->number = number);
    }
    FAULTS(c->closed = 1; c->number, 1u << 16 | 20, 1u << 31 | 20, UINT32_MAX);
    /* an open record has no number */
    FAULTS(c->number, 1, 2, 3, 4, 10, 20, 30, 255, 256, 1u << 16, 1u << 31, UINT32_MAX);
    SOUNDS(c->current, 0, 1, 8);
    FAULTS(c->current, 9, 256, 257, 1u << 16 | 1, 1u << 31 | 1, UINT32_MAX);
    /* the peers' names */
    SOUNDS(c->local[4], 32, 255);
    FAULTS(c->local[0], 0, 32, 127, 255);
    FAULTS(c->local[3], 32, 127);
    FAULTS(c->remote[0], 0, 32, 127, 255);
    FAULTS(c->remote[3], 32, 127);
}

static void bindings(void) {
    struct peers_binding *b = s->connection.bindings;
    SOUND(b[0].previous = UINT32_MAX);
    SOUND(b[0].id = 18);
    SOUND(b[0].id = 17; b[0].bound = 0);
    FAULTS(b[0].id, 17, 11);
    FAULT(b[7].id = 16);
    /* the current table without an ID */
    FAULT(b[7].bound = 0);
}

/* The table defined last among all 8, and the mark of a last ID, with such a table and without. */
static void sending(void) {
    struct peers_sending *x = &s->sending;
    for (size_t defined = 0; defined <= PEERS_TABLES; defined++) {
        for (uint32_t mark = 0; mark < 2; mark++) {
            SOUND(x->defined = defined; x->sent = mark);
            SOUND(x->defined = defined; x->sent = mark; x->last = 9);
            SOUND(x->defined = defined; x->sent = mark; x->last = UINT32_MAX);
        }
        FAULTS(x->defined = defined; x->sent, NO_MARK);
        FAULTS(x->defined = defined; x->last = 9; x->sent, NO_MARK);
        FAULT(x->defined = defined + (size_t)PEERS_TABLES + 1);
        FAULT(x->defined = defined + 256);
        FAULT(x->defined = defined + ((size_t)1 << 32));
        FAULT(x->defined = defined + ((size_t)1 << 63));
        FAULT(x->defined = SIZE_MAX - defined);
        /* a closed record */
        SOUND(s->connection.closed = 1; x->defined = defined; x->sent = 1; x->last = 9);
        FAULT(s->connection.closed = 1; x->defined = defined; x->sent = 2);
    }
    FAULT(s->connection.closed = 1; x->defined = 9);
    SOUND(s->connection.phase = 0; x->defined = 8; x->sent = 1);
    FAULT(s->connection.phase = 0; x->defined = 9);
}

/* With one table held, at place 0, or none. */
static void defined_not_held(void) {
    if (base_store.tables[0].held) SOUND(s->sending.defined = 1);
    else FAULT(s->sending.defined = 1);
    SOUND(s->sending.defined = 0; s->sending.sent = 1; s->sending.last = 9);
    for (size_t place = 1; place < PEERS_TABLES; place++) {
        FAULT(s->sending.defined = place + 1);
        FAULT(s->sending.defined = place + 1; s->sending.sent = 1; s->sending.last = 9);
        FAULT(s->sending.defined = place + 1; s->connection.closed = 1);
    }
    FAULT(s->sending.defined = PEERS_TABLES + 1);
}

/* Leaves no mark of table 0 in the record, and frees its place. */
static void unhold(void) {
    s->connection.current = s->connection.bindings[0].bound = s->connection.bindings[0].updated = 0;
    t->tables[0].held = 0;
}

/* With one table held, at place 0. */
static void tables_not_held(void) {
    struct peers_binding *b = s->connection.bindings;
    SOUND(memset(&t->tables[1], 255, sizeof t->tables[1]); t->tables[1].held = 0);
    SOUND(memset(&t->entries[1], 255, sizeof t->entries[1]); t->entries[1].held = 0);
    SOUND(b[1].id = 5; b[7].previous = 5);
    FAULT(b[1].bound = 1);
    FAULT(b[7].bound = 1);
    FAULT(b[1].updated = 1);
    FAULT(b[7].updated = 1);
    FAULTS(s->connection.current, 2, 8);
    FAULT(t->entries[0].table = 1; t->counts[0] = 0);
    FAULT(move(0, 1));
    FAULT(move(0, 7));
    FAULT(unhold());
    FAULT(unhold(); t->counts[0] = 0);
    SOUND(unhold(); free_entry(t, 0));
    /* a free table place is looked at for its count */
    FAULT(unhold(); t->entries[0].held = 0);
    FAULT(unhold(); free_entry(t, 0); t->counts[0] = UINT32_MAX);
    FAULT(unhold(); free_entry(t, 0); t->counts[7] = 1);
}

/* ---- unfinished bytes */

struct text {
    const char *bytes;
    size_t len;
};
#define TEXT(bytes) {bytes, sizeof bytes - 1}

static void hold(struct text text) {
    memcpy(s->buffer, text.bytes, text.len);
    s->len = text.len;
}

/* Unfinished bytes of the base's phase: some that can be, then some that can't, each up to a text without bytes. */
static void hold_each(const struct text *texts) {
    for (; texts->bytes; texts++) SOUND(hold(*texts));
    for (texts++; texts->bytes; texts++) FAULT(hold(*texts));
}

static void unfinished_message(void) {
    static const struct text texts[] = {
        TEXT("\0"), TEXT("\x4D"), TEXT("\x0A\x80"), TEXT("\x0A\x80\xFF\xFF\xFF\xFF\xFF\xFF\xFF\xFF\xFF"), TEXT("\x0A\x80\xF0\x31"),
        TEXT("\x0A\x80\2\1"), {0},
        TEXT("\0\0"), TEXT("\0\4"), TEXT("\0\5"), TEXT("\1\0"), TEXT("\1\2"), TEXT("\x0A\x7F"), TEXT("\x0A\x80\0"), TEXT("\x0A\x80\2\1\1"),
        TEXT("\x0A\x80\xFF\xFF\xFF\xFF\xFF\xFF\xFF\xFF\xFF\xFF"), TEXT("\x0A\x80\xF1\x31"),
        /* a first part ends a message */
        TEXT("\0\4\x0A"), TEXT("\x0A\x80\0\x0A\x80"), {0},
    };
    static const char longest[PEERS_BUFFER] = "\x0A\xC8\xF0\x31";
    hold_each(texts);
    SOUND(hold((struct text){longest, 1027}));
    FAULTS(hold((struct text){longest, 1027}); s->len, 1028, sizeof s->buffer, sizeof s->buffer + 1, SIZE_MAX);
    SOUND(memset(s->buffer, 255, sizeof s->buffer));
    /* a closed record */
    SOUND(s->connection.closed = 1);
    FAULT(s->connection.closed = 1; hold(texts[0]));
}

static void unfinished_hello(void) {
    static const struct text texts[] = {TEXT(""), TEXT("\n\n"), {0}, TEXT("\n\n\n"), TEXT("a\nb\nc\nd"), {0}};
    char longest[195];
    memset(longest, 'x', sizeof longest);
    longest[64] = longest[129] = '\n';
    hold_each(texts);
    SOUND(hold((struct text){longest, 64}));
    SOUND(hold((struct text){longest, 194}));
    FAULT(hold((struct text){longest, 195}));
    longest[64] = 'x';
    FAULT(hold((struct text){longest, 65}));
}

static void unfinished_status(void) {
    static const struct text texts[] = {TEXT(""), TEXT("xyz"), {0}, TEXT("200\n"), TEXT("xyz\n"), TEXT("200\nx"), {0}};
    hold_each(texts);
}

/* ---- the record of a refused opening */

static void refused_opening(void) {
    struct peers_connection *c = &s->connection;
    SOUNDS(c->number, 1, 3);
    FAULTS(c->number, 0, 2, 10);
    FAULT(c->closed = 0);
    FAULT(c->closed = 0; c->number = 0);
    FAULT(c->phase = 1);
    FAULT(c->current = 1);
    FAULT(c->local_len = 1);
    FAULT(c->remote_len = 1);
    FAULT(c->bindings[7].bound = 1);
    FAULT(c->bindings[0].updated = 1);
    FAULT(hold((struct text)TEXT("\0")));
    FAULT(s->buffer[PEERS_UNFINISHED_MAX] = 1);
    FAULT(s->buffer[PEERS_BUFFER - 1] = 1);
    FAULT(s->sending.defined = 1);
    FAULT(s->sending.sent = 1);
    FAULT(s->sending.last = 1);
    FAULT(t->tables[0].held = 2);
}

static void refuse_opening(struct state state) {
    uint8_t room[PEERS_OPENING_ROOM];
    *state.session = peers_open_answerer((const uint8_t *)"", 0, (const uint8_t *)"", 0, room, sizeof room).session;
    *state.store = peers_empty_store();
}

/* Each state with the cases that start from it. */
static const struct {
    void (*start)(struct state state);
    void (*cases[14])(void);
} groups[] = {
    {eight_tables, {marks, name_lengths, tables, names, entries, keys, times, values, twins, counts, entries_without_counts, connection,
                    bindings, sending}},
    {one_table, {tables_not_held, defined_not_held, counts, unfinished_message}},
    {full, {twins_in_a_full_store, counts}},
    {open_answerer, {counts, defined_not_held, unfinished_hello}},
    {open_caller, {unfinished_status}},
    {refuse_opening, {refused_opening}},
};

void test_unsound(void) {
    struct state state = lend_state();
    s = state.session;
    t = state.store;
    for (size_t i = 0; i < sizeof groups / sizeof *groups; i++) {
        groups[i].start(state);
        base_session = *s;
        base_store = *t;
        for (size_t k = 0; k < sizeof groups[i].cases / sizeof *groups[i].cases && groups[i].cases[k]; k++) groups[i].cases[k]();
    }
    give_back_state(state);
}
