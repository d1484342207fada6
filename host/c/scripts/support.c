/* Memory with edges, calls and messages. */
#define _GNU_SOURCE
#include "test.h"
#include <sys/mman.h>
#include <unistd.h>

enum edge edge;

void choose_edge(const char *word) {
    edge = strcmp(word, "before") == 0 ? EDGE_BEFORE : EDGE_AFTER;
    CHECK(edge == EDGE_BEFORE || strcmp(word, "after") == 0);
}

static size_t pages(size_t size) {
    size_t page = (size_t)sysconf(_SC_PAGESIZE);
    return (size + page - 1) / page * page;
}

void *lend(size_t size) {
    size_t page = (size_t)sysconf(_SC_PAGESIZE), inner = pages(size);
    uint8_t *all = mmap(NULL, inner + 2 * page, PROT_READ | PROT_WRITE, MAP_PRIVATE | MAP_ANONYMOUS, -1, 0);
    CHECK(all != MAP_FAILED);
    CHECK(mprotect(all, page, PROT_NONE) == 0);
    CHECK(mprotect(all + page + inner, page, PROT_NONE) == 0);
    return edge == EDGE_AFTER ? all + page + inner - size : all + page;
}

void give_back(void *memory, size_t size) {
    size_t page = (size_t)sysconf(_SC_PAGESIZE), inner = pages(size);
    uint8_t *start = edge == EDGE_AFTER ? (uint8_t *)memory + size - inner : memory;
    CHECK(munmap(start - page, inner + 2 * page) == 0);
}

/* Whether such memory may be written, or only be read. */
static void allow_writing(void *memory, size_t size, bool allowed) {
    size_t inner = pages(size);
    uint8_t *start = edge == EDGE_AFTER ? (uint8_t *)memory + size - inner : memory;
    CHECK(mprotect(start, inner, allowed ? PROT_READ | PROT_WRITE : PROT_READ) == 0);
}

struct state lend_state(void) {
    struct state state = {lend(sizeof(struct peers_session)), lend(sizeof(struct peers_store))};
    return state;
}

void give_back_state(struct state state) {
    give_back(state.session, sizeof *state.session);
    give_back(state.store, sizeof *state.store);
}

bool all_zero(const void *memory, size_t size) {
    for (size_t i = 0; i < size; i++)
        if (((const uint8_t *)memory)[i] != 0) return false;
    return true;
}

/* Whether each count is the number of held entries that walking finds, and 0 at a free place. */
static bool counts_are_right(const struct peers_store *store) {
    uint32_t walked[PEERS_TABLES] = {0};
    for (size_t i = 0; i < PEERS_ENTRIES; i++) {
        if (store->entries[i].held != 1) continue;
        if (store->entries[i].table >= PEERS_TABLES) return false;
        walked[store->entries[i].table]++;
    }
    for (size_t i = 0; i < PEERS_TABLES; i++)
        if (store->tables[i].held == 0 && walked[i] != 0) return false;
    return memcmp(walked, store->counts, sizeof walked) == 0;
}

void free_entry(struct peers_store *store, size_t place) {
    if (store->entries[place].held) {
        store->entries[place].held = 0;
        store->counts[store->entries[place].table]--;
    }
}

size_t open_session(struct state state, bool caller, uint8_t hello[PEERS_OPENING_ROOM]) {
    const uint8_t *local = (const uint8_t *)"east", *remote = (const uint8_t *)"west";
    uint8_t *room = lend(PEERS_OPENING_ROOM);
    memset(room, FILL, PEERS_OPENING_ROOM);
    struct peers_opened opened = caller ? peers_open_caller(local, 4, remote, 4, 7, 0, room, PEERS_OPENING_ROOM)
                                        : peers_open_answerer(local, 4, remote, 4, room, PEERS_OPENING_ROOM);
    CHECK(opened.outcome.number == PEERS_MORE && opened.outcome.taken == 0 && opened.outcome.count == 0);
    CHECK(opened.outcome.reply_len <= PEERS_OPENING_ROOM && all_zero(opened.outcome.values, sizeof opened.outcome.values));
    for (size_t i = opened.outcome.reply_len; i < PEERS_OPENING_ROOM; i++) CHECK(room[i] == FILL);
    memcpy(hello, room, opened.outcome.reply_len);
    *state.session = opened.session;
    give_back(room, PEERS_OPENING_ROOM);
    return opened.outcome.reply_len;
}

void open_answerer_on(struct state state) {
    uint8_t hello[PEERS_OPENING_ROOM];
    CHECK(open_session(state, false, hello) == 0);
}

void open_answerer(struct state state) {
    open_answerer_on(state);
    *state.store = peers_empty_store();
}

void open_caller(struct state state) {
    uint8_t hello[PEERS_OPENING_ROOM];
    open_session(state, true, hello);
    *state.store = peers_empty_store();
}

void establish(struct state state) {
    static const char hello[] = "HAProxyS 2.1\neast\nwest 7 0\n";
    uint8_t reply[12];
    open_answerer(state);
    CHECK(call(state, (const uint8_t *)hello, sizeof hello - 1, 12, reply).number == PEERS_HELLO);
}

/* Whether a call with this answer tested the store and found it sound. */
static bool was_sound(uint32_t number) { return number != PEERS_REFUSED_ROOM && number != PEERS_REFUSED_UNSOUND; }

/* Whether a refusal says where the body broke. */
static bool has_offset(uint32_t number) {
    return number == PEERS_REFUSED_CUT || number == PEERS_REFUSED_RANGE || number == PEERS_REFUSED_TABLE_NAME;
}

/* What a refused call leaves: `session` is the record before it. */
static void check_refused(struct peers_session *session, const struct peers_session *left, const struct peers_outcome *outcome) {
    CHECK(outcome->count == (has_offset(outcome->number) ? 1 : 0) && outcome->values[0] <= 1024);
    CHECK((outcome->taken == 0) == (outcome->number < PEERS_REFUSED_HELLO));
    if (outcome->taken > 0) {
        session->connection.closed = 1;
        session->connection.number = outcome->number;
        session->len = 0;
        memset(session->buffer, 0, sizeof session->buffer);
    }
    CHECK(memcmp(session, left, sizeof *session) == 0);
}

/* What a call leaves: `session` and `store` are those before it. */
static void check_left(struct peers_session *session, const struct peers_store *store, struct state left,
                       const struct peers_outcome *outcome) {
    CHECK(memcmp(&session->sending, &left.session->sending, sizeof session->sending) == 0);
    for (size_t i = outcome->count; i < 4; i++) CHECK(outcome->values[i] == 0);
    if (was_sound(outcome->number)) CHECK(counts_are_right(left.store));
    if (outcome->taken == 0) CHECK(outcome->reply_len == 0 && memcmp(session, left.session, sizeof *session) == 0);
    if (outcome->taken == 0 || outcome->number < PEERS_MORE) CHECK(memcmp(store, left.store, sizeof *store) == 0);
    if (outcome->number < PEERS_MORE) check_refused(session, left.session, outcome);
}

struct peers_outcome call(struct state state, const uint8_t *piece, size_t len, size_t room, uint8_t reply[12]) {
    static struct peers_session session;
    static struct peers_store store;
    uint8_t *lent_piece = lend(len), *lent_room = lend(room);
    memcpy(&session, state.session, sizeof session);
    memcpy(&store, state.store, sizeof store);
    memcpy(lent_piece, piece, len);
    memset(lent_room, FILL, room);
    struct peers_outcome outcome = peers_read(state.session, state.store, lent_piece, len, lent_room, room);
    CHECK(outcome.taken <= len && outcome.reply_len <= 12 && outcome.reply_len <= room && outcome.count <= 4);
    CHECK(memcmp(lent_piece, piece, len) == 0);
    memcpy(reply, lent_room, outcome.reply_len);
    for (size_t i = outcome.reply_len; i < room; i++) CHECK(lent_room[i] == FILL);
    check_left(&session, &store, state, &outcome);
    give_back(lent_piece, len);
    give_back(lent_room, room);
    return outcome;
}

/* What the rule leaves of the record after a sending call. */
static void note(struct peers_session *session, enum part part, size_t place, uint32_t id) {
    if (part == A_TABLE) {
        session->sending = (struct peers_sending){place + 1, 0, 0};
    } else {
        session->sending.sent = 1;
        session->sending.last = id;
    }
}

struct peers_sent send_part(struct state state, enum part part, size_t place, uint32_t id, size_t room, uint8_t message[SENT_MAX]) {
    static struct peers_session session;
    static struct peers_store store;
    uint8_t *lent_room = lend(room);
    memcpy(&session, state.session, sizeof session);
    memcpy(&store, state.store, sizeof store);
    memset(lent_room, FILL, room);
    allow_writing(state.store, sizeof store, false);
    struct peers_sent sent = part == A_TABLE ? peers_send_definition(state.session, state.store, place, id, lent_room, room)
                                             : peers_send_entry(state.session, state.store, place, id, lent_room, room);
    allow_writing(state.store, sizeof store, true);
    CHECK(sent.number == 0 ? 0 < sent.len && sent.len <= SENT_MAX && room >= PEERS_SEND_ROOM : sent.len == 0);
    memcpy(message, lent_room, sent.len);
    for (size_t i = sent.len; i < room; i++) CHECK(lent_room[i] == FILL);
    if (sent.number == 0) note(&session, part, place, id);
    CHECK(memcmp(&session, state.session, sizeof session) == 0 && memcmp(&store, state.store, sizeof store) == 0);
    give_back(lent_room, room);
    return sent;
}

const struct key_lengths key_lengths[KEY_TYPES] = {
    {PEERS_KEY_INTEGER, 4, 4}, {PEERS_KEY_IPV4, 4, 4}, {PEERS_KEY_IPV6, 16, 16}, {PEERS_KEY_STRING, 1, 64}, {PEERS_KEY_BINARY, 1, 64},
};

bool is_key_type(uint64_t number) {
    for (size_t i = 0; i < KEY_TYPES; i++)
        if (key_lengths[i].type == number) return true;
    return false;
}

size_t put_int(uint8_t *to, uint64_t value) {
    size_t len = 1;
    if (value < 240) {
        to[0] = (uint8_t)value;
        return 1;
    }
    to[0] = (uint8_t)(240 + value % 16);
    for (value = (value - 240) / 16; value >= 128; value = (value - 128) / 128) to[len++] = (uint8_t)(128 + value % 128);
    to[len++] = (uint8_t)value;
    return len;
}

size_t put_message(uint8_t *to, uint8_t kind, const uint8_t *body, size_t len) {
    to[0] = 10;
    to[1] = kind;
    size_t at = 2 + put_int(to + 2, len);
    if (len > 0) memcpy(to + at, body, len); /* a body of no bytes may be a null pointer */
    return at + len;
}

static void accept(struct state state, uint8_t kind, const uint8_t *body, size_t len, uint32_t number) {
    uint8_t message[1028], reply[12];
    size_t whole = put_message(message, kind, body, len);
    struct peers_outcome outcome = call(state, message, whole, 12, reply);
    CHECK(outcome.number == number && outcome.taken == whole);
}

void define(struct state state, uint32_t id, const char *name, uint8_t key_type, uint8_t key_len, uint32_t types) {
    uint8_t body[100];
    size_t len = put_int(body, id), name_len = strlen(name);
    body[len++] = (uint8_t)name_len;
    memcpy(body + len, name, name_len);
    len += name_len;
    body[len++] = key_type;
    body[len++] = key_len;
    len += put_int(body + len, types);
    accept(state, 130, body, len, PEERS_TABLE);
}

/* Writes a number big-endian and gives its length. */
static size_t put_four(uint8_t *to, uint32_t number) {
    to[0] = (uint8_t)(number >> 24);
    to[1] = (uint8_t)(number >> 16);
    to[2] = (uint8_t)(number >> 8);
    to[3] = (uint8_t)number;
    return 4;
}

static size_t put_entry(uint8_t *to, const void *key, size_t key_len, const uint64_t *values, size_t count) {
    size_t len = key_len;
    memcpy(to, key, key_len);
    for (size_t i = 0; i < count; i++) len += put_int(to + len, values[i]);
    return len;
}

void update(struct state state, uint32_t id, const void *key, size_t key_len, const uint64_t *values, size_t count) {
    uint8_t body[1024];
    size_t len = put_four(body, id);
    len += put_entry(body + len, key, key_len, values, count);
    accept(state, 128, body, len, PEERS_UPDATE);
}

void timed_update(struct state state, uint32_t id, uint32_t time, const void *key, size_t key_len, const uint64_t *values, size_t count) {
    uint8_t body[1024];
    size_t len = put_four(body, id);
    len += put_four(body + len, time);
    len += put_entry(body + len, key, key_len, values, count);
    accept(state, 133, body, len, PEERS_UPDATE);
}

/* What the rule leaves of a held entry, and of its table's count. */
static void lower(struct peers_store *store, size_t place, uint32_t milliseconds) {
    struct peers_entry *entry = &store->entries[place];
    if (entry->held != 1 || entry->timed != 1) return;
    if (entry->remaining > milliseconds) {
        entry->remaining -= milliseconds;
        return;
    }
    CHECK(entry->table < PEERS_TABLES);
    store->counts[entry->table]--;
    memset(entry, 0, sizeof *entry);
}

uint32_t pass_time(struct peers_store *store, uint32_t milliseconds) {
    static struct peers_store expected;
    memcpy(&expected, store, sizeof expected);
    uint32_t number = peers_pass_time(store, milliseconds);
    for (size_t i = 0; number == 0 && i < PEERS_ENTRIES; i++) lower(&expected, i, milliseconds);
    CHECK(number == 0 ? counts_are_right(store) : number == PEERS_REFUSED_UNSOUND);
    CHECK(memcmp(&expected, store, sizeof expected) == 0);
    return number;
}
