/*
 * Runs a script of second/data from standard input through the exported calls and prints what `replay` prints: the commands and their lines
 * are in crates/replay/src/main.rt. The argument, `after` or `before`, is the edge at which lent memory lies. Where the output ends without
 * `end`, a helper found what a call may not do, such as a spoiled room, and names it on standard error.
 */
#include "test.h"
#include <inttypes.h>

/* A data type but the server ID: its bit, its first slot, how many slots it has, and where those are three, the place of its period. */
struct data_type {
    uint32_t bit;
    size_t slot, slots, period;
};

static const struct data_type data_types[] = {
    {1u << PEERS_GPT0, PEERS_SLOT_GPT0, 1, 0},
    {1u << PEERS_GPC0, PEERS_SLOT_GPC0, 1, 0},
    {1u << PEERS_GPC0_RATE, PEERS_SLOT_GPC0_RATE, 3, PEERS_PERIOD_GPC0_RATE},
    {1u << PEERS_CONN_CNT, PEERS_SLOT_CONN_CNT, 1, 0},
    {1u << PEERS_CONN_RATE, PEERS_SLOT_CONN_RATE, 3, PEERS_PERIOD_CONN_RATE},
    {1u << PEERS_CONN_CUR, PEERS_SLOT_CONN_CUR, 1, 0},
    {1u << PEERS_SESS_CNT, PEERS_SLOT_SESS_CNT, 1, 0},
    {1u << PEERS_SESS_RATE, PEERS_SLOT_SESS_RATE, 3, PEERS_PERIOD_SESS_RATE},
    {1u << PEERS_HTTP_REQ_CNT, PEERS_SLOT_HTTP_REQ_CNT, 1, 0},
    {1u << PEERS_HTTP_REQ_RATE, PEERS_SLOT_HTTP_REQ_RATE, 3, PEERS_PERIOD_HTTP_REQ_RATE},
    {1u << PEERS_HTTP_ERR_CNT, PEERS_SLOT_HTTP_ERR_CNT, 1, 0},
    {1u << PEERS_HTTP_ERR_RATE, PEERS_SLOT_HTTP_ERR_RATE, 3, PEERS_PERIOD_HTTP_ERR_RATE},
    {1u << PEERS_BYTES_IN_CNT, PEERS_SLOT_BYTES_IN_CNT, 1, 0},
    {1u << PEERS_BYTES_IN_RATE, PEERS_SLOT_BYTES_IN_RATE, 3, PEERS_PERIOD_BYTES_IN_RATE},
    {1u << PEERS_BYTES_OUT_CNT, PEERS_SLOT_BYTES_OUT_CNT, 1, 0},
    {1u << PEERS_BYTES_OUT_RATE, PEERS_SLOT_BYTES_OUT_RATE, 3, PEERS_PERIOD_BYTES_OUT_RATE},
    {1u << PEERS_GPC1, PEERS_SLOT_GPC1, 1, 0},
    {1u << PEERS_GPC1_RATE, PEERS_SLOT_GPC1_RATE, 3, PEERS_PERIOD_GPC1_RATE},
};
#define DATA_TYPES (sizeof data_types / sizeof *data_types)

static bool is_present(uint32_t types, size_t i) { return (types & data_types[i].bit) != 0; }

static bool is_rate(size_t i) { return data_types[i].slots == 3; }

/* ---- words */

static void print_number(uint64_t number) { printf(" %" PRIu64, number); }

static void print_hex(const uint8_t *bytes, size_t len) {
    if (len == 0) printf(" -");
    for (size_t i = 0; i < len; i++) printf(i == 0 ? " %02X" : "%02X", bytes[i]);
}

/* A line of a word and a number, `-` where there is none. */
static void print_line(const char *word, bool there, uint64_t number) {
    printf("%s", word);
    if (there) print_number(number);
    else printf(" -");
    printf("\n");
}

static void print_reply(const uint8_t *reply, size_t len) {
    if (len == 0) return;
    printf("reply");
    print_hex(reply, len);
    printf("\n");
}

/* ---- the line of an answer */

static const char *const words[] = {
    [PEERS_MORE - PEERS_MORE] = "more",
    [PEERS_HELLO - PEERS_MORE] = "hello",
    [PEERS_STATUS - PEERS_MORE] = "status",
    [PEERS_REQUEST - PEERS_MORE] = "request",
    [PEERS_FINISHED - PEERS_MORE] = "finished",
    [PEERS_PARTIAL - PEERS_MORE] = "partial",
    [PEERS_CONFIRMED - PEERS_MORE] = "confirm",
    [PEERS_HEARTBEAT - PEERS_MORE] = "heartbeat",
    [PEERS_ERROR - PEERS_MORE] = "error",
    [PEERS_TABLE - PEERS_MORE] = "table",
    [PEERS_SWITCH - PEERS_MORE] = "switch",
    [PEERS_UPDATE - PEERS_MORE] = "update",
    [PEERS_ACKNOWLEDGEMENT - PEERS_MORE] = "ack",
    [PEERS_SKIPPED - PEERS_MORE] = "skipped",
};

/* All values of an update but the last, which is a word. */
static void print_update(const struct peers_outcome *outcome) {
    CHECK(outcome->count == 4 && outcome->values[3] <= 1);
    for (size_t i = 0; i < 3; i++) print_number(outcome->values[i]);
    printf(outcome->values[3] == 0 ? " new" : " replaced");
}

static void print_name(const struct peers_store *store, uint64_t place) {
    CHECK(place < PEERS_TABLES && store->tables[place].name_len <= PEERS_NAME_MAX);
    print_hex(store->tables[place].name, store->tables[place].name_len);
}

static void print_answer(struct state state, const struct peers_outcome *outcome) {
    const struct peers_connection *connection = &state.session->connection;
    if (outcome->number < PEERS_MORE) {
        printf("refused");
        print_number(outcome->number);
    } else {
        CHECK(outcome->number - PEERS_MORE < sizeof words / sizeof *words);
        printf("%s", words[outcome->number - PEERS_MORE]);
    }
    if (outcome->number == PEERS_HELLO) printf(" %.*s", (int)connection->remote_len, (const char *)connection->remote);
    if (outcome->number == PEERS_UPDATE) print_update(outcome);
    else for (size_t i = 0; i < outcome->count; i++) print_number(outcome->values[i]);
    if (outcome->number == PEERS_TABLE) print_name(state.store, outcome->values[0]);
    printf("\n");
}

/* ---- a dump */

static void print_record(const struct peers_session *session) {
    const struct peers_connection *connection = &session->connection;
    if (connection->closed) print_line("session closed", true, connection->number);
    else puts(connection->phase == PEERS_ESTABLISHED ? "session open" : "session handshake");
    printf("unfinished");
    print_hex(session->buffer, session->len);
    printf("\n");
    print_line("current", connection->current != 0, connection->current - 1);
    print_line("defined", session->sending.defined != 0, session->sending.defined - 1);
    print_line("sent", session->sending.sent != 0, session->sending.last);
    for (size_t place = 0; place < PEERS_TABLES; place++) {
        const struct peers_binding *binding = &connection->bindings[place];
        if (binding->bound) printf("bound %zu %" PRIu32 "\n", place, binding->id);
        if (binding->updated) printf("previous %zu %" PRIu32 "\n", place, binding->previous);
    }
}

static void print_table(const struct peers_store *store, size_t place) {
    const struct peers_table *table = &store->tables[place];
    if (!table->held) return;
    printf("table %zu", place);
    print_name(store, place);
    printf(" %" PRIu32 " %" PRIu32 " %" PRIu32, table->key_type, table->key_len, table->data_types);
    if (table->timed) print_number(table->expiry);
    else printf(" -");
    for (size_t i = 0; i < DATA_TYPES; i++)
        if (table->timed && is_present(table->data_types, i) && is_rate(i)) print_number(table->periods[data_types[i].period]);
    printf("\n");
}

static void print_entry(const struct peers_store *store, size_t place) {
    const struct peers_entry *entry = &store->entries[place];
    if (!entry->held) return;
    uint32_t types = store->tables[entry->table].data_types;
    printf("entry %zu %zu", place, entry->table);
    print_hex(entry->key, entry->key_len);
    printf(entry->timed ? " T%" PRIu32 : " -", entry->remaining);
    if (types & 1u << PEERS_SERVER_ID) printf(" %" PRId32, entry->server_id);
    for (size_t i = 0; i < DATA_TYPES; i++)
        for (size_t k = 0; is_present(types, i) && k < data_types[i].slots; k++) print_number(entry->values[data_types[i].slot + k]);
    printf("\n");
}

static void dump(struct state state) {
    print_record(state.session);
    for (size_t place = 0; place < PEERS_TABLES; place++) print_table(state.store, place);
    printf("counts");
    for (size_t place = 0; place < PEERS_TABLES; place++) print_number(state.store->counts[place]);
    printf("\n");
    for (size_t place = 0; place < PEERS_ENTRIES; place++) print_entry(state.store, place);
}

/* ---- bytes that have no meaning: all zeros, so a record and a store of zeros, with what a dump shows of those lent and the two names, are
 * those lent */

static void copy_record(struct peers_session *to, const struct peers_session *from) {
    struct peers_connection *connection = &to->connection;
    to->connection = from->connection;
    if (!connection->closed) connection->number = 0;
    connection->local_len = connection->remote_len = 4;
    memcpy(connection->local, (const uint8_t[PEERS_NAME_MAX]){"east"}, PEERS_NAME_MAX);
    memcpy(connection->remote, (const uint8_t[PEERS_NAME_MAX]){"west"}, PEERS_NAME_MAX);
    for (size_t place = 0; place < PEERS_TABLES; place++) {
        struct peers_binding *binding = &connection->bindings[place];
        if (!binding->bound) binding->id = 0;
        if (!binding->updated) binding->previous = 0;
    }
    to->len = from->len;
    memcpy(to->buffer, from->buffer, from->len);
    to->sending = from->sending;
    if (!to->sending.sent) to->sending.last = 0;
}

static void copy_table(struct peers_table *to, const struct peers_table *from) {
    if (!from->held) return;
    *to = (struct peers_table){.held = 1, .key_type = from->key_type, .timed = from->timed, .data_types = from->data_types,
                               .name_len = from->name_len, .key_len = from->key_len};
    memcpy(to->name, from->name, from->name_len);
    if (!from->timed) return;
    to->expiry = from->expiry;
    for (size_t i = 0; i < DATA_TYPES; i++) {
        size_t period = data_types[i].period;
        if (is_present(from->data_types, i) && is_rate(i)) to->periods[period] = from->periods[period];
    }
}

static void copy_entry(struct peers_entry *to, const struct peers_entry *from, uint32_t types) {
    *to = (struct peers_entry){.held = 1, .timed = from->timed, .table = from->table, .key_len = from->key_len};
    memcpy(to->key, from->key, from->key_len);
    if (from->timed) to->remaining = from->remaining;
    if (types & 1u << PEERS_SERVER_ID) to->server_id = from->server_id;
    for (size_t i = 0; i < DATA_TYPES; i++) {
        size_t slot = data_types[i].slot;
        if (is_present(types, i)) memcpy(to->values + slot, from->values + slot, data_types[i].slots * sizeof *to->values);
    }
}

static void check_zeros(struct state state) {
    static struct peers_session session;
    static struct peers_store store;
    memset(&session, 0, sizeof session);
    memset(&store, 0, sizeof store);
    copy_record(&session, state.session);
    memcpy(store.counts, state.store->counts, sizeof store.counts);
    for (size_t i = 0; i < PEERS_TABLES; i++) copy_table(&store.tables[i], &state.store->tables[i]);
    for (size_t i = 0; i < PEERS_ENTRIES; i++) {
        const struct peers_entry *entry = &state.store->entries[i];
        if (entry->held) copy_entry(&store.entries[i], entry, store.tables[entry->table].data_types);
    }
    CHECK(memcmp(&session, state.session, sizeof session) == 0);
    CHECK(memcmp(&store, state.store, sizeof store) == 0);
}

/* ---- commands: each is false where the script ends in it */

static bool take(uint8_t *to, size_t len) { return fread(to, 1, len, stdin) == len; }

static uint32_t number_at(const uint8_t *bytes, size_t len) {
    uint32_t number = 0;
    for (size_t i = 0; i < len; i++) number = number * 256 + bytes[i];
    return number;
}

static bool open_next(struct state state) {
    uint8_t role, hello[PEERS_OPENING_ROOM];
    if (!take(&role, 1) || role > 1) return false;
    size_t len = open_session(state, role == 1, hello);
    puts("open");
    print_reply(hello, len);
    return true;
}

static bool read_next(struct state state) {
    static uint8_t piece[UINT16_MAX];
    uint8_t head[3], reply[12];
    if (!take(head, sizeof head)) return false;
    size_t len = number_at(head + 1, 2);
    if (!take(piece, len)) return false;
    struct peers_outcome outcome = call(state, piece, len, head[0], reply);
    print_line("took", true, outcome.taken);
    print_answer(state, &outcome);
    print_reply(reply, outcome.reply_len);
    return true;
}

static bool pass_next(struct state state) {
    uint8_t milliseconds[4];
    if (!take(milliseconds, sizeof milliseconds)) return false;
    print_line("passed", true, pass_time(state.store, number_at(milliseconds, 4)));
    return true;
}

static bool send_next(struct state state, enum part part) {
    uint8_t head[7], message[SENT_MAX];
    if (!take(head, sizeof head)) return false;
    struct peers_sent sent = send_part(state, part, head[0], number_at(head + 1, 4), number_at(head + 5, 2), message);
    printf(sent.number == 0 ? "sent" : "refused");
    if (sent.number == 0) print_hex(message, sent.len);
    else print_number(sent.number);
    printf("\n");
    return true;
}

static bool later_command(struct state state, int command) {
    switch (command) {
    case 'N': return open_next(state);
    case 'C': return read_next(state);
    case 'T': return pass_next(state);
    case 'P': return send_next(state, A_TABLE);
    case 'E': return send_next(state, AN_ENTRY);
    case 'D': dump(state); return true;
    default: return false;
    }
}

/* One command; the first is an opening. */
static bool run_next(struct state state, bool opened) {
    int command = getchar();
    if (command != 'O') return opened && later_command(state, command);
    *state.store = peers_empty_store();
    return open_next(state);
}

int main(int argc, char **argv) {
    CHECK(argc == 2);
    choose_edge(argv[1]);
    struct state state = lend_state();
    for (bool opened = false; run_next(state, opened); opened = true) check_zeros(state);
    CHECK(!ferror(stdin));
    puts("end");
    CHECK(fflush(stdout) == 0);
    give_back_state(state);
    return 0;
}
