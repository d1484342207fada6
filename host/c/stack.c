/* How much stack each call takes, on a thread whose stack was filled before. */
#define _GNU_SOURCE
#include "test.h"
#include <pthread.h>

#define STACK (4 << 20)

/* A reading call, and the answer that it must give. */
struct reading {
    const char *name;
    const char *piece;
    size_t len;
    uint32_t number;
    struct state state;
};

static void *nothing(void *argument) { return argument; }

static void *one_call(void *argument) {
    struct reading *reading = argument;
    struct state state = reading->state;
    uint8_t reply[12];
    struct peers_outcome outcome =
        peers_read(state.session, state.store, (const uint8_t *)reading->piece, reading->len, reply, sizeof reply);
    CHECK(outcome.number == reading->number);
    return NULL;
}

static void *one_passing(void *argument) {
    CHECK(peers_pass_time(argument, 60000) == 0);
    return NULL;
}

/* A sending call. */
struct sending {
    struct state state;
    struct peers_sent (*call)(struct peers_session *, const struct peers_store *, size_t, uint32_t, uint8_t *, size_t);
    uint8_t room[PEERS_SEND_ROOM];
};

static void *one_sending(void *argument) {
    struct sending *sending = argument;
    struct state state = sending->state;
    CHECK(sending->call(state.session, state.store, 0, 1, sending->room, sizeof sending->room).number == 0);
    return NULL;
}

static void *one_opening(void *argument) {
    uint8_t room[PEERS_OPENING_ROOM];
    *(struct peers_opened *)argument =
        peers_open_caller((const uint8_t *)"east", 4, (const uint8_t *)"west", 4, 7, 0, room, sizeof room);
    return NULL;
}

static void *one_store(void *argument) {
    *(struct peers_store *)argument = peers_empty_store();
    return NULL;
}

/* How much of a thread's stack a function used. */
static size_t stack_of(void *(*function)(void *), void *argument) {
    uint8_t *stack = lend(STACK);
    pthread_attr_t attributes;
    pthread_t thread;
    size_t untouched = 0;
    memset(stack, FILL, STACK);
    CHECK(pthread_attr_init(&attributes) == 0);
    CHECK(pthread_attr_setstack(&attributes, stack, STACK) == 0);
    CHECK(pthread_create(&thread, &attributes, function, argument) == 0);
    CHECK(pthread_join(thread, NULL) == 0);
    while (untouched < STACK && stack[untouched] == FILL) untouched++;
    pthread_attr_destroy(&attributes);
    give_back(stack, STACK);
    return STACK - untouched;
}

/* The most that one of the messages of a session takes beyond what the thread itself does. */
static void print_readings(struct state state, size_t thread) {
    struct reading readings[] = {
        {"hello", "HAProxyS 2.1\neast\nwest 7 0\n", 27, PEERS_HELLO, state},
        {"definition", "\x0A\x82\x06\x01\x01t\x02\x04\x04", 9, PEERS_TABLE, state},
        {"update", "\x0A\x80\x09\x00\x00\x00\x09keyt\x07", 12, PEERS_UPDATE, state},
        {"incremental", "\x0A\x81\x05keyt\x08", 8, PEERS_UPDATE, state},
    };
    size_t most = 0, at = 0;
    for (size_t i = 0; i < sizeof readings / sizeof *readings; i++) {
        size_t used = stack_of(one_call, &readings[i]) - thread;
        if (used > most) most = used, at = i;
    }
    printf("stack of a reading call: %zu bytes (%s, the most of hello, definition, update and incremental)\n", most,
           readings[at].name);
}

/* On the table and entry that the readings left. */
static void print_sendings(struct state state, size_t thread) {
    static struct sending definition, entry;
    definition = (struct sending){state, peers_send_definition, {0}};
    entry = (struct sending){state, peers_send_entry, {0}};
    printf("stack of sending a definition: %zu bytes\n", stack_of(one_sending, &definition) - thread);
    printf("stack of sending an entry: %zu bytes\n", stack_of(one_sending, &entry) - thread);
}

int main(void) {
    static struct peers_opened opened;
    edge = EDGE_BEFORE;
    struct state state = lend_state();
    open_answerer(state);
    size_t thread = stack_of(nothing, NULL);
    print_readings(state, thread);
    print_sendings(state, thread);
    printf("stack of passing time: %zu bytes\n", stack_of(one_passing, state.store) - thread);
    printf("stack of opening: %zu bytes\n", stack_of(one_opening, &opened) - thread);
    printf("stack of an empty store: %zu bytes\n", stack_of(one_store, state.store) - thread);
    give_back_state(state);
    return 0;
}
