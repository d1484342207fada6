/* What the C tests share. */
#ifndef TEST_H
#define TEST_H

#include "peers.h"
#include <stdbool.h>
#include <stdio.h>
#include <stdlib.h>
#include <string.h>

#define FILL 0xAA

#define CHECK(condition) \
    do { \
        if (!(condition)) { \
            fprintf(stderr, "%s:%d: %s\n", __FILE__, __LINE__, #condition); \
            exit(1); \
        } \
    } while (0)

/* Where lent memory lies: it ends where a page begins that can't be touched, or begins where one ends. */
enum edge { EDGE_AFTER, EDGE_BEFORE };
extern enum edge edge;

/* Takes the edge from its word, `after` or `before`. */
void choose_edge(const char *word);

/* Memory with a page that can't be touched at its edge. */
void *lend(size_t size);
void give_back(void *memory, size_t size);

/* A session and a store in such memory. */
struct state {
    struct peers_session *session;
    struct peers_store *store;
};

struct state lend_state(void);
void give_back_state(struct state state);

bool all_zero(const void *memory, size_t size);

/* Frees the entry at a place, as the header says. */
void free_entry(struct peers_store *store, size_t place);

/* Opens a session as `east` for `west`; the caller has process number 7 and relative process number 0. Its hello is left in `hello`, the rest
 * of the room must stay. Gives the hello's length. */
size_t open_session(struct state state, bool caller, uint8_t hello[PEERS_OPENING_ROOM]);

/* States to start from, in the memory of `state`. */
void open_answerer(struct state state);
void open_answerer_on(struct state state); /* the store stays */
void open_caller(struct state state);
void establish(struct state state);

/* One call, with piece and room in such memory. The reply is left in `reply`, and the room past it must stay, and the sending state. A call
 * that takes nothing must change nothing. A refusal must leave the store, and of the record all but what closing changes; it must have a
 * value if it is one that says where the body broke, and no other may. A call that tested the store must leave counts that are right. */
struct peers_outcome call(struct state state, const uint8_t *piece, size_t len, size_t room, uint8_t reply[12]);

/* Passes time and gives the number; the store must be left as the rule says, with counts that are right, and as it was where the
 * number isn't 0. */
uint32_t pass_time(struct peers_store *store, uint32_t milliseconds);

/* What a sending call sends. */
enum part { A_TABLE, AN_ENTRY };

/* The most bytes of a sent message. */
#define SENT_MAX 267

/* One sending call, with the room in such memory and the store in memory that can't be written. The message is left in `message`, and the
 * room past it must stay. Of the record only the sending state may change, as the rule says; a refused call must leave all of it. */
struct peers_sent send_part(struct state state, enum part part, size_t place, uint32_t id, size_t room, uint8_t message[SENT_MAX]);

/* Each key type with its least and its greatest key length. */
struct key_lengths {
    uint32_t type, least, most;
};
#define KEY_TYPES 5
extern const struct key_lengths key_lengths[KEY_TYPES];

bool is_key_type(uint64_t number);

/* Messages. */
size_t put_int(uint8_t *to, uint64_t value);
size_t put_message(uint8_t *to, uint8_t kind, const uint8_t *body, size_t len);
void define(struct state state, uint32_t id, const char *name, uint8_t key_type, uint8_t key_len, uint32_t types);
void update(struct state state, uint32_t id, const void *key, size_t key_len, const uint64_t *values, size_t count);
void timed_update(struct state state, uint32_t id, uint32_t time, const void *key, size_t key_len, const uint64_t *values, size_t count);

/* Groups of tests. */
void test_layout(const char *file);
void test_bytes(void);
void test_texts(const char *file);
void test_opening(void);
void test_definition(void);
void test_sending(void);
void test_unsound(void);
void test_random(void);
void test_freeing(void);

#endif
