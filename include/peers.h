/*
 * libpeers: a receiver of stick tables over the HAProxy peers protocol, 2.1, that can teach its tables to another.
 *
 * The host owns sockets and timers. It keeps one struct peers_session for each connection and one struct peers_store, and lends
 * both to peers_read with the bytes that came. On its ticks it lends the store to peers_pass_time. To teach a peer it lends both to
 * peers_send_definition and peers_send_entry, a message at a time. Every call is defined on every content of what is lent, ends, allocates
 * nothing and keeps nothing between calls.
 *
 * The host's duties: each pointer points to as much memory as its type or the length after it says (an empty one too points to
 * somewhere); what is lent to one call doesn't overlap; no other thread touches it during the call. A reading call takes 75 KB of
 * stack, sending 52 KB, passing time 52 KB, an empty store by value 48 KB, opening 3 KB.
 *
 * No struct has padding: its bytes are those of its fields. So a record, a store, an outcome and what opening and sending give back can be
 * compared with memcmp, hashed, or saved as bytes and lent again to an archive of the same PEERS_VERSION and PEERS_LAYOUT. Bytes that have no
 * meaning are compared too: calls write zeros there, but a place that the host freed keeps what it held.
 *
 * A store that was kept from an older archive may be refused with 4 in every call, or its keys may be taken for another type: start with an
 * empty store and resynchronise.
 */
#ifndef PEERS_H
#define PEERS_H

#include <stddef.h>
#include <stdint.h>

#ifdef __cplusplus
extern "C" {
#endif

/* ---- version */

#define PEERS_VERSION 7 /* of the calls: their names, parameters, numbers and meaning */
#define PEERS_LAYOUT 5  /* of the structs: their fields, order and sizes */

/* The archive's version times 65,536 plus its layout. */
uint32_t peers_version(void);

/* Whether the archive is of this header. Ask it once, before the first call: with another archive no other call is defined. */
static inline int peers_matches(void) { return peers_version() == PEERS_VERSION * UINT32_C(65536) + PEERS_LAYOUT; }

/* ---- limits */

#define PEERS_TABLES 8           /* places for tables */
#define PEERS_ENTRIES 128        /* places for entries */
#define PEERS_NAME_MAX 32        /* bytes of a table's or a peer's name */
#define PEERS_KEY_MAX 64         /* bytes of a key */
#define PEERS_RATES 8            /* data types that are rates */
#define PEERS_VALUES 34          /* integers of an entry, the server ID aside */
#define PEERS_UNFINISHED_MAX 1027 /* unfinished bytes */
#define PEERS_BUFFER 1032        /* bytes of a record's buffer: five more, so that the record has no padding */
#define PEERS_OPENING_ROOM 101   /* room that opening asks for */
#define PEERS_READING_ROOM 12    /* room that a reading call asks for */
#define PEERS_SEND_ROOM 1036     /* room that a sending call asks for */

/*
 * ---- the store: fields are read directly; a store of zeros is empty
 *
 * `counts` says how many held entries each table has, so that nobody walks the entries for it. Calls keep it and test it: a store in which
 * one of the 8 counts isn't the number that walking finds, 0 at a free place, is refused with 4.
 *
 * Between two calls the host may free an entry: its `held` becomes 0, and the count of its table (`counts[entry.table]`) one less:
 *
 *     if (store.entries[place].held) {
 *         store.entries[place].held = 0;
 *         store.counts[store.entries[place].table]--;
 *     }
 *
 * Where the count is left as it was, or is lowered for a place that isn't held, every later call is refused with 4. Entries whose time is
 * over are freed by peers_pass_time, with their counts. A table may be freed by its `held` only where none of its entries is held, so that
 * its count is 0, and no record in use has it bound or updated, or defined it last. Such a record would be refused with 4 while the place
 * is free. Once another table takes the place, its next update would be committed there, to the wrong table, and acknowledged, and the
 * other table's entries would be sent to the peer as those of the one that it was told of. So free the table's entries first, and give each
 * connection that has it bound or updated, or defined it last (`bindings[place]`, and `sending.defined` of place plus 1), a new record
 * before the next call.
 */

/* The numbers that peers send, with the key lengths that a table of this type may have. */
enum peers_key_type {
    PEERS_KEY_INTEGER = 2, /* keys of 4 bytes */
    PEERS_KEY_IPV4 = 4,    /* of 4 */
    PEERS_KEY_IPV6 = 5,    /* of 16 */
    PEERS_KEY_STRING = 6,  /* of 1 to PEERS_KEY_MAX, the largest of its keys */
    PEERS_KEY_BINARY = 7   /* of 1 to PEERS_KEY_MAX */
};

/* Data type t is bit t of a table's data types. */
enum peers_data_type {
    PEERS_SERVER_ID = 0,
    PEERS_GPT0 = 1,
    PEERS_GPC0 = 2,
    PEERS_GPC0_RATE = 3,
    PEERS_CONN_CNT = 4,
    PEERS_CONN_RATE = 5,
    PEERS_CONN_CUR = 6,
    PEERS_SESS_CNT = 7,
    PEERS_SESS_RATE = 8,
    PEERS_HTTP_REQ_CNT = 9,
    PEERS_HTTP_REQ_RATE = 10,
    PEERS_HTTP_ERR_CNT = 11,
    PEERS_HTTP_ERR_RATE = 12,
    PEERS_BYTES_IN_CNT = 13,
    PEERS_BYTES_IN_RATE = 14,
    PEERS_BYTES_OUT_CNT = 15,
    PEERS_BYTES_OUT_RATE = 16,
    PEERS_GPC1 = 17,
    PEERS_GPC1_RATE = 18
};

/* The place in an entry's values of each data type but the server ID. A rate has three: elapsed milliseconds, current count, previous
 * count. */
enum peers_slot {
    PEERS_SLOT_GPT0 = 0,
    PEERS_SLOT_GPC0 = 1,
    PEERS_SLOT_GPC0_RATE = 2,
    PEERS_SLOT_CONN_CNT = 5,
    PEERS_SLOT_CONN_RATE = 6,
    PEERS_SLOT_CONN_CUR = 9,
    PEERS_SLOT_SESS_CNT = 10,
    PEERS_SLOT_SESS_RATE = 11,
    PEERS_SLOT_HTTP_REQ_CNT = 14,
    PEERS_SLOT_HTTP_REQ_RATE = 15,
    PEERS_SLOT_HTTP_ERR_CNT = 18,
    PEERS_SLOT_HTTP_ERR_RATE = 19,
    PEERS_SLOT_BYTES_IN_CNT = 22,
    PEERS_SLOT_BYTES_IN_RATE = 23,
    PEERS_SLOT_BYTES_OUT_CNT = 26,
    PEERS_SLOT_BYTES_OUT_RATE = 27,
    PEERS_SLOT_GPC1 = 30,
    PEERS_SLOT_GPC1_RATE = 31
};

/* The place in a table's periods of each rate. */
enum peers_period {
    PEERS_PERIOD_GPC0_RATE = 0,
    PEERS_PERIOD_CONN_RATE = 1,
    PEERS_PERIOD_SESS_RATE = 2,
    PEERS_PERIOD_HTTP_REQ_RATE = 3,
    PEERS_PERIOD_HTTP_ERR_RATE = 4,
    PEERS_PERIOD_BYTES_IN_RATE = 5,
    PEERS_PERIOD_BYTES_OUT_RATE = 6,
    PEERS_PERIOD_GPC1_RATE = 7
};

struct peers_table {
    uint32_t held;       /* 1 for a held table, 0 for a free place */
    uint32_t key_type;   /* enum peers_key_type */
    uint32_t timed;      /* 1 where expiry and periods are known */
    uint32_t data_types; /* bits 0 to 18 */
    size_t name_len;
    uint32_t key_len;    /* for strings the largest */
    uint32_t expiry;     /* milliseconds */
    uint32_t periods[PEERS_RATES]; /* milliseconds, of the rates among the data types */
    uint8_t name[PEERS_NAME_MAX]; /* the first `name_len`: letters and digits of ASCII, . _ - / and : */
};

struct peers_entry {
    uint32_t held;      /* 1 for a held entry, 0 for a free place */
    int32_t server_id;  /* if the table has PEERS_SERVER_ID */
    uint32_t timed;     /* 1 where the entry has a remaining time */
    uint32_t remaining; /* milliseconds, as of the last peers_pass_time; not looked at where `timed` is 0 */
    size_t table;       /* the table's place */
    size_t key_len;
    uint8_t key[PEERS_KEY_MAX];
    uint64_t values[PEERS_VALUES]; /* of the table's data types, by enum peers_slot */
};

struct peers_store {
    struct peers_table tables[PEERS_TABLES];
    uint32_t counts[PEERS_TABLES]; /* how many held entries the table at the same place has; 0 at a free place */
    struct peers_entry entries[PEERS_ENTRIES];
};

/* ---- the session record */

enum peers_phase {
    PEERS_AWAITING_HELLO = 0,
    PEERS_AWAITING_STATUS = 1,
    PEERS_ESTABLISHED = 2
};

/* What the session knows of the table at the same place of the store. */
struct peers_binding {
    uint32_t bound;    /* 1 where `id` is bound to the table */
    uint32_t updated;  /* 1 where the table had an update in this session */
    uint32_t id;       /* the sender's ID of the table */
    uint32_t previous; /* the last committed update ID */
};

struct peers_connection {
    uint32_t phase;   /* enum peers_phase */
    uint32_t closed;  /* 1 for a closed session */
    uint32_t number;  /* what it was closed with: 0 after the peer's error message, else enum peers_refusal. An open record has 0 here; with
                         another number, or closed with one that closes no session, it is refused with 4 */
    uint32_t current; /* 0 without a current table, else its place plus 1 */
    size_t local_len;
    size_t remote_len;
    uint8_t local[PEERS_NAME_MAX];  /* our name */
    uint8_t remote[PEERS_NAME_MAX]; /* the accepted peer's name */
    struct peers_binding bindings[PEERS_TABLES];
};

/* The sending state between two calls. A record whose `defined` names a table that isn't held, or is above PEERS_TABLES, or whose `sent` is
 * above 1, is refused with 4; a last ID without a table defined last is allowed, and has no effect. */
struct peers_sending {
    size_t defined; /* 0 where no table was defined to the peer, else the place of the one defined last plus 1 */
    uint32_t sent;  /* 1 where an entry was sent since that definition */
    uint32_t last;  /* the last one's update ID */
};

/* Reading leaves `sending` as it is, and sending leaves all else. The bytes of `buffer` past `len` aren't looked at, and a call that takes
 * bytes leaves zeros there. The record of a refused opening is all zeros but for `closed` and `number`; with another byte in its buffer or
 * in `sending` it is refused with 4. */
struct peers_session {
    struct peers_connection connection;
    size_t len; /* how many bytes of `buffer` are unfinished, at most PEERS_UNFINISHED_MAX */
    uint8_t buffer[PEERS_BUFFER];
    struct peers_sending sending;
};

/* ---- answers */

/* An answer's number, with its values in their order. A refusal's number is its own: enum peers_refusal. */
enum peers_answer {
    PEERS_MORE = 256,           /* more bytes are wanted */
    PEERS_HELLO = 257,          /* the peer's process number, its relative process number */
    PEERS_STATUS = 258,
    PEERS_REQUEST = 259,
    PEERS_FINISHED = 260,
    PEERS_PARTIAL = 261,
    PEERS_CONFIRMED = 262,
    PEERS_HEARTBEAT = 263,
    PEERS_ERROR = 264,          /* its type; the session is closed with 0 */
    PEERS_TABLE = 265,          /* the table's place */
    PEERS_SWITCH = 266,         /* the table's place */
    PEERS_UPDATE = 267,         /* the table's place, the update ID, the entry's place, 0 for a new entry or 1 for a replaced one */
    PEERS_ACKNOWLEDGEMENT = 268, /* the table's ID, the update ID */
    PEERS_SKIPPED = 269         /* its type */
};

/*
 * PEERS_REFUSED_CUT, PEERS_REFUSED_RANGE and PEERS_REFUSED_TABLE_NAME have one value: the offset in the message's body, from 0, at which
 * the failing field starts. A field is one integer, also a length, a 4-byte update ID or a 4-byte remaining time, or the bytes of a name or
 * a key; where no byte of it is there, the offset is the body's length. Other refusals have no value, and the closed record has the number
 * alone.
 */
enum peers_refusal {
    PEERS_REFUSED_ROOM = 1,       /* too little room; nothing changed */
    PEERS_REFUSED_CLOSED = 2,     /* the session is closed; nothing changed */
    PEERS_REFUSED_NAME = 3,       /* opening: a name outside the rule */
    PEERS_REFUSED_UNSOUND = 4,    /* record or store hold what the rules don't allow; nothing changed */
    PEERS_REFUSED_HELLO = 10,     /* from here to 30 the session is closed with this number */
    PEERS_REFUSED_VERSION = 11,
    PEERS_REFUSED_ADDRESSED = 12, /* the hello is for another peer */
    PEERS_REFUSED_SENDER = 13,    /* the hello is from another peer */
    PEERS_REFUSED_STATUS = 14,    /* the peer refused us */
    PEERS_REFUSED_STATUS_FORM = 15,
    PEERS_REFUSED_HEADER = 20,    /* unknown class or type */
    PEERS_REFUSED_LENGTH = 21,    /* the body's length overflows */
    PEERS_REFUSED_SIZE = 22,      /* the body is over 1,024 bytes */
    PEERS_REFUSED_CUT = 23,       /* the body ends before a field is whole; its value says which */
    PEERS_REFUSED_RANGE = 24,     /* a field overflows or is out of range; its value says which */
    PEERS_REFUSED_DISAGREES = 25, /* the held table of this name is another */
    PEERS_REFUSED_TABLES = 26,    /* a new name, and all table places are held */
    PEERS_REFUSED_UNBOUND = 27,   /* no current table, or a switch to an unbound ID */
    PEERS_REFUSED_PREVIOUS = 28,  /* an incremental update without a previous ID */
    PEERS_REFUSED_ENTRIES = 29,   /* a new key, and all entry places are held */
    PEERS_REFUSED_TABLE_NAME = 30, /* a table name with a byte that isn't a letter, a digit or one of . _ - / : */
    PEERS_REFUSED_SEND_ROOM = 31, /* from here on only by sending, which closes nothing: too little room; nothing changed */
    PEERS_REFUSED_PLACE = 32,     /* the table place isn't held, or the entry place isn't of the table defined last; nothing changed */
    PEERS_REFUSED_HANDSHAKE = 34  /* the handshake is unfinished; nothing changed */
};

/* What opening and reading give back. */
struct peers_outcome {
    size_t taken;       /* bytes of the piece that were taken */
    size_t reply_len;   /* bytes at the front of the room that go to the peer */
    uint32_t number;    /* the answer: enum peers_answer, or enum peers_refusal */
    uint32_t count;     /* how many values the answer has */
    uint64_t values[4]; /* zeros after them */
};

struct peers_opened {
    struct peers_session session;
    struct peers_outcome outcome;
};

/* What a sending call gives back. */
struct peers_sent {
    uint32_t number; /* 0, or the refusal: enum peers_refusal */
    uint32_t len;    /* bytes of the message at the front of the room, which go to the peer; 0 where it is refused */
};

/* ---- calls */

/* A store without tables and entries. */
struct peers_store peers_empty_store(void);

/*
 * Opens a session that reads the peer's hello. `local` is our name and `remote` the one accepted peer's, each 1 to 32 bytes from 33 to
 * 126. The room is PEERS_OPENING_ROOM bytes or more, and stays as it is.
 * Answers PEERS_MORE, or PEERS_REFUSED_ROOM or PEERS_REFUSED_NAME with a closed session.
 */
struct peers_opened peers_open_answerer(const uint8_t *local, size_t local_len, const uint8_t *remote, size_t remote_len,
                                        uint8_t *room, size_t room_len);

/*
 * Opens a session that reads the peer's status. The hello for the peer, with our two process numbers, is left at the front of the room.
 * Names, room and answers are as above.
 */
struct peers_opened peers_open_caller(const uint8_t *local, size_t local_len, const uint8_t *remote, size_t remote_len,
                                      uint32_t process, uint32_t relative, uint8_t *room, size_t room_len);

/*
 * Takes bytes up to the end of one message, or up to the byte that shows a refusal, or all of them, and leaves the new state in session
 * and store. The reply goes to the front of the room, PEERS_READING_ROOM bytes or more; the rest of it stays as it is.
 * The host offers untaken bytes again until all are taken or the session is closed.
 */
struct peers_outcome peers_read(struct peers_session *session, struct peers_store *store, const uint8_t *piece, size_t piece_len,
                                uint8_t *room, size_t room_len);

/*
 * Passes so many milliseconds: entries with at most so many remaining are freed and their tables' counts lowered, the times of the others
 * are lowered by them, and entries without a remaining time stay. 0 milliseconds free the entries with 0 remaining. Returns 0, or
 * PEERS_REFUSED_UNSOUND on a store that holds what the rules don't allow; that store stays as it is.
 *
 * Only the store is lent: tables stay, and every record, open or closed, goes on as it was. A freed place has zeros, as in an empty store,
 * and a new key takes the lowest free place.
 *
 * A host calls it on its ticks with the time since the last tick, once for each store, whatever connections there are. Several calls leave
 * what one call with their sum leaves, if that fits 32 bits; UINT32_MAX frees every entry that has a time, so any longer time is passed as
 * that. An entry's time is that of its last update: a timed update brings its own, any other takes the expiry that its table has at that
 * moment, or none where the table has none.
 *
 * What a store holds follows from the bytes that were taken and from the times between them: an audit that replays a connection needs both,
 * each time with the number of bytes taken before it.
 */
uint32_t peers_pass_time(struct peers_store *store, uint32_t milliseconds);

/*
 * Writes one whole message for the peer to the front of the room, PEERS_SEND_ROOM bytes or more; the rest of it stays as it is. Messages and
 * replies go to the peer in the order of their calls, at once or collected. peers_send_definition writes the definition of the table at a place, with its expiry and periods where it has them, under
 * the table ID that the host gives. peers_send_entry writes the entry at a place, which is of the table defined last, under the update ID that
 * the host gives, and with its remaining time, if it has one. The first entry after a definition goes with its ID; a later one goes without
 * it where the ID is the last one's plus 1 (0 after 4294967295). A peer that reads the messages commits and acknowledges each entry
 * (PEERS_ACKNOWLEDGEMENT, which needs no reply).
 *
 * Refused, in this order, with PEERS_REFUSED_UNSOUND, PEERS_REFUSED_CLOSED, PEERS_REFUSED_SEND_ROOM, PEERS_REFUSED_HANDSHAKE, and
 * PEERS_REFUSED_PLACE: a table place that isn't held; an entry place that isn't held, or isn't of the table defined last, or where none
 * was defined. A refused call writes nothing, changes nothing and closes nothing. Places and IDs may be any numbers.
 *
 * The store stays as it is, and of the record all but `sending`: a message that is read in part, the role and what was read don't matter.
 * To teach a store: each held table, and after it its entries in the order of their places. No other call may change the store from the
 * first message to the last.
 */
struct peers_sent peers_send_definition(struct peers_session *session, const struct peers_store *store, size_t place, uint32_t id,
                                        uint8_t *room, size_t room_len);
struct peers_sent peers_send_entry(struct peers_session *session, const struct peers_store *store, size_t place, uint32_t id,
                                   uint8_t *room, size_t room_len);

/* ---- text for numbers */

/* What a refusal's number means, and the 0 that a session is closed with after the peer's error message. */
static inline const char *peers_refusal_text(uint32_t number) {
    switch (number) {
    case 0: return "closed by the peer's error message";
    case PEERS_REFUSED_ROOM: return "too little room for a reply";
    case PEERS_REFUSED_CLOSED: return "the session is closed";
    case PEERS_REFUSED_NAME: return "a name outside the rule";
    case PEERS_REFUSED_UNSOUND: return "record or store hold what the rules don't allow";
    case PEERS_REFUSED_HELLO: return "the hello is malformed";
    case PEERS_REFUSED_VERSION: return "the hello's version is unknown";
    case PEERS_REFUSED_ADDRESSED: return "the hello is for another peer";
    case PEERS_REFUSED_SENDER: return "the hello is from another peer";
    case PEERS_REFUSED_STATUS: return "the peer refused us";
    case PEERS_REFUSED_STATUS_FORM: return "the status is malformed";
    case PEERS_REFUSED_HEADER: return "unknown class or type";
    case PEERS_REFUSED_LENGTH: return "the body's length overflows";
    case PEERS_REFUSED_SIZE: return "the body is over 1,024 bytes";
    case PEERS_REFUSED_CUT: return "the body ends before a field is whole";
    case PEERS_REFUSED_RANGE: return "a field overflows or is out of range";
    case PEERS_REFUSED_DISAGREES: return "the held table of this name is another";
    case PEERS_REFUSED_TABLES: return "a new name, and all table places are held";
    case PEERS_REFUSED_UNBOUND: return "no current table, or a switch to an unbound ID";
    case PEERS_REFUSED_PREVIOUS: return "an incremental update without a previous ID";
    case PEERS_REFUSED_ENTRIES: return "a new key, and all entry places are held";
    case PEERS_REFUSED_TABLE_NAME: return "a table name with a byte that isn't a letter, a digit or one of . _ - / :";
    case PEERS_REFUSED_SEND_ROOM: return "too little room for a message";
    case PEERS_REFUSED_PLACE: return "the table place isn't held, or the entry place isn't of the table defined last";
    case PEERS_REFUSED_HANDSHAKE: return "the handshake is unfinished";
    default: return "no refusal has this number";
    }
}

/* What an answer's number means, a refusal's too. */
static inline const char *peers_answer_text(uint32_t number) {
    switch (number) {
    case 0: return "no answer has this number";
    case PEERS_MORE: return "more bytes are wanted";
    case PEERS_HELLO: return "hello";
    case PEERS_STATUS: return "status";
    case PEERS_REQUEST: return "resynchronisation requested";
    case PEERS_FINISHED: return "resynchronisation finished";
    case PEERS_PARTIAL: return "resynchronisation finished in part";
    case PEERS_CONFIRMED: return "resynchronisation confirmed";
    case PEERS_HEARTBEAT: return "heartbeat";
    case PEERS_ERROR: return "error message: the session is closed";
    case PEERS_TABLE: return "table defined";
    case PEERS_SWITCH: return "table switched";
    case PEERS_UPDATE: return "entry committed";
    case PEERS_ACKNOWLEDGEMENT: return "acknowledgement";
    case PEERS_SKIPPED: return "message skipped";
    default: return number < PEERS_MORE ? peers_refusal_text(number) : "no answer has this number";
    }
}

#ifdef __cplusplus
}
#endif

#endif
