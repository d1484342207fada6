/* Reads one peer's bytes from standard input as `east`, accepting `west`, and prints the tables, with the number of their entries, and the
 * entries that it holds at the end. */
#include "peers.h"
#include <stdio.h>

static struct peers_store store; /* zeros: empty */

static void print_refusal(const struct peers_outcome *outcome) {
    printf("refused with %u: %s", (unsigned)outcome->number, peers_refusal_text(outcome->number));
    if (outcome->count == 1) printf(" (at offset %u of the body)", (unsigned)outcome->values[0]);
    printf("\n");
}

static void print_name(const struct peers_table *table) { printf("%.*s", (int)table->name_len, (const char *)table->name); }

static void print_table(size_t place) {
    print_name(&store.tables[place]);
    printf(" entries %u\n", (unsigned)store.counts[place]);
}

static void print_entry(const struct peers_entry *entry) {
    const struct peers_table *table = &store.tables[entry->table];
    print_name(table);
    for (size_t i = 0; i < entry->key_len; i++) printf("%s%02X", i ? "" : " ", entry->key[i]);
    if (table->data_types & 1u << PEERS_GPC0) printf(" gpc0 %llu", (unsigned long long)entry->values[PEERS_SLOT_GPC0]);
    printf("\n");
}

int main(void) {
    if (!peers_matches()) {
        fprintf(stderr, "libpeers.a is of another version than peers.h\n");
        return 1;
    }
    uint8_t piece[4096], room[PEERS_OPENING_ROOM];
    struct peers_opened opened = peers_open_answerer((const uint8_t *)"east", 4, (const uint8_t *)"west", 4, room, sizeof room);
    struct peers_session session = opened.session;
    size_t len;
    while (!session.connection.closed && (len = fread(piece, 1, sizeof piece, stdin)) > 0) {
        for (size_t at = 0; at < len && !session.connection.closed;) {
            struct peers_outcome outcome = peers_read(&session, &store, piece + at, len - at, room, sizeof room);
            at += outcome.taken;
            /* a host sends the first outcome.reply_len bytes of the room to the peer here */
            if (outcome.number < PEERS_MORE) print_refusal(&outcome);
            if (outcome.taken == 0) return 1; /* offered again, the bytes would be refused again */
        }
    }
    for (size_t i = 0; i < PEERS_TABLES; i++)
        if (store.tables[i].held) print_table(i);
    for (size_t i = 0; i < PEERS_ENTRIES; i++)
        if (store.entries[i].held) print_entry(&store.entries[i]);
    return 0;
}
