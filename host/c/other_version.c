/* A stand-in for an archive of another version: no call but that of the version may be made. */
#include "peers.h"
#include <stdlib.h>

uint32_t peers_version(void) { return (PEERS_VERSION + 1) * UINT32_C(65536) + PEERS_LAYOUT; }

struct peers_store peers_empty_store(void) { abort(); }

struct peers_opened peers_open_answerer(const uint8_t *local, size_t local_len, const uint8_t *remote, size_t remote_len,
                                        uint8_t *room, size_t room_len) {
    (void)local, (void)local_len, (void)remote, (void)remote_len, (void)room, (void)room_len;
    abort();
}

struct peers_opened peers_open_caller(const uint8_t *local, size_t local_len, const uint8_t *remote, size_t remote_len,
                                      uint32_t process, uint32_t relative, uint8_t *room, size_t room_len) {
    (void)local, (void)local_len, (void)remote, (void)remote_len, (void)process, (void)relative, (void)room, (void)room_len;
    abort();
}

struct peers_outcome peers_read(struct peers_session *session, struct peers_store *store, const uint8_t *piece, size_t piece_len,
                                uint8_t *room, size_t room_len) {
    (void)session, (void)store, (void)piece, (void)piece_len, (void)room, (void)room_len;
    abort();
}

uint32_t peers_pass_time(struct peers_store *store, uint32_t milliseconds) {
    (void)store, (void)milliseconds;
    abort();
}

struct peers_sent peers_send_definition(struct peers_session *session, const struct peers_store *store, size_t place, uint32_t id,
                                        uint8_t *room, size_t room_len) {
    (void)session, (void)store, (void)place, (void)id, (void)room, (void)room_len;
    abort();
}

struct peers_sent peers_send_entry(struct peers_session *session, const struct peers_store *store, size_t place, uint32_t id,
                                   uint8_t *room, size_t room_len) {
    (void)session, (void)store, (void)place, (void)id, (void)room, (void)room_len;
    abort();
}
