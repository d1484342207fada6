/* Key types and key lengths of a definition that a shorter number would take for one in range, and every key length from 0 to 69. Those next
 * to the limits, and names, are in second/data/key-types.script and names.script. */
#include "test.h"

/* The number that a definition with these fields is answered with, on a new record and store. */
static uint32_t answer(struct state state, uint64_t type, uint64_t key_len) {
    uint8_t body[40] = {1, 1, 't'}, message[50], reply[12];
    size_t len = 3;
    len += put_int(body + len, type);
    len += put_int(body + len, key_len);
    body[len++] = 0;
    size_t whole = put_message(message, 130, body, len);
    establish(state);
    struct peers_outcome outcome = call(state, message, whole, 12, reply);
    /* the failing field's offset, or the table's place */
    uint64_t expected = outcome.number == PEERS_TABLE ? 0 : is_key_type(type) ? 3 + put_int(body, type) : 3;
    CHECK(outcome.taken == whole && outcome.values[0] == expected);
    return outcome.number;
}

static void key_lengths_of(struct state state, const struct key_lengths *kind) {
    const struct peers_table *table = &state.store->tables[0];
    for (uint32_t key_len = 0; key_len < 70; key_len++) {
        bool taken = kind->least <= key_len && key_len <= kind->most;
        CHECK(answer(state, kind->type, key_len) == (taken ? PEERS_TABLE : PEERS_REFUSED_RANGE));
        if (taken) CHECK(table->held == 1 && table->key_type == kind->type && table->key_len == key_len);
    }
    for (uint64_t more = 256; more != 0; more *= 256) {
        CHECK(answer(state, kind->type, kind->least + more) == PEERS_REFUSED_RANGE);
        CHECK(answer(state, kind->type, kind->most + more) == PEERS_REFUSED_RANGE);
        CHECK(answer(state, kind->type + more, kind->most) == PEERS_REFUSED_RANGE);
    }
    CHECK(answer(state, kind->type + (UINT64_C(1) << 63), kind->most) == PEERS_REFUSED_RANGE);
}

void test_definition(void) {
    struct state state = lend_state();
    for (size_t i = 0; i < KEY_TYPES; i++) key_lengths_of(state, &key_lengths[i]);
    for (uint64_t type = 0; type < 300; type++)
        if (!is_key_type(type)) CHECK(answer(state, type, 4) == PEERS_REFUSED_RANGE);
    give_back_state(state);
}
