/* The two states of an update, by a second tree that is an update behind. */
#include "states.h"

gboolean equal_ids(gconstpointer one, gconstpointer other) {
    const ak_id *it = one, *at = other;
    return it->node == at->node && it->tree == at->tree;
}

bool states_open(states *it, ak_tree *tree) {
    it->tree = tree;
    it->rows = g_hash_table_new_full(g_int64_hash, equal_ids, g_free, NULL);
    it->behind = AK_TREE_CLOSED;
    it->lag = g_string_new(NULL);
    return ak_tree_open(&it->behind) == AK_DONE;
}

void states_close(states *it) {
    ak_tree_close(&it->behind);
    g_string_free(it->lag, TRUE);
    g_hash_table_unref(it->rows);
}

view states_now(states *it) {
    return (view){it->tree, it->rows};
}

/* The second tree comes to where the first one is. */
static void catch_up(states *it) {
    ak_stop stop;
    if (it->lag->len > 0) ak_tree_feed(&it->behind, (const uint8_t *)it->lag->str, it->lag->len, &stop);
    g_string_truncate(it->lag, 0);
}

uint8_t states_feed(states *it, const uint8_t *lines, size_t length, ak_stop *stop, teller tell, void *adapter) {
    catch_up(it);
    g_hash_table_remove_all(it->rows);
    uint8_t answer = ak_tree_feed(it->tree, lines, length, stop);
    if (answer == AK_BAD_LINE || answer == AK_CLOSED) return answer;
    g_string_append_len(it->lag, (const char *)lines, (gssize)length);
    view before = {&it->behind, NULL}, now = states_now(it);
    tell(adapter, &before, &now);
    return answer;
}
