/* What is read of a tree: its state now, or, while an update is told of, that before it and that after it. All that the adapter reads goes
 * through ASK, and all that changes a tree through the functions here. */
#ifndef AK_ATSPI_STATES_H
#define AK_ATSPI_STATES_H
#include "accesskit_proved.h"
#include <glib.h>

/* A state of a tree. Of the present one, where rows of tables that were asked for are (tables.c), which is forgotten at an update. */
typedef struct {
    ak_tree *tree;
    GHashTable *rows;
} view;

/* ASK(node_label, v, ID(id), ..) is ak_node_label of the view's state. FOUND(node_parent, v, ID(id)) is the node that a call finds, or
 * NOBODY, and GIVEN(bool, false, node_flag, v, ..) what a call gives, or else the second argument. */
#define ASK(call, v, ...) ak_##call((v)->tree, __VA_ARGS__)
#define GIVEN(type, nothing, call, v, ...) ({ type given_ = nothing; ak_##call((v)->tree, ##__VA_ARGS__, &given_); given_; })
#define FOUND(call, v, ...) GIVEN(ak_id, NOBODY, call, v, ##__VA_ARGS__)
#define ID(id) (id).node, (id).tree
/* No node, and the application's own object, which is none: whatever the library is asked of them, it has no answer. */
#define NOBODY ((ak_id){0, G_MAXUINT32})
#define APPLICATION ((ak_id){1, G_MAXUINT32})
#define FILTER AK_COMMON_WITH_ROOT

/* A tree, and a second one that is an update behind. */
typedef struct {
    ak_tree *tree;
    ak_tree behind;
    GString *lag; /* the lines that it has still to be fed */
    GHashTable *rows;
} states;

/* Tells what an update changes: both states can be read, and the events of the first tree. */
typedef void (*teller)(void *adapter, const view *before, const view *now);

/* For tables of nodes. They are hashed by the number that is first in an id, by g_int64_hash. */
gboolean equal_ids(gconstpointer one, gconstpointer other);
bool states_open(states *it, ak_tree *tree);
void states_close(states *it);
view states_now(states *it);
uint8_t states_feed(states *it, const uint8_t *lines, size_t length, ak_stop *stop, teller tell, void *adapter);
#endif
