/* Interfaces that are about several nodes: what is selected, and what matches a rule. */
#include "inside.h"
#include <string.h>

/* ---- Selection */

TELLS(has_items, has_flag(v, id, AK_CONTAINER_WITH_SELECTABLE_CHILDREN))
static GArray *selected_items(request *r) {
    GArray *items = read_ids(r->now, r->id, AK_LIST_ITEMS);
    for (guint i = items->len; i-- > 0;)
        if (!is_selected(r->now, AT(items, i))) g_array_remove_index(items, i);
    return items;
}

/* The selected item with the number that a client gives. */
static ak_id given_item(request *r) {
    g_autoptr(GArray) items = selected_items(r);
    return r->numbers[0] >= 0 && r->numbers[0] < items->len ? AT(items, r->numbers[0]) : NOBODY;
}

/* An item is selected, or not any more, by a click. */
static GVariant *click_unless(request *r, ak_id item, bool is_so) {
    if (is_selected(r->now, item) == is_so || !has_flag(r->now, item, AK_CLICKABLE)) return FALSE_ANSWER;
    r->id = item;
    return ask_application(r, AK_ATSPI_CLICK);
}

ANSWERS(get_selected_count, count_answer(selected_items(r)))
ANSWERS(get_selected_child, reference(r->adapter, given_item(r)))
ANSWERS(is_child_selected, g_variant_new_boolean(is_selected(r->now, child_at(r, r->numbers[0]))))
ANSWERS(select_child, click_unless(r, child_at(r, r->numbers[0]), true))
ANSWERS(deselect_child, click_unless(r, child_at(r, r->numbers[0]), false))
ANSWERS(deselect_selected_child, click_unless(r, given_item(r), false))
ANSWERS(refuse, FALSE_ANSWER)
const method selection_members[] = {
    {"NSelectedChildren", NULL, "i", get_selected_count}, {"GetSelectedChild", "i", "(so)", get_selected_child},
    {"IsChildSelected", "i", "b", is_child_selected}, {"SelectChild", "i", "b", select_child}, {"DeselectChild", "i", "b", deselect_child},
    {"DeselectSelectedChild", "i", "b", deselect_selected_child}, {"SelectAll", "", "b", refuse}, {"ClearSelection", "", "b", refuse}, END};

/* ---- Collection */

enum { MATCH_ALL = 1, MATCH_ANY = 2, MATCH_NONE = 3, MATCH_EMPTY = 4, SORT_REVERSE = 4 };

/* What a client wants, and how each has to be there. */
typedef struct {
    uint64_t states[2], roles[4];
    GVariant *attributes, *interfaces;
    int of_states, of_roles, of_attributes, of_interfaces;
    gboolean is_inverted;
} rule;

/* Bits that a client gives by words of 32, by words of 64. */
static void read_bits(GVariant *list, uint64_t *words, size_t count) {
    int32_t word;
    for (size_t i = 0; i < count; i++) words[i] = 0;
    for (size_t i = 0; i < MIN(g_variant_n_children(list), 2 * count); i++) {
        g_variant_get_child(list, i, "i", &word);
        words[i / 2] |= (uint64_t)(uint32_t)word << i % 2 * 32;
    }
    g_variant_unref(list);
}

#define BIT_COUNT(word) (size_t)__builtin_popcountll(word)

/* A node has so many of those that are wanted, and so many in all. */
static bool is_match(int how, size_t has, size_t wanted, size_t in_all) {
    switch (how) {
    case MATCH_ALL: return has == wanted;
    case MATCH_ANY: return has > 0 || wanted == 0;
    case MATCH_NONE: return has == 0;
    case MATCH_EMPTY: return wanted > 0 ? has == wanted : in_all == 0;
    default: return true;
    }
}

static bool match_interfaces(const rule *wanted, const view *v, ak_id id) {
    const char *name;
    GVariantIter iter;
    size_t count = g_variant_iter_init(&iter, wanted->interfaces), has = 0;
    while (g_variant_iter_next(&iter, "&s", &name))
        for (const interface *it = interfaces; it->name; it++)
            has += g_ascii_strcasecmp(it->name + strlen(SPI), name) == 0 && it->is_of(v, id);
    return is_match(wanted->of_interfaces, has, count, 1);
}

/* An attribute is wanted with one of several values, with colons between. */
static bool match_attributes(const rule *wanted, const view *v, ak_id id) {
    const char *name, *values, *value;
    GVariantIter iter;
    size_t count = g_variant_iter_init(&iter, wanted->attributes), has = 0;
    if (count == 0) return true;
    g_autoptr(GVariant) found = g_variant_ref_sink(attributes_of(v, id));
    while (g_variant_iter_next(&iter, "{&s&s}", &name, &values)) {
        g_auto(GStrv) each = g_strsplit(values, ":", -1);
        has += g_variant_lookup(found, name, "&s", &value) && g_strv_contains((const char *const *)each, value);
    }
    return is_match(wanted->of_attributes, has, count, 1);
}

static bool matches(const rule *wanted, const view *v, ak_id id) {
    unsigned role = role_of(v, id);
    size_t roles = 0, has = wanted->roles[role / 64] >> role % 64 & 1;
    for (int i = 0; i < 4; i++) roles += BIT_COUNT(wanted->roles[i]);
    /* (a node has one role) */
    bool fits = is_match(wanted->of_roles == MATCH_ALL ? MATCH_ANY : wanted->of_roles, has, roles, 1);
    if (fits) {
        uint64_t states = states_of(v, id);
        fits = is_match(wanted->of_states, BIT_COUNT(states & wanted->states[0]), BIT_COUNT(wanted->states[0]), BIT_COUNT(states)) &&
               match_interfaces(wanted, v, id) && match_attributes(wanted, v, id);
    }
    return fits != wanted->is_inverted;
}

/* All below a node that matches, in the order of the tree. */
static GArray *collect(const rule *wanted, const view *v, ak_id top) {
    GArray *found = read_ids(v, top, AK_LIST_FILTERED_DESCENDANTS);
    guint count = 0;
    for (guint i = 0; i < found->len; i++)
        if (matches(wanted, v, AT(found, i))) AT(found, count++) = AT(found, i);
    return g_array_set_size(found, count);
}

static GVariant *get_matches(request *r) {
    rule wanted;
    GVariant *states, *roles;
    uint32_t sort;
    int32_t most;
    gboolean traverse;
    g_variant_get(r->given, "((@aii@a{ss}i@aii@asib)uib)", &states, &wanted.of_states, &wanted.attributes, &wanted.of_attributes, &roles,
                  &wanted.of_roles, &wanted.interfaces, &wanted.of_interfaces, &wanted.is_inverted, &sort, &most, &traverse);
    read_bits(states, wanted.states, G_N_ELEMENTS(wanted.states));
    read_bits(roles, wanted.roles, G_N_ELEMENTS(wanted.roles));
    g_autoptr(GArray) found = collect(&wanted, r->now, r->id);
    GArray *answer = new_ids();
    g_variant_unref(wanted.attributes);
    g_variant_unref(wanted.interfaces);
    guint count = most > 0 ? MIN((guint)most, found->len) : found->len;
    for (guint i = 0; i < count; i++) g_array_append_val(answer, AT(found, sort == SORT_REVERSE ? found->len - 1 - i : i));
    return references(r->adapter, answer);
}

ANSWERS(get_active_descendant, reference(r->adapter, FOUND(node_relative, r->now, ID(r->id), AK_RELATIVE_ACTIVE_DESCENDANT, FILTER)))
const method collection_members[] = {
    {"GetMatches", "(aiia{ss}iaiiasib)uib", "a(so)", get_matches}, {"GetActiveDescendant", "", "(so)", get_active_descendant}, END};
