/* What AT-SPI says of a node, by the calls of the library: names, states, attributes, boxes, relations. */
#include "inside.h"
#include <math.h>
#include <string.h>

/* ---- Texts and lists that the library writes */

GString *new_text(void) {
    return g_string_sized_new(240);
}

/* Whether a text that was written needs more room, which it gets; it has an end mark then. */
bool text_grows(GString *t) {
    bool is_longer = t->len >= t->allocated_len;
    if (is_longer) g_string_set_size(t, t->len);
    else t->str[t->len] = 0;
    return is_longer;
}

static uint8_t write_ids(const view *v, ak_id id, int which, GArray *list, size_t *count) {
    ak_id *at = (ak_id *)(void *)list->data;
    if (which == ALL_CHILDREN) return ASK(node_children, v, ID(id), at, list->len, count);
    if (which == SHOWN_CHILDREN) return ASK(node_filtered_children, v, ID(id), FILTER, at, list->len, count);
    return ASK(node_list, v, ID(id), (ak_list)which, FILTER, at, list->len, count);
}

GArray *new_ids(void) {
    return g_array_new(FALSE, FALSE, sizeof(ak_id));
}

/* The children of a node, all or those that it shows, or another list of the library; none where it can't be read. */
GArray *read_ids(const view *v, ak_id id, int which) {
    GArray *list = new_ids();
    size_t count = 24;
    bool is_read;
    do {
        g_array_set_size(list, (guint)count);
        is_read = write_ids(v, id, which, list, &count) == AK_DONE;
    } while (is_read && count > list->len);
    return g_array_set_size(list, is_read ? (guint)count : 0);
}

/* ---- Nodes */

bool is_some(ak_id id) {
    return id.tree != NOBODY.tree;
}

bool is_same(ak_id one, ak_id other) {
    return one.node == other.node && one.tree == other.tree;
}

bool has_flag(const view *v, ak_id id, ak_flag flag) {
    return GIVEN(bool, false, node_flag, v, ID(id), flag);
}

/* A state by its number, or what is said where the node has no such state. */
uint32_t state_value(const view *v, ak_id id, ak_state state, uint32_t otherwise) {
    return GIVEN(uint32_t, otherwise, node_state, v, ID(id), state);
}

/* A number, or 0. (A focused node is shown also where it is clipped, and then it is in no list: its index is 0.) */
size_t count_of(const view *v, ak_id id, ak_count which) {
    return GIVEN(size_t, 0, node_count, v, ID(id), which, FILTER);
}

ak_id shown_parent(const view *v, ak_id id) {
    return FOUND(node_filtered_parent, v, ID(id), FILTER);
}

uint32_t number_of_role(const view *v, ak_id id) {
    return GIVEN(uint32_t, AK_ROLE_UNKNOWN, node_role_number, v, ID(id));
}

TELLS(is_shown, GIVEN(ak_filter_result, AK_EXCLUDE_NODE, node_filter, v, ID(id), FILTER) == AK_INCLUDE)
TELLS(is_there, ASK(node_role_number, v, ID(id), &(uint32_t){0}) == AK_DONE)
/* Whether it is the application's own object. */
TELLS(is_own, is_same(id, APPLICATION))
TELLS(is_object, is_own(v, id) || is_there(v, id))
/* Whether a node is a root that is an application of several windows: then it is the application's object on the bus. */
TELLS(is_application, number_of_role(v, id) == ROLE_NUMBER_APPLICATION && is_same(FOUND(tree_root, v), id))
TELLS(is_selected, state_value(v, id, AK_STATE_SELECTED, false))
/* The children of the application's object. */
GArray *read_windows(const view *v) {
    ak_id root = FOUND(tree_root, v);
    return is_application(v, root) ? read_ids(v, root, SHOWN_CHILDREN) : g_array_append_vals(new_ids(), &root, is_some(root));
}

/* The window that has the focus, while the host has it. */
ak_id active_window(const view *v) {
    ak_id root = GIVEN(bool, false, tree_is_host_focused, v) ? FOUND(tree_root, v) : NOBODY, window = NOBODY;
    if (!is_application(v, root)) return root;
    for (ak_id at = FOUND(tree_focus, v); is_some(at) && !is_same(at, root); at = shown_parent(v, at)) window = at;
    return window;
}

bool is_of_page(const view *v, ak_id id) {
    while (is_some(id) && number_of_role(v, id) != AK_ROLE_ROOT_WEB_AREA) id = FOUND(node_parent, v, ID(id));
    return is_some(id);
}

/* The role, which for a few depends on more than the node's role, as browsers and toolkits have it. */
unsigned role_of(const view *v, ak_id id) {
    uint32_t role = number_of_role(v, id);
    if (is_own(v, id)) return ROLE_APPLICATION;
    if ((role == AK_ROLE_BUTTON || role == AK_ROLE_DEFAULT_BUTTON) && has_flag(v, id, AK_SUPPORTS_TOGGLE)) return ROLE_TOGGLE_BUTTON;
    if (role == AK_ROLE_MULTILINE_TEXT_INPUT && is_of_page(v, id)) return ROLE_ENTRY;
    if (role == AK_ROLE_MENU_ITEM && number_of_role(v, FOUND(node_child_at, v, ID(id), FILTER, 0)) == AK_ROLE_MENU) return ROLE_MENU;
    if (role == AK_ROLE_MENU && number_of_role(v, shown_parent(v, id)) == AK_ROLE_MENU_ITEM) return ROLE_FILLER;
    return atspi_role(role);
}

/* The states of toggles, selections and what opens, which aren't flags. */
static uint64_t chosen_states(const view *v, ak_id id, uint64_t flags) {
    uint64_t states = is_selected(v, id) ? BIT(STATE_SELECTED) : 0;
    uint32_t choice, axis = state_value(v, id, AK_STATE_ORIENTATION, G_MAXUINT32);
    bool is_set, is_button = HAS(flags, AK_SUPPORTS_TOGGLE) && role_of(v, id) == ROLE_TOGGLE_BUTTON;
    uint32_t toggled = state_value(v, id, AK_STATE_TOGGLED, AK_TOGGLED_FALSE);
    if (HAS(flags, AK_SUPPORTS_TOGGLE) && !is_button) states |= BIT(STATE_CHECKABLE);
    if (toggled == AK_TOGGLED_MIXED) states |= BIT(STATE_INDETERMINATE);
    if (toggled == AK_TOGGLED_TRUE) states |= BIT(is_button ? STATE_PRESSED : STATE_CHECKED);
    /* (what only opens something, as a menu's item, is never said to be collapsed) */
    if (ASK(field_flag, v, ID(id), AK_FIELD_EXPANDED, &is_set) == AK_DONE)
        states |= BIT(STATE_EXPANDABLE) | (is_set ? BIT(STATE_EXPANDED) : 0);
    if (ASK(field_choice, v, ID(id), AK_FIELD_HAS_POPUP, &choice) == AK_DONE) states |= BIT(STATE_HAS_POPUP);
    if (axis == AK_ORIENTATION_HORIZONTAL) states |= BIT(STATE_HORIZONTAL);
    if (axis == AK_ORIENTATION_VERTICAL) states |= BIT(STATE_VERTICAL);
    return states;
}

/* Which state each flag is. */
static const struct {
    uint8_t flag, state;
} flag_states[] = {{AK_REQUIRED, STATE_REQUIRED}, {AK_FOCUSABLE, STATE_FOCUSABLE}, {AK_MULTISELECTABLE, STATE_MULTISELECTABLE},
                   {AK_MODAL, STATE_MODAL}, {AK_BUSY, STATE_BUSY}, {AK_SELECTABLE, STATE_SELECTABLE},
                   {AK_SUPPORTS_TEXT_RANGES, STATE_SELECTABLE_TEXT}};

uint64_t states_of(const view *v, ak_id id) {
    const uint64_t usable = BIT(STATE_ENABLED) | BIT(STATE_SENSITIVE), seen = BIT(STATE_VISIBLE) | BIT(STATE_SHOWING);
    uint64_t flags = 0, states = 0;
    uint64_t wanted = BIT(AK_SUPPORTS_TOGGLE) | BIT(AK_TEXT_INPUT) | BIT(AK_READ_ONLY) | BIT(AK_READ_ONLY_SUPPORTED) | BIT(AK_MULTILINE) |
                      BIT(AK_DISABLED);
    if (is_own(v, id)) return usable | seen;
    for (size_t i = 0; i < G_N_ELEMENTS(flag_states); i++) wanted |= BIT(flag_states[i].flag);
    if (ASK(node_flags, v, ID(id), wanted, &flags) != AK_DONE) return BIT(STATE_DEFUNCT);
    for (size_t i = 0; i < G_N_ELEMENTS(flag_states); i++)
        if (HAS(flags, flag_states[i].flag)) states |= BIT(flag_states[i].state);
    bool is_input = HAS(flags, AK_TEXT_INPUT), is_fixed = HAS(flags, AK_READ_ONLY);
    if (is_input && !is_fixed) states |= BIT(STATE_EDITABLE);
    if (is_input || HAS(flags, AK_SUPPORTS_TEXT_RANGES))
        states |= BIT(HAS(flags, AK_MULTILINE) ? STATE_MULTI_LINE : STATE_SINGLE_LINE);
    if (is_fixed && HAS(flags, AK_READ_ONLY_SUPPORTED)) states |= BIT(STATE_READ_ONLY);
    if (!HAS(flags, AK_DISABLED)) states |= usable;
    if (is_shown(v, id)) states |= seen;
    if (is_same(FOUND(tree_focus, v), id)) states |= BIT(STATE_FOCUSED) | BIT(STATE_FOCUSABLE);
    if (is_same(active_window(v), id)) states |= BIT(STATE_ACTIVE);
    uint32_t role = number_of_role(v, id);
    if (role == AK_ROLE_DEFAULT_BUTTON) states |= BIT(STATE_IS_DEFAULT);
    if (role == AK_ROLE_PROGRESS_INDICATOR && !has_number(v, id)) states |= BIT(STATE_INDETERMINATE);
    return states | chosen_states(v, id, flags);
}

/* ---- What may be said of passwords: nothing that is below one, no text that one is part of, and of itself a bullet for each character */

static bool is_below_password(const view *v, ak_id id) {
    do id = FOUND(node_parent, v, ID(id));
    while (is_some(id) && !has_flag(v, id, AK_PASSWORD_INPUT));
    return is_some(id);
}

/* Whether the node is of those that hold a text. */
bool is_text_role(const view *v, ak_id id) {
    uint32_t role = number_of_role(v, id);
    return role == AK_ROLE_LABEL || role == AK_ROLE_DOCUMENT || role == AK_ROLE_TERMINAL || has_flag(v, id, AK_TEXT_INPUT);
}

/* Whether a password is below a node that holds a text. */
static bool holds_password(const view *v, ak_id id) {
    if (!is_text_role(v, id)) return false;
    g_autoptr(GArray) below = read_ids(v, id, AK_LIST_DESCENDANTS);
    for (guint i = 0; i < below->len; i++)
        if (has_flag(v, AT(below, i), AK_PASSWORD_INPUT)) return true;
    return false;
}

TELLS(hides_text, is_below_password(v, id) || holds_password(v, id))
TELLS(has_text, has_flag(v, id, AK_SUPPORTS_TEXT_RANGES) && !hides_text(v, id))
/* Puts a bullet in the place of each character of a password, also where the library takes equal ones for bullets of the application. */
void hide_password(const view *v, ak_id id, GString *t) {
    if (t->len == 0 || !has_flag(v, id, AK_PASSWORD_INPUT)) return;
    glong count = g_utf8_strlen(t->str, (gssize)t->len);
    g_string_truncate(t, 0);
    for (glong i = 0; i < count; i++) g_string_append(t, "\xE2\x80\xA2");
}

static bool is_sent(const view *v, ak_id id, ak_field field) {
    return ASK(field_text, v, ID(id), field, NULL, 0, &(size_t){0}) == AK_DONE;
}

static bool hides_value(const view *v, ak_id id) {
    bool is_of_runs = has_flag(v, id, AK_PASSWORD_INPUT) || !is_sent(v, id, AK_FIELD_VALUE);
    return is_below_password(v, id) || (is_of_runs && holds_password(v, id));
}

/* A label is made of other nodes' where none was sent. */
static bool hides_label(const view *v, ak_id id) {
    if (is_below_password(v, id)) return true;
    if (is_sent(v, id, AK_FIELD_LABEL)) return false;
    g_autoptr(GArray) others = read_ids(v, id, AK_LIST_LABELLED_BY);
    for (guint i = 0; i < others->len; i++) {
        ak_id other = AT(others, i);
        if (has_flag(v, other, AK_LABEL_COMES_FROM_VALUE) ? hides_value(v, other) : is_below_password(v, other)) return true;
    }
    return false;
}

/* ---- Texts of a node, which take the place of what is in `t` */

bool read_value(const view *v, ak_id id, GString *t) {
    g_string_truncate(t, 0);
    if (hides_value(v, id) || !READ_TEXT(t, ASK(node_value, v, ID(id), INTO_TEXT(t)))) return false;
    hide_password(v, id, t);
    return true;
}

/* The value that is said beside the name: one that isn't a text of its own, nor the name. */
static bool read_said_value(const view *v, ak_id id, GString *t) {
    return number_of_role(v, id) != AK_ROLE_TEXT_RUN && !is_text_role(v, id) && read_value(v, id, t);
}

/* Of a label its value, or else as of all others the label; of a combo box without one the value, as toolkits have it. */
bool read_name(const view *v, ak_id id, GString *t) {
    if (has_flag(v, id, AK_LABEL_COMES_FROM_VALUE) && read_value(v, id, t)) return true;
    g_string_truncate(t, 0);
    if (!hides_label(v, id) && READ_TEXT(t, ASK(node_label, v, ID(id), INTO_TEXT(t)))) return true;
    return number_of_role(v, id) == AK_ROLE_COMBO_BOX && read_value(v, id, t);
}

bool read_field(const view *v, ak_id id, ak_field field, GString *t) {
    g_string_truncate(t, 0);
    return READ_TEXT(t, ASK(field_text, v, ID(id), field, INTO_TEXT(t)));
}

/* ---- Attributes */

/* Words for the numbers of a field that has few, of which the last is given. */
#define WORDS(name, last, ...) static const char *const name[] = {__VA_ARGS__}; G_STATIC_ASSERT(G_N_ELEMENTS(name) == (last) + 1)
WORDS(current_words, AK_ARIA_CURRENT_TIME, "false", "true", "page", "step", "location", "date", "time");
WORDS(popup_words, AK_HAS_POPUP_DIALOG, "menu", "listbox", "tree", "grid", "dialog");
WORDS(sort_words, AK_SORT_DIRECTION_OTHER, "ascending", "descending", "other");
WORDS(live_words, AK_LIVE_ASSERTIVE, "off", "polite", "assertive");
/* Attributes that are a field: a text, or one of a few words. */
static const struct {
    const char *name;
    ak_field field;
    const char *const *words;
} field_attributes[] = {{"placeholder-text", AK_FIELD_PLACEHOLDER, NULL}, {"roledescription", AK_FIELD_ROLE_DESCRIPTION, NULL},
                        {"id", AK_FIELD_HTML_ID, NULL}, {"class", AK_FIELD_CLASS_NAME, NULL},
                        {"colindextext", AK_FIELD_COLUMN_INDEX_TEXT, NULL}, {"rowindextext", AK_FIELD_ROW_INDEX_TEXT, NULL},
                        {"braillelabel", AK_FIELD_BRAILLE_LABEL, NULL}, {"brailleroledescription", AK_FIELD_BRAILLE_ROLE_DESCRIPTION, NULL},
                        {"current", AK_FIELD_ARIA_CURRENT, current_words}, {"haspopup", AK_FIELD_HAS_POPUP, popup_words},
                        {"sort", AK_FIELD_SORT_DIRECTION, sort_words}};

static void add_number(GVariantBuilder *b, const char *name, size_t number) {
    g_autofree char *digits = g_strdup_printf("%zu", number);
    g_variant_builder_add(b, "{ss}", name, digits);
}

GVariant *attributes_of(const view *v, ak_id id) {
    GVariantBuilder b = G_VARIANT_BUILDER_INIT(G_VARIANT_TYPE("a{ss}"));
    g_autoptr(GString) t = new_text();
    uint32_t choice = 0, live = state_value(v, id, AK_STATE_LIVE, AK_LIVE_OFF);
    for (size_t i = 0; i < G_N_ELEMENTS(field_attributes); i++) {
        const char *const *words = field_attributes[i].words;
        ak_field field = field_attributes[i].field;
        bool is_there = words ? ASK(field_choice, v, ID(id), field, &choice) == AK_DONE : read_field(v, id, field, t);
        if (is_there) g_variant_builder_add(&b, "{ss}", field_attributes[i].name, words ? words[choice] : t->str);
    }
    if (read_said_value(v, id, t)) g_variant_builder_add(&b, "{ss}", "valuetext", t->str);
    if (role_of(v, id) == ROLE_PANEL && is_sent(v, id, AK_FIELD_LABEL)) g_variant_builder_add(&b, "{ss}", "explicit-name", "true");
    size_t count;
    if (ASK(field_count, v, ID(id), AK_FIELD_LEVEL, &count) == AK_DONE) add_number(&b, "level", count);
    if (ASK(node_count, v, ID(id), AK_COUNT_SET_SIZE, FILTER, &count) == AK_DONE) add_number(&b, "setsize", count);
    if (ASK(node_count, v, ID(id), AK_COUNT_SET_POSITION, FILTER, &count) == AK_DONE) add_number(&b, "posinset", count + 1);
    if (live != AK_LIVE_OFF) {
        g_variant_builder_add(&b, "{ss}", "container-live", live_words[live]);
        g_variant_builder_add(&b, "{ss}", "atomic", has_flag(v, id, AK_LIVE_ATOMIC) ? "true" : "false");
    }
    const char *aria = aria_role(number_of_role(v, id));
    if (aria) g_variant_builder_add(&b, "{ss}", "xml-roles", aria);
    int64_t index = cell_index(v, id);
    if (index >= 0) add_number(&b, "table-cell-index", (size_t)index);
    return g_variant_builder_end(&b);
}

/* ---- Boxes, in pixels: those that a box touches */

static int pixels(ak_atspi *adapter, int64_t n, bool is_up) {
    double exact = (double)n / adapter->units;
    return (int)CLAMP(is_up ? ceil(exact) : floor(exact), -1e9, 1e9);
}

box box_of(ak_atspi *adapter, ak_bounds bounds) {
    int x = pixels(adapter, bounds.x0, false), y = pixels(adapter, bounds.y0, false);
    return (box){x, y, pixels(adapter, bounds.x1, true) - x, pixels(adapter, bounds.y1, true) - y};
}

ak_bounds bounds_of(const view *v, ak_id id) {
    return GIVEN(ak_bounds, ((ak_bounds){0, 0, 0, 0}), node_bounds, v, ID(id));
}

box extents(ak_atspi *adapter, const view *v, ak_id id) {
    return box_of(adapter, bounds_of(v, id));
}

/* Where the coordinates that a client asks for begin, in those of the window. */
static box corner(request *r, uint32_t coordinates) {
    if (coordinates == COORDINATES_SCREEN) return (box){-r->adapter->x, -r->adapter->y, 0, 0};
    return extents(r->adapter, r->now, coordinates == COORDINATES_PARENT ? shown_parent(r->now, r->id) : NOBODY);
}

GVariant *box_answer(request *r, box it, uint32_t coordinates) {
    box from = corner(r, coordinates);
    return g_variant_new("(iiii)", it.x - from.x, it.y - from.y, it.width, it.height);
}

/* A point that a client gives, in the tree's units. */
static ak_point given_point(request *r, int64_t x, int64_t y, uint32_t coordinates) {
    box from = corner(r, coordinates);
    return (ak_point){(x + from.x) * r->adapter->units, (y + from.y) * r->adapter->units};
}

/* The point of a request, in the coordinates of its node. */
bool own_point(request *r, ak_point *own) {
    ak_point at = given_point(r, r->numbers[0], r->numbers[1], (uint32_t)r->numbers[2]);
    return ASK(node_point, r->now, ID(r->id), at.x, at.y, own) == AK_DONE;
}

/* ---- References */

void path_of(ak_atspi *adapter, ak_id id, char *path) {
    view now = states_now(&adapter->states);
    if (is_own(&now, id) || is_application(&now, id)) g_strlcpy(path, ROOT_PATH, PATH_ROOM);
    else if (is_some(id)) g_snprintf(path, PATH_ROOM, NODE_PATHS ID_FORM, id.tree, id.node);
    else g_strlcpy(path, NULL_PATH, PATH_ROOM);
}

ak_id id_of_path(const char *path) {
    uint64_t tree, node;
    bool is_link = g_str_has_prefix(path, LINK_PATHS);
    if (strcmp(path, ROOT_PATH) == 0) return APPLICATION;
    if (!is_link && !g_str_has_prefix(path, NODE_PATHS)) return NOBODY;
    g_auto(GStrv) numbers = g_strsplit(path + strlen(is_link ? LINK_PATHS : NODE_PATHS), "/", -1);
    bool is_id = g_strv_length(numbers) == 2 && g_ascii_string_to_unsigned(numbers[0], 10, 0, NOBODY.tree - 1, &tree, NULL) &&
                 g_ascii_string_to_unsigned(numbers[1], 10, 0, G_MAXUINT64, &node, NULL);
    return is_id ? (ak_id){node, (uint32_t)tree} : NOBODY;
}

GVariant *reference(ak_atspi *adapter, ak_id id) {
    char path[PATH_ROOM];
    path_of(adapter, id, path);
    return g_variant_new("(so)", adapter->own ? adapter->own : "", path);
}

GVariant *references(ak_atspi *adapter, GArray *list) {
    GVariantBuilder b = G_VARIANT_BUILDER_INIT(G_VARIANT_TYPE("a(so)"));
    for (guint i = 0; i < list->len; i++) g_variant_builder_add_value(&b, reference(adapter, AT(list, i)));
    g_array_unref(list);
    return g_variant_builder_end(&b);
}

/* How many these are. */
GVariant *count_answer(GArray *list) {
    guint count = list->len;
    g_array_unref(list);
    return INT_ANSWER(count);
}

/* ---- Accessible */

ANSWERS_TEXT(get_name, is_own(r->now, r->id) ? g_string_assign(t, r->adapter->name) != NULL : read_name(r->now, r->id, t))
ANSWERS_TEXT(get_description, read_field(r->now, r->id, AK_FIELD_DESCRIPTION, t))
ANSWERS_TEXT(get_author_id, read_field(r->now, r->id, AK_FIELD_AUTHOR_ID, t))
ANSWERS_TEXT(get_language, READ_TEXT(t, ASK(node_style_text, r->now, ID(r->id), AK_TEXT_STYLE_LANGUAGE, INTO_TEXT(t))))
static GVariant *get_parent(request *r) {
    ak_id above = shown_parent(r->now, r->id);
    if (is_own(r->now, r->id)) return g_variant_new("(so)", r->adapter->desktop_bus, r->adapter->desktop_path);
    return reference(r->adapter, is_some(above) ? above : APPLICATION);
}

/* What the object of a request shows as its children, how many these are, and one of them. */
static GArray *children_of(request *r) {
    return is_own(r->now, r->id) ? read_windows(r->now) : read_ids(r->now, r->id, SHOWN_CHILDREN);
}

ANSWERS(get_children, references(r->adapter, children_of(r)))
ANSWERS(get_child_count,
        is_own(r->now, r->id) ? count_answer(children_of(r)) : INT_ANSWER(count_of(r->now, r->id, AK_COUNT_FILTERED_CHILDREN)))

ak_id child_at(request *r, int64_t index) {
    if (index < 0) return NOBODY;
    if (!is_own(r->now, r->id)) return FOUND(node_child_at, r->now, ID(r->id), FILTER, (size_t)index);
    g_autoptr(GArray) windows = read_windows(r->now);
    return index < windows->len ? AT(windows, index) : NOBODY;
}

ANSWERS(get_child_at_index, reference(r->adapter, child_at(r, r->numbers[0])))
ANSWERS(get_index_in_parent, INT_ANSWER(count_of(r->now, r->id, AK_COUNT_FILTERED_INDEX)))
static void add_relation(request *r, GVariantBuilder *b, unsigned relation, GArray *list) {
    if (list->len > 0) g_variant_builder_add(b, "(u@a(so))", relation, references(r->adapter, list));
    else g_array_unref(list);
}

/* The page that the focus is in, of the window that shows it. */
static GArray *page_of(const view *v, ak_id window) {
    ak_id page = NOBODY, at = role_of(v, window) == ROLE_FRAME ? FOUND(tree_focus, v) : NOBODY;
    for (; is_some(at) && !is_same(at, window); at = shown_parent(v, at))
        if (number_of_role(v, at) == AK_ROLE_ROOT_WEB_AREA) page = at;
    return g_array_append_vals(new_ids(), &page, is_some(at) && is_some(page));
}

static GVariant *get_relation_set(request *r) {
    GVariantBuilder b = G_VARIANT_BUILDER_INIT(G_VARIANT_TYPE("a(ua(so))"));
    size_t count;
    /* (what the library takes a label from where none is named is below the node, and no relation) */
    if (ASK(field_ids, r->now, ID(r->id), AK_FIELD_LABELLED, NULL, 0, &count) == AK_DONE && count > 0)
        add_relation(r, &b, RELATION_LABELLED_BY, read_ids(r->now, r->id, AK_LIST_LABELLED_BY));
    add_relation(r, &b, RELATION_CONTROLLER_FOR, read_ids(r->now, r->id, AK_LIST_CONTROLS));
    add_relation(r, &b, RELATION_EMBEDS, page_of(r->now, r->id));
    return g_variant_builder_end(&b);
}

ANSWERS(get_role, g_variant_new_uint32(role_of(r->now, r->id)))
ANSWERS(get_role_name, g_variant_new_string(role_names[role_of(r->now, r->id)]))
ANSWERS_TEXT(get_localized_role_name,
             read_field(r->now, r->id, AK_FIELD_ROLE_DESCRIPTION, t) || g_string_assign(t, role_names[role_of(r->now, r->id)]))
static GVariant *get_state(request *r) {
    uint64_t states = states_of(r->now, r->id);
    return g_variant_new_fixed_array(G_VARIANT_TYPE_UINT32, (uint32_t[]){(uint32_t)states, (uint32_t)(states >> 32)}, 2, sizeof(uint32_t));
}

static GVariant *get_interfaces(request *r) {
    GVariantBuilder b = G_VARIANT_BUILDER_INIT(G_VARIANT_TYPE("as"));
    for (const interface *it = interfaces; it->name; it++)
        if (it->is_of(r->now, r->id)) g_variant_builder_add(&b, "s", it->name);
    return g_variant_builder_end(&b);
}

ANSWERS(get_attributes, attributes_of(r->now, r->id))
ANSWERS(get_application, reference(r->adapter, APPLICATION))
const method accessible_members[] = {
    {"Name", NULL, "s", get_name}, {"Description", NULL, "s", get_description}, {"Parent", NULL, "(so)", get_parent},
    {"ChildCount", NULL, "i", get_child_count}, {"Locale", NULL, "s", get_language}, {"AccessibleId", NULL, "s", get_author_id},
    {"GetChildAtIndex", "i", "(so)", get_child_at_index}, {"GetChildren", "", "a(so)", get_children},
    {"GetIndexInParent", "", "i", get_index_in_parent}, {"GetRelationSet", "", "a(ua(so))", get_relation_set},
    {"GetRole", "", "u", get_role}, {"GetRoleName", "", "s", get_role_name}, {"GetLocalizedRoleName", "", "s", get_localized_role_name},
    {"GetState", "", "au", get_state}, {"GetAttributes", "", "a{ss}", get_attributes}, {"GetApplication", "", "(so)", get_application},
    {"GetInterfaces", "", "as", get_interfaces}, END};

/* ---- Application */

ANSWERS_TEXT(get_toolkit_name, READ_TEXT(t, ASK(tree_toolkit_name, r->now, INTO_TEXT(t))))
ANSWERS_TEXT(get_toolkit_version, READ_TEXT(t, ASK(tree_toolkit_version, r->now, INTO_TEXT(t))))
ANSWERS(get_atspi_version, g_variant_new_string("2.1"))
ANSWERS(get_application_id, INT_ANSWER(0))
ANSWERS(get_locale, g_variant_new_string(g_get_language_names()[0]))
const method application_members[] = {
    {"ToolkitName", NULL, "s", get_toolkit_name}, {"Version", NULL, "s", get_toolkit_version},
    {"AtspiVersion", NULL, "s", get_atspi_version}, {"Id", NULL, "i", get_application_id}, {"GetLocale", "u", "s", get_locale}, END};

/* ---- Component */

TELLS(has_box, ASK(node_bounds, v, ID(id), &(ak_bounds){0}) == AK_DONE || is_same(FOUND(tree_root, v), id))
static ak_id node_at(request *r) {
    ak_point own;
    return own_point(r, &own) ? FOUND(node_hit, r->now, ID(r->id), own.x, own.y, FILTER) : NOBODY;
}

ANSWERS(contains, g_variant_new_boolean(is_some(node_at(r))))
ANSWERS(get_accessible_at_point, reference(r->adapter, node_at(r)))
static GVariant *get_position(request *r) {
    box from = corner(r, (uint32_t)r->numbers[0]), it = extents(r->adapter, r->now, r->id);
    return g_variant_new("(ii)", it.x - from.x, it.y - from.y);
}

ANSWERS(get_size, g_variant_new("(ii)", extents(r->adapter, r->now, r->id).width, extents(r->adapter, r->now, r->id).height))
ANSWERS(get_extents, box_answer(r, extents(r->adapter, r->now, r->id), (uint32_t)r->numbers[0]))
ANSWERS(get_layer, g_variant_new_uint32(role_of(r->now, r->id) == ROLE_FRAME ? LAYER_WINDOW : LAYER_WIDGET))
ANSWERS(get_z_order, g_variant_new_int16(0))
ANSWERS(get_alpha, g_variant_new_double(1))
ANSWERS(grab_focus, ask_application(r, AK_ATSPI_FOCUS))
ANSWERS(scroll_to, ask_application(r, AK_ATSPI_SCROLL_INTO_VIEW))
static GVariant *scroll_to_point(request *r) {
    ak_point to = given_point(r, r->numbers[1], r->numbers[2], (uint32_t)r->numbers[0]);
    r->asked.x = to.x;
    r->asked.y = to.y;
    return ask_application(r, AK_ATSPI_SCROLL_TO_POINT);
}

const method component_members[] = {
    {"Contains", "iiu", "b", contains}, {"GetAccessibleAtPoint", "iiu", "(so)", get_accessible_at_point},
    {"GetExtents", "u", "(iiii)", get_extents}, {"GetPosition", "u", "*ii", get_position}, {"GetSize", "", "*ii", get_size},
    {"GetLayer", "", "u", get_layer}, {"GetMDIZOrder", "", "n", get_z_order}, {"GetAlpha", "", "d", get_alpha},
    {"GrabFocus", "", "b", grab_focus}, {"ScrollTo", "u", "b", scroll_to}, {"ScrollToPoint", "uii", "b", scroll_to_point}, END};

/* ---- Action */

TELLS(has_actions, has_flag(v, id, AK_CLICKABLE) || has_flag(v, id, AK_SUPPORTS_INCREMENT) || has_flag(v, id, AK_SUPPORTS_DECREMENT))
typedef struct {
    ak_flag flag;
    ak_atspi_action action;
    const char *name;
} action;
static const action actions[] = {{AK_CLICKABLE, AK_ATSPI_CLICK, "click"}, {AK_SUPPORTS_INCREMENT, AK_ATSPI_INCREMENT, "increment"},
                                 {AK_SUPPORTS_DECREMENT, AK_ATSPI_DECREMENT, "decrement"}};

/* The action of the node that the client gives the index of, or none. */
static const action *given_action(request *r) {
    int64_t index = r->numbers[0];
    for (size_t i = 0; i < G_N_ELEMENTS(actions); i++)
        if (has_flag(r->now, r->id, actions[i].flag) && index-- == 0) return &actions[i];
    return NULL;
}

static GVariant *get_actions(request *r) {
    GVariantBuilder b = G_VARIANT_BUILDER_INIT(G_VARIANT_TYPE("a(sss)"));
    for (size_t i = 0; i < G_N_ELEMENTS(actions); i++)
        if (has_flag(r->now, r->id, actions[i].flag)) g_variant_builder_add(&b, "(sss)", actions[i].name, "", "");
    return g_variant_builder_end(&b);
}

static GVariant *get_action_count(request *r) {
    g_autoptr(GVariant) all = g_variant_ref_sink(get_actions(r));
    return INT_ANSWER(g_variant_n_children(all));
}

ANSWERS(get_action_name, g_variant_new_string(given_action(r) ? given_action(r)->name : ""))
ANSWERS(do_action, given_action(r) ? ask_application(r, given_action(r)->action) : FALSE_ANSWER)
ANSWERS(get_nothing, g_variant_new_string(""))
const method action_members[] = {
    {"NActions", NULL, "i", get_action_count}, {"GetName", "i", "s", get_action_name}, {"GetLocalizedName", "i", "s", get_action_name},
    {"GetDescription", "i", "s", get_nothing}, {"GetKeyBinding", "i", "s", get_nothing}, {"GetActions", "", "a(sss)", get_actions},
    {"DoAction", "i", "b", do_action}, END};

/* ---- Value */

TELLS(has_number, ASK(field_number, v, ID(id), AK_FIELD_NUMBER, &(int64_t){0}) == AK_DONE)
/* (the library has thousandths) */
static GVariant *number_answer(request *r, ak_field field) {
    return g_variant_new_double((double)GIVEN(int64_t, 0, field_number, r->now, ID(r->id), field) / 1000);
}

ANSWERS(get_minimum, number_answer(r, AK_FIELD_MIN))
ANSWERS(get_maximum, number_answer(r, AK_FIELD_MAX))
ANSWERS(get_increment, number_answer(r, AK_FIELD_STEP))
ANSWERS(get_number, number_answer(r, AK_FIELD_NUMBER))
ANSWERS_TEXT(get_value_text, read_value(r->now, r->id, t))
static GVariant *set_number(request *r) {
    r->asked.number = g_variant_get_double(r->given);
    return ask_application(r, AK_ATSPI_SET_VALUE);
}

const method value_members[] = {
    {"MinimumValue", NULL, "d", get_minimum}, {"MaximumValue", NULL, "d", get_maximum}, {"MinimumIncrement", NULL, "d", get_increment},
    {"CurrentValue", NULL, "d", get_number}, {"Text", NULL, "s", get_value_text}, {"=CurrentValue", "d", "", set_number}, END};

/* ---- Hyperlink */

TELLS(is_linked, has_flag(v, id, AK_SUPPORTS_URL) || has_marks(v, shown_parent(v, id)))
/* Where the mark of the node is in the text of the one that holds it. */
static GVariant *link_index(request *r, int more) {
    bool is_marked = has_marks(r->now, shown_parent(r->now, r->id));
    return INT_ANSWER(is_marked ? (int)count_of(r->now, r->id, AK_COUNT_FILTERED_INDEX) + more : -1);
}

ANSWERS(get_link_count, INT_ANSWER(1))
ANSWERS(get_link_start, link_index(r, 0))
ANSWERS(get_link_end, link_index(r, 1))
ANSWERS(get_link_node, reference(r->adapter, r->id))
ANSWERS_TEXT(get_address, read_field(r->now, r->id, AK_FIELD_URL, t))
ANSWERS(is_valid, g_variant_new_boolean(TRUE))
const method hyperlink_members[] = {
    {"NAnchors", NULL, "i", get_link_count}, {"StartIndex", NULL, "i", get_link_start}, {"EndIndex", NULL, "i", get_link_end},
    {"GetObject", "i", "(so)", get_link_node}, {"GetURI", "i", "s", get_address}, {"IsValid", "", "b", is_valid}, END};

/* ---- What is told of a node where it differs after an update; the first is also announced in a live region */

ANSWERS_TEXT(get_said_value, read_said_value(r->now, r->id, t))
const told_answer told_answers[] = {
    {"PropertyChange", "accessible-name", get_name, NULL}, {"PropertyChange", "accessible-description", get_description, NULL},
    {"PropertyChange", "accessible-role", get_role, NULL}, {"PropertyChange", "accessible-parent", get_parent, NULL},
    {"PropertyChange", "accessible-value", get_number, get_said_value}, {"BoundsChanged", "", get_extents, NULL},
    {NULL, NULL, NULL, NULL}};
