/* Texts on the bus. An offset is an index of scalars, as the library counts them.
 *
 * What holds other nodes in a page, and has no text of its own, has a text of marks, as browsers have it, so that a screen reader goes
 * through a page line by line: a mark for each node below, which leads to it. */
#include "inside.h"
#include <string.h>

#define MARK "\xEF\xBF\xBC"

size_t mark_count(const view *v, ak_id id) {
    bool is_marked = !has_flag(v, id, AK_SUPPORTS_TEXT_RANGES) && !has_number(v, id) && is_of_page(v, id);
    return is_marked ? count_of(v, id, AK_COUNT_FILTERED_CHILDREN) : 0;
}

TELLS(has_marks, mark_count(v, id) > 0)
TELLS(has_any_text, has_text(v, id) || has_marks(v, id))
GVariant *marks(size_t count) {
    GString *all = g_string_new(NULL);
    for (size_t i = 0; i < count; i++) g_string_append(all, MARK);
    return g_variant_new_take_string(g_string_free(all, FALSE));
}

/* Whether there is a mark at an offset, and the place of an offset. */
#define IS_MARK(r, offset) ((offset) >= 0 && (size_t)(offset) < (r)->marks)
#define SPOT_AT(offset) ((ak_spot){.kind = AK_SPOT_INDEX, .index = (size_t)MAX(offset, 0)})

/* The whole text. */
bool read_text(const view *v, ak_id id, GString *t) {
    g_string_truncate(t, 0);
    if (!READ_TEXT(t, ASK(node_text, v, ID(id), INTO_TEXT(t)))) return false;
    hide_password(v, id, t);
    return true;
}

static size_t length_of(request *r) {
    return r->marks ? r->marks : GIVEN(size_t, 0, text_length, r->now, ID(r->id));
}

static GVariant *part(request *r, size_t start, size_t end) {
    g_autoptr(GString) t = new_text();
    if (start < end && r->marks) return marks(MIN(end, r->marks) - MIN(start, r->marks));
    bool is_read = start < end && READ_TEXT(t, ASK(text_between, r->now, ID(r->id), start, end, INTO_TEXT(t)));
    if (is_read) hide_password(r->now, r->id, t);
    return g_variant_new_string(is_read ? t->str : "");
}

/* The index of a place, or -1. */
static int index_of(const view *v, ak_id id, ak_spot spot) {
    ak_position position;
    return ASK(text_place, v, ID(id), &spot, AK_WANT_INDEX, &position) == AK_DONE ? (int)position.index : -1;
}

int caret_of(const view *v, ak_id id) {
    return index_of(v, id, (ak_spot){.kind = AK_SPOT_SELECTION_FOCUS});
}

/* Where the selection is; -1 and -1 if there is none. */
bool selection_of(const view *v, ak_id id, int *start, int *end) {
    int anchor = index_of(v, id, (ak_spot){.kind = AK_SPOT_SELECTION_ANCHOR}), focus = caret_of(v, id);
    bool is_there = anchor >= 0 && focus >= 0 && anchor != focus;
    *start = is_there ? MIN(anchor, focus) : -1;
    *end = is_there ? MAX(anchor, focus) : -1;
    return is_there;
}

/* ---- What is asked: of a text, since bus.c refuses what has none */

ANSWERS(get_length, INT_ANSWER(length_of(r)))
ANSWERS(get_caret, INT_ANSWER(caret_of(r->now, r->id)))
/* A negative end is that of the text. */
static GVariant *get_text(request *r) {
    size_t length = length_of(r), start = MIN((size_t)MAX(r->numbers[0], 0), length);
    return part(r, start, r->numbers[1] < 0 ? length : MIN((size_t)r->numbers[1], length));
}

/* The unit that an offset is in. Each mark is one by itself, and all look alike. */
static bool unit_at(request *r, size_t offset, ak_unit unit, size_t *start, size_t *end) {
    ak_spot spot = SPOT_AT((int64_t)offset);
    ak_span span;
    bool is_whole = unit == AK_UNIT_FORMAT;
    *start = is_whole ? 0 : offset;
    *end = is_whole ? r->marks : offset + 1;
    if (r->marks) return offset < r->marks;
    if (ASK(text_unit, r->now, ID(r->id), &spot, unit, AK_WANT_INDEX, &span) != AK_DONE) return false;
    *start = span.start.index;
    *end = span.end.index;
    return true;
}

#define UNIT_ANSWER(r, start, end) g_variant_new("(@sii)", part(r, start, end), (int32_t)(start), (int32_t)(end))

/* A sentence isn't a unit of the library: its line is answered. */
static const uint8_t units[] = {AK_UNIT_CHARACTER, AK_UNIT_WORD, AK_UNIT_LINE, AK_UNIT_LINE, AK_UNIT_PARAGRAPH};
static const uint8_t boundary_units[] = {AK_UNIT_CHARACTER, AK_UNIT_WORD, AK_UNIT_WORD, AK_UNIT_LINE,
                                         AK_UNIT_LINE,      AK_UNIT_LINE, AK_UNIT_LINE};

/* The unit before, at or after an offset. */
static GVariant *string_beside(request *r, const uint8_t *table, size_t count, int side) {
    size_t length = length_of(r), offset = (size_t)r->numbers[0], number = (size_t)r->numbers[1], start, end;
    if (number >= count) return fail(r, "InvalidArgs", "there is no such unit of text");
    if (r->numbers[0] < 0 || offset > length || !unit_at(r, offset, table[number], &start, &end)) return UNIT_ANSWER(r, 0, 0);
    if (side < 0 && (start == 0 || !unit_at(r, start - 1, table[number], &start, &end))) return UNIT_ANSWER(r, 0, 0);
    if (side > 0 && (end >= length || !unit_at(r, end, table[number], &start, &end))) return UNIT_ANSWER(r, length, length);
    return UNIT_ANSWER(r, start, end);
}

ANSWERS(get_string_at, string_beside(r, units, G_N_ELEMENTS(units), 0))
ANSWERS(get_text_at, string_beside(r, boundary_units, G_N_ELEMENTS(boundary_units), 0))
ANSWERS(get_text_before, string_beside(r, boundary_units, G_N_ELEMENTS(boundary_units), -1))
ANSWERS(get_text_after, string_beside(r, boundary_units, G_N_ELEMENTS(boundary_units), 1))
static GVariant *get_character_at(request *r) {
    g_autoptr(GVariant) found = g_variant_ref_sink(part(r, (size_t)r->numbers[0], (size_t)r->numbers[0] + 1));
    return INT_ANSWER(g_utf8_get_char(g_variant_get_string(found, NULL)));
}

/* ---- Selections */

#define IS_SELECTED(r) selection_of((r)->now, (r)->id, &(int){0}, &(int){0})
ANSWERS(get_selection_count, INT_ANSWER(IS_SELECTED(r)))
static GVariant *get_selection(request *r) {
    int start = -1, end = -1;
    if (r->numbers[0] == 0) selection_of(r->now, r->id, &start, &end);
    return g_variant_new("(ii)", start, end);
}

static GVariant *ask_to_select(request *r, int64_t from, int64_t to, bool is_right) {
    ak_spot anchor = SPOT_AT(from), focus = SPOT_AT(to);
    ak_position one, other;
    if (!is_right || from < 0 || to < 0 || ASK(text_place, r->now, ID(r->id), &anchor, 0, &one) != AK_DONE ||
        ASK(text_place, r->now, ID(r->id), &focus, 0, &other) != AK_DONE)
        return FALSE_ANSWER;
    r->asked.anchor_run = one.run;
    r->asked.anchor_character = one.character;
    r->asked.focus_run = other.run;
    r->asked.focus_character = other.character;
    return ask_application(r, AK_ATSPI_SELECT_TEXT);
}

ANSWERS(set_caret, ask_to_select(r, r->numbers[0], r->numbers[0], true))
ANSWERS(set_selection, ask_to_select(r, r->numbers[1], r->numbers[2], r->numbers[0] == 0))
ANSWERS(remove_selection, ask_to_select(r, caret_of(r->now, r->id), caret_of(r->now, r->id), r->numbers[0] == 0))
ANSWERS(add_selection, ask_to_select(r, r->numbers[0], r->numbers[1], !IS_SELECTED(r)))

/* ---- Places */

static ak_bounds around(ak_bounds one, ak_bounds other) {
    return (ak_bounds){MIN(one.x0, other.x0), MIN(one.y0, other.y0), MAX(one.x1, other.x1), MAX(one.y1, other.y1)};
}

/* What the boxes of nodes below span, whose marks these are. */
static ak_bounds bounds_below(request *r, int64_t from, int64_t to) {
    ak_bounds all = bounds_of(r->now, from < to ? child_at(r, from) : NOBODY);
    ak_id child;
    for (int64_t i = from + 1; i < to && is_some(child = child_at(r, i)); i++) all = around(all, bounds_of(r->now, child));
    return all;
}

/* What the boxes of a part span: those of its characters if they are known, else that of the run, else that of the node. */
static ak_bounds bounds_of_part(request *r, int64_t from, int64_t to) {
    ak_spot start = SPOT_AT(from), end = SPOT_AT(to);
    ak_bounds boxes[64], all = bounds_of(r->now, r->id);
    size_t count = 0;
    ak_position position;
    bool is_range = from >= 0 && from <= to;
    if (is_range && ASK(text_boxes, r->now, ID(r->id), &start, &end, boxes, G_N_ELEMENTS(boxes), &count) == AK_DONE && count > 0) {
        all = boxes[0];
        for (size_t i = 1; i < MIN(count, G_N_ELEMENTS(boxes)); i++) all = around(all, boxes[i]);
    } else if (from >= 0 && ASK(text_place, r->now, ID(r->id), &start, 0, &position) == AK_DONE)
        ASK(node_bounds, r->now, position.run, r->id.tree, &all);
    return all;
}

static GVariant *part_box(request *r, int64_t from, int64_t to, int64_t coordinates) {
    ak_bounds all = r->marks ? bounds_below(r, MAX(from, 0), to) : bounds_of_part(r, from, to);
    return box_answer(r, box_of(r->adapter, all), (uint32_t)coordinates);
}

ANSWERS(get_character_extents, part_box(r, r->numbers[0], r->numbers[0] + 1, r->numbers[1]))
ANSWERS(get_range_extents, part_box(r, r->numbers[0], r->numbers[1], r->numbers[2]))
static GVariant *get_offset_at_point(request *r) {
    ak_point own;
    if (!own_point(r, &own)) return INT_ANSWER(-1);
    return INT_ANSWER(index_of(r->now, r->id, (ak_spot){.kind = AK_SPOT_POINT, .x = own.x, .y = own.y}));
}

ANSWERS(scroll_substring_to, ask_application(r, AK_ATSPI_SCROLL_INTO_VIEW))
/* ---- How it looks */

static const char *const directions[] = {"ltr", "rtl", "ttb", "btt"}, *const sides[] = {"left", "right", "center", "fill"},
                  *const slants[] = {"normal", "italic"}, *const offsets[] = {"sub", "super"}, *const strikes[] = {"true"},
                  *const lines[] = {"single", "single", "single", "double", "error"};
/* What AT-SPI calls each property, and its words for the library's numbers; a size, a weight or a colour has none. */
static const struct {
    ak_style_name property;
    const char *name;
    const char *const *words;
    uint32_t count;
} looks[] = {{AK_TEXT_STYLE_FONT_SIZE, "size", NULL, 0}, {AK_TEXT_STYLE_FONT_WEIGHT, "weight", NULL, 0},
             {AK_TEXT_STYLE_FOREGROUND_COLOR, "fg-color", NULL, 0}, {AK_TEXT_STYLE_BACKGROUND_COLOR, "bg-color", NULL, 0},
             {AK_TEXT_STYLE_ITALIC, "style", slants, G_N_ELEMENTS(slants)},
             {AK_TEXT_STYLE_UNDERLINE, "underline", lines, G_N_ELEMENTS(lines)},
             {AK_TEXT_STYLE_STRIKETHROUGH, "strikethrough", strikes, G_N_ELEMENTS(strikes)},
             {AK_TEXT_STYLE_TEXT_DIRECTION, "direction", directions, G_N_ELEMENTS(directions)},
             {AK_TEXT_STYLE_TEXT_ALIGN, "justification", sides, G_N_ELEMENTS(sides)},
             {AK_TEXT_STYLE_VERTICAL_OFFSET, "vertical-align", offsets, G_N_ELEMENTS(offsets)}};

/* Adds a property of the text at an offset as AT-SPI says it, if it has one. */
static void add_look(request *r, GVariantBuilder *b, const ak_spot *spot, size_t at) {
    ak_style_value value;
    char digits[48];
    const char *word = digits;
    ak_style_name property = looks[at].property;
    if (ASK(text_style, r->now, ID(r->id), spot, property, &value) != AK_DONE) return;
    if (looks[at].count > 0) word = looks[at].words[MIN(value.number, looks[at].count - 1)];
    else if (property == AK_TEXT_STYLE_FONT_SIZE) g_ascii_formatd(digits, sizeof digits, "%g", value.number * 0.0075); /* (points) */
    else if (property == AK_TEXT_STYLE_FONT_WEIGHT) g_snprintf(digits, sizeof digits, "%u", value.number);
    else g_snprintf(digits, sizeof digits, "%u,%u,%u", value.red * 257u, value.green * 257u, value.blue * 257u);
    g_variant_builder_add(b, "{ss}", looks[at].name, word);
}

static GVariant *looks_at(request *r, int64_t offset) {
    GVariantBuilder b = G_VARIANT_BUILDER_INIT(G_VARIANT_TYPE("a{ss}"));
    ak_spot spot = SPOT_AT(offset);
    g_autoptr(GString) t = new_text();
    for (size_t i = 0; i < G_N_ELEMENTS(looks); i++) add_look(r, &b, &spot, i);
    if (READ_TEXT(t, ASK(text_style_text, r->now, ID(r->id), &spot, AK_TEXT_STYLE_FONT_FAMILY, INTO_TEXT(t))))
        g_variant_builder_add(&b, "{ss}", "family-name", t->str);
    if (READ_TEXT(t, ASK(text_style_text, r->now, ID(r->id), &spot, AK_TEXT_STYLE_LANGUAGE, INTO_TEXT(t))))
        g_variant_builder_add(&b, "{ss}", "language", t->str);
    return g_variant_builder_end(&b);
}

static GVariant *get_attributes_at(request *r) {
    int64_t offset = r->numbers[0];
    size_t start, end;
    if (offset < 0 || !unit_at(r, (size_t)offset, AK_UNIT_FORMAT, &start, &end)) return g_variant_new("(a{ss}ii)", NULL, 0, 0);
    return g_variant_new("(@a{ss}ii)", looks_at(r, offset), (int32_t)start, (int32_t)end);
}

static GVariant *get_attribute_value(request *r) {
    const char *found = "";
    g_autoptr(GVariant) all = g_variant_ref_sink(looks_at(r, r->numbers[0]));
    if (r->numbers[0] >= 0) g_variant_lookup(all, r->word, "&s", &found);
    return g_variant_new_string(found);
}

ANSWERS(get_default_attributes, g_variant_new("a{ss}", NULL))
const method text_members[] = {
    {"CharacterCount", NULL, "i", get_length}, {"CaretOffset", NULL, "i", get_caret}, {"GetText", "ii", "s", get_text},
    {"GetStringAtOffset", "iu", "*sii", get_string_at}, {"GetTextAtOffset", "iu", "*sii", get_text_at},
    {"GetTextBeforeOffset", "iu", "*sii", get_text_before}, {"GetTextAfterOffset", "iu", "*sii", get_text_after},
    {"GetCharacterAtOffset", "i", "i", get_character_at}, {"GetNSelections", "", "i", get_selection_count},
    {"GetSelection", "i", "*ii", get_selection}, {"SetCaretOffset", "i", "b", set_caret}, {"SetSelection", "iii", "b", set_selection},
    {"AddSelection", "ii", "b", add_selection}, {"RemoveSelection", "i", "b", remove_selection},
    {"GetCharacterExtents", "iu", "*iiii", get_character_extents}, {"GetRangeExtents", "iiu", "*iiii", get_range_extents},
    {"GetOffsetAtPoint", "iiu", "i", get_offset_at_point}, {"ScrollSubstringTo", "iiu", "b", scroll_substring_to},
    {"GetAttributes", "i", "*a{ss}ii", get_attributes_at}, {"GetAttributeRun", "ib", "*a{ss}ii", get_attributes_at},
    {"GetAttributeValue", "is", "s", get_attribute_value}, {"GetDefaultAttributes", "", "a{ss}", get_default_attributes},
    {"GetDefaultAttributeSet", "", "a{ss}", get_default_attributes}, END};

/* ---- Hypertext: what a mark leads to */

/* A link is an object of its own: a client takes a path for either a node or a link. */
static GVariant *get_link(request *r) {
    ak_id child = IS_MARK(r, r->numbers[0]) ? child_at(r, r->numbers[0]) : NOBODY;
    char path[PATH_ROOM] = NULL_PATH;
    if (is_some(child)) g_snprintf(path, sizeof path, LINK_PATHS ID_FORM, child.tree, child.node);
    return g_variant_new("(so)", r->adapter->own, path);
}

ANSWERS(get_link_count, INT_ANSWER(r->marks))
ANSWERS(get_link_at, INT_ANSWER(IS_MARK(r, r->numbers[0]) ? r->numbers[0] : -1))
const method hypertext_members[] = {
    {"GetNLinks", "", "i", get_link_count}, {"GetLink", "i", "(so)", get_link}, {"GetLinkIndex", "i", "i", get_link_at}, END};
