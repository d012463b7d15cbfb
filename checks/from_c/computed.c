/* What the library computes, read by the calls of C: each kind of value of computed.script, and then closed trees, numbers that mean nothing,
 * rooms that are too small, and each growth of memory failing in turn, by the malloc and realloc below: linked with
 * -Wl,--wrap=malloc,--wrap=realloc. Its word is the path of computed.script. Prints `N passed, M failed`. */
#include "accesskit_proved.h"
#include <stdio.h>
#include <stdlib.h>
#include <string.h>

static int passed, failed;
static long until_failure = -1; /* growths before the one that fails; below 0 none does */

void *__real_malloc(size_t size);
void *__real_realloc(void *block, size_t size);

static bool fails(void) { return until_failure >= 0 && until_failure-- == 0; }
void *__wrap_malloc(size_t size) { return fails() ? NULL : __real_malloc(size); }
void *__wrap_realloc(void *block, size_t size) { return fails() ? NULL : __real_realloc(block, size); }

static void check(bool holds, int line) {
    holds ? passed++ : failed++;
    if (!holds) printf("line %d fails\n", line);
}
#define CHECK(holds) check((holds), __LINE__)

static ak_tree tree = AK_TREE_CLOSED;
static const uint64_t TEXT = 30; /* "ab c" in run 31, "d\n" in 32, "e😀" in 33 */

static bool is_text(uint8_t answer, const uint8_t *text, const size_t *length, const char *said) {
    return answer == AK_DONE && *length == strlen(said) && memcmp(text, said, *length) == 0;
}
static bool is_node(uint8_t answer, const ak_id *id, uint64_t node, uint32_t index) { return answer == AK_DONE && id->node == node && id->tree == index; }
static bool is_at(const ak_position *at, uint64_t run, size_t character, size_t index, size_t utf16_index, size_t line) {
    return at->run == run && at->character == character && at->index == index && at->utf16_index == utf16_index && at->line == line;
}

static void of_nodes(void) {
    /* of a node, by the common filter: children, index, filtered children, filtered index, set size, set position, container's set size */
    static const struct { uint64_t node; int counts[7]; } counted[] = {
        {1, {8, -1, 8, -1, -1, -1, -1}}, {2, {4, 0, 3, 0, 7, -1, -1}}, {4, {1, 1, 1, -1, -1, -1, 7}}, {5, {0, 2, 0, 2, 9, 8, 7}},
        {6, {0, 0, 0, 1, 3, 1, 7}}, {20, {3, 4, 3, 4, -1, -1, -1}}, {32, {0, 1, 0, -1, -1, -1, -1}},
    };
    for (size_t i = 0; i < sizeof counted / sizeof *counted; i++)
        for (int count = 0; count < 7; count++) {
            size_t number = 77;
            uint8_t answer = ak_node_count(&tree, counted[i].node, 0, (ak_count)count, AK_COMMON, &number);
            int wanted = counted[i].counts[count];
            CHECK(wanted < 0 ? answer == AK_NOTHING && number == 77 : answer == AK_DONE && number == (size_t)wanted);
        }
    size_t number;
    CHECK(ak_node_count(&tree, 2, 0, AK_COUNT_FILTERED_CHILDREN, AK_ALL, &number) == AK_DONE && number == 4);
    /* of a node: toggled, selected, orientation, live */
    static const struct { uint64_t node; int states[4]; } stated[] = {
        {2, {-1, -1, AK_ORIENTATION_VERTICAL, AK_LIVE_POLITE}}, {3, {-1, 0, -1, AK_LIVE_POLITE}}, {6, {-1, 1, -1, AK_LIVE_OFF}},
        {10, {AK_TOGGLED_MIXED, -1, AK_ORIENTATION_VERTICAL, AK_LIVE_OFF}},
    };
    for (size_t i = 0; i < sizeof stated / sizeof *stated; i++)
        for (int state = 0; state < 4; state++) {
            uint32_t value = 77;
            uint8_t answer = ak_node_state(&tree, stated[i].node, 0, (ak_state)state, &value);
            int wanted = stated[i].states[state];
            CHECK(wanted < 0 ? answer == AK_NOTHING && value == 77 : answer == AK_DONE && value == (uint32_t)wanted);
        }
    ak_id id = {7, 7};
    CHECK(is_node(ak_node_relative(&tree, 22, 0, AK_RELATIVE_ACTIVE_DESCENDANT, AK_COMMON, &id), &id, 21, 0));
    CHECK(is_node(ak_node_relative(&tree, 20, 0, AK_RELATIVE_DEEPEST_FIRST_CHILD, AK_COMMON, &id), &id, 24, 0));
    CHECK(is_node(ak_node_relative(&tree, 20, 0, AK_RELATIVE_DEEPEST_LAST_CHILD, AK_COMMON, &id), &id, 3, 1));
    CHECK(is_node(ak_node_relative(&tree, 6, 0, AK_RELATIVE_SELECTION_CONTAINER, AK_COMMON, &id), &id, 2, 0));
    CHECK(ak_node_relative(&tree, 1, 0, AK_RELATIVE_SELECTION_CONTAINER, AK_COMMON, &id) == AK_NOTHING && id.node == 2);
    CHECK(is_node(ak_node_child_at(&tree, 2, 0, AK_COMMON, 1, &id), &id, 6, 0) && is_node(ak_node_child_at(&tree, 2, 0, AK_ALL, 1, &id), &id, 4, 0));
    CHECK(ak_node_child_at(&tree, 2, 0, AK_COMMON, 3, &id) == AK_NOTHING && id.node == 4);
    static const struct { ak_list list; uint64_t node; size_t count; uint64_t ids[7]; } listed[] = {
        {AK_LIST_LABELLED_BY, 10, 2, {11, 12}}, {AK_LIST_LABELLED_BY, 21, 1, {24}}, {AK_LIST_CONTROLS, 10, 2, {2, 40}}, {AK_LIST_ITEMS, 2, 3, {3, 6, 5}},
        {AK_LIST_PRECEDING_SIBLINGS, 5, 2, {4, 3}}, {AK_LIST_FOLLOWING_SIBLINGS, 3, 3, {4, 5, 7}},
        {AK_LIST_PRECEDING_FILTERED_SIBLINGS, 5, 2, {6, 3}}, {AK_LIST_FOLLOWING_FILTERED_SIBLINGS, 3, 2, {6, 5}},
        {AK_LIST_DESCENDANTS, 20, 7, {21, 24, 22, 23, 1, 2, 3}}, {AK_LIST_FILTERED_DESCENDANTS, 20, 6, {21, 24, 22, 1, 2, 3}},
    };
    for (size_t i = 0; i < sizeof listed / sizeof *listed; i++)
        for (size_t room = 0; room <= 7; room++) {
            ak_id ids[8];
            size_t count = 77;
            memset(ids, 9, sizeof ids);
            CHECK(ak_node_list(&tree, listed[i].node, 0, listed[i].list, AK_COMMON, ids, room, &count) == AK_DONE && count == listed[i].count);
            for (size_t at = 0; at < 8; at++)
                CHECK(at < room && at < count ? ids[at].node == listed[i].ids[at] : ids[at].node == 0x0909090909090909);
        }
    bool is_so = false;
    CHECK(ak_node_supports_action(&tree, 22, 0, AK_ACTION_OTHER + 7, AK_COMMON, &is_so) == AK_DONE && is_so);
    CHECK(ak_node_supports_action(&tree, 22, 0, AK_ACTION_CLICK, AK_COMMON, &is_so) == AK_DONE && !is_so);
    uint64_t set = 7;
    for (uint64_t wanted = 0, one = 1; one; one <<= 1) {
        wanted |= one & 0x10000c01;
        CHECK(ak_node_flags(&tree, 10, 0, wanted, &set) == AK_DONE && set == (wanted & 0xc00));
    }
    CHECK(ak_node_flags(&tree, 10, 0, UINT64_MAX, &set) == AK_DONE);
    for (int flag = 0; flag <= AK_HAS_VALUE; flag++)
        CHECK(ak_node_flag(&tree, 10, 0, (ak_flag)flag, &is_so) == AK_DONE && is_so == (set >> flag & 1));
    CHECK(set >> (AK_HAS_VALUE + 1) == 0);
    ak_point at;
    CHECK(ak_node_transform(&tree, 24, 0, &at) == AK_DONE && at.x == 105 && at.y == -43);
    CHECK(ak_node_point(&tree, 24, 0, 110, -40, &at) == AK_DONE && at.x == 5 && at.y == 3);
    CHECK(ak_node_point(&tree, 24, 0, INT64_MIN, INT64_MAX, &at) == AK_DONE && at.x == INT64_MIN && at.y == INT64_MAX);
    CHECK(ak_node_point(&tree, 20, 0, INT64_MAX, INT64_MIN, &at) == AK_DONE && at.x == INT64_MAX - 100 && at.y == INT64_MIN + 50);
}

static void of_the_tree(void) {
    ak_id id = {7, 7};
    uint8_t text[16], uuid[16] = {0};
    size_t length;
    bool is_focused = false;
    CHECK(is_node(ak_tree_declared_focus(&tree, &id), &id, 22, 0) && is_node(ak_tree_active_dialog(&tree, &id), &id, 20, 0));
    CHECK(ak_tree_is_host_focused(&tree, &is_focused) == AK_DONE && is_focused);
    CHECK(ak_tree_host_focus(&tree, false) == AK_DONE && ak_tree_is_host_focused(&tree, &is_focused) == AK_DONE && !is_focused);
    CHECK(ak_tree_active_dialog(&tree, &id) == AK_NOTHING && is_node(ak_tree_declared_focus(&tree, &id), &id, 22, 0));
    CHECK(ak_tree_host_focus(&tree, true) == AK_DONE);
    CHECK(is_text(ak_tree_toolkit_name(&tree, text, 16, &length), text, &length, "Ink") && is_text(ak_tree_toolkit_version(&tree, text, 16, &length), text, &length, "2.1"));
    CHECK(ak_node_tree_id(&tree, 3, 1, text, 16, &length) == AK_DONE && length == 16 && text[15] == 7 && text[0] == 0);
    uuid[15] = 7;
    CHECK(is_node(ak_tree_subtree_root(&tree, uuid, 16, &id), &id, 1, 1) && is_node(ak_tree_subtree_root(&tree, NULL, 0, &id), &id, 1, 0));
    CHECK(ak_tree_subtree_root(&tree, uuid, 15, &id) == AK_NO_SUCH);
    uuid[15] = 8;
    CHECK(ak_tree_subtree_root(&tree, uuid, 16, &id) == AK_NOTHING && id.node == 1);
    CHECK(is_text(ak_role_name(AK_ROLE_LIST_BOX, text, 16, &length), text, &length, "ListBox"));
    CHECK(is_text(ak_role_name(AK_ROLE_OTHER + 328, text, 16, &length), text, &length, "Heading"));
    CHECK(is_text(ak_role_name(AK_ROLE_OTHER + 7, text, 16, &length), text, &length, "Other(7)") && ak_role_name(72, text, 16, &length) == AK_NO_SUCH);
}

static void of_texts(void) {
    static const struct { ak_spot spot; size_t run, character, index, utf16_index, line; } named[] = {
        {{.kind = AK_SPOT_INDEX, .index = 7}, 33, 1, 7, 7, 1}, {{.kind = AK_SPOT_INDEX, .index = 4, .is_end = true}, 31, 4, 4, 4, 0},
        {{.kind = AK_SPOT_UTF16_INDEX, .index = 9}, 33, 2, 8, 9, 1}, {{.kind = AK_SPOT_RUN, .run = 32, .index = 1}, 32, 1, 5, 5, 0},
        {{.kind = AK_SPOT_POINT, .x = 250, .y = 50}, 31, 2, 2, 2, 0}, {{.kind = AK_SPOT_END}, 33, 2, 8, 9, 1},
        {{.kind = AK_SPOT_SELECTION_ANCHOR}, 33, 2, 8, 9, 1}, {{.kind = AK_SPOT_SELECTION_FOCUS}, 31, 1, 1, 1, 0},
    };
    ak_position at;
    for (size_t i = 0; i < sizeof named / sizeof *named; i++)
        for (uint32_t wanted = 0; wanted < 8; wanted++) {
            CHECK(ak_text_place(&tree, TEXT, 0, &named[i].spot, wanted, &at) == AK_DONE);
            CHECK(is_at(&at, named[i].run, named[i].character, wanted & AK_WANT_INDEX ? named[i].index : 0,
                        wanted & AK_WANT_UTF16_INDEX ? named[i].utf16_index : 0, wanted & AK_WANT_LINE ? named[i].line : 0));
        }
    ak_spot spot = {.kind = AK_SPOT_RUN, .run = 32, .index = 3}, start = {.kind = AK_SPOT_INDEX, .index = 1}, end = {.kind = AK_SPOT_INDEX, .index = 5};
    CHECK(ak_text_place(&tree, TEXT, 0, &spot, 7, &at) == AK_NOTHING);
    CHECK(ak_text_moved(&tree, TEXT, 0, &start, AK_FORWARD_TO_WORD_START, AK_WANT_INDEX, &at) == AK_DONE && is_at(&at, 31, 3, 3, 0, 0));
    static const size_t units[6][2] = {{5, 6}, {4, 6}, {4, 6}, {0, 6}, {0, 6}, {0, 8}};
    for (int unit = 0; unit < 6; unit++) {
        ak_span span;
        CHECK(ak_text_unit(&tree, TEXT, 0, &end, (ak_unit)unit, AK_WANT_INDEX, &span) == AK_DONE);
        CHECK(span.start.index == units[unit][0] && span.end.index == units[unit][1] && span.start.line == 0);
    }
    ak_span line;
    CHECK(ak_text_line(&tree, TEXT, 0, 1, 7, &line) == AK_DONE && is_at(&line.start, 33, 0, 6, 6, 1) && is_at(&line.end, 33, 2, 8, 9, 1));
    CHECK(ak_text_line(&tree, TEXT, 0, 2, 7, &line) == AK_DONE && is_at(&line.start, 33, 2, 8, 9, 1) && ak_text_line(&tree, TEXT, 0, 3, 7, &line) == AK_NOTHING);
    static const char held[11][10] = {"yyyyyyyyn", "nyyyyyyyy", "ynnnynynn", "ynnyynynn", "ynnnnnynn", "nnnnnnnny", "ynnnnnynn", "nnnnnnnny", "nnnnnynnn", "ynnnnnnnn", "nnnnnnnny"};
    for (int test = 0; test < 11; test++)
        for (size_t index = 0; index < 9; index++) {
            bool holds = false;
            spot = (ak_spot){.kind = AK_SPOT_INDEX, .index = index};
            CHECK(ak_text_test(&tree, TEXT, 0, &spot, (ak_test)test, &holds) == AK_DONE && holds == (held[test][index] == 'y'));
        }
    size_t length = 7;
    CHECK(ak_text_length(&tree, TEXT, 0, &length) == AK_DONE && length == 8 && ak_text_length(&tree, 40, 0, &length) == AK_NOTHING && length == 8);
    ak_bounds boxes[3] = {{0, 0, 0, 0}};
    CHECK(ak_text_boxes(&tree, TEXT, 0, &start, &end, boxes, 3, &length) == AK_DONE && length == 2 && boxes[0].x0 == 1100 && boxes[0].x1 == 1400);
    CHECK(boxes[1].x0 == 1400 && boxes[1].y0 == 2000 && boxes[1].x1 == 1500 && boxes[1].y1 == 2100 && boxes[2].x1 == 0);
    CHECK(ak_text_boxes(&tree, TEXT, 0, &start, &end, NULL, 0, &length) == AK_DONE && length == 2);
    ak_defect defect;
    CHECK(ak_text_defect(&tree, 40, 0, &defect) == AK_DONE && defect.rule == AK_DEFECT_NEXT_UNANSWERED && defect.run == 41 && defect.link == 0);
    CHECK(ak_text_defect(&tree, 50, 0, &defect) == AK_DONE && defect.rule == AK_DEFECT_ROLE && ak_text_defect(&tree, TEXT, 0, &defect) == AK_NOTHING);
}

static void of_looks(void) {
    ak_spot start = {.kind = AK_SPOT_INDEX}, middle = {.kind = AK_SPOT_INDEX, .index = 4}, end = {.kind = AK_SPOT_END};
    ak_style_value value;
    uint8_t text[16];
    size_t length;
    bool differs = true;
    CHECK(ak_node_style(&tree, 31, 0, AK_TEXT_STYLE_FONT_SIZE, &value) == AK_DONE && value.number == 1600 && value.alpha == 0);
    CHECK(ak_node_style(&tree, 32, 0, AK_TEXT_STYLE_UNDERLINE, &value) == AK_DONE && value.number == AK_STYLE_WAVY);
    CHECK(value.red == 255 && value.green == 0 && value.blue == 1 && value.alpha == 200);
    CHECK(ak_node_style(&tree, 33, 0, AK_TEXT_STYLE_ITALIC, &value) == AK_DONE && value.number == 1 && ak_node_style(&tree, 31, 0, AK_TEXT_STYLE_OVERLINE, &value) == AK_NOTHING);
    CHECK(ak_node_style(&tree, 31, 0, AK_TEXT_STYLE_LANGUAGE, &value) == AK_NOTHING && ak_node_style_text(&tree, 31, 0, AK_TEXT_STYLE_ITALIC, text, 16, &length) == AK_NOTHING);
    CHECK(is_text(ak_node_style_text(&tree, 24, 0, AK_TEXT_STYLE_LANGUAGE, text, 16, &length), text, &length, "en"));
    CHECK(ak_text_style(&tree, TEXT, 0, &middle, AK_TEXT_STYLE_FONT_WEIGHT, &value) == AK_DONE && value.number == 700);
    CHECK(ak_text_style(&tree, TEXT, 0, &start, AK_TEXT_STYLE_FONT_WEIGHT, &value) == AK_NOTHING && value.number == 700);
    CHECK(is_text(ak_text_style_text(&tree, TEXT, 0, &end, AK_TEXT_STYLE_LANGUAGE, text, 16, &length), text, &length, "de"));
    for (int property = 0; property < 13; property++) {
        bool mixed = property == AK_TEXT_STYLE_LANGUAGE || property == AK_TEXT_STYLE_FONT_WEIGHT || property == AK_TEXT_STYLE_UNDERLINE || property == AK_TEXT_STYLE_ITALIC;
        CHECK(ak_text_differs(&tree, TEXT, 0, &start, &end, (ak_style_name)property, &differs) == AK_DONE && differs == mixed);
        CHECK(ak_text_differs(&tree, TEXT, 0, &end, &end, (ak_style_name)property, &differs) == AK_DONE && !differs);
    }
}

/* Every call, of a node and by numbers: what each answers, if all answer the same, and else 255. Nothing may be written then. */
static uint8_t all_answer(uint64_t node, uint32_t number, ak_filter filter, uint32_t kind) {
    ak_id id = {7, 7}, ids[2] = {{7, 7}, {7, 7}};
    ak_position at = {.run = 7};
    ak_span span = {.start = {.run = 7}};
    ak_style_value value = {.number = 7};
    ak_bounds boxes[1] = {{7, 7, 7, 7}};
    ak_spot spot = {.kind = kind};
    uint8_t text[1] = {7};
    uint32_t state = 7;
    size_t count = 7;
    bool is_so = true;
    uint8_t answers[] = {
        ak_node_state(&tree, node, 0, (ak_state)number, &state), ak_node_count(&tree, node, 0, (ak_count)number, filter, &count),
        ak_node_relative(&tree, node, 0, (ak_relative)number, filter, &id), ak_node_list(&tree, node, 0, (ak_list)number, filter, ids, 2, &count),
        ak_node_style(&tree, node, 0, (ak_style_name)number, &value), ak_node_style_text(&tree, node, 0, (ak_style_name)number, text, 1, &count),
        ak_text_moved(&tree, node, 0, &spot, (ak_move)number, 7, &at), ak_text_test(&tree, node, 0, &spot, (ak_test)number, &is_so),
        ak_text_unit(&tree, node, 0, &spot, (ak_unit)number, 7, &span), ak_text_style(&tree, node, 0, &spot, (ak_style_name)number, &value),
        ak_text_style_text(&tree, node, 0, &spot, (ak_style_name)number, text, 1, &count),
        ak_text_differs(&tree, node, 0, &spot, &spot, (ak_style_name)number, &is_so),
    };
    CHECK(id.node == 7 && ids[0].node == 7 && at.run == 7 && span.start.run == 7 && value.number == 7 && boxes[0].x0 == 7 && text[0] == 7 && state == 7 && count == 7 && is_so);
    for (size_t i = 1; i < sizeof answers; i++)
        if (answers[i] != answers[0]) return 255;
    return answers[0];
}

static void of_nothing(void) {
    ak_id id = {7, 7};
    ak_point point = {7, 7};
    ak_span span = {.start = {.run = 7}};
    ak_defect defect = {7, 7, 7, 7};
    ak_spot spot = {.kind = 7};
    ak_bounds boxes[1] = {{7, 7, 7, 7}};
    uint8_t text[1] = {7};
    uint64_t set = 7;
    size_t count = 7;
    bool is_so = true;
    CHECK(all_answer(2, 1000, AK_COMMON, AK_SPOT_END) == AK_NO_SUCH && all_answer(99, 0, AK_COMMON, AK_SPOT_END) == AK_NO_NODE);
    CHECK(all_answer(99, 1000, AK_COMMON, AK_SPOT_END) == AK_NO_SUCH && all_answer(2, 256, AK_COMMON, AK_SPOT_END) == AK_NO_SUCH);
    CHECK(ak_node_count(&tree, 2, 0, AK_COUNT_CHILDREN, (ak_filter)3, &count) == AK_NO_SUCH && ak_node_child_at(&tree, 2, 0, (ak_filter)3, 0, &id) == AK_NO_SUCH);
    CHECK(ak_node_supports_action(&tree, 2, 0, 4, AK_COMMON, &is_so) == AK_NO_SUCH && ak_node_supports_action(&tree, 2, 0, AK_ACTION_OTHER + 256, AK_COMMON, &is_so) == AK_NO_SUCH);
    CHECK(ak_text_boxes(&tree, TEXT, 0, &spot, &spot, boxes, 1, &count) == AK_NO_SUCH && ak_text_length(&tree, 2, 0, &count) == AK_NOTHING);
    CHECK(ak_node_child_at(&tree, 99, 0, AK_ALL, 0, &id) == AK_NO_NODE && ak_node_flags(&tree, 99, 0, 1, &set) == AK_NO_NODE);
    CHECK(ak_node_transform(&tree, 99, 0, &point) == AK_NO_NODE && ak_node_point(&tree, 99, 0, 1, 1, &point) == AK_NO_NODE);
    CHECK(ak_node_tree_id(&tree, 99, 0, text, 1, &count) == AK_NO_NODE && ak_text_length(&tree, 99, 0, &count) == AK_NO_NODE);
    CHECK(ak_text_line(&tree, 99, 0, 0, 7, &span) == AK_NO_NODE && ak_text_defect(&tree, 99, 0, &defect) == AK_NO_NODE);
    ak_tree_close(&tree);
    CHECK(all_answer(2, 0, AK_COMMON, AK_SPOT_END) == AK_CLOSED && ak_tree_declared_focus(&tree, &id) == AK_CLOSED && ak_tree_active_dialog(&tree, &id) == AK_CLOSED);
    CHECK(ak_tree_is_host_focused(&tree, &is_so) == AK_CLOSED && ak_tree_toolkit_name(&tree, text, 1, &count) == AK_CLOSED);
    CHECK(ak_tree_toolkit_version(&tree, text, 1, &count) == AK_CLOSED && ak_tree_subtree_root(&tree, NULL, 0, &id) == AK_CLOSED);
    CHECK(ak_node_flags(&tree, 2, 0, 1, &set) == AK_CLOSED && ak_node_transform(&tree, 2, 0, &point) == AK_CLOSED && ak_node_point(&tree, 2, 0, 1, 1, &point) == AK_CLOSED);
    CHECK(ak_node_tree_id(&tree, 2, 0, text, 1, &count) == AK_CLOSED && ak_text_length(&tree, TEXT, 0, &count) == AK_CLOSED && ak_text_line(&tree, TEXT, 0, 0, 7, &span) == AK_CLOSED);
    CHECK(ak_text_defect(&tree, 40, 0, &defect) == AK_CLOSED && ak_text_boxes(&tree, TEXT, 0, &spot, &spot, boxes, 1, &count) == AK_CLOSED);
    CHECK(ak_tree_open(&tree) == AK_DONE && ak_tree_declared_focus(&tree, &id) == AK_NOTHING && ak_tree_is_host_focused(&tree, &is_so) == AK_NOTHING);
    CHECK(ak_tree_toolkit_name(&tree, text, 1, &count) == AK_NOTHING && ak_tree_active_dialog(&tree, &id) == AK_NOTHING && ak_tree_subtree_root(&tree, NULL, 0, &id) == AK_NOTHING);
    CHECK(id.node == 7 && point.x == 7 && span.start.run == 7 && defect.run == 7 && boxes[0].x0 == 7 && text[0] == 7 && set == 7 && count == 7 && is_so);
}

/* Each growth fails in turn: the answer is whole, or memory ran out and nothing is written. */
static void growths(void) {
    ak_spot start = {.kind = AK_SPOT_INDEX, .index = 1}, end = {.kind = AK_SPOT_INDEX, .index = 5};
    for (long growth = 0; growth < 12; growth++)
        for (int call = 0; call < 14; call++) {
            ak_id ids[8];
            ak_bounds boxes[2];
            uint8_t text[16];
            size_t length = 77, wanted = 0;
            memset(ids, 9, sizeof ids), memset(boxes, 9, sizeof boxes), memset(text, 9, sizeof text);
            until_failure = growth;
            uint8_t answer;
            if (call < 9) answer = ak_node_list(&tree, call == 4 || call == 8 ? 20 : call == 5 ? 2 : call == 2 || call == 6 ? 5 : call == 3 || call == 7 ? 3 : 10, 0, (ak_list)call, AK_COMMON, ids, 8, &length);
            else if (call == 9) answer = ak_text_boxes(&tree, TEXT, 0, &start, &end, boxes, 2, &length);
            else if (call == 10) answer = ak_node_style_text(&tree, TEXT, 0, AK_TEXT_STYLE_FONT_FAMILY, text, 16, &length);
            else if (call == 11) answer = ak_text_style_text(&tree, TEXT, 0, &start, AK_TEXT_STYLE_LANGUAGE, text, 16, &length);
            else if (call == 12) answer = ak_tree_toolkit_name(&tree, text, 16, &length);
            else answer = ak_role_name(AK_ROLE_OTHER + 328, text, 16, &length);
            until_failure = -1;
            static const size_t lengths[14] = {2, 2, 2, 3, 7, 3, 2, 2, 6, 2, 8, 2, 3, 7};
            wanted = lengths[call];
            bool is_unwritten = ids[0].node == 0x0909090909090909 && boxes[0].x0 == 0x0909090909090909 && text[0] == 9;
            CHECK(answer == AK_DONE ? length == wanted && !is_unwritten : answer == AK_NO_MEMORY && length == 77 && is_unwritten);
            CHECK(answer == AK_DONE || growth < 11);
        }
}

int main(int count, char **words) {
    static uint8_t lines[8000];
    FILE *file = count == 2 ? fopen(words[1], "rb") : NULL;
    if (!file) return 2;
    size_t length = fread(lines, 1, sizeof lines, file);
    fclose(file);
    ak_stop stop;
    CHECK(ak_tree_open(&tree) == AK_DONE && ak_tree_feed(&tree, lines, length, &stop) == AK_DONE);
    of_nodes();
    of_the_tree();
    of_texts();
    of_looks();
    growths();
    of_nothing();
    ak_tree_close(&tree);
    printf("%d passed, %d failed\n", passed, failed);
    return failed != 0;
}
