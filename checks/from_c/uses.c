/* What the calls answer where nothing is as it should be, and what becomes of a tree when each growth of memory fails in turn.
 * malloc and realloc are those below: linked with -Wl,--wrap=malloc,--wrap=realloc. Its word is the path of reads.script. Prints `N passed, M failed`. */
#include "accesskit_proved.h"
#include <stdio.h>
#include <stdlib.h>
#include <string.h>

static const char *script;
static int passed, failed;
static long until_failure = -1; /* growths before the one that fails; below 0 none does */

void *__real_malloc(size_t size);
void *__real_realloc(void *block, size_t size);

static bool fails(void) { return until_failure >= 0 && until_failure-- == 0; }
void *__wrap_malloc(size_t size) { return fails() ? NULL : __real_malloc(size); }
void *__wrap_realloc(void *block, size_t size) { return fails() ? NULL : __real_realloc(block, size); }

static void check(bool holds, const char *what) {
    holds ? passed++ : failed++;
    if (!holds) printf("fails: %s\n", what);
}
#define CHECK(holds) check((holds), #holds)

static const char first[] = "host on\nupdate root focus=2 root=1\nnode 1 Window label=\"Mail\" children=2,3,4\nnode 2 Button label=\"Send\"\n"
                            "node 3 CheckBox label=\"Receipt\"\nnode 4 Slider value=\"five\"\nend\n";
static const char second[] = "update root focus=3\nnode 1 Window label=\"Mail\" children=3,4,5\nnode 5 Button label=\"More\"\nend\nhost off\n";

static uint8_t feed_bytes(ak_tree *tree, const char *lines, size_t length, ak_stop *stop) {
    return ak_tree_feed(tree, (const uint8_t *)lines, length, stop);
}
static uint8_t feed(ak_tree *tree, const char *lines, ak_stop *stop) { return feed_bytes(tree, lines, strlen(lines), stop); }

/* All that a tree says of the nodes 0 to 9 of two trees, as text. Growths don't fail meanwhile. */
static void tell(ak_tree *tree, char *told, size_t room) {
    typedef uint8_t (*text_call)(ak_tree *, uint64_t, uint32_t, uint8_t *, size_t, size_t *);
    static const text_call texts[] = {ak_node_role, ak_node_label, ak_node_value, ak_node_text};
    ak_id id, ids[16];
    uint8_t text[64];
    size_t length, at = 0;
    long kept = until_failure;
    until_failure = -1;
    if (ak_tree_root(tree, &id) == AK_DONE) at += (size_t)snprintf(told + at, room - at, "root %u:%lu\n", id.tree, (unsigned long)id.node);
    if (ak_tree_focus(tree, &id) == AK_DONE) at += (size_t)snprintf(told + at, room - at, "focus %u:%lu\n", id.tree, (unsigned long)id.node);
    for (uint32_t index = 0; index < 2; index++)
        for (uint64_t node = 0; node < 10; node++) {
            if (ak_node_children(tree, node, index, ids, 16, &length) != AK_DONE) continue;
            at += (size_t)snprintf(told + at, room - at, "%u:%lu", index, (unsigned long)node);
            for (size_t i = 0; i < length; i++) at += (size_t)snprintf(told + at, room - at, " %lu", (unsigned long)ids[i].node);
            if (ak_node_parent(tree, node, index, &id) == AK_DONE) at += (size_t)snprintf(told + at, room - at, " in %lu", (unsigned long)id.node);
            for (int i = 0; i < 4; i++)
                if (texts[i](tree, node, index, text, sizeof text, &length) == AK_DONE)
                    at += (size_t)snprintf(told + at, room - at, " %.*s", (int)length, text);
            at += (size_t)snprintf(told + at, room - at, "\n");
        }
    until_failure = kept;
}

static void closed_handles(void) {
    ak_tree tree = AK_TREE_CLOSED;
    ak_stop stop = {.line = 7, .done = 7, .node = 7, .rule = 7};
    ak_event event;
    ak_id id = {7, 7};
    size_t count = 7;
    uint8_t byte = 7;
    for (int round = 0; round < 2; round++) {
        CHECK(feed(&tree, first, &stop) == AK_CLOSED && stop.line == 7 && stop.done == 7);
        CHECK(ak_tree_root(&tree, &id) == AK_CLOSED && ak_tree_focus(&tree, &id) == AK_CLOSED && id.node == 7);
        CHECK(ak_tree_event_count(&tree, &count) == AK_CLOSED && ak_tree_event(&tree, 0, &event) == AK_CLOSED);
        CHECK(ak_node_parent(&tree, 1, 0, &id) == AK_CLOSED && ak_node_children(&tree, 1, 0, &id, 1, &count) == AK_CLOSED);
        CHECK(ak_node_label(&tree, 1, 0, &byte, 1, &count) == AK_CLOSED && ak_node_text(&tree, 1, 0, &byte, 1, &count) == AK_CLOSED);
        CHECK(count == 7 && byte == 7 && id.node == 7);
        ak_tree_close(&tree);
        CHECK(ak_tree_open(&tree) == AK_DONE && ak_tree_open(&tree) == AK_DONE);
        CHECK(ak_tree_root(&tree, &id) == AK_NOTHING && ak_node_role(&tree, 1, 0, &byte, 1, &count) == AK_NO_NODE);
        CHECK(ak_tree_event_count(&tree, &count) == AK_DONE && count == 0);
        count = 7;
        ak_tree_close(&tree);
        ak_tree_close(&tree);
    }
}

static void bad_lines(void) {
    static const char *const lines[] = {"what\n", "update root focus=1 root=1\n", "end\n", "node 1 Button\n", "host maybe\n"};
    char before[4000], after[4000];
    ak_tree tree = AK_TREE_CLOSED;
    ak_stop stop;
    CHECK(ak_tree_open(&tree) == AK_DONE && feed(&tree, first, &stop) == AK_DONE && stop.line == 0 && stop.done == 0);
    tell(&tree, before, sizeof before);
    for (size_t i = 0; i < sizeof lines / sizeof *lines; i++) {
        CHECK(feed(&tree, lines[i], &stop) == AK_BAD_LINE && stop.line == 1);
        char both[400];
        snprintf(both, sizeof both, "%s%s", second, lines[i]);
        CHECK(feed(&tree, both, &stop) == AK_BAD_LINE && stop.line == 6 && stop.done == 0);
        tell(&tree, after, sizeof after);
        CHECK(strcmp(before, after) == 0);
    }
    CHECK(feed_bytes(&tree, "host on\n\xff\xfe\n", 11, &stop) == AK_BAD_LINE && stop.line == 2);
    CHECK(feed_bytes(&tree, "host on\n\0\n", 10, &stop) == AK_BAD_LINE && stop.line == 2);
    CHECK(feed_bytes(&tree, NULL, 0, &stop) == AK_DONE);
    CHECK(feed(&tree, "update root focus=9\nend\n", &stop) == AK_REFUSED && stop.rule == AK_FOCUS_MISSING && stop.node == 9 && stop.done == 0);
    CHECK(feed(&tree, "host off\nupdate root focus=2\nnode 1 Window children=2,2\nend\nhost on\n", &stop) == AK_REFUSED && stop.rule == AK_LISTED_TWICE
          && stop.done == 1);
    ak_id id;
    CHECK(ak_tree_focus(&tree, &id) == AK_NOTHING);
    ak_tree_close(&tree);
}

static void rooms(void) {
    ak_tree tree = AK_TREE_CLOSED;
    ak_stop stop;
    ak_id ids[4];
    uint8_t text[8];
    size_t length;
    CHECK(ak_tree_open(&tree) == AK_DONE && feed(&tree, first, &stop) == AK_DONE);
    for (size_t room = 0; room <= sizeof text; room++) {
        memset(text, '-', sizeof text);
        CHECK(ak_node_label(&tree, 2, 0, text, room, &length) == AK_DONE && length == 4);
        CHECK(memcmp(text, "Send", room < 4 ? room : 4) == 0);
        for (size_t i = room < 4 ? room : 4; i < sizeof text; i++) CHECK(text[i] == '-');
    }
    CHECK(ak_node_label(&tree, 2, 0, NULL, 0, &length) == AK_DONE && length == 4);
    for (size_t room = 0; room <= 4; room++) {
        memset(ids, 9, sizeof ids);
        CHECK(ak_node_children(&tree, 1, 0, ids, room, &length) == AK_DONE && length == 3);
        for (size_t i = 0; i < 4; i++) CHECK(i < room && i < 3 ? ids[i].node == i + 2 && ids[i].tree == 0 : ids[i].node == 0x0909090909090909);
    }
    CHECK(ak_node_children(&tree, 1, 0, NULL, 0, &length) == AK_DONE && length == 3);
    CHECK(ak_node_label(&tree, 99, 0, text, 8, &length) == AK_NO_NODE && ak_node_label(&tree, 2, 4000000000, text, 8, &length) == AK_NO_NODE);
    CHECK(ak_node_value(&tree, 4, 0, text, 8, &length) == AK_DONE && length == 4 && memcmp(text, "five", 4) == 0);
    CHECK(ak_node_value(&tree, 2, 0, text, 8, &length) == AK_NOTHING && ak_node_text(&tree, 2, 0, text, 8, &length) == AK_NOTHING);
    CHECK(ak_node_parent(&tree, 1, 0, ids) == AK_NOTHING && ak_node_parent(&tree, 4, 0, ids) == AK_DONE && ids[0].node == 1);
    ak_event event;
    CHECK(ak_tree_event(&tree, SIZE_MAX, &event) == AK_NOTHING);
    ak_tree_close(&tree);
}

/* The script of reads.script, which the examples in Python and Rust read too. */
static void feed_reads(ak_tree *tree) {
    static char lines[4000];
    ak_stop stop;
    FILE *file = fopen(script, "rb");
    size_t length = file ? fread(lines, 1, sizeof lines, file) : 0;
    if (file) fclose(file);
    CHECK(ak_tree_open(tree) == AK_DONE && length > 0 && feed_bytes(tree, lines, length, &stop) == AK_DONE);
}

static bool has_flag(ak_tree *tree, uint64_t node, uint8_t flag) {
    bool is_set = false;
    CHECK(ak_node_flag(tree, node, 0, flag, &is_set) == AK_DONE);
    return is_set;
}

static uint64_t hit(ak_tree *tree, int64_t x, int64_t y, uint8_t filter) {
    ak_id id = {0, 0};
    return ak_node_hit(tree, 1, 0, x, y, filter, &id) == AK_DONE ? id.node : 0;
}

static void shown(void) {
    ak_tree tree = AK_TREE_CLOSED;
    ak_bounds box = {7, 7, 7, 7};
    ak_id id = {7, 7}, ids[4];
    bool is_set = true;
    ak_filter_result answer = 7;
    uint32_t number = 7;
    size_t count = 7;
    CHECK(ak_node_bounds(&tree, 2, 0, &box) == AK_CLOSED && ak_node_flag(&tree, 7, 0, AK_DISABLED, &is_set) == AK_CLOSED);
    CHECK(ak_node_filter(&tree, 2, 0, AK_COMMON, &answer) == AK_CLOSED && ak_node_hit(&tree, 1, 0, 20, 20, AK_COMMON, &id) == AK_CLOSED);
    CHECK(ak_node_role_number(&tree, 2, 0, &number) == AK_CLOSED);
    CHECK(ak_node_filtered_parent(&tree, 8, 0, AK_COMMON, &id) == AK_CLOSED && ak_node_filtered_children(&tree, 1, 0, AK_COMMON, ids, 4, &count) == AK_CLOSED);
    feed_reads(&tree);
    CHECK(ak_node_bounds(&tree, 6, 0, &box) == AK_NOTHING && ak_node_bounds(&tree, 99, 0, &box) == AK_NO_NODE);
    CHECK(ak_node_flag(&tree, 99, 0, AK_HIDDEN, &is_set) == AK_NO_NODE && ak_node_flag(&tree, 2, 0, AK_HAS_VALUE + 1, &is_set) == AK_NO_SUCH);
    CHECK(ak_node_flag(&tree, 2, 0, 256, &is_set) == AK_NO_SUCH && ak_node_filter(&tree, 2, 0, AK_COMMON_WITH_ROOT + 1, &answer) == AK_NO_SUCH);
    CHECK(ak_node_filter(&tree, 99, 0, AK_COMMON, &answer) == AK_NO_NODE && ak_node_hit(&tree, 99, 0, 1, 1, AK_ALL, &id) == AK_NO_NODE);
    CHECK(ak_node_hit(&tree, 1, 0, 20, 20, 257, &id) == AK_NO_SUCH && ak_node_hit(&tree, 1, 0, INT64_MIN, INT64_MAX, AK_ALL, &id) == AK_NOTHING);
    CHECK(ak_node_filtered_parent(&tree, 1, 0, AK_ALL, &id) == AK_NOTHING && ak_node_filtered_children(&tree, 1, 0, 9, ids, 4, &count) == AK_NO_SUCH);
    CHECK(ak_node_filtered_parent(&tree, 2, 1, AK_ALL, &id) == AK_NO_NODE && ak_node_filtered_children(&tree, 99, 0, AK_ALL, ids, 4, &count) == AK_NO_NODE);
    CHECK(ak_node_role_number(&tree, 99, 0, &number) == AK_NO_NODE && ak_node_role_number(&tree, 2, 1, &number) == AK_NO_NODE);
    CHECK(box.x0 == 7 && box.y1 == 7 && is_set && answer == 7 && count == 7 && id.node == 7 && id.tree == 7 && number == 7);
    CHECK(ak_node_role_number(&tree, 2, 0, &number) == AK_DONE && number == AK_ROLE_BUTTON);
    CHECK(ak_node_role_number(&tree, 8, 0, &number) == AK_DONE && number == AK_ROLE_CHECK_BOX);
    CHECK(ak_node_bounds(&tree, 3, 0, &box) == AK_DONE && box.x0 == 300 && box.y0 == 200 && box.x1 == 500 && box.y1 == 400);
    CHECK(has_flag(&tree, 7, AK_HIDDEN) && !has_flag(&tree, 8, AK_HIDDEN) && has_flag(&tree, 8, AK_DISABLED) && !has_flag(&tree, 2, AK_DISABLED));
    CHECK(has_flag(&tree, 2, AK_FOCUSABLE) && !has_flag(&tree, 8, AK_FOCUSABLE) && has_flag(&tree, 2, AK_INVOCABLE) && !has_flag(&tree, 2, AK_GRAFT));
    CHECK(has_flag(&tree, 3, AK_SUPPORTS_TEXT_RANGES) && has_flag(&tree, 3, AK_TEXT_INPUT) && !has_flag(&tree, 3, AK_READ_ONLY));
    CHECK(has_flag(&tree, 8, AK_SUPPORTS_TOGGLE) && !has_flag(&tree, 8, AK_SUPPORTS_INCREMENT) && has_flag(&tree, 2, AK_CLICKABLE));
    CHECK(hit(&tree, 20, 20, AK_COMMON) == 2 && hit(&tree, 310, 210, AK_COMMON) == 3 && hit(&tree, 600, 600, AK_ALL) == 1 && hit(&tree, 1000, 0, AK_ALL) == 0);
    CHECK(ak_node_filter(&tree, 6, 0, AK_COMMON, &answer) == AK_DONE && answer == AK_EXCLUDE_NODE);
    CHECK(ak_node_filter(&tree, 6, 0, AK_ALL, &answer) == AK_DONE && answer == AK_INCLUDE);
    CHECK(ak_node_filter(&tree, 7, 0, AK_COMMON_WITH_ROOT, &answer) == AK_DONE && answer == AK_EXCLUDE_SUBTREE);
    CHECK(ak_node_filtered_children(&tree, 1, 0, AK_COMMON, ids, 4, &count) == AK_DONE && count == 3 && ids[1].node == 3 && ids[2].node == 8);
    CHECK(ak_node_filtered_children(&tree, 1, 0, AK_COMMON, NULL, 0, &count) == AK_DONE && count == 3);
    CHECK(ak_node_filtered_parent(&tree, 8, 0, AK_COMMON, &id) == AK_DONE && id.node == 1 && id.tree == 0);
    CHECK(ak_node_filtered_parent(&tree, 8, 0, AK_ALL, &id) == AK_DONE && id.node == 6);
    ak_tree_close(&tree);
}

static bool is_at(const ak_position *position, uint64_t run, size_t character, size_t index, bool is_end) {
    return position->run == run && position->character == character && position->index == index && position->is_end == is_end && position->line == 0;
}

static void texts(void) {
    ak_tree tree = AK_TREE_CLOSED;
    ak_position at = {7, 7, 7, 7, 7, true};
    uint8_t text[8] = {0};
    size_t length = 7;
    CHECK(ak_text_position(&tree, 3, 0, 0, false, &at) == AK_CLOSED && ak_text_move(&tree, 3, 0, 0, false, AK_DOCUMENT_END, &at) == AK_CLOSED);
    CHECK(ak_text_selection_anchor(&tree, 3, 0, &at) == AK_CLOSED && ak_text_selection_focus(&tree, 3, 0, &at) == AK_CLOSED);
    CHECK(ak_text_between(&tree, 3, 0, 0, 1, text, 8, &length) == AK_CLOSED && length == 7);
    feed_reads(&tree);
    CHECK(ak_text_position(&tree, 3, 0, 7, false, &at) == AK_NOTHING && ak_text_position(&tree, 3, 0, SIZE_MAX, true, &at) == AK_NOTHING);
    CHECK(ak_text_position(&tree, 2, 0, 0, false, &at) == AK_NOTHING && ak_text_move(&tree, 99, 0, 0, false, AK_DOCUMENT_END, &at) == AK_NO_NODE);
    CHECK(ak_text_move(&tree, 3, 0, 0, false, AK_DOCUMENT_START + 1, &at) == AK_NO_SUCH && ak_text_move(&tree, 3, 0, 0, false, 256, &at) == AK_NO_SUCH);
    CHECK(ak_text_move(&tree, 3, 0, 6, false, AK_FORWARD_TO_CHARACTER_END, &at) == AK_NOTHING);
    CHECK(ak_text_move(&tree, 3, 0, 0, false, AK_BACKWARD_TO_CHARACTER_START, &at) == AK_NOTHING && is_at(&at, 7, 7, 7, true) == false && at.run == 7);
    CHECK(ak_text_between(&tree, 3, 0, 0, 7, text, 8, &length) == AK_NOTHING && ak_text_between(&tree, 3, 0, SIZE_MAX, 0, text, 8, &length) == AK_NOTHING);
    CHECK(ak_text_between(&tree, 99, 0, 0, 1, text, 8, &length) == AK_NO_NODE && ak_text_position(&tree, 99, 0, 0, true, &at) == AK_NO_NODE);
    CHECK(length == 7 && text[0] == 0);
    CHECK(ak_text_selection_anchor(&tree, 2, 0, &at) == AK_NOTHING && ak_text_selection_focus(&tree, 99, 0, &at) == AK_NO_NODE && at.run == 7);
    CHECK(ak_text_selection_anchor(&tree, 3, 0, &at) == AK_DONE && is_at(&at, 4, 1, 1, false));
    CHECK(ak_text_selection_focus(&tree, 3, 0, &at) == AK_DONE && is_at(&at, 5, 1, 5, false) && at.utf16_index == 5);
    CHECK(ak_text_position(&tree, 3, 0, 4, false, &at) == AK_DONE && is_at(&at, 5, 0, 4, false));
    CHECK(ak_text_position(&tree, 3, 0, 4, true, &at) == AK_DONE && is_at(&at, 4, 4, 4, true));
    CHECK(ak_text_move(&tree, 3, 0, 0, false, AK_FORWARD_TO_WORD_START, &at) == AK_DONE && is_at(&at, 4, 3, 3, false) && at.utf16_index == 3);
    CHECK(ak_text_move(&tree, 3, 0, at.index, at.is_end, AK_FORWARD_TO_WORD_END, &at) == AK_DONE && is_at(&at, 4, 4, 4, true));
    CHECK(ak_text_move(&tree, 3, 0, at.index, at.is_end, AK_FORWARD_TO_CHARACTER_START, &at) == AK_DONE && is_at(&at, 5, 1, 5, false));
    CHECK(ak_text_move(&tree, 3, 0, at.index, at.is_end, AK_FORWARD_TO_LINE_END, &at) == AK_DONE && is_at(&at, 5, 2, 6, false) && at.utf16_index == 7);
    for (size_t room = 0; room <= sizeof text; room++) {
        memset(text, '-', sizeof text);
        CHECK(ak_text_between(&tree, 3, 0, 1, 5, text, room, &length) == AK_DONE && length == 4 && memcmp(text, "b cd", room < 4 ? room : 4) == 0);
        for (size_t i = room < 4 ? room : 4; i < sizeof text; i++) CHECK(text[i] == '-');
    }
    CHECK(ak_text_between(&tree, 3, 0, 5, 4, text, 8, &length) == AK_DONE && length == 0);
    for (long growth = 0; growth < 20; growth++) {
        ak_id ids[4] = {{9, 9}};
        memset(text, 0, sizeof text);
        until_failure = growth;
        length = 9;
        uint8_t answer = ak_text_between(&tree, 3, 0, 4, 6, text, 8, &length);
        CHECK(answer == AK_DONE ? length == 5 && text[0] == 'd' : answer == AK_NO_MEMORY && length == 9 && text[0] == 0);
        until_failure = growth;
        length = 9;
        answer = ak_node_filtered_children(&tree, 1, 0, AK_COMMON, ids, 4, &length);
        CHECK(answer == AK_DONE ? length == 3 : answer == AK_NO_MEMORY && length == 9 && ids[0].node == 9);
    }
    until_failure = -1;
    ak_tree_close(&tree);
}

/* The calls that read fields, where read_fields.c doesn't look: closed, numbers that mean nothing, small rooms, a password, and growths. */
static void fields(void) {
    static const char login[] = "update root focus=1 root=1\nnode 1 PasswordInput value=\"ab\" children=2,3 actions=Click,Focus,Other(3)\n"
                                "node 2 TextRun value=\"pin\" chars=1,1,1 words=0\nnode 3 GenericContainer expanded=false\nend\n";
    ak_tree tree = AK_TREE_CLOSED;
    ak_stop stop;
    ak_rect rect = {7, 7, 7, 7};
    uint8_t text[8] = {0};
    uint64_t ids[2] = {7, 7};
    uint32_t actions[4] = {7, 7, 7, 7}, choice = 7;
    size_t length = 7;
    bool is_set = true;
    CHECK(ak_field_text(&tree, 1, 0, AK_FIELD_VALUE, text, 8, &length) == AK_CLOSED && ak_field_rect(&tree, 1, 0, AK_FIELD_BOUNDS, &rect) == AK_CLOSED);
    CHECK(ak_field_text(&tree, 1, 0, 256, text, 8, &length) == AK_CLOSED && ak_field_ids(&tree, 1, 0, AK_FIELD_CHILDREN, ids, 2, &length) == AK_CLOSED);
    CHECK(ak_tree_open(&tree) == AK_DONE && ak_field_text(&tree, 1, 0, AK_FIELD_VALUE, text, 8, &length) == AK_NO_NODE);
    CHECK(feed(&tree, login, &stop) == AK_DONE && ak_field_rect(&tree, 1, 0, AK_FIELD_BOUNDS, &rect) == AK_NOTHING);
    CHECK(ak_field_rect(&tree, 9, 0, AK_FIELD_BOUNDS, &rect) == AK_NO_NODE && ak_field_rect(&tree, 9, 0, AK_FIELD_MOVE, &rect) == AK_NO_SUCH);
    CHECK(ak_field_text(&tree, 1, 0, AK_FIELD_CHILD_ACTIONS + 1, text, 8, &length) == AK_NO_SUCH && ak_field_flag(&tree, 1, 0, 256 + AK_FIELD_HIDDEN, &is_set) == AK_NO_SUCH);
    CHECK(ak_field_choice(&tree, 1, 0, AK_FIELD_LIVE, &choice) == AK_NOTHING && ak_field_text(&tree, 1, 0, AK_FIELD_LABEL, text, 8, &length) == AK_NOTHING);
    CHECK(rect.x0 == 7 && rect.y1 == 7 && text[0] == 0 && length == 7 && choice == 7 && is_set && ids[0] == 7);
    CHECK(ak_field_flag(&tree, 3, 0, AK_FIELD_EXPANDED, &is_set) == AK_DONE && !is_set && ak_field_flag(&tree, 3, 0, AK_FIELD_SELECTED, &is_set) == AK_NOTHING);
    CHECK(ak_field_text(&tree, 1, 0, AK_FIELD_VALUE, text, 1, &length) == AK_DONE && length == 2 && text[0] == 'a' && text[1] == 0);
    CHECK(ak_field_text(&tree, 2, 0, AK_FIELD_VALUE, text, 8, &length) == AK_DONE && length == 3 && memcmp(text, "pin", 3) == 0);
    CHECK(ak_node_value(&tree, 1, 0, text, 8, &length) == AK_DONE && text[0] == 0xe2);
    CHECK(ak_field_ids(&tree, 1, 0, AK_FIELD_CHILDREN, ids, 1, &length) == AK_DONE && length == 2 && ids[0] == 2 && ids[1] == 7);
    CHECK(ak_field_ids(&tree, 2, 0, AK_FIELD_CHILDREN, NULL, 0, &length) == AK_DONE && length == 0);
    for (long growth = 0; growth < 20; growth++) {
        until_failure = growth;
        length = 9;
        uint8_t answer = ak_field_actions(&tree, 1, 0, AK_FIELD_ACTIONS, actions, 4, &length);
        CHECK(answer == AK_DONE ? length == 3 && actions[1] == AK_ACTION_FOCUS && actions[2] == AK_ACTION_OTHER + 3 : answer == AK_NO_MEMORY && length == 9);
        until_failure = growth;
        length = 9;
        answer = ak_field_ids(&tree, 1, 0, AK_FIELD_CHILDREN, ids, 2, &length);
        CHECK(answer == AK_DONE ? length == 2 && ids[1] == 3 : answer == AK_NO_MEMORY && length == 9);
    }
    until_failure = 0;
    CHECK(ak_field_text(&tree, 2, 0, AK_FIELD_VALUE, text, 8, &length) == AK_DONE && length == 3);
    until_failure = -1;
    ak_tree_close(&tree);
}

/* The names of rules, and what refusals name. */
static void rules(void) {
    ak_tree tree = AK_TREE_CLOSED;
    ak_stop stop;
    uint8_t name[32] = {0};
    size_t length = 7;
    CHECK(ak_rule_name(0, name, 32, &length) == AK_NO_SUCH && ak_rule_name(AK_INDEXES_USED_UP + 1, name, 32, &length) == AK_NO_SUCH && length == 7);
    CHECK(ak_rule_name(256 + AK_MISSING_DATA, name, 32, &length) == AK_NO_SUCH && ak_rule_name(UINT32_MAX, name, 32, &length) == AK_NO_SUCH && name[0] == 0);
    CHECK(ak_rule_name(AK_INDEXES_USED_UP, name, 5, &length) == AK_DONE && length == 13 && memcmp(name, "Index", 6) == 0);
    CHECK(ak_tree_open(&tree) == AK_DONE && feed(&tree, "update root focus=1 root=1\nnode 1 Window\nend\n", &stop) == AK_DONE && stop.tree_id[15] == 0);
    CHECK(feed(&tree, "update 01000000-0000-0000-0000-000000000007 focus=1 root=1\nnode 1 Window\nend\n", &stop) == AK_REFUSED && stop.node == 0);
    CHECK(stop.rule == AK_NO_GRAFT && stop.tree_id[0] == 1 && stop.tree_id[15] == 7 && ak_rule_name(stop.rule, name, 32, &length) == AK_DONE);
    CHECK(length == 7 && memcmp(name, "NoGraft", 7) == 0);
    CHECK(feed(&tree, "update root focus=1\nnode 1 Window children=5\nend\n", &stop) == AK_REFUSED && stop.node == 5 && stop.tree_id[0] == 0);
    CHECK(stop.rule == AK_MISSING_DATA && ak_rule_name(stop.rule, name, 32, &length) == AK_DONE && memcmp(name, "MissingData", length) == 0);
    ak_tree_close(&tree);
}

static uint8_t label(ak_tree *tree, const char *text) { return ak_update_text(tree, AK_FIELD_LABEL, (const uint8_t *)text, strlen(text)); }

/* How often a call had no memory, and was made again. */
static int wants;
#define SAY(call)                            \
    do {                                     \
        uint8_t said = (call);               \
        if (said == AK_NO_MEMORY) {          \
            wants++;                         \
            until_failure = -1;              \
            said = (call);                   \
        }                                    \
        CHECK(said == AK_DONE);              \
    } while (0)

/* The updates of `first` and `second` by calls, up to where they are sent. */
static void build_first(ak_tree *tree) {
    SAY(ak_update_begin(tree, NULL, 0, 2));
    SAY(ak_update_root(tree, 1));
    SAY(ak_update_node(tree, 1, AK_ROLE_WINDOW));
    SAY(label(tree, "Mail"));
    SAY(ak_update_ids(tree, AK_FIELD_CHILDREN, (uint64_t[]){2, 3, 4}, 3));
    SAY(ak_update_node(tree, 2, AK_ROLE_BUTTON));
    SAY(label(tree, "Send"));
    SAY(ak_update_node(tree, 3, AK_ROLE_CHECK_BOX));
    SAY(label(tree, "Receipt"));
    SAY(ak_update_node(tree, 4, AK_ROLE_SLIDER));
    SAY(ak_update_text(tree, AK_FIELD_VALUE, (const uint8_t *)"five", 4));
}
static void build_second(ak_tree *tree) {
    SAY(ak_update_begin(tree, NULL, 0, 3));
    SAY(ak_update_node(tree, 1, AK_ROLE_WINDOW));
    SAY(label(tree, "Mail"));
    SAY(ak_update_ids(tree, AK_FIELD_CHILDREN, (uint64_t[]){3, 4, 5}, 3));
    SAY(ak_update_node(tree, 5, AK_ROLE_BUTTON));
    SAY(label(tree, "More"));
}

static size_t events_of(ak_tree *tree) {
    size_t count = 999;
    CHECK(ak_tree_event_count(tree, &count) == AK_DONE);
    return count;
}

/* By calls and by lines the same. */
static void updates(void) {
    static const uint8_t uuid[16] = {1};
    char fed[4000], built[4000];
    ak_tree tree = AK_TREE_CLOSED, other = AK_TREE_CLOSED;
    ak_stop stop = {.line = 7, .rule = 7};
    ak_event event;
    CHECK(ak_update_begin(&tree, NULL, 0, 1) == AK_CLOSED && ak_update_root(&tree, 1) == AK_CLOSED && ak_update_node(&tree, 1, 0) == AK_CLOSED);
    CHECK(ak_update_begin(&tree, uuid, 3, 1) == AK_CLOSED && ak_update_node(&tree, 1, UINT32_MAX) == AK_CLOSED && label(&tree, "\xff") == AK_CLOSED);
    CHECK(ak_update_ids(&tree, 0, NULL, 0) == AK_CLOSED && ak_update_flag(&tree, 255) == AK_CLOSED && ak_tree_host_focus(&tree, true) == AK_CLOSED);
    CHECK(ak_update_send(&tree, &stop) == AK_CLOSED && stop.line == 7 && stop.rule == 7);
    CHECK(ak_tree_open(&tree) == AK_DONE && ak_tree_open(&other) == AK_DONE);
    CHECK(ak_update_root(&tree, 1) == AK_OUT_OF_PLACE && ak_update_node(&tree, 1, AK_ROLE_WINDOW) == AK_OUT_OF_PLACE && label(&tree, "x") == AK_OUT_OF_PLACE);
    CHECK(ak_update_toolkit_name(&tree, uuid, 0) == AK_OUT_OF_PLACE && ak_update_send(&tree, &stop) == AK_OUT_OF_PLACE && stop.line == 7);
    CHECK(ak_update_begin(&tree, uuid, 15, 1) == AK_NO_SUCH && ak_update_root(&tree, 1) == AK_OUT_OF_PLACE);
    CHECK(ak_update_begin(&tree, NULL, 0, 9) == AK_DONE && label(&tree, "x") == AK_OUT_OF_PLACE && ak_update_flag(&tree, 255) == AK_OUT_OF_PLACE);
    CHECK(ak_update_toolkit_version(&tree, uuid, 0) == AK_OUT_OF_PLACE && ak_update_root(&tree, 1) == AK_DONE);
    CHECK(ak_update_toolkit_name(&tree, (const uint8_t *)"\xff", 1) == AK_NO_SUCH && ak_update_toolkit_name(&tree, NULL, 0) == AK_DONE);
    CHECK(ak_update_node(&tree, 1, AK_ROLE_OTHER + 65536) == AK_NO_SUCH && ak_update_node(&tree, 1, UINT32_MAX) == AK_NO_SUCH && label(&tree, "x") == AK_OUT_OF_PLACE);
    CHECK(ak_update_node(&tree, 1, AK_ROLE_TREE + 1) == AK_NO_SUCH && ak_update_node(&tree, 1, AK_ROLE_OTHER - 1) == AK_NO_SUCH);
    CHECK(ak_update_node(&tree, 1, AK_ROLE_OTHER + 65535) == AK_DONE && label(&tree, "\xc3") == AK_NO_SUCH && ak_update_flag(&tree, AK_FIELD_LABEL) == AK_NO_SUCH);
    CHECK(ak_update_flag(&tree, AK_FIELD_CHILD_ACTIONS + 1) == AK_NO_SUCH && ak_update_choice(&tree, AK_FIELD_TOGGLED, AK_TOGGLED_MIXED + 1) == AK_NO_SUCH);
    CHECK(ak_update_flag(&tree, 256 + AK_FIELD_HIDDEN) == AK_NO_SUCH && ak_update_choice(&tree, AK_FIELD_LIVE, 256) == AK_NO_SUCH);
    CHECK(ak_update_action(&tree, AK_FIELD_ACTIONS, AK_ACTION_DECREMENT + 1) == AK_NO_SUCH && ak_update_action(&tree, AK_FIELD_ACTIONS, 255) == AK_NO_SUCH);
    CHECK(ak_update_decoration(&tree, AK_FIELD_OVERLINE, 256, 1, 2, 3, 4) == AK_NO_SUCH && ak_update_action(&tree, AK_FIELD_ACTIONS, 65536) == AK_NO_SUCH);
    CHECK(ak_update_action(&tree, AK_FIELD_ACTIONS, AK_ACTION_OTHER + 256) == AK_NO_SUCH && ak_update_tree(&tree, AK_FIELD_TREE, uuid, 0) == AK_NO_SUCH);
    CHECK(ak_update_count(&tree, AK_FIELD_FONT_WEIGHT, 65536) == AK_NO_SUCH && ak_update_decoration(&tree, AK_FIELD_OVERLINE, 5, 1, 2, 3, 4) == AK_NO_SUCH);
    CHECK(ak_update_send(&tree, &stop) == AK_REFUSED && stop.rule == AK_FOCUS_MISSING && stop.node == 9 && stop.done == 0 && stop.line == 0);
    CHECK(ak_update_send(&tree, &stop) == AK_OUT_OF_PLACE && ak_tree_host_focus(&tree, true) == AK_DONE && events_of(&tree) == 0);
    CHECK(ak_update_begin(&tree, uuid, 16, 1) == AK_DONE && ak_update_node(&tree, 1, 0) == AK_DONE);
    build_first(&tree);
    CHECK(ak_update_send(&tree, &stop) == AK_DONE && stop.done == 0 && events_of(&tree) == 0 && feed(&other, first, &stop) == AK_DONE);
    tell(&tree, built, sizeof built);
    tell(&other, fed, sizeof fed);
    CHECK(strcmp(built, fed) == 0 && feed(&tree, strchr(first, 'u'), &stop) == AK_DONE && events_of(&tree) == 0);
    build_second(&tree);
    CHECK(ak_update_ids(&tree, AK_FIELD_CONTROLS, (uint64_t[]){1}, 1) == AK_DONE && ak_update_ids(&tree, AK_FIELD_CONTROLS, NULL, 0) == AK_DONE);
    CHECK(label(&tree, "Other") == AK_DONE && feed(&tree, "host off\nhost on\n", &stop) == AK_DONE && label(&tree, "More") == AK_DONE);
    CHECK(ak_update_send(&tree, &stop) == AK_DONE && feed(&other, second, &stop) == AK_DONE && ak_tree_host_focus(&other, true) == AK_DONE);
    CHECK(events_of(&other) == 2 && ak_tree_event(&other, 1, &event) == AK_DONE && event.kind == AK_FOCUS_MOVED && event.new_node == 3 && !event.has_old);
    tell(&tree, built, sizeof built);
    tell(&other, fed, sizeof fed);
    CHECK(strcmp(built, fed) == 0);
    build_second(&tree);
    ak_tree_close(&tree);
    ak_tree_close(&other);
    CHECK(ak_update_send(&tree, &stop) == AK_CLOSED && ak_tree_open(&tree) == AK_DONE && ak_update_send(&tree, &stop) == AK_OUT_OF_PLACE);
    ak_tree_close(&tree);
}

/* Each growth of an update by calls fails in turn. A call that had no memory is made again, and nothing is lost; of one that is sent
 * nothing is carried out, or the events are lost. */
static void growths_of_calls(void) {
    char before[4000], after[4000], told[4000];
    ak_tree tree = AK_TREE_CLOSED;
    ak_stop stop;
    size_t count;
    bool has_failed = true, has_wanted = false, was_unsent = false, was_lost = false;
    for (long growth = -1; has_failed; growth++) {
        until_failure = -1;
        CHECK(ak_tree_open(&tree) == AK_DONE && feed(&tree, first, &stop) == AK_DONE);
        tell(&tree, before, sizeof before);
        wants = 0;
        until_failure = growth;
        build_second(&tree);
        uint8_t answer = ak_update_send(&tree, &stop);
        has_failed = growth < 0 || until_failure < 0;
        until_failure = -1;
        tell(&tree, told, sizeof told);
        if (growth < 0) strcpy(after, told);
        has_wanted = has_wanted || wants > 0;
        if (answer == AK_DONE) CHECK(strcmp(told, after) == 0 && events_of(&tree) > 0);
        else if (stop.done == 1) {
            was_lost = true;
            CHECK(answer == AK_NO_MEMORY && strcmp(told, after) == 0 && ak_tree_event_count(&tree, &count) == AK_LOST);
        } else {
            was_unsent = true;
            CHECK(answer == AK_NO_MEMORY && strcmp(told, before) == 0 && events_of(&tree) == 0 && ak_update_send(&tree, &stop) == AK_OUT_OF_PLACE);
            build_second(&tree);
            CHECK(ak_update_send(&tree, &stop) == AK_DONE);
            tell(&tree, told, sizeof told);
            CHECK(strcmp(told, after) == 0);
        }
        until_failure = 0;
        answer = ak_tree_host_focus(&tree, false);
        until_failure = -1;
        ak_id id;
        ak_event event;
        CHECK(answer == AK_NO_MEMORY && ak_tree_event_count(&tree, &count) == AK_LOST && ak_tree_event(&tree, 0, &event) == AK_LOST);
        CHECK(ak_tree_focus(&tree, &id) == AK_NOTHING);
        ak_tree_close(&tree);
    }
    CHECK(has_wanted && was_unsent && was_lost);
}

/* Each growth of a feed fails in turn: either nothing is carried out, or as much as is answered. */
static void growths(void) {
    char before[4000], between[4000], after[4000], told[4000];
    ak_tree tree = AK_TREE_CLOSED;
    ak_stop stop;
    CHECK(ak_tree_open(&tree) == AK_DONE && feed(&tree, first, &stop) == AK_DONE);
    tell(&tree, before, sizeof before);
    CHECK(feed_bytes(&tree, second, strlen(second) - strlen("host off\n"), &stop) == AK_DONE);
    tell(&tree, between, sizeof between);
    CHECK(feed(&tree, "host off\n", &stop) == AK_DONE);
    tell(&tree, after, sizeof after);
    ak_tree_close(&tree);
    for (long growth = 0;; growth++) {
        until_failure = -1;
        CHECK(ak_tree_open(&tree) == AK_DONE && feed(&tree, first, &stop) == AK_DONE);
        until_failure = growth;
        uint8_t answer = feed(&tree, second, &stop);
        bool has_failed = until_failure < 0;
        until_failure = -1;
        tell(&tree, told, sizeof told);
        if (answer == AK_DONE) CHECK(!has_failed && strcmp(told, after) == 0);
        else CHECK(answer == AK_NO_MEMORY && has_failed && strcmp(told, stop.done == 0 ? before : stop.done == 1 ? between : after) == 0);
        size_t count;
        uint8_t kept = ak_tree_event_count(&tree, &count);
        CHECK(answer == AK_DONE ? kept == AK_DONE && count > 0 : stop.done > 0 || (kept == AK_DONE && count == 0));
        ak_tree_close(&tree);
        if (!has_failed) break;
    }
    until_failure = 0;
    CHECK(ak_tree_open(&tree) == AK_NO_MEMORY && ak_tree_root(&tree, &(ak_id){0}) == AK_CLOSED);
    until_failure = -1;
    CHECK(ak_tree_open(&tree) == AK_DONE && feed(&tree, first, &stop) == AK_DONE);
    for (long growth = 0; growth < 20; growth++) {
        uint8_t text[8] = {0};
        size_t length = 9;
        ak_id ids[4] = {{9, 9}};
        until_failure = growth;
        uint8_t answer = ak_node_label(&tree, 2, 0, text, 8, &length);
        CHECK(answer == AK_DONE ? length == 4 : answer == AK_NO_MEMORY && length == 9 && text[0] == 0);
        until_failure = growth;
        length = 9;
        answer = ak_node_children(&tree, 1, 0, ids, 4, &length);
        CHECK(answer == AK_DONE ? length == 3 : answer == AK_NO_MEMORY && length == 9 && ids[0].node == 9);
    }
    until_failure = -1;
    tell(&tree, told, sizeof told);
    CHECK(strcmp(told, before) == 0);
    ak_tree_close(&tree);
}

int main(int count, char **words) {
    if (count != 2) return 2;
    script = words[1];
    CHECK(ak_version() == AK_VERSION);
    closed_handles();
    bad_lines();
    rooms();
    shown();
    texts();
    fields();
    rules();
    updates();
    growths();
    growths_of_calls();
    printf("%d passed, %d failed\n", passed, failed);
    return failed != 0;
}
