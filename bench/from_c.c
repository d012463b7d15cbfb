/* What a call costs a program in C: from_c WORK TIMES NODES makes a window with so many nodes, or a text of so many lines, calls so often, and
 * prints a sum of what it met. The difference of two runs under callgrind, by that of their TIMES, is the cost of a call. */
#include "accesskit_proved.h"
#include <pthread.h>
#include <stdio.h>
#include <stdlib.h>
#include <string.h>

/* What the buttons have where fields are read: one of each kind but the tree, of which each has to be another. */
static const char fields[] = " active=2 controls=2,3 move=1,2 selection=2:0,2:0 chars=1,1 character_widths=1,2 toggled=true number=5 level=2"
                             " foreground_color=1,2,3,4 underline=wavy,1,2,3,4 actions=Click,Focus";

/* A window of buttons, one below another, each of 10 by 1 pixels. */
static char *first_lines(unsigned long nodes, const char *others, size_t *length) {
    char *lines = malloc((120 + strlen(others)) * (size_t)nodes + 400), *at = lines;
    at += sprintf(at, "host on\nupdate root focus=1 root=1\nnode 1 Window bounds=0,0,640,%lu children=2", 64 * nodes);
    for (unsigned long n = 3; n <= nodes; n++) at += sprintf(at, ",%lu", n);
    at += sprintf(at, "\n");
    for (unsigned long n = 2; n <= nodes; n++)
        at += sprintf(at, "node %lu Button label=\"Button %lu\" bounds=0,%lu,640,%lu%s\n", n, n, 64 * (n - 2), 64 * (n - 1), others);
    at += sprintf(at, "end\n");
    *length = (size_t)(at - lines);
    return lines;
}

/* A text of lines of 35 characters, eight words each, with the caret in the middle. */
static char *text_lines(unsigned long count, size_t *length) {
    char *lines = malloc(220 * (size_t)count + 400), *at = lines;
    at += sprintf(at, "host on\nupdate root focus=1 root=1\nnode 1 MultilineTextInput selection=%lu:3,%lu:3 children=2", count / 2 + 2, count / 2 + 2);
    for (unsigned long n = 3; n <= count + 1; n++) at += sprintf(at, ",%lu", n);
    at += sprintf(at, "\n");
    for (unsigned long n = 2; n <= count + 1; n++) {
        at += sprintf(at, "node %lu TextRun value=\"One and two and three and four or.\\n\" words=0,4,8,12,16,22,26,31 chars=1", n);
        for (int i = 1; i < 35; i++) at += sprintf(at, ",1");
        at += sprintf(at, "\n");
    }
    at += sprintf(at, "end\n");
    *length = (size_t)(at - lines);
    return lines;
}

static const char *const works[] = {"none", "count", "root", "parent", "flag", "label", "bounds", "filter", "move", "state", "flags", "style",
                                    "labels", "relative", "action", "transform", "uuid", "toolkit", "role_name", "declared", "locked",
                                    "children", "child", "index", "hit", "relabel", "build", "no_node",
                                    "field_text", "field_ids", "field_id", "field_flag", "field_choice", "field_number", "field_count", "field_numbers",
                                    "field_units", "field_actions", "field_rect", "field_translation", "field_selection", "field_color", "field_decoration",
                                    "place", "placed", "caret", "word", "line", "moved", "tested", "length", "boxes", "look", "differs", "defect"};
enum { NONE, COUNT, ROOT, PARENT, FLAG, LABEL, BOUNDS, FILTER, MOVE, STATE, FLAGS, STYLE, LABELS, RELATIVE, ACTION, TRANSFORM, UUID,
       TOOLKIT, ROLE_NAME, DECLARED, LOCKED, CHILDREN, CHILD, INDEX, HIT, RELABEL, BUILD, NO_NODE, F_TEXT, F_IDS, F_ID, F_FLAG,
       F_CHOICE, F_NUMBER, F_COUNT, F_NUMBERS, F_UNITS, F_ACTIONS, F_RECT, F_TRANSLATION, F_SELECTION, F_COLOR, F_DECORATION, PLACE,
       PLACED, CARET, WORD, LINE, MOVED, TESTED, LENGTH, BOXES, LOOK, DIFFERS, DEFECT, WORKS };

static unsigned long relabelled(ak_tree *tree, uint64_t turn) {
    static const char *const lines[] = {"update root focus=1\nnode 7 Button label=\"Button 0\" bounds=0,320,640,384\nend\n",
                                        "update root focus=1\nnode 7 Button label=\"Button 1\" bounds=0,320,640,384\nend\n"};
    ak_stop stop;
    size_t count = 0;
    if (ak_tree_feed(tree, (const uint8_t *)lines[turn & 1], strlen(lines[turn & 1]), &stop) != AK_DONE) exit(1);
    return ak_tree_event_count(tree, &count) == AK_DONE ? count : 0;
}

/* The same by calls. */
static unsigned long built(ak_tree *tree, uint64_t turn) {
    const uint8_t *label = (const uint8_t *)(turn & 1 ? "Button 1" : "Button 0");
    ak_stop stop;
    size_t count = 0;
    bool is_begun = ak_update_begin(tree, NULL, 0, 1) == AK_DONE && ak_update_node(tree, 7, AK_ROLE_BUTTON) == AK_DONE;
    bool is_labelled = is_begun && ak_update_text(tree, AK_FIELD_LABEL, label, 8) == AK_DONE;
    bool is_whole = is_labelled && ak_update_rect(tree, AK_FIELD_BOUNDS, 0, 320, 640, 384) == AK_DONE;
    if (!is_whole || ak_update_send(tree, &stop) != AK_DONE) exit(1);
    return ak_tree_event_count(tree, &count) == AK_DONE ? count : 0;
}

static bool is_field_read(ak_tree *tree, int work, uint64_t node) {
    uint8_t text[64];
    uint64_t ids[8], id;
    uint16_t numbers[8];
    int32_t units[8];
    uint32_t actions[8], choice;
    int64_t number;
    size_t count;
    bool is_set;
    ak_rect rect;
    ak_translation by;
    ak_selection selection;
    ak_color color;
    ak_decoration line;
    switch (work) {
    case F_TEXT: return ak_field_text(tree, node, 0, AK_FIELD_LABEL, text, sizeof text, &count) == AK_DONE;
    case F_IDS: return ak_field_ids(tree, node, 0, AK_FIELD_CONTROLS, ids, 8, &count) == AK_DONE;
    case F_ID: return ak_field_id(tree, node, 0, AK_FIELD_ACTIVE, &id) == AK_DONE;
    case F_FLAG: return ak_field_flag(tree, node, 0, AK_FIELD_DISABLED, &is_set) == AK_DONE;
    case F_CHOICE: return ak_field_choice(tree, node, 0, AK_FIELD_TOGGLED, &choice) == AK_DONE;
    case F_NUMBER: return ak_field_number(tree, node, 0, AK_FIELD_NUMBER, &number) == AK_DONE;
    case F_COUNT: return ak_field_count(tree, node, 0, AK_FIELD_LEVEL, &count) == AK_DONE;
    case F_NUMBERS: return ak_field_numbers(tree, node, 0, AK_FIELD_CHARS, numbers, 8, &count) == AK_DONE;
    case F_UNITS: return ak_field_units(tree, node, 0, AK_FIELD_CHARACTER_WIDTHS, units, 8, &count) == AK_DONE;
    case F_ACTIONS: return ak_field_actions(tree, node, 0, AK_FIELD_ACTIONS, actions, 8, &count) == AK_DONE;
    case F_RECT: return ak_field_rect(tree, node, 0, AK_FIELD_BOUNDS, &rect) == AK_DONE;
    case F_TRANSLATION: return ak_field_translation(tree, node, 0, AK_FIELD_MOVE, &by) == AK_DONE;
    case F_SELECTION: return ak_field_selection(tree, node, 0, AK_FIELD_SELECTION, &selection) == AK_DONE;
    case F_COLOR: return ak_field_color(tree, node, 0, AK_FIELD_FOREGROUND_COLOR, &color) == AK_DONE;
    case F_DECORATION: return ak_field_decoration(tree, node, 0, AK_FIELD_UNDERLINE, &line) == AK_DONE;
    default: return false;
    }
}

/* A read by one of the threads that share the tree. */
static bool is_parent_locked(ak_tree *tree, uint64_t node) {
    static pthread_mutex_t mutex = PTHREAD_MUTEX_INITIALIZER;
    ak_id id;
    pthread_mutex_lock(&mutex);
    bool is_parent = ak_node_parent(tree, node, 0, &id) == AK_DONE && id.node == 1;
    pthread_mutex_unlock(&mutex);
    return is_parent;
}

static unsigned long called(ak_tree *tree, int work, uint64_t node, uint64_t turn, uint64_t nodes) {
    const ak_spot middle = {.kind = AK_SPOT_INDEX, .index = 35 * (nodes / 2) + 3}, caret = {.kind = AK_SPOT_SELECTION_FOCUS};
    ak_style_value style;
    ak_span span;
    ak_point point;
    ak_defect defect;
    uint64_t set = 0;
    uint32_t number;
    ak_id id = {0, 0};
    ak_bounds bounds;
    ak_position position;
    bool is_set = false;
    ak_filter_result answer = AK_EXCLUDE_NODE;
    uint8_t text[64];
    size_t count = 0;
    switch (work) {
    case COUNT: return ak_tree_event_count(tree, &count) == AK_DONE;
    case ROOT: return ak_tree_root(tree, &id) == AK_DONE;
    case PARENT: return ak_node_parent(tree, node, 0, &id) == AK_DONE && id.node == 1;
    case FLAG: return ak_node_flag(tree, node, 0, AK_DISABLED, &is_set) == AK_DONE && is_set;
    case LABEL: return ak_node_label(tree, node, 0, text, sizeof text, &count) == AK_DONE ? count : 0;
    case BOUNDS: return ak_node_bounds(tree, node, 0, &bounds) == AK_DONE ? (unsigned long)bounds.y0 / 64 : 0;
    case FILTER: return ak_node_filter(tree, node, 0, AK_COMMON, &answer) == AK_DONE && answer == AK_INCLUDE;
    case MOVE: return ak_text_move(tree, node, 0, 0, false, AK_DOCUMENT_END, &position) == AK_DONE;
    case STATE: return ak_node_state(tree, node, 0, AK_STATE_LIVE, &number) == AK_DONE;
    case FLAGS: return ak_node_flags(tree, node, 0, 0x80de3f, &set) == AK_DONE ? set & 0xff : 0; /* thirteen of them */
    case STYLE: return ak_node_style(tree, node, 0, AK_TEXT_STYLE_FONT_SIZE, &style) == AK_DONE;
    case LABELS: return ak_node_list(tree, node, 0, AK_LIST_LABELLED_BY, AK_ALL, &id, 1, &count) == AK_DONE;
    case RELATIVE: return ak_node_relative(tree, node, 0, AK_RELATIVE_ACTIVE_DESCENDANT, AK_ALL, &id) == AK_NOTHING;
    case ACTION: return ak_node_supports_action(tree, node, 0, AK_ACTION_CLICK, AK_COMMON, &is_set) == AK_DONE && !is_set;
    case TRANSFORM: return ak_node_transform(tree, node, 0, &point) == AK_DONE && point.x == 0;
    case UUID: return ak_node_tree_id(tree, node, 0, text, sizeof text, &count) == AK_DONE ? count : 0;
    case TOOLKIT: return ak_tree_toolkit_name(tree, text, sizeof text, &count) == AK_DONE ? count : 0;
    case ROLE_NAME: return ak_role_name(AK_ROLE_OTHER + 328, text, sizeof text, &count) == AK_DONE ? count : 0;
    case DECLARED: return ak_tree_declared_focus(tree, &id) == AK_DONE && id.node == 1;
    case LOCKED: return is_parent_locked(tree, node);
    case CHILDREN: return ak_node_count(tree, 1, 0, AK_COUNT_FILTERED_CHILDREN, AK_COMMON, &count) == AK_DONE ? count : 0;
    case CHILD: return ak_node_child_at(tree, 1, 0, AK_COMMON, node - 2, &id) == AK_DONE && id.node == node;
    case INDEX: return ak_node_count(tree, node, 0, AK_COUNT_FILTERED_INDEX, AK_COMMON, &count) == AK_DONE && count == node - 2;
    /* in the middle of a text of so many lines, each of 35 characters */
    case PLACE: return ak_text_place(tree, 1, 0, &middle, 0, &position) == AK_DONE ? position.run : 0;
    case PLACED: return ak_text_position(tree, 1, 0, middle.index, false, &position) == AK_DONE ? position.line : 0;
    case CARET: return ak_text_place(tree, 1, 0, &caret, AK_WANT_INDEX, &position) == AK_DONE ? position.index : 0;
    case WORD: return ak_text_unit(tree, 1, 0, &caret, AK_UNIT_WORD, AK_WANT_INDEX, &span) == AK_DONE ? span.end.index - span.start.index : 0;
    case LINE: return ak_text_unit(tree, 1, 0, &caret, AK_UNIT_LINE, 0, &span) == AK_DONE ? span.start.run : 0;
    case MOVED: return ak_text_moved(tree, 1, 0, &caret, AK_FORWARD_TO_WORD_START, 0, &position) == AK_DONE ? position.run : 0;
    case TESTED: return ak_text_test(tree, 1, 0, &caret, AK_TEST_WORD_START, &is_set) == AK_DONE && !is_set;
    case LENGTH: return ak_text_length(tree, 1, 0, &count) == AK_DONE ? count : 0;
    case BOXES: return ak_text_boxes(tree, 1, 0, &caret, &caret, &bounds, 1, &count) == AK_DONE && count == 0;
    case LOOK: return ak_text_style(tree, 1, 0, &caret, AK_TEXT_STYLE_ITALIC, &style) == AK_DONE && style.number == 0;
    case DIFFERS: return ak_text_differs(tree, 1, 0, &middle, &caret, AK_TEXT_STYLE_ITALIC, &is_set) == AK_DONE && !is_set;
    case DEFECT: return ak_text_defect(tree, 1, 0, &defect) == AK_NOTHING;
    case HIT: return ak_node_hit(tree, 1, 0, 320, 64 * (int64_t)(node - 2) + 32, AK_COMMON, &id) == AK_DONE && id.node == node;
    case RELABEL: return relabelled(tree, turn);
    case BUILD: return built(tree, turn);
    case NO_NODE: return ak_node_parent(tree, node + 1000000, 0, &id) == AK_NO_NODE;
    default: return is_field_read(tree, work, node);
    }
}

int main(int count, char **words) {
    if (count != 4) return 2;
    int work = 0;
    while (work < WORKS && strcmp(works[work], words[1])) work++;
    if (work == WORKS) return 2;
    uint64_t times = strtoul(words[2], NULL, 10), nodes = strtoul(words[3], NULL, 10), sum = 0;
    size_t length;
    char *lines = work < PLACE ? first_lines(nodes, work > NO_NODE ? fields : "", &length) : text_lines(nodes, &length);
    ak_tree tree = AK_TREE_CLOSED;
    ak_stop stop;
    if (ak_tree_open(&tree) != AK_DONE || ak_tree_feed(&tree, (const uint8_t *)lines, length, &stop) != AK_DONE) return 1;
    free(lines);
    for (uint64_t i = 0; i < times; i++) sum += called(&tree, work, 2 + i * 37 % (nodes - 1), i, nodes);
    ak_tree_close(&tree);
    printf("%lu\n", (unsigned long)sum);
    return 0;
}
