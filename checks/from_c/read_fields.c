/* Reads every field of the nodes of a script by each call that reads fields: `read_fields SCRIPT` prints what read_fields.py prints. Of the
 * calls exactly one is for each field, and the others answer AK_NO_SUCH. */
#include "accesskit_proved.h"
#include "fields.h"
#include <stdio.h>
#include <stdlib.h>
#include <string.h>

enum { ROOM = 64 };
static ak_tree tree = AK_TREE_CLOSED;
/* What a call wrote, and how many items. */
static union { uint8_t text[ROOM]; uint64_t ids[ROOM]; uint16_t numbers[ROOM]; int32_t units[ROOM]; uint32_t actions[ROOM]; } list;
static size_t count;
static uint64_t id;
static bool is_set;
static uint32_t choice;
static int64_t number;
static ak_rect rect;
static ak_translation by;
static ak_selection selection;
static ak_color color;
static ak_decoration line;

enum { TEXT, IDS, ID, FLAG, CHOICE, NUMBER, COUNT, NUMBERS, UNITS, ACTIONS, TREE, RECT, TRANSLATION, SELECTION, COLOR, DECORATION, CALLS };

static uint8_t asked(int call, uint64_t node, uint32_t index, ak_field field) {
    switch (call) {
    case TEXT: return ak_field_text(&tree, node, index, field, list.text, ROOM, &count);
    case IDS: return ak_field_ids(&tree, node, index, field, list.ids, ROOM, &count);
    case ID: return ak_field_id(&tree, node, index, field, &id);
    case FLAG: return ak_field_flag(&tree, node, index, field, &is_set);
    case CHOICE: return ak_field_choice(&tree, node, index, field, &choice);
    case NUMBER: return ak_field_number(&tree, node, index, field, &number);
    case COUNT: return ak_field_count(&tree, node, index, field, &count);
    case NUMBERS: return ak_field_numbers(&tree, node, index, field, list.numbers, ROOM, &count);
    case UNITS: return ak_field_units(&tree, node, index, field, list.units, ROOM, &count);
    case ACTIONS: return ak_field_actions(&tree, node, index, field, list.actions, ROOM, &count);
    case TREE: return ak_field_tree(&tree, node, index, field, list.text, ROOM, &count);
    case RECT: return ak_field_rect(&tree, node, index, field, &rect);
    case TRANSLATION: return ak_field_translation(&tree, node, index, field, &by);
    case SELECTION: return ak_field_selection(&tree, node, index, field, &selection);
    case COLOR: return ak_field_color(&tree, node, index, field, &color);
    default: return ak_field_decoration(&tree, node, index, field, &line);
    }
}

static void quoted(void) {
    putchar('"');
    for (size_t at = 0; at < count; at++) {
        if (list.text[at] == '\n') printf("\\n");
        else printf(list.text[at] == '"' || list.text[at] == '\\' ? "\\%c" : "%c", list.text[at]);
    }
    putchar('"');
}

static void uuid(void) {
    for (size_t at = 0; at < count; at++) printf(at == 4 || at == 6 || at == 8 || at == 10 ? "-%02x" : "%02x", list.text[at]);
}

/* The value with a number among these, which are separated by spaces. */
static void named(const char *values, uint32_t at) {
    while (at-- > 0) values = strchr(values, ' ') + 1;
    printf("%.*s", (int)strcspn(values, " "), values);
}

static void colored(ak_color it) { printf("%u,%u,%u,%u", it.red, it.green, it.blue, it.alpha); }

static void listed(int call) {
    static const char *actions[] = {"Click", "Focus", "Increment", "Decrement"};
    if (call == UNITS && count == 0) putchar('-');
    for (size_t at = 0; at < count; at++) {
        if (at > 0) putchar(',');
        if (call == IDS) printf("%lu", (unsigned long)list.ids[at]);
        if (call == NUMBERS) printf("%u", list.numbers[at]);
        if (call == UNITS) printf("%d", list.units[at]);
        if (call == ACTIONS && list.actions[at] < AK_ACTION_OTHER) printf("%s", actions[list.actions[at]]);
        if (call == ACTIONS && list.actions[at] >= AK_ACTION_OTHER) printf("Other(%u)", list.actions[at] - AK_ACTION_OTHER);
    }
}

static void tell(int call, const char *name, const char *values) {
    bool is_list = call == IDS || call == NUMBERS || call == ACTIONS;
    bool is_flag = call == FLAG && strcmp(name, "expanded") != 0 && strcmp(name, "selected") != 0;
    if ((is_list && count == 0) || (is_flag && !is_set)) return;
    printf(is_flag ? " %s" : " %s=", name);
    switch (call) {
    case TEXT: quoted(); break;
    case ID: printf("%lu", (unsigned long)id); break;
    case FLAG: printf("%s", is_flag ? "" : is_set ? "true" : "false"); break;
    case CHOICE: named(values, choice); break;
    case NUMBER: printf("%ld", (long)number); break;
    case COUNT: printf("%lu", (unsigned long)count); break;
    case TREE: uuid(); break;
    case RECT: printf("%d,%d,%d,%d", rect.x0, rect.y0, rect.x1, rect.y1); break;
    case TRANSLATION: printf("%d,%d", by.x, by.y); break;
    case SELECTION:
        printf("%lu:%lu,%lu:%lu", (unsigned long)selection.anchor, (unsigned long)selection.anchor_character, (unsigned long)selection.focus,
               (unsigned long)selection.focus_character);
        break;
    case COLOR: colored(color); break;
    case DECORATION:
        named("solid dotted dashed double wavy", line.style);
        putchar(',');
        colored(line.color);
        break;
    default: listed(call);
    }
}

/* The field by the one call that is for it; false if another number of calls are. */
static bool read_field(size_t at, uint64_t node, uint32_t index) {
    int calls = 0;
    for (int call = 0; call < CALLS; call++) {
        uint8_t answer = asked(call, node, index, FIELDS[at].field);
        calls += answer != AK_NO_SUCH;
        if (answer == AK_DONE) tell(call, FIELDS[at].name, FIELDS[at].values);
        if (answer != AK_DONE && answer != AK_NOTHING && answer != AK_NO_SUCH) return false;
        if (answer != AK_NO_SUCH && asked(call, 99, index, FIELDS[at].field) != AK_NO_NODE) return false;
    }
    return calls == 1;
}

static bool read_node(uint64_t node, uint32_t index) {
    if (ak_node_role(&tree, node, index, list.text, ROOM, &count) != AK_DONE) return false;
    printf("node %lu %.*s", (unsigned long)node, (int)count, (const char *)list.text);
    for (size_t at = 0; at < sizeof FIELDS / sizeof FIELDS[0]; at++)
        if (!read_field(at, node, index)) return false;
    printf("\n");
    return true;
}

int main(int words_count, char **words) {
    static uint8_t lines[1 << 16];
    FILE *file = words_count == 2 ? fopen(words[1], "rb") : NULL;
    if (file == NULL) return 2;
    size_t length = fread(lines, 1, sizeof lines, file);
    fclose(file);
    ak_stop stop;
    bool is_read = ak_tree_open(&tree) == AK_DONE && ak_tree_feed(&tree, lines, length, &stop) == AK_DONE;
    for (uint64_t node = 1; is_read && node < 7; node++) is_read = read_node(node, 0);
    is_read = is_read && read_node(1, 1);
    ak_tree_close(&tree);
    return is_read ? 0 : 1;
}
