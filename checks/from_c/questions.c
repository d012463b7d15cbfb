/* Answers the questions of a script by the calls of C, as atree does. Its word is the script's path. */
#define _POSIX_C_SOURCE 200809L
#include "accesskit_proved.h"
#include <stdio.h>
#include <stdlib.h>
#include <string.h>

enum { ROOM = 256 };
static ak_tree tree = AK_TREE_CLOSED;
static const char *const filters[] = {"all", "common", "common_with_root"};
static const char *const moves[] = {
    "forward_to_character_start", "forward_to_character_end", "backward_to_character_start", "forward_to_format_start", "forward_to_format_end",
    "backward_to_format_start", "forward_to_word_start", "forward_to_word_end", "backward_to_word_start", "forward_to_line_start",
    "forward_to_line_end", "backward_to_line_start", "forward_to_paragraph_start", "forward_to_paragraph_end", "backward_to_paragraph_start",
    "forward_to_page_start", "forward_to_page_end", "document_end", "backward_to_page_start", "document_start"};

/* A question: its word, the node, and the words after it. */
struct question { const char *word, *words[4]; uint64_t node; uint32_t index; };

static bool is(const struct question *asked, const char *word) { return !strcmp(asked->word, word); }
static size_t number(const char *word) { return strtoul(word, NULL, 10); }
static bool is_end(const char *side) { return !strcmp(side, "end"); }
static ak_filter filter(const char *word) {
    for (int i = 0; word && i < 3; i++)
        if (!strcmp(word, filters[i])) return (ak_filter)i;
    return AK_COMMON;
}
static ak_move movement(const char *word) {
    for (int i = 0; i < 20; i++)
        if (!strcmp(word, moves[i])) return (ak_move)i;
    exit(1);
}

/* Whether there is an answer; if not, that is printed in this word. */
static bool is_there(uint8_t answer, const char *none) {
    if (answer == AK_DONE) return true;
    if (answer != AK_NOTHING && answer != AK_NO_NODE) exit(1);
    puts(answer == AK_NO_NODE ? "no node" : none);
    return false;
}

static void print_id(uint8_t answer, const ak_id *id) {
    if (is_there(answer, "none")) printf("%u:%lu\n", id->tree, (unsigned long)id->node);
}

static void print_ids(uint8_t answer, const ak_id *ids, size_t count) {
    if (!is_there(answer, "-")) return;
    if (count > ROOM) exit(1);
    for (size_t i = 0; i < count; i++) printf("%s%u:%lu", i ? " " : "", ids[i].tree, (unsigned long)ids[i].node);
    puts(count ? "" : "-");
}

static void print_text(uint8_t answer, const uint8_t *text, size_t length) {
    if (!is_there(answer, "none")) return;
    if (length > ROOM) exit(1);
    putchar('"');
    for (size_t i = 0; i < length; i++) {
        if (text[i] == '"' || text[i] == '\\' || text[i] == '\n') putchar('\\');
        putchar(text[i] == '\n' ? 'n' : text[i]);
    }
    puts("\"");
}

static void answer_list(const struct question *asked) {
    ak_id ids[ROOM];
    size_t count = 0;
    ak_filter by = filter(asked->words[0]);
    ak_list list = is(asked, "following")            ? AK_LIST_FOLLOWING_SIBLINGS
                   : is(asked, "preceding")          ? AK_LIST_PRECEDING_SIBLINGS
                   : is(asked, "following_filtered") ? AK_LIST_FOLLOWING_FILTERED_SIBLINGS
                                                     : AK_LIST_PRECEDING_FILTERED_SIBLINGS;
    uint8_t answer = is(asked, "children")   ? ak_node_children(&tree, asked->node, asked->index, ids, ROOM, &count)
                     : is(asked, "filtered") ? ak_node_filtered_children(&tree, asked->node, asked->index, by, ids, ROOM, &count)
                                             : ak_node_list(&tree, asked->node, asked->index, list, by, ids, ROOM, &count);
    print_ids(answer, ids, count);
}

static void answer_set(const struct question *asked) {
    ak_filter by = filter(asked->words[0]);
    size_t size, position;
    uint8_t first = ak_node_count(&tree, asked->node, asked->index, AK_COUNT_SET_SIZE, by, &size);
    uint8_t second = ak_node_count(&tree, asked->node, asked->index, AK_COUNT_SET_POSITION, by, &position);
    if (first == AK_NO_NODE) return (void)puts("no node");
    first == AK_DONE ? (void)printf("%lu ", (unsigned long)size) : (void)printf("- ");
    second == AK_DONE ? (void)printf("%lu\n", (unsigned long)position) : (void)puts("-");
}

static void answer_text(const struct question *asked) {
    uint8_t text[ROOM], answer;
    size_t length = 0;
    answer = is(asked, "label")   ? ak_node_label(&tree, asked->node, asked->index, text, ROOM, &length)
             : is(asked, "value") ? ak_node_value(&tree, asked->node, asked->index, text, ROOM, &length)
                                  : ak_node_text(&tree, asked->node, asked->index, text, ROOM, &length);
    print_text(answer, text, length);
}

/* Whether the position is there; if not, that is printed. */
static bool is_place(const struct question *asked, int from, ak_position *at) {
    ak_spot spot = {.kind = AK_SPOT_INDEX, .index = number(asked->words[from]), .is_end = is_end(asked->words[from + 1])};
    uint32_t all = AK_WANT_INDEX | AK_WANT_UTF16_INDEX | AK_WANT_LINE;
    return is_there(ak_text_place(&tree, asked->node, asked->index, &spot, all, at), "no text");
}

static void answer_place(const struct question *asked) {
    uint8_t text[ROOM];
    size_t length = 0;
    ak_position at, to;
    if (!is_place(asked, 0, &at)) return;
    if (is(asked, "indexes")) return (void)printf("%lu %lu %lu\n", (unsigned long)at.index, (unsigned long)at.utf16_index, (unsigned long)at.line);
    if (is(asked, "move")) {
        ak_spot spot = {.kind = AK_SPOT_INDEX, .index = number(asked->words[0]), .is_end = is_end(asked->words[1])};
        uint8_t answer = ak_text_moved(&tree, asked->node, asked->index, &spot, movement(asked->words[2]), 0, &to);
        if (is_there(answer, "none")) printf("%lu %lu\n", (unsigned long)to.run, (unsigned long)to.character);
        return;
    }
    if (!is_place(asked, 2, &to)) return;
    uint8_t answer = ak_text_between(&tree, asked->node, asked->index, at.index, to.index > at.index ? to.index : at.index, text, ROOM, &length);
    print_text(answer, text, length);
}

static void answer_question(const struct question *asked) {
    ak_id hit;
    if (is(asked, "hit")) {
        int64_t x = strtol(asked->words[0], NULL, 10), y = strtol(asked->words[1], NULL, 10);
        uint8_t answer = ak_node_hit(&tree, asked->node, asked->index, x, y, filter(asked->words[2]), &hit);
        print_id(answer, &hit);
    } else if (is(asked, "set")) {
        answer_set(asked);
    } else if (is(asked, "label") || is(asked, "value") || is(asked, "text")) {
        answer_text(asked);
    } else if (is(asked, "move") || is(asked, "indexes") || is(asked, "between")) {
        answer_place(asked);
    } else {
        answer_list(asked);
    }
}

static bool is_question(const char *word) {
    static const char *const others[] = {"#", "host", "update", "node", "end", "print", "focus"};
    for (size_t i = 0; i < sizeof others / sizeof *others; i++)
        if (!strcmp(word, others[i])) return false;
    return true;
}

int main(int count, char **words) {
    static char script[1 << 20];
    FILE *file = count == 2 ? fopen(words[1], "rb") : NULL;
    if (!file) return 2;
    size_t length = fread(script, 1, sizeof script - 1, file);
    fclose(file);
    ak_stop stop;
    if (ak_tree_open(&tree) != AK_DONE || ak_tree_feed(&tree, (const uint8_t *)script, length, &stop) != AK_DONE) return 1;
    char *lines, *kept, *rest;
    for (char *line = strtok_r(script, "\n", &lines); line; line = strtok_r(NULL, "\n", &lines)) {
        struct question asked = {.word = strtok_r(line, " ", &kept)};
        if (!is_question(asked.word)) continue;
        asked.node = strtoul(strtok_r(NULL, " ", &kept), NULL, 10);
        asked.index = strcmp(rest = strtok_r(NULL, " ", &kept), "root") != 0; /* the root tree, or the one with the index 1 */
        for (int i = 0; i < 4 && (rest = strtok_r(NULL, " ", &kept)); i++) asked.words[i] = rest;
        answer_question(&asked);
    }
    ak_tree_close(&tree);
    return 0;
}
