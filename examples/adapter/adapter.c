/* A small adapter in C: it feeds a tree with two updates, and prints what the second changed and what the tree then says. */
#include "accesskit_proved.h"
#include <stdio.h>
#include <stdlib.h>
#include <string.h>

static const char first[] = "host on\nupdate root focus=2 root=1\nnode 1 Window label=\"Mail\" children=2,3\nnode 2 Button label=\"Send\"\n"
                            "node 3 CheckBox label=\"Receipt\"\nend\n";
static const char second[] = "update root focus=3\nnode 1 Window label=\"Mail\" children=3\nend\n";
static const char bad[] = "update root focus=3\nnode 1 Window children=3,4\nend\n";
static const char *kinds[] = {"added", "updated", "removed", "focus"};

static uint8_t feed(ak_tree *tree, const char *lines, ak_stop *stop) {
    return ak_tree_feed(tree, (const uint8_t *)lines, strlen(lines), stop);
}

static void print_node(ak_tree *tree, ak_id id) {
    uint8_t role[64], label[64];
    size_t role_length = 0, label_length = 0;
    if (ak_node_role(tree, id.node, id.tree, role, sizeof role, &role_length) != AK_DONE) exit(1);
    if (ak_node_label(tree, id.node, id.tree, label, sizeof label, &label_length) != AK_DONE) label_length = 0;
    printf("%u:%llu %.*s %.*s\n", id.tree, (unsigned long long)id.node, (int)role_length, role, (int)label_length, label);
}

int main(void) {
    ak_tree tree = AK_TREE_CLOSED;
    ak_stop stop;
    ak_event event;
    ak_id id, children[8];
    size_t count;
    if (ak_tree_open(&tree) != AK_DONE || feed(&tree, first, &stop) != AK_DONE) return 1;
    if (feed(&tree, bad, &stop) != AK_REFUSED) return 1;
    printf("refused rule %u node %llu\n", stop.rule, (unsigned long long)stop.node);
    if (feed(&tree, "what\n", &stop) != AK_BAD_LINE) return 1;
    printf("bad line %llu\n", (unsigned long long)stop.line);
    if (feed(&tree, second, &stop) != AK_DONE) return 1;
    for (size_t index = 0; ak_tree_event(&tree, index, &event) == AK_DONE; index++)
        printf("%s %llu %llu\n", kinds[event.kind], (unsigned long long)event.old_node, (unsigned long long)event.new_node);
    if (ak_tree_root(&tree, &id) != AK_DONE) return 1;
    print_node(&tree, id);
    if (ak_node_children(&tree, id.node, id.tree, children, 8, &count) != AK_DONE || count > 8) return 1;
    for (size_t index = 0; index < count; index++) print_node(&tree, children[index]);
    if (ak_tree_focus(&tree, &id) == AK_DONE) printf("focus %u:%llu\n", id.tree, (unsigned long long)id.node);
    ak_tree_close(&tree);
    return ak_tree_focus(&tree, &id) == AK_CLOSED ? 0 : 1;
}
