// The memory work alone of some loads: what any library does that keeps a tree by the ids of its nodes. The nodes stand in a
// vector of slots, one open table leads from ids to slots, and the children of a node are a range of a vector of slots. Nothing
// is checked, decided or told, and a node has only what the loads need of it.
//
//     bare IDS WORK NODES COUNT
//
// IDS is `counted` or `spread`. WORK is `build`, `relabel`, `frame` or `preorder`, as in works/loads.rs, or one of the first three
// with `-made`, which only makes and drops the updates. It prints the same sum as the program of the works.

#include <stdint.h>
#include <stdio.h>
#include <stdlib.h>
#include <string.h>

enum { FAN_OUT = 10, NONE = UINT32_MAX };

// A node: 128 bytes, beside its label and the ids of its children.
typedef struct {
    uint64_t role;
    char *label;
    size_t length;
    uint64_t *children;
    uint64_t count;
    int32_t bounds[4];
    uint64_t others[9];
} Node;

typedef struct {
    uint64_t id;
    Node node;
} Sent;

typedef struct {
    Sent *nodes;
    uint64_t count;
} Update;

// A slot: its node, the slot of its parent and the index there, and where the slots of its children begin.
typedef struct {
    uint64_t id;
    uint32_t parent, index;
    uint64_t first;
    Node node;
} Slot;

typedef struct {
    uint64_t id;
    uint32_t slot;
} Entry;

typedef struct {
    Slot *slots;
    uint64_t count;
    uint32_t *children;
    Entry *table;
    int shift;
} Tree;

static int is_spread;

static uint64_t id_of(uint64_t number)
{
    if (!is_spread) return number;
    uint64_t hash = (number + 1) * 0x9e3779b97f4a7c15u;
    hash = (hash ^ (hash >> 30)) * 0xbf58476d1ce4e5b9u;
    hash = (hash ^ (hash >> 27)) * 0x94d049bb133111ebu;
    return hash ^ (hash >> 31);
}

static void *taken(size_t size)
{
    void *block = malloc(size);
    if (block == NULL) exit(1);
    return block;
}

// ---- what is sent

static Node labelled(uint64_t role, uint64_t turn)
{
    const char *label = turn & 1 ? "an odd label" : "an even label";
    Node node = {.role = role, .length = strlen(label)};
    node.label = taken(node.length);
    memcpy(node.label, label, node.length);
    return node;
}

static void give_children(Node *node, uint64_t first, uint64_t past)
{
    node->count = past - first;
    if (node->count == 0) return;
    node->children = taken(node->count * sizeof(uint64_t));
    for (uint64_t number = first; number < past; number++) node->children[number - first] = id_of(number);
}

static void drop_node(Node *node)
{
    free(node->label);
    free(node->children);
}

static Update update_of(uint64_t count)
{
    return (Update){.nodes = taken(count * sizeof(Sent)), .count = count};
}

static void drop_update(Update update)
{
    for (uint64_t place = 0; place < update.count; place++) drop_node(&update.nodes[place].node);
    free(update.nodes);
}

static Update flat(uint64_t buttons)
{
    Update update = update_of(buttons + 1);
    update.nodes[0] = (Sent){.id = id_of(0)};
    give_children(&update.nodes[0].node, 1, buttons + 1);
    for (uint64_t number = 1; number <= buttons; number++) update.nodes[number] = (Sent){id_of(number), labelled(1, 0)};
    return update;
}

static Update relabelled(uint64_t buttons, uint64_t turn)
{
    Update update = update_of(1);
    update.nodes[0] = (Sent){id_of(buttons >> 1), labelled(1, turn)};
    return update;
}

static uint64_t at_most(uint64_t number, uint64_t bound)
{
    return number < bound ? number : bound;
}

static Update frame(uint64_t count, uint64_t turn)
{
    Update update = update_of(count);
    for (uint64_t number = 0; number < count; number++) {
        Node node = labelled(number == 0 ? 2 : 1, number % 100 == 7 ? turn : 0);
        int32_t top = number & 0xffff;
        memcpy(node.bounds, (int32_t[4]){0, top, 10, top + 1}, sizeof node.bounds);
        uint64_t first = at_most(number * FAN_OUT + 1, count);
        give_children(&node, first, at_most(first + FAN_OUT, count));
        update.nodes[number] = (Sent){id_of(number), node};
    }
    return update;
}

// ---- what is kept

// The entry of an id, or the empty one in which it belongs.
static Entry *entry_of(const Tree *tree, uint64_t id)
{
    uint64_t last = (UINT64_C(1) << (64 - tree->shift)) - 1;
    uint64_t place = id * 0x9e3779b97f4a7c15u >> tree->shift;
    while (tree->table[place].slot != NONE && tree->table[place].id != id) place = (place + 1) & last;
    return &tree->table[place];
}

static void link_children(Tree *tree, uint32_t parent, uint64_t first)
{
    Slot *slot = &tree->slots[parent];
    slot->first = first;
    for (uint64_t index = 0; index < slot->node.count; index++) {
        uint32_t child = entry_of(tree, slot->node.children[index])->slot;
        tree->slots[child].parent = parent;
        tree->slots[child].index = index;
        tree->children[first + index] = child;
    }
}

static Tree tree_of(Update update)
{
    Tree tree = {.count = update.count, .shift = 63};
    while (UINT64_C(1) << (64 - tree.shift) < 2 * update.count) tree.shift--;
    size_t entries = (UINT64_C(1) << (64 - tree.shift)) * sizeof(Entry);
    tree.table = taken(entries);
    memset(tree.table, 0xff, entries);
    tree.slots = taken(update.count * sizeof(Slot));
    tree.children = taken(update.count * sizeof(uint32_t));
    for (uint32_t slot = 0; slot < update.count; slot++) {
        Sent *sent = &update.nodes[slot];
        *entry_of(&tree, sent->id) = (Entry){sent->id, slot};
        tree.slots[slot] = (Slot){.id = sent->id, .parent = NONE, .node = sent->node};
    }
    free(update.nodes);
    uint64_t first = 0;
    for (uint32_t slot = 0; slot < tree.count; first += tree.slots[slot++].node.count) link_children(&tree, slot, first);
    return tree;
}

static void drop_tree(Tree tree)
{
    for (uint64_t slot = 0; slot < tree.count; slot++) drop_node(&tree.slots[slot].node);
    free(tree.slots);
    free(tree.children);
    free(tree.table);
}

static int is_same(const Node *one, const Node *other)
{
    return one->role == other->role && one->length == other->length && one->count == other->count
        && memcmp(one->bounds, other->bounds, sizeof one->bounds) == 0
        && memcmp(one->others, other->others, sizeof one->others) == 0
        && memcmp(one->label, other->label, one->length) == 0
        && (one->count == 0 || memcmp(one->children, other->children, one->count * sizeof(uint64_t)) == 0);
}

// Takes the nodes of an update whose children are those that they had. How many nodes differ from what they were?
static uint64_t apply(Tree *tree, Update update)
{
    uint64_t changed = 0;
    for (uint64_t place = 0; place < update.count; place++) {
        Node *kept = &tree->slots[entry_of(tree, update.nodes[place].id)->slot].node;
        if (is_same(kept, &update.nodes[place].node)) continue;
        Node before = *kept;
        *kept = update.nodes[place].node;
        update.nodes[place].node = before;
        changed++;
    }
    drop_update(update);
    return changed;
}

static uint64_t preorder(const Tree *tree)
{
    uint32_t *left = taken(tree->count * sizeof(uint32_t));
    uint64_t height = 1, met = 0;
    left[0] = 0;
    while (height > 0) {
        const Slot *slot = &tree->slots[left[--height]];
        met++;
        for (uint64_t index = slot->node.count; index > 0; index--) left[height++] = tree->children[slot->first + index - 1];
    }
    free(left);
    return met;
}

// ---- the works

static uint64_t build(uint64_t nodes, uint64_t count, int is_kept)
{
    for (uint64_t turn = 0; turn < count; turn++) {
        if (is_kept) drop_tree(tree_of(flat(nodes)));
        else drop_update(flat(nodes));
    }
    return 0;
}

static uint64_t send(uint64_t nodes, uint64_t count, int is_frame, int is_kept)
{
    Tree tree = tree_of(is_frame ? frame(nodes, 0) : flat(nodes));
    uint64_t sum = 0;
    for (uint64_t turn = 1; turn <= count; turn++) {
        Update update = is_frame ? frame(nodes, turn) : relabelled(nodes, turn);
        if (is_kept) sum += apply(&tree, update);
        else drop_update(update);
    }
    drop_tree(tree);
    return sum;
}

static uint64_t walk(uint64_t nodes, uint64_t count)
{
    Tree tree = tree_of(frame(nodes, 0));
    uint64_t sum = 0;
    for (uint64_t turn = 0; turn < count; turn++) sum += preorder(&tree);
    drop_tree(tree);
    return sum;
}

int main(int argc, char **argv)
{
    if (argc != 5) return 2;
    is_spread = strcmp(argv[1], "spread") == 0;
    const char *work = argv[2];
    uint64_t nodes = strtoull(argv[3], NULL, 10), count = strtoull(argv[4], NULL, 10);
    int is_kept = strstr(work, "-made") == NULL;
    uint64_t sum;
    if (strncmp(work, "build", 5) == 0) sum = build(nodes, count, is_kept);
    else if (strncmp(work, "relabel", 7) == 0) sum = send(nodes, count, 0, is_kept);
    else if (strncmp(work, "frame", 5) == 0) sum = send(nodes, count, 1, is_kept);
    else sum = walk(nodes, count);
    printf("%llu\n", (unsigned long long)sum);
    return 0;
}
