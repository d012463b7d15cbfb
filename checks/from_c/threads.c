/* Four threads share a tree: each reads it, and each sends it an update now and then, while it holds the one mutex. Each answer is compared with
 * what the last update said. Its word is how many reads all of them make. Prints `N passed, M failed`. */
#include "accesskit_proved.h"
#include <pthread.h>
#include <stdio.h>
#include <stdlib.h>
#include <string.h>

enum { THREADS = 4, NODES = 100, BETWEEN_UPDATES = 500 };

static ak_tree tree = AK_TREE_CLOSED;
static pthread_mutex_t mutex = PTHREAD_MUTEX_INITIALIZER;
/* How often each node was sent. The mutex guards it and the tree. */
static unsigned sent[NODES + 3];

static bool is_label(const uint8_t *text, size_t length, uint64_t node) {
    char wanted[40];
    int size = snprintf(wanted, sizeof wanted, "Button %lu of %u", (unsigned long)node, sent[node]);
    return length == (size_t)size && memcmp(text, wanted, length) == 0;
}

/* Whether a question about a node, one of a kind for each remainder of `turn`, is answered as the node was sent. */
static bool is_right(uint64_t node, unsigned long turn) {
    uint8_t text[40];
    uint32_t number;
    bool is_set;
    size_t length;
    ak_id id;
    ak_position position;
    switch (turn % 7) {
    case 0: return ak_node_label(&tree, node, 0, text, sizeof text, &length) == AK_DONE && is_label(text, length, node);
    case 1: return ak_field_text(&tree, node, 0, AK_FIELD_LABEL, text, sizeof text, &length) == AK_DONE && is_label(text, length, node);
    case 2: return ak_node_parent(&tree, node, 0, &id) == AK_DONE && id.node == 1 && id.tree == 0;
    case 3: return ak_node_filtered_parent(&tree, node, 0, AK_COMMON, &id) == AK_DONE && id.node == 1 && id.tree == 0;
    case 4: return ak_node_role_number(&tree, node, 0, &number) == AK_DONE && number == AK_ROLE_BUTTON;
    case 5: return ak_node_flag(&tree, node, 0, AK_BUSY, &is_set) == AK_DONE && is_set == (sent[node] % 2 == 1);
    default: return ak_text_position(&tree, NODES + 2, 0, 3, false, &position) == AK_DONE && position.run == NODES + 3 && position.character == 3;
    }
}

static bool is_sent(uint64_t node) {
    char label[40];
    ak_stop stop;
    size_t events;
    int size = snprintf(label, sizeof label, "Button %lu of %u", (unsigned long)node, ++sent[node]);
    bool is_begun = ak_update_begin(&tree, NULL, 0, 1) == AK_DONE && ak_update_node(&tree, node, AK_ROLE_BUTTON) == AK_DONE;
    bool is_set = is_begun && ak_update_text(&tree, AK_FIELD_LABEL, (const uint8_t *)label, (size_t)size) == AK_DONE;
    if (sent[node] % 2) is_set = is_set && ak_update_flag(&tree, AK_FIELD_BUSY) == AK_DONE;
    return is_set && ak_update_send(&tree, &stop) == AK_DONE && ak_tree_event_count(&tree, &events) == AK_DONE && events == 1;
}

struct work { pthread_t thread; unsigned long reads, number, wrong; };

static void *run(void *of) {
    struct work *work = of;
    for (unsigned long turn = 0; turn < work->reads; turn++) {
        uint64_t node = 2 + (turn * 37 + work->number * 11) % NODES;
        pthread_mutex_lock(&mutex);
        bool is_well = turn % BETWEEN_UPDATES == work->number ? is_sent(node) && is_right(node, turn) : is_right(node, turn);
        pthread_mutex_unlock(&mutex);
        work->wrong += !is_well;
    }
    return NULL;
}

int main(int count, char **words) {
    if (count != 2) return 2;
    static char lines[NODES * 60];
    char *at = lines + sprintf(lines, "update root focus=1 root=1\nnode 1 Window children=%d", NODES + 2);
    for (int node = 2; node < NODES + 2; node++) at += sprintf(at, ",%d", node);
    for (int node = 2; node < NODES + 2; node++) at += sprintf(at, "\nnode %d Button label=\"Button %d of 0\"", node, node);
    at += sprintf(at, "\nnode %d Document children=%d\nnode %d TextRun value=\"four\" chars=1,1,1,1\nend\n", NODES + 2, NODES + 3, NODES + 3);
    ak_stop stop;
    struct work works[THREADS];
    if (ak_tree_open(&tree) != AK_DONE || ak_tree_feed(&tree, (const uint8_t *)lines, (size_t)(at - lines), &stop) != AK_DONE) return 1;
    for (unsigned long i = 0; i < THREADS; i++) {
        works[i] = (struct work){.reads = strtoul(words[1], NULL, 10) / THREADS, .number = i};
        if (pthread_create(&works[i].thread, NULL, run, &works[i])) return 1;
    }
    unsigned long wrong = 0, reads = 0;
    for (int i = 0; i < THREADS; i++) {
        if (pthread_join(works[i].thread, NULL)) return 1;
        wrong += works[i].wrong;
        reads += works[i].reads;
    }
    ak_tree_close(&tree);
    if (wrong) printf("%lu of %lu answers are wrong\n", wrong, reads);
    printf("%d passed, %d failed\n", !wrong, !!wrong);
    return wrong != 0;
}
