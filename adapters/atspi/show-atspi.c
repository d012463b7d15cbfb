/* show-atspi: an application on the accessibility bus that has the interface of a script, which it reads from standard input.
 *
 *     show-atspi [--every SECONDS | --keys FILE] [--name NAME] [--window TITLE] [--units N] [--at X,Y] < SCRIPT
 *
 * It carries out the first update, and from then on a further command of the script for each line that it reads of FILE, which is the
 * terminal if nothing is said, or each few seconds. A line may also say `key NAME KEYSYM CODE`, a key that the user pressed, or `counts`
 * or `quit`.
 * --window puts the root into a window with this title, as for a page, and --units says how many of the script's units make a pixel:
 * 64, or 1 for scripts that aren't to scale. It prints a line for each step and for what a screen reader asks the application to do.
 */
#include "accesskit_atspi.h"
#include <gio/gio.h>
#include <inttypes.h>
#include <stdio.h>
#include <string.h>

typedef struct {
    ak_atspi *adapter;
    GPtrArray *commands; /* texts */
    guint next;
    const char *title;
    GMainLoop *loop;
} shown;

static const char *const action_names[] = {"Click", "Focus", "Increment", "Decrement", "SetValue", "SelectText",
                                           "ScrollIntoView", "ScrollToPoint"};

static bool print_request(const ak_atspi_request *it, void *data) {
    (void)data;
    printf("asked %s %u:%" G_GUINT64_FORMAT, action_names[it->action], it->target.tree, it->target.node);
    if (it->action == AK_ATSPI_SET_VALUE) printf(" %g", it->number);
    if (it->action == AK_ATSPI_SCROLL_TO_POINT) printf(" %" G_GINT64_FORMAT ",%" G_GINT64_FORMAT, it->x, it->y);
    if (it->action == AK_ATSPI_SELECT_TEXT)
        printf(" %" G_GUINT64_FORMAT ":%zu,%" G_GUINT64_FORMAT ":%zu", it->anchor_run, it->anchor_character, it->focus_run,
               it->focus_character);
    printf("\n");
    return true;
}

static void print_trouble(const char *message, void *data) {
    (void)data;
    fprintf(stderr, "show-atspi: %s\n", message);
}

/* The root of the root tree as the child of a window: the id in the update's first line is the window's then. */
static char *put_in_window(const char *command, const char *title) {
    const char *line_end = strchr(command, '\n'), *root = g_strstr_len(command, line_end - command, " root=");
    if (!title || !g_str_has_prefix(command, "update root ") || !root) return g_strdup(command);
    char *rest;
    uint64_t window = G_MAXUINT64, id = g_ascii_strtoull(root + strlen(" root="), &rest, 10);
    const char *form = "%.*s root=%" PRIu64 "%.*s\nnode %" PRIu64 " Window label=\"%s\" children=%" PRIu64 "%s";
    return g_strdup_printf(form, (int)(root - command), command, window, (int)(line_end - rest), rest, window, title, id, line_end);
}

/* The updates and the lines about the host's focus, each as one text; questions are left out. */
static GPtrArray *commands_of(const char *script, const char *title) {
    GPtrArray *found = g_ptr_array_new_with_free_func(g_free);
    for (const char *at = script, *end; (end = strchr(at, '\n')); at = end + 1) {
        bool is_update = g_str_has_prefix(at, "update "), is_host = g_str_has_prefix(at, "host ");
        if (is_update && !(end = strstr(at, "\nend\n"))) break;
        if (is_update) end += strlen("\nend");
        g_autofree char *command = g_strndup(at, (gsize)(end + 1 - at));
        if (is_update || is_host) g_ptr_array_add(found, put_in_window(command, title));
    }
    return found;
}

static bool carry_out_next(shown *it) {
    if (it->next >= it->commands->len) return false;
    const char *command = it->commands->pdata[it->next++];
    ak_stop stop = {0};
    uint8_t rule[48];
    size_t length, before, after, requests;
    ak_atspi_counts(it->adapter, &before, &requests);
    gint64 began = g_get_monotonic_time();
    uint8_t answer = ak_atspi_feed(it->adapter, (const uint8_t *)command, strlen(command), &stop);
    gint64 took = g_get_monotonic_time() - began;
    ak_atspi_counts(it->adapter, &after, &requests);
    if (answer == AK_REFUSED && ak_rule_name(stop.rule, rule, sizeof rule, &length) == AK_DONE) printf("refused %.*s", (int)length, rule);
    else if (answer == AK_BAD_LINE) printf("bad line %" G_GUINT64_FORMAT " of the command", stop.line);
    else printf("%s", answer == AK_DONE ? "ok" : answer == AK_NO_MEMORY ? "no memory" : "lost");
    printf(" step %u at %.6f: %zu signals in %" G_GINT64_FORMAT " us\n", it->next, (double)began / 1e6, after - before, took);
    return true;
}

static gboolean go_on(gpointer data) {
    shown *it = data;
    if (carry_out_next(it)) return G_SOURCE_CONTINUE;
    printf("end of the script\n");
    return G_SOURCE_REMOVE;
}

static void press_key(shown *it, const char *line) {
    char name[32];
    unsigned keysym, code;
    if (sscanf(line, "key %31s %x %u", name, &keysym, &code) != 3) return;
    ak_atspi_key(it->adapter, name, keysym, code, 0, true);
    ak_atspi_key(it->adapter, name, keysym, code, 0, false);
}

/* A line of the keys. */
static gboolean read_key(GIOChannel *source, GIOCondition condition, gpointer data) {
    (void)condition;
    shown *it = data;
    g_autofree char *line = NULL;
    size_t signals, requests;
    if (g_io_channel_read_line(source, &line, NULL, NULL, NULL) != G_IO_STATUS_NORMAL || g_str_has_prefix(line, "quit")) {
        g_main_loop_quit(it->loop);
        return G_SOURCE_REMOVE;
    }
    ak_atspi_counts(it->adapter, &signals, &requests);
    if (g_str_has_prefix(line, "key ")) press_key(it, line);
    else if (g_str_has_prefix(line, "counts")) printf("counts %zu signals %zu requests\n", signals, requests);
    else if (!carry_out_next(it)) printf("end of the script\n");
    printf("ready\n");
    return G_SOURCE_CONTINUE;
}

typedef struct {
    char *name, *title, *keys, *at;
    double every;
    int units, x, y;
} options;

/* Reads the arguments, and says what is wrong with them. */
static bool read_options(int argc, char **argv, options *it) {
    GOptionEntry entries[] = {{"name", 0, 0, G_OPTION_ARG_STRING, &it->name, "the application's name", "NAME"},
                              {"window", 0, 0, G_OPTION_ARG_STRING, &it->title, "put the root into a window with this title", "TITLE"},
                              {"keys", 0, 0, G_OPTION_ARG_FILENAME, &it->keys, "go on at each line of this file", "FILE"},
                              {"every", 0, 0, G_OPTION_ARG_DOUBLE, &it->every, "go on after so many seconds", "SECONDS"},
                              {"units", 0, 0, G_OPTION_ARG_INT, &it->units, "how many units make a pixel, 64 if nothing is said", "N"},
                              {"at", 0, 0, G_OPTION_ARG_STRING, &it->at, "where the window is on the screen", "X,Y"},
                              {NULL, 0, 0, G_OPTION_ARG_NONE, NULL, NULL, NULL}};
    g_autoptr(GError) error = NULL;
    g_autoptr(GOptionContext) context = g_option_context_new("< SCRIPT - an application on the accessibility bus");
    g_option_context_add_main_entries(context, entries, NULL);
    if (g_option_context_parse(context, &argc, &argv, &error) && it->at && sscanf(it->at, "%d,%d", &it->x, &it->y) != 2)
        error = g_error_new_literal(G_OPTION_ERROR, G_OPTION_ERROR_BAD_VALUE, "--at takes X,Y");
    if (error) fprintf(stderr, "show-atspi: %s\n", error->message);
    return !error;
}

/* Has the script go on by time or by lines. NULL: by time, or the lines can't be read. */
static GIOChannel *begin_steps(shown *it, const options *how) {
    g_autoptr(GError) error = NULL;
    if (how->every > 0) g_timeout_add((guint)(how->every * 1000), go_on, it);
    GIOChannel *channel = how->every > 0 ? NULL : g_io_channel_new_file(how->keys ? how->keys : "/dev/tty", "r", &error);
    if (channel) g_io_add_watch(channel, G_IO_IN | G_IO_HUP, read_key, it);
    if (error) fprintf(stderr, "show-atspi: %s\n", error->message);
    return channel;
}

int main(int argc, char **argv) {
    options how = {.units = 64, .name = "Proved"};
    setvbuf(stdout, NULL, _IOLBF, 0);
    if (!read_options(argc, argv, &how)) return 2;
    ak_tree tree = AK_TREE_CLOSED;
    shown it = {.title = how.title, .loop = g_main_loop_new(NULL, FALSE)};
    g_autofree char *script = NULL;
    g_file_get_contents("/dev/stdin", &script, NULL, NULL);
    g_autofree char *lines = g_strconcat(script ? script : "", "\n", NULL);
    it.commands = commands_of(lines, how.title);
    if (ak_tree_open(&tree) != AK_DONE || !(it.adapter = ak_atspi_new(how.name, &tree, print_request, print_trouble, &it))) {
        fprintf(stderr, "show-atspi: out of memory\n");
        return 4;
    }
    ak_atspi_place(it.adapter, how.x, how.y, how.units);
    while (ak_tree_root(&tree, &(ak_id){0}) != AK_DONE && carry_out_next(&it)) continue;
    g_autoptr(GIOChannel) channel = begin_steps(&it, &how);
    bool can_go_on = channel || how.every > 0;
    if (can_go_on) g_main_loop_run(it.loop);
    ak_atspi_free(it.adapter);
    ak_tree_close(&tree);
    g_ptr_array_unref(it.commands);
    g_main_loop_unref(it.loop);
    return can_go_on ? 0 : 2;
}
