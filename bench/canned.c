/* An application on the accessibility bus that knows nothing: it answers each call from a list, and the adapter is measured beside it.
 *
 *     canned NAME FILE
 *
 * A line of FILE is a call and its answer, with tabs between: path, interface, member, arguments and reply, the last two as GLib prints
 * them. In the place of the application's own name on the bus is OWN. It ends when its standard input does, and prints how many calls
 * were in no line.
 */
#include <gio/gio.h>
#include <stdio.h>
#include <string.h>

#define REGISTRY "org.a11y.atspi.Registry"
#define ROOT_PATH "/org/a11y/atspi/accessible/root"
enum { LONGEST_KEY = 512 };

static GHashTable *answers;
static int missing;

static GDBusMessage *answer(GDBusConnection *bus, GDBusMessage *message, gboolean is_incoming, gpointer data) {
    (void)data;
    if (!is_incoming || g_dbus_message_get_message_type(message) != G_DBUS_MESSAGE_TYPE_METHOD_CALL) return message;
    GVariant *body = g_dbus_message_get_body(message);
    char *given = body ? g_variant_print(body, FALSE) : g_strdup("()"), key[LONGEST_KEY];
    g_snprintf(key, sizeof key, "%s\t%s\t%s\t%s", g_dbus_message_get_path(message), g_dbus_message_get_interface(message),
               g_dbus_message_get_member(message), given);
    g_free(given);
    GVariant *found = g_hash_table_lookup(answers, key);
    GDBusMessage *reply;
    if (found) {
        reply = g_dbus_message_new_method_reply(message);
        g_dbus_message_set_body(reply, found);
    } else {
        if (missing++ < 5) fprintf(stderr, "canned: no answer for %s\n", key);
        reply = g_dbus_message_new_method_error_literal(message, "org.freedesktop.DBus.Error.UnknownMethod", "it isn't in the list");
    }
    g_dbus_connection_send_message(bus, reply, G_DBUS_SEND_MESSAGE_FLAGS_NONE, NULL, NULL);
    g_object_unref(reply);
    g_object_unref(message);
    return NULL;
}

static void read_answers(const char *path, const char *own) {
    char *all;
    if (!g_file_get_contents(path, &all, NULL, NULL)) return;
    char **lines = g_strsplit(all, "\n", -1);
    for (char **line = lines; *line; line++) {
        char *last = strrchr(*line, '\t');
        if (!last) continue;
        *last = 0;
        char **parts = g_strsplit(last + 1, "OWN", -1), *reply = g_strjoinv(own, parts);
        GVariant *value = g_variant_parse(NULL, reply, NULL, NULL, NULL);
        if (value) g_hash_table_insert(answers, g_strdup(*line), g_variant_ref_sink(value));
        g_free(reply);
        g_strfreev(parts);
    }
    g_strfreev(lines);
    g_free(all);
}

int main(int argc, char **argv) {
    if (argc != 3) return 2;
    GDBusConnection *session = g_bus_get_sync(G_BUS_TYPE_SESSION, NULL, NULL);
    GVariant *said = g_dbus_connection_call_sync(session, "org.a11y.Bus", "/org/a11y/bus", "org.a11y.Bus", "GetAddress", NULL, NULL, 0,
                                                 -1, NULL, NULL);
    const char *address;
    g_variant_get(said, "(&s)", &address);
    GDBusConnection *bus = g_dbus_connection_new_for_address_sync(
        address, G_DBUS_CONNECTION_FLAGS_AUTHENTICATION_CLIENT | G_DBUS_CONNECTION_FLAGS_MESSAGE_BUS_CONNECTION, NULL, NULL, NULL);
    const char *own = g_dbus_connection_get_unique_name(bus);
    answers = g_hash_table_new(g_str_hash, g_str_equal);
    read_answers(argv[2], own);
    char *key = g_strdup_printf("%s\torg.freedesktop.DBus.Properties\tGet\t('org.a11y.atspi.Accessible', 'Name')", ROOT_PATH);
    g_hash_table_insert(answers, key, g_variant_ref_sink(g_variant_new("(v)", g_variant_new_string(argv[1]))));
    g_dbus_connection_add_filter(bus, answer, NULL, NULL);
    GVariant *self = g_variant_new("((so))", own, ROOT_PATH);
    g_dbus_connection_call_sync(bus, REGISTRY, ROOT_PATH, "org.a11y.atspi.Socket", "Embed", self, NULL, 0, -1, NULL, NULL);
    printf("%u answers\n", g_hash_table_size(answers));
    fflush(stdout);
    while (getchar() != EOF) continue;
    fprintf(stderr, "canned: %d calls were in no line\n", missing);
    return 0;
}
