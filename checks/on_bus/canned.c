/* canned: an application on the accessibility bus that computes nothing. Each request gets the answer that another application gave to the
 * same one while `dbus-monitor --binary` wrote what went over the bus: with that, the time that a client takes for the bus and for itself.
 *
 *     canned RECORD NAME-ON-THE-BUS ADDRESS    until its input ends
 */
#include <gio/gio.h>
#include <stdio.h>
#include <string.h>

#define FLAGS (G_DBUS_CONNECTION_FLAGS_AUTHENTICATION_CLIENT | G_DBUS_CONNECTION_FLAGS_MESSAGE_BUS_CONNECTION)
#define ROOT "/org/a11y/atspi/accessible/root"

/* What is asked, as bytes: a path, an interface, a member, and what is given. */
static GBytes *question_of(GDBusMessage *message) {
    GVariant *body = g_dbus_message_get_body(message);
    GByteArray *all = g_byte_array_new();
    const char *words[] = {g_dbus_message_get_path(message), g_dbus_message_get_interface(message), g_dbus_message_get_member(message)};
    for (int i = 0; i < 3; i++) g_byte_array_append(all, (const guint8 *)(words[i] ? words[i] : ""), words[i] ? strlen(words[i]) + 1 : 1);
    if (body) g_byte_array_append(all, g_variant_get_data(body), g_variant_get_size(body));
    return g_byte_array_free_to_bytes(all);
}

/* An answer in which another name on the bus stands for the one that gave it. */
static GDBusMessage *renamed(GDBusMessage *reply, const char *old, const char *own) {
    GVariant *body = g_dbus_message_get_body(reply);
    GDBusMessage *made = g_dbus_message_copy(reply, NULL);
    if (!body) return made;
    g_autofree char *words = g_variant_print(body, TRUE);
    g_autofree char *was = g_strdup_printf("'%s'", old), *is = g_strdup_printf("'%s'", own);
    g_auto(GStrv) parts = g_strsplit(words, was, -1);
    g_autofree char *joined = g_strjoinv(is, parts);
    g_dbus_message_set_body(made, g_variant_parse(g_variant_get_type(body), joined, NULL, NULL, NULL));
    return made;
}

/* The answers of one application in a record, by what was asked. */
static GHashTable *read_answers(const guint8 *at, gsize left, const char *old, const char *own) {
    GHashTable *found = g_hash_table_new_full(g_bytes_hash, g_bytes_equal, NULL, g_object_unref);
    g_autoptr(GHashTable) asked = g_hash_table_new_full(g_str_hash, g_str_equal, g_free, NULL);
    gssize size;
    for (; left >= 16 && (size = g_dbus_message_bytes_needed((guchar *)at, left, NULL)) > 0 && (gsize)size <= left; at += size, left -= size) {
        g_autoptr(GDBusMessage) message = g_dbus_message_new_from_blob((guchar *)at, size, G_DBUS_CAPABILITY_FLAGS_NONE, NULL);
        if (!message) continue;
        GDBusMessageType type = g_dbus_message_get_message_type(message);
        if (type == G_DBUS_MESSAGE_TYPE_METHOD_CALL && g_strcmp0(g_dbus_message_get_destination(message), old) == 0) {
            char *key = g_strdup_printf("%s %u", g_dbus_message_get_sender(message), g_dbus_message_get_serial(message));
            g_hash_table_replace(asked, key, question_of(message));
        } else if (type != G_DBUS_MESSAGE_TYPE_SIGNAL && g_strcmp0(g_dbus_message_get_sender(message), old) == 0) {
            g_autofree char *key =
                g_strdup_printf("%s %u", g_dbus_message_get_destination(message), g_dbus_message_get_reply_serial(message));
            gpointer question = g_hash_table_lookup(asked, key);
            if (question) g_hash_table_replace(found, question, renamed(message, old, own));
        }
    }
    return found;
}

/* On GDBus's thread, as the adapter answers. */
static GDBusMessage *answer(GDBusConnection *bus, GDBusMessage *message, gboolean is_incoming, gpointer answers) {
    if (!is_incoming || g_dbus_message_get_message_type(message) != G_DBUS_MESSAGE_TYPE_METHOD_CALL) return message;
    GBytes *question = question_of(message);
    GDBusMessage *found = g_hash_table_lookup(answers, question);
    g_bytes_unref(question);
    if (!found) return message;
    const char *error = g_dbus_message_get_error_name(found);
    GDBusMessage *reply = error ? g_dbus_message_new_method_error_literal(message, error, "") : g_dbus_message_new_method_reply(message);
    if (!error && g_dbus_message_get_body(found)) g_dbus_message_set_body(reply, g_dbus_message_get_body(found));
    g_dbus_connection_send_message(bus, reply, G_DBUS_SEND_MESSAGE_FLAGS_NONE, NULL, NULL);
    g_object_unref(reply);
    g_object_unref(message);
    return NULL;
}

int main(int argc, char **argv) {
    g_autoptr(GError) error = NULL;
    g_autofree char *record = NULL;
    gsize length;
    if (argc != 4 || !g_file_get_contents(argv[1], &record, &length, &error)) return 2;
    GDBusConnection *bus = g_dbus_connection_new_for_address_sync(argv[3], FLAGS, NULL, NULL, &error);
    if (!bus) return 1;
    const char *own = g_dbus_connection_get_unique_name(bus);
    GHashTable *answers = read_answers((const guint8 *)record, length, argv[2], own);
    g_dbus_connection_add_filter(bus, answer, answers, NULL);
    g_dbus_connection_call(bus, "org.a11y.atspi.Registry", ROOT, "org.a11y.atspi.Socket", "Embed", g_variant_new("((so))", own, ROOT), NULL,
                           G_DBUS_CALL_FLAGS_NONE, -1, NULL, NULL, NULL);
    printf("%s %u\n", own, g_hash_table_size(answers));
    fflush(stdout);
    /* (GDBus has a thread of its own) */
    while (getchar() != EOF) continue;
    return 0;
}
