/* The adapter on the bus: looks for it, is embedded by the registry, answers requests on a thread of its own, and sends signals. */
#include "inside.h"
#include <string.h>

#define REGISTRY "org.a11y.atspi.Registry"
#define PROPERTIES "org.freedesktop.DBus.Properties"
enum { LONGEST_WAIT = 30 };
#define CLIENT_FLAGS (G_DBUS_CONNECTION_FLAGS_AUTHENTICATION_CLIENT | G_DBUS_CONNECTION_FLAGS_MESSAGE_BUS_CONNECTION)

const interface interfaces[] = {{SPI "Accessible", accessible_members, is_object}, {SPI "Application", application_members, is_own},
                                {SPI "Component", component_members, has_box}, {SPI "Text", text_members, has_any_text},
                                {SPI "Action", action_members, has_actions}, {SPI "Value", value_members, has_number},
                                {SPI "Selection", selection_members, has_items}, {SPI "Hyperlink", hyperlink_members, is_linked},
                                {SPI "Hypertext", hypertext_members, has_marks}, {SPI "Collection", collection_members, is_there},
                                {SPI "Table", table_members, is_table}, {SPI "TableCell", cell_members, is_cell}, {NULL, NULL, NULL}};

/* ---- Requests */

/* Names an error, without what is before the names of D-Bus's own. */
GVariant *fail(request *r, const char *name, const char *message, ...) {
    va_list more;
    va_start(more, message);
    g_free(r->message);
    r->message = g_strdup_vprintf(message, more);
    va_end(more);
    r->error = name;
    return NULL;
}

GVariant *ask_application(request *r, ak_atspi_action action) {
    uint8_t tree_id[sizeof r->asked.tree_id];
    size_t length;
    r->asked.action = action;
    r->asked.target = r->id;
    if (ASK(node_tree_id, r->now, ID(r->id), tree_id, sizeof tree_id, &length) == AK_DONE && length == sizeof tree_id)
        memcpy(r->asked.tree_id, tree_id, length);
    r->is_asked = true;
    return g_variant_new_boolean(TRUE);
}

static const interface properties;

/* The interface with this name, if the object has it. */
static const interface *interface_named(request *r, const char *name) {
    const interface *it = interfaces;
    if (strcmp(name, properties.name) == 0) return &properties;
    while (it->name && strcmp(it->name, name) != 0) it++;
    if (it->is_of == has_any_text || it->is_of == has_marks) r->marks = mark_count(r->now, r->id);
    if (it->name && it->is_of(r->now, r->id)) return it;
    fail(r, "UnknownInterface", "the object has no such interface");
    return NULL;
}

static const method *member_named(request *r, const char *interface_name, const char *name, bool is_property) {
    const interface *of = interface_named(r, interface_name);
    for (const method *it = of ? of->members : NULL; it && it->name; it++)
        if (!it->takes == is_property && strcmp(it->name, name) == 0) return it;
    if (of) fail(r, is_property || *name == '=' ? "UnknownProperty" : "UnknownMethod", "%s has no %s", interface_name, name);
    return NULL;
}

static GVariant *get_property(request *r) {
    const char *of, *name;
    g_variant_get(r->given, "(&s&s)", &of, &name);
    const method *found = member_named(r, of, name, true);
    GVariant *answer = found ? found->answer(r) : NULL;
    return answer ? g_variant_new("(v)", answer) : NULL;
}

static GVariant *set_property(request *r) {
    const char *of, *name;
    g_autoptr(GVariant) value = NULL;
    g_variant_get(r->given, "(&s&sv)", &of, &name, &value);
    g_autofree char *setter = g_strconcat("=", name, NULL);
    const method *found = member_named(r, of, setter, false);
    if (!found) return NULL;
    if (!g_variant_is_of_type(value, G_VARIANT_TYPE(found->takes)))
        return fail(r, "InvalidArgs", "%s takes a value of the type %s", name, found->takes);
    r->given = value;
    return found->answer(r);
}

static GVariant *get_all_properties(request *r) {
    const interface *of = interface_named(r, r->word);
    if (!of) return NULL;
    GVariantBuilder b = G_VARIANT_BUILDER_INIT(G_VARIANT_TYPE("a{sv}"));
    for (const method *it = of->members; it->name; it++) {
        GVariant *value = it->takes ? NULL : it->answer(r);
        if (value) g_variant_builder_add(&b, "{sv}", it->name, value);
    }
    return g_variant_new("(a{sv})", &b);
}

static const method property_members[] = {{"Get", "ss", "*v", get_property}, {"Set", "ssv", "*", set_property},
                                          {"GetAll", "s", "*a{sv}", get_all_properties}, END};
static const interface properties = {PROPERTIES, property_members, is_object};

/* Reads what is given: the numbers in order, and a text. What is of other types stays in `given`. */
static void read_given(request *r, const char *types) {
    size_t count = 0;
    for (size_t i = 0; types[i] && count < MOST_NUMBERS && types[0] != '('; i++) {
        g_autoptr(GVariant) value = g_variant_get_child_value(r->given, i);
        if (types[i] == 's') g_variant_get_child(r->given, i, "&s", &r->word);
        else if (types[i] == 'b') r->numbers[count++] = g_variant_get_boolean(value);
        else if (types[i] == 'u') r->numbers[count++] = g_variant_get_uint32(value);
        else if (types[i] == 'i') r->numbers[count++] = g_variant_get_int32(value);
    }
}

static GVariant *answer_now(request *r, GDBusMessage *message) {
    const char *member = g_dbus_message_get_member(message), *signature = g_dbus_message_get_signature(message);
    r->id = id_of_path(g_dbus_message_get_path(message));
    if (!is_object(r->now, r->id)) return fail(r, "UnknownObject", "there is no such node, or it is gone");
    const method *found = member_named(r, g_dbus_message_get_interface(message), member, false);
    if (!found) return NULL;
    if (strcmp(found->takes, signature) != 0)
        return fail(r, "InvalidArgs", "%s takes (%s), and was given (%s)", member, found->takes, signature);
    read_given(r, signature);
    GVariant *answer = found->answer(r);
    return answer && found->gives[0] != '*' ? g_variant_new_tuple(&answer, 1) : answer;
}

static void send_reply(request *r, GVariant *answer, GDBusConnection *bus, GDBusMessage *message) {
    g_autofree char *words = r->message, *error = r->error ? g_strconcat("org.freedesktop.DBus.Error.", r->error, NULL) : NULL;
    bool is_error = error && !answer;
    g_autoptr(GDBusMessage) reply = is_error ? g_dbus_message_new_method_error_literal(message, error, words)
                                             : g_dbus_message_new_method_reply(message);
    if (answer) g_dbus_message_set_body(reply, answer);
    if (!(g_dbus_message_get_flags(message) & G_DBUS_MESSAGE_FLAGS_NO_REPLY_EXPECTED))
        g_dbus_connection_send_message(bus, reply, G_DBUS_SEND_MESSAGE_FLAGS_NONE, NULL, NULL);
}

/* Answers a request, if it needn't wait for the lock or may wait, and says whether it did. What is read under the lock is sent under it, so
 * that it comes before the signals of a later update; GDBus doesn't wait for the bus. The application is asked without the lock. */
static bool answer_message(ak_atspi *adapter, GDBusConnection *bus, GDBusMessage *message, bool may_wait) {
    view now = states_now(&adapter->states);
    GVariant *body = g_dbus_message_get_body(message);
    g_autoptr(GVariant) given = body ? g_variant_ref(body) : g_variant_ref_sink(g_variant_new_tuple(NULL, 0));
    request r = {.adapter = adapter, .now = &now, .given = given};
    if (may_wait) g_mutex_lock(&adapter->lock);
    else if (!g_mutex_trylock(&adapter->lock)) return false;
    GVariant *answer = answer_now(&r, message);
    adapter->request_count += may_wait || !r.is_asked;
    if (!r.is_asked) send_reply(&r, answer, bus, message);
    g_mutex_unlock(&adapter->lock);
    if (!r.is_asked) return true;
    g_variant_unref(g_variant_ref_sink(answer));
    if (!may_wait) return false;
    bool will_try = adapter->handler && adapter->handler(&r.asked, adapter->data);
    bool is_set = strcmp(g_dbus_message_get_interface(message), PROPERTIES) == 0;
    send_reply(&r, is_set ? NULL : g_variant_new("(b)", will_try), bus, message);
    return true;
}

/* A message that the adapter's thread answers, with what it belongs to. */
static gboolean answer_later(gpointer message) {
    answer_message(g_object_get_data(message, "adapter"), g_object_get_data(message, "bus"), message, true);
    return G_SOURCE_REMOVE;
}

/* On GDBus's own thread, which mustn't wait: what can't be answered at once, or is asked of the application, goes to the adapter's. */
static GDBusMessage *sort_out(GDBusConnection *bus, GDBusMessage *message, gboolean is_incoming, gpointer data) {
    ak_atspi *adapter = data;
    if (!is_incoming || g_dbus_message_get_message_type(message) != G_DBUS_MESSAGE_TYPE_METHOD_CALL) return message;
    const char *path = g_dbus_message_get_path(message), *interface = g_dbus_message_get_interface(message);
    bool is_ours = interface && (g_str_has_prefix(interface, SPI) || strcmp(interface, PROPERTIES) == 0);
    if (!path || !g_str_has_prefix(path, ALL_PATHS) || !is_ours) return message;
    if (answer_message(adapter, bus, message, false)) {
        g_object_unref(message);
        return NULL;
    }
    g_object_set_data(G_OBJECT(message), "adapter", adapter);
    g_object_set_data_full(G_OBJECT(message), "bus", g_object_ref(bus), g_object_unref);
    g_main_context_invoke_full(adapter->context, G_PRIORITY_DEFAULT, answer_later, message, g_object_unref);
    return NULL;
}

/* ---- Signals */

/* Notes a signal of a node, or of the application; it is sent once the update is carried out. */
void emit(ak_atspi *adapter, ak_id id, const char *group, const char *member, const char *kind, int first, int second, GVariant *value) {
    char path[PATH_ROOM], of[48];
    path_of(adapter, id, path);
    g_snprintf(of, sizeof of, SPI "Event.%s", group);
    GDBusMessage *message = g_dbus_message_new_signal(path, of, member);
    g_dbus_message_set_body(message, g_variant_new("(siiva{sv})", kind, first, second, value ? value : g_variant_new_int32(0), NULL));
    g_ptr_array_add(adapter->signals, message);
}

/* Hands what was noted to GDBus, which doesn't wait for the bus. */
void send_signals(ak_atspi *adapter) {
    guint count = adapter->bus && adapter->is_embedded ? adapter->signals->len : 0;
    for (guint i = 0; i < count; i++)
        g_dbus_connection_send_message(adapter->bus, adapter->signals->pdata[i], G_DBUS_SEND_MESSAGE_FLAGS_NONE, NULL, NULL);
    adapter->signal_count += count;
    g_ptr_array_set_size(adapter->signals, 0);
}

void ak_atspi_key(ak_atspi *adapter, const char *name, uint32_t keysym, uint32_t code, uint32_t modifiers, bool is_pressed) {
    LOCKED(adapter);
    if (!adapter->bus) return;
    GVariant *event = g_variant_new("((uiiiisb))", is_pressed ? 0 : 1, (int32_t)keysym, (int32_t)code, (int32_t)modifiers,
                                    (int32_t)(g_get_monotonic_time() / 1000 & G_MAXINT32), name, g_utf8_strlen(name, -1) == 1);
    g_dbus_connection_call(adapter->bus, REGISTRY, "/org/a11y/atspi/registry/deviceeventcontroller", SPI "DeviceEventController",
                           "NotifyListenersAsync", event, NULL, G_DBUS_CALL_FLAGS_NONE, -1, NULL, NULL, NULL);
}

/* ---- The bus */

static void report(ak_atspi *adapter, const char *message) {
    if (adapter->reporter) adapter->reporter(message, adapter->data);
    else g_warning("%s", message);
}

/* Says what is wrong once, until it is well again. */
static void report_trouble(ak_atspi *adapter, const char *what, const GError *error) {
    g_autofree char *line = g_strdup_printf("%s: %s. Screen readers can't find this application; it is tried again", what,
                                            error ? error->message : "no answer");
    if (!adapter->was_told) report(adapter, line);
    adapter->was_told = true;
}

static gboolean look_for_bus(gpointer data);

static void later(ak_atspi *adapter, GSourceFunc what) {
    GSource *source = g_timeout_source_new_seconds(adapter->wait);
    adapter->wait = MIN(2 * adapter->wait, LONGEST_WAIT);
    g_source_set_callback(source, what, adapter, NULL);
    g_source_attach(source, adapter->context);
    g_source_unref(source);
}

static void leave_bus(ak_atspi *adapter) {
    g_mutex_lock(&adapter->lock);
    GDBusConnection *bus = g_steal_pointer(&adapter->bus);
    adapter->is_embedded = false;
    g_mutex_unlock(&adapter->lock);
    if (!bus) return;
    g_signal_handlers_disconnect_by_data(bus, adapter);
    g_dbus_connection_close_sync(bus, NULL, NULL);
    g_object_unref(bus);
}

static void bus_closed(GDBusConnection *bus, gboolean was_vanished, GError *error, gpointer data) {
    (void)bus, (void)was_vanished;
    ak_atspi *adapter = data;
    report_trouble(adapter, "the accessibility bus is gone", error);
    leave_bus(adapter);
    adapter->wait = 1;
    later(adapter, look_for_bus);
}

static gboolean embed(gpointer data);

static void embedded(GObject *source, GAsyncResult *result, gpointer data) {
    ak_atspi *adapter = data;
    g_autoptr(GError) error = NULL;
    g_autoptr(GVariant) answer = g_dbus_connection_call_finish(G_DBUS_CONNECTION(source), result, &error);
    adapter->is_embedding = false;
    if (!answer) {
        report_trouble(adapter, "the accessibility registry doesn't take this application", error);
        if (adapter->bus) later(adapter, embed);
        return;
    }
    g_mutex_lock(&adapter->lock);
    g_free(adapter->desktop_bus);
    g_free(adapter->desktop_path);
    g_variant_get(answer, "((so))", &adapter->desktop_bus, &adapter->desktop_path);
    adapter->is_embedded = true;
    g_mutex_unlock(&adapter->lock);
    if (adapter->was_told) report(adapter, "screen readers can find this application again");
    adapter->was_told = false;
    adapter->wait = 1;
}

static gboolean embed(gpointer data) {
    ak_atspi *adapter = data;
    if (!adapter->bus || adapter->is_embedding) return G_SOURCE_REMOVE;
    adapter->is_embedding = true;
    g_dbus_connection_call(adapter->bus, REGISTRY, ROOT_PATH, SPI "Socket", "Embed", g_variant_new("((so))", adapter->own, ROOT_PATH),
                           G_VARIANT_TYPE("((so))"), G_DBUS_CALL_FLAGS_NONE, -1, NULL, embedded, adapter);
    return G_SOURCE_REMOVE;
}

/* The registry is there, perhaps again, or is gone: it starts when it is called. */
static void registry_changed(GDBusConnection *bus, const char *sender, const char *path, const char *interface, const char *signal,
                             GVariant *values, gpointer data) {
    (void)bus, (void)sender, (void)path, (void)interface, (void)signal;
    ak_atspi *adapter = data;
    const char *owner;
    g_variant_get(values, "(&s&s&s)", NULL, NULL, &owner);
    if (*owner && adapter->is_embedded && g_strcmp0(owner, adapter->desktop_bus) == 0) return;
    g_mutex_lock(&adapter->lock);
    adapter->is_embedded = false;
    g_mutex_unlock(&adapter->lock);
    if (!*owner) report_trouble(adapter, "the accessibility registry is gone", NULL);
    embed(adapter);
}

/* The address of the accessibility bus: of the environment, or as the session's bus says it. */
static char *address_of_bus(GError **error) {
    const char *given = g_getenv("AT_SPI_BUS_ADDRESS");
    if (given && *given) return g_strdup(given);
    g_autofree char *session = g_dbus_address_get_for_bus_sync(G_BUS_TYPE_SESSION, NULL, error);
    g_autoptr(GDBusConnection) bus = session ? g_dbus_connection_new_for_address_sync(session, CLIENT_FLAGS, NULL, NULL, error) : NULL;
    if (!bus) return NULL;
    char *found = NULL;
    g_autoptr(GVariant) answer = g_dbus_connection_call_sync(bus, "org.a11y.Bus", "/org/a11y/bus", "org.a11y.Bus", "GetAddress", NULL,
                                                             G_VARIANT_TYPE("(s)"), G_DBUS_CALL_FLAGS_NONE, 5000, NULL, error);
    if (answer) g_variant_get(answer, "(s)", &found);
    g_dbus_connection_close_sync(bus, NULL, NULL);
    return found;
}

static gboolean look_for_bus(gpointer data) {
    ak_atspi *adapter = data;
    g_autoptr(GError) error = NULL;
    g_autofree char *address = address_of_bus(&error);
    GDBusConnection *bus = address ? g_dbus_connection_new_for_address_sync(address, CLIENT_FLAGS, NULL, NULL, &error) : NULL;
    if (!bus) {
        const char *none = "there is no accessibility bus (is at-spi2-core installed, and DBUS_SESSION_BUS_ADDRESS set?)";
        report_trouble(adapter, address ? "the accessibility bus doesn't answer" : none, error);
        later(adapter, look_for_bus);
        return G_SOURCE_REMOVE;
    }
    g_dbus_connection_add_filter(bus, sort_out, adapter, NULL);
    g_signal_connect(bus, "closed", G_CALLBACK(bus_closed), adapter);
    g_dbus_connection_signal_subscribe(bus, "org.freedesktop.DBus", "org.freedesktop.DBus", "NameOwnerChanged", "/org/freedesktop/DBus",
                                       REGISTRY, G_DBUS_SIGNAL_FLAGS_NONE, registry_changed, adapter, NULL);
    g_mutex_lock(&adapter->lock);
    adapter->bus = bus;
    g_free(adapter->own);
    adapter->own = g_strdup(g_dbus_connection_get_unique_name(bus));
    g_mutex_unlock(&adapter->lock);
    embed(adapter);
    return G_SOURCE_REMOVE;
}

static gpointer serve(gpointer data) {
    ak_atspi *adapter = data;
    g_main_context_push_thread_default(adapter->context);
    look_for_bus(adapter);
    g_main_loop_run(adapter->loop);
    leave_bus(adapter);
    g_main_context_pop_thread_default(adapter->context);
    return NULL;
}

/* ---- What the application calls */

ak_atspi *ak_atspi_new(const char *name, ak_tree *tree, ak_atspi_handler handler, ak_atspi_reporter reporter, void *data) {
    ak_atspi *adapter = g_new0(ak_atspi, 1);
    *adapter = (ak_atspi){.name = g_strdup(name), .units = 64, .desktop_bus = g_strdup(""), .desktop_path = g_strdup(NULL_PATH),
                          .wait = 1, .handler = handler, .reporter = reporter, .data = data};
    g_mutex_init(&adapter->lock);
    adapter->signals = g_ptr_array_new_with_free_func(g_object_unref);
    adapter->context = g_main_context_new();
    adapter->loop = g_main_loop_new(adapter->context, FALSE);
    if (states_open(&adapter->states, tree)) adapter->thread = g_thread_new("accessibility", serve, adapter);
    if (adapter->thread) return adapter;
    ak_atspi_free(adapter);
    return NULL;
}

static gboolean end_loop(gpointer loop) {
    g_main_loop_quit(loop);
    return G_SOURCE_REMOVE;
}

void ak_atspi_free(ak_atspi *adapter) {
    if (adapter->thread) {
        g_main_context_invoke(adapter->context, end_loop, adapter->loop);
        g_thread_join(adapter->thread);
    }
    states_close(&adapter->states);
    g_main_loop_unref(adapter->loop);
    g_main_context_unref(adapter->context);
    g_ptr_array_unref(adapter->signals);
    g_mutex_clear(&adapter->lock);
    g_free(adapter->own);
    g_free(adapter->desktop_bus);
    g_free(adapter->desktop_path);
    g_free(adapter->name);
    g_free(adapter);
}

void ak_atspi_lock(ak_atspi *adapter) {
    g_mutex_lock(&adapter->lock);
}

void ak_atspi_unlock(ak_atspi *adapter) {
    g_mutex_unlock(&adapter->lock);
}

uint8_t ak_atspi_feed(ak_atspi *adapter, const uint8_t *lines, size_t length, ak_stop *stop) {
    LOCKED(adapter);
    uint8_t answer = states_feed(&adapter->states, lines, length, stop, tell_changes, adapter);
    send_signals(adapter);
    return answer;
}

uint8_t ak_atspi_host_focus(ak_atspi *adapter, bool is_focused) {
    const char *line = is_focused ? "host on\n" : "host off\n";
    ak_stop stop;
    return ak_atspi_feed(adapter, (const uint8_t *)line, strlen(line), &stop);
}

void ak_atspi_place(ak_atspi *adapter, int x, int y, int units) {
    LOCKED(adapter);
    adapter->x = x;
    adapter->y = y;
    adapter->units = MAX(1, units);
}

void ak_atspi_counts(ak_atspi *adapter, size_t *signals, size_t *requests) {
    LOCKED(adapter);
    *signals = adapter->signal_count;
    *requests = adapter->request_count;
}
