/* What the files of the adapter share. */
#ifndef AK_ATSPI_INSIDE_H
#define AK_ATSPI_INSIDE_H
#include "accesskit_atspi.h"
#include "names.h"
#include "states.h"
#include <gio/gio.h>

#define SPI "org.a11y.atspi."
#define ROOT_PATH "/org/a11y/atspi/accessible/root"
#define NULL_PATH "/org/a11y/atspi/null"
#define ALL_PATHS "/org/a11y/atspi/"
#define NODE_PATHS "/org/a11y/atspi/accessible/"
#define LINK_PATHS "/org/a11y/atspi/link/"
#define ID_FORM "%" G_GUINT32_FORMAT "/%" G_GUINT64_FORMAT
enum { PATH_ROOM = 64 };
#define BIT(number) (1ull << (number))
#define HAS(bits, number) ((bits) >> (number) & 1)

struct ak_atspi {
    char *name;
    states states;
    GMutex lock; /* for the states and what stands up to `thread` */
    int x, y, units;
    GDBusConnection *bus; /* none while there is no bus */
    char *own, *desktop_bus, *desktop_path;
    bool is_embedded, is_embedding;
    GPtrArray *signals; /* what is still to be sent */
    size_t signal_count, request_count;
    GThread *thread;
    GMainContext *context;
    GMainLoop *loop;
    guint wait; /* seconds until the bus is looked for again */
    bool was_told;
    ak_atspi_handler handler;
    ak_atspi_reporter reporter;
    void *data;
};

/* Holds the lock to the end of a block. */
#define LOCKED(adapter) G_GNUC_UNUSED g_autoptr(GMutexLocker) locker = g_mutex_locker_new(&(adapter)->lock)

/* A request of a client: of which object, and what it answers. */
enum { MOST_NUMBERS = 3 };
typedef struct {
    ak_atspi *adapter;
    const view *now;
    ak_id id; /* a node, or APPLICATION */
    GVariant *given; /* a tuple, or the value that a property gets */
    int64_t numbers[MOST_NUMBERS]; /* of what is given: the numbers, in order, and the last text */
    const char *word;
    size_t marks;      /* of a text: of how many marks it is, if it is of marks */
    const char *error; /* the name of an error, if it isn't answered */
    char *message;
    bool is_asked; /* the application is asked for `asked`, once the lock is free, and the answer is whether it will try */
    ak_atspi_request asked;
} request;

typedef bool is_node(const view *v, ak_id id);
/* Answers a request, or gives NULL and names an error. */
typedef GVariant *(*answerer)(request *r);
/* A member of an interface: a method with what it takes, or a property, which takes NULL. What sets a property has `=` before its name.
 * An answer of several values has `*` before their types. The last member has no name. */
typedef struct {
    const char *name, *takes, *gives;
    answerer answer;
} method;
#define END {NULL, NULL, NULL, NULL}
/* An interface, and which objects have it. */
typedef struct {
    const char *name;
    const method *members;
    is_node *is_of;
} interface;
/* What a signal tells of a node where the answer, or another one, differs. */
typedef struct {
    const char *member, *kind;
    answerer answer, also;
} told_answer;
extern const told_answer told_answers[];
extern const interface interfaces[];
extern const method accessible_members[], application_members[], component_members[], action_members[], value_members[], text_members[],
    selection_members[], hyperlink_members[], hypertext_members[], collection_members[], table_members[], cell_members[];

/* An answer that is one expression, one that is the text `t` if that is read, or else empty, and what a node is. */
#define ANSWERS(name, answer) static GVariant *name(request *r) { return (void)r, (answer); }
#define ANSWERS_TEXT(name, is_read) \
    static GVariant *name(request *r) { g_autoptr(GString) t = new_text(); return g_variant_new_string((is_read) ? t->str : ""); }
#define TELLS(name, expression) bool name(const view *v, ak_id id) { return (void)v, (void)id, (expression); }
#define FALSE_ANSWER g_variant_new_boolean(FALSE)
#define INT_ANSWER(number) g_variant_new_int32((int32_t)(number))
GVariant *fail(request *r, const char *name, const char *message, ...) G_GNUC_PRINTF(3, 4);
GVariant *ask_application(request *r, ak_atspi_action action);

/* ---- What is read of a node (nodes.c) */

/* Whether a call that writes a text is done, a second time if it needs more room. */
#define READ_TEXT(t, call) ((call) == AK_DONE && (!text_grows(t) || (call) == AK_DONE))
#define INTO_TEXT(t) (uint8_t *)(t)->str, (t)->allocated_len - 1, &(t)->len
GString *new_text(void);
bool text_grows(GString *t);
/* A list of nodes is an array of ak_id. */
#define AT(list, i) g_array_index(list, ak_id, i)
enum { SHOWN_CHILDREN = -1, ALL_CHILDREN = -2 };
GArray *new_ids(void);
GArray *read_ids(const view *v, ak_id id, int which);

is_node is_there, is_shown, is_application, is_of_page, is_selected, is_text_role, hides_text, has_text;
/* Which objects have an interface. */
is_node is_object, is_own, has_box, has_actions, has_number, is_linked, has_items, has_any_text, has_marks, is_table, is_cell;
bool read_name(const view *v, ak_id id, GString *t);
bool read_text(const view *v, ak_id id, GString *t);
bool is_some(ak_id id);
bool is_same(ak_id one, ak_id other);
bool has_flag(const view *v, ak_id id, ak_flag flag);
uint32_t state_value(const view *v, ak_id id, ak_state state, uint32_t otherwise);
size_t count_of(const view *v, ak_id id, ak_count which);
ak_id shown_parent(const view *v, ak_id id);
GArray *read_windows(const view *v);
ak_id active_window(const view *v);
uint32_t number_of_role(const view *v, ak_id id);
unsigned role_of(const view *v, ak_id id);
uint64_t states_of(const view *v, ak_id id);
void hide_password(const view *v, ak_id id, GString *t);
GVariant *attributes_of(const view *v, ak_id id);
ak_id child_at(request *r, int64_t index);

typedef struct {
    int x, y, width, height;
} box;
ak_bounds bounds_of(const view *v, ak_id id);
box box_of(ak_atspi *adapter, ak_bounds bounds);
box extents(ak_atspi *adapter, const view *v, ak_id id);
GVariant *box_answer(request *r, box it, uint32_t coordinates);
bool own_point(request *r, ak_point *own);
GVariant *reference(ak_atspi *adapter, ak_id id);
/* These two take their list. */
GVariant *references(ak_atspi *adapter, GArray *list);
GVariant *count_answer(GArray *list);
void path_of(ak_atspi *adapter, ak_id id, char *path);
ak_id id_of_path(const char *path);

/* ---- What is read of several nodes (tables.c), and texts (texts.c) */
int64_t cell_index(const view *v, ak_id id);
int caret_of(const view *v, ak_id id);
bool selection_of(const view *v, ak_id id, int *start, int *end);
size_t mark_count(const view *v, ak_id id);
GVariant *marks(size_t count);

/* ---- Events (events.c), which are sent by bus.c */
void tell_changes(void *adapter, const view *before, const view *now);
void emit(ak_atspi *adapter, ak_id id, const char *group, const char *member, const char *kind, int first, int second, GVariant *value);
void send_signals(ak_atspi *adapter);
#endif
