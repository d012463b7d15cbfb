/* accesskit_atspi.h: an application's tree on the Linux accessibility bus (AT-SPI), over accesskit_proved.h. docs/ADAPTER.md explains it.
 *
 * The application opens a tree, makes an adapter of it, and from then on changes the tree by the adapter's calls alone, so that the adapter
 * can tell screen readers what has changed. Requests of screen readers are answered on a thread of the adapter, which takes the adapter's
 * lock for each of them. The lock is never held while the bus is waited for.
 */
#ifndef ACCESSKIT_ATSPI_H
#define ACCESSKIT_ATSPI_H
#include "accesskit_proved.h"
#ifdef __cplusplus
extern "C" {
#endif

typedef struct ak_atspi ak_atspi;

/* What a screen reader can ask the application to do with a node. */
typedef enum { AK_ATSPI_CLICK = 0, AK_ATSPI_FOCUS = 1, AK_ATSPI_INCREMENT = 2, AK_ATSPI_DECREMENT = 3, AK_ATSPI_SET_VALUE = 4,
               AK_ATSPI_SELECT_TEXT = 5, AK_ATSPI_SCROLL_INTO_VIEW = 6, AK_ATSPI_SCROLL_TO_POINT = 7 } ak_atspi_action;

typedef struct {
    ak_atspi_action action;
    ak_id target;
    uint8_t tree_id[16]; /* the UUID of the target's tree, by which an update names it: all 0 of the root tree */
    double number;       /* AK_ATSPI_SET_VALUE: the value */
    int64_t x, y;        /* AK_ATSPI_SCROLL_TO_POINT: where it shall be in the window, in units of 1/64 pixel */
    /* AK_ATSPI_SELECT_TEXT: from and to which character of a run; the second is where the caret shall be */
    uint64_t anchor_run, focus_run;
    size_t anchor_character, focus_character;
} ak_atspi_request;

/* Is called on the adapter's thread, without the lock, and says whether the application will try. It hands the request to the thread that
 * owns the interface, and doesn't wait for it. */
typedef bool (*ak_atspi_handler)(const ak_atspi_request *request, void *data);

/* What is wrong with the bus, in words for a person, and when it is well again; on the adapter's thread. NULL prints GLib's warnings. */
typedef void (*ak_atspi_reporter)(const char *message, void *data);

/* An adapter of an open tree, which the application closes after the adapter. It looks for the bus on a thread of its own, again and
 * again if there is none. `name` is the application's. NULL: memory ran out. */
ak_atspi *ak_atspi_new(const char *name, ak_tree *tree, ak_atspi_handler handler, ak_atspi_reporter reporter, void *data);
/* Leaves the bus. No handler runs afterwards. */
void ak_atspi_free(ak_atspi *adapter);

/* As ak_tree_feed and ak_tree_host_focus: with the same answers, and screen readers are told what has changed. An update that is
 * refused tells nothing. From any thread. */
uint8_t ak_atspi_feed(ak_atspi *adapter, const uint8_t *lines, size_t length, ak_stop *stop);
uint8_t ak_atspi_host_focus(ak_atspi *adapter, bool is_focused);

/* Calls that read the tree are made between these two. */
void ak_atspi_lock(ak_atspi *adapter);
void ak_atspi_unlock(ak_atspi *adapter);

/* Where the window is on the screen, in pixels, and how many of the tree's units make a pixel: 64 if nothing is said. */
void ak_atspi_place(ak_atspi *adapter, int x, int y, int units);
/* Tells screen readers of a key that the user has pressed or released, as toolkits do, for those that echo keys. `name` is what it
 * types, or its name, as `Left`. */
void ak_atspi_key(ak_atspi *adapter, const char *name, uint32_t keysym, uint32_t code, uint32_t modifiers, bool is_pressed);

/* How many signals were sent, and requests answered, so far. */
void ak_atspi_counts(ak_atspi *adapter, size_t *signals, size_t *requests);

#ifdef __cplusplus
}
#endif
#endif
