/* accesskit_proved.h: the accessibility tree in a C process. docs/FROM_C.md has an example, and says what is proved.
 *
 * A tree is fed with the lines of a script (docs/SCRIPT.md), or sent updates that are built call by call; it keeps what they changed as
 * events, and is read by the ids of its nodes.
 * A call returns one of the answers below. It writes through its last pointers only if it returns AK_DONE, and AK_NO_MEMORY leaves the
 * tree as it was (ak_tree_feed says how far it went). AK_CLOSED is answered by each call of a closed tree.
 *
 * What a caller owes, and nothing checks:
 *  - An ak_tree begins as AK_TREE_CLOSED, which a closed one may be set to again. Else only these calls change it, and it isn't copied or
 *    moved while it is open.
 *  - A pointer is valid, aligned and not null, and points to no memory that another pointer of the same call points to.
 *  - `lines`, `text` and `tree_id` have `length` bytes, `ids`, `numbers` and `units` `count` items, and `buffer` has room for `room` items,
 *    all below 2^63 bytes; with 0 of them the pointer may be null.
 *  - While a call uses a tree, no other call does, not even one that only reads. Each may come from any thread: threads that share a tree hold a
 *    mutex around each call. Two trees share nothing.
 *  - malloc, realloc and free are those of one allocator, and no call comes from a signal handler.
 * What is checked when a call runs: that the tree is open, lines, ids, indexes, and what an update is built of.
 */
#ifndef ACCESSKIT_PROVED_H
#define ACCESSKIT_PROVED_H
#include <stdbool.h>
#include <stddef.h>
#include <stdint.h>
#ifdef __cplusplus
extern "C" {
#endif

/* The version of this header. docs/VERSIONS.md says what a version promises. */
#define AK_VERSION_MAJOR 0
#define AK_VERSION_MINOR 1
#define AK_VERSION_PATCH 0
#define AK_VERSION (AK_VERSION_MAJOR * 10000 + AK_VERSION_MINOR * 100 + AK_VERSION_PATCH)
/* The version of the library in the process, as a number like AK_VERSION: 10203 is 1.2.3. */
uint32_t ak_version(void);

/* The numbers stay: programs are built with them, so what is new gets a number that none had before. Where a call takes one of these types,
 * C takes a name of another with a warning (-Wenum-conversion, which -Wextra has), and C++ doesn't. */
/* The answers: it is done; memory ran out; the tree is closed; there is no such thing in the tree, or the node has none; a line is bad; an
 * update is refused; an update isn't begun, or none of its nodes; the tree hasn't the node; a number means nothing, or a text or an id isn't
 * what it has to be; the events are lost. */
typedef enum { AK_DONE = 0, AK_NO_MEMORY = 1, AK_CLOSED = 2, AK_NOTHING = 3, AK_BAD_LINE = 4, AK_REFUSED = 5,
               AK_OUT_OF_PLACE = 6, AK_NO_NODE = 7, AK_NO_SUCH = 8, AK_LOST = 9 } ak_answer;
/* What an event is. */
typedef enum { AK_ADDED = 0, AK_UPDATED = 1, AK_REMOVED = 2, AK_FOCUS_MOVED = 3 } ak_kind;
/* The rules that a refused update breaks; docs/SCRIPT.md explains them. */
typedef enum { AK_MISSING_TREE_INFO = 1, AK_NOT_ROOT_TREE = 2, AK_MISSING_DATA = 3, AK_NOT_REACHED = 4, AK_NAMED_TWICE = 5,
               AK_LISTED_TWICE = 6, AK_ROOT_TREE_GRAFTED = 7, AK_GRAFT_WITH_CHILDREN = 8, AK_GRAFTED_TWICE = 9, AK_NO_GRAFT = 10,
               AK_NO_FIRST_TREE_INFO = 11, AK_FOCUS_MISSING = 12, AK_FOCUS_ON_EMPTY_GRAFT = 13, AK_INDEXES_USED_UP = 14 } ak_rule;
/* The flags: each is the library's call of that name, as is_hidden or supports_toggle. From AK_FOCUSABLE to AK_INVOCABLE the common filter
 * counts. */
typedef enum { AK_HIDDEN = 0, AK_DISABLED = 1, AK_BUSY = 2, AK_MODAL = 3, AK_REQUIRED = 4, AK_MULTISELECTABLE = 5, AK_LIVE_ATOMIC = 6,
               AK_TOUCH_TRANSPARENT = 7, AK_CLIPS_CHILDREN = 8, AK_ITALIC = 9, AK_READ_ONLY = 10, AK_READ_ONLY_SUPPORTED = 11,
               AK_TEXT_INPUT = 12, AK_MULTILINE = 13, AK_PASSWORD_INPUT = 14, AK_DIALOG = 15, AK_ITEM_LIKE = 16, AK_GRAFT = 17,
               AK_SELECTABLE = 18, AK_SUPPORTS_TOGGLE = 19, AK_SUPPORTS_EXPAND_COLLAPSE = 20, AK_SUPPORTS_URL = 21,
               AK_SUPPORTS_TEXT_RANGES = 22, AK_FOCUSABLE = 23, AK_CLICKABLE = 24, AK_SUPPORTS_INCREMENT = 25, AK_SUPPORTS_DECREMENT = 26,
               AK_INVOCABLE = 27, AK_LABEL_COMES_FROM_VALUE = 28, AK_CONTAINER_WITH_SELECTABLE_CHILDREN = 29, AK_READ_ONLY_BY_DEFAULT = 30,
               AK_READ_ONLY_OR_DISABLED = 31, AK_HAS_LABEL = 32, AK_HAS_VALUE = 33 } ak_flag;
/* Filters, and their answers: the node is included, excluded alone, or excluded with its subtree. */
typedef enum { AK_ALL = 0, AK_COMMON = 1, AK_COMMON_WITH_ROOT = 2 } ak_filter;
typedef enum { AK_INCLUDE = 0, AK_EXCLUDE_NODE = 1, AK_EXCLUDE_SUBTREE = 2 } ak_filter_result;
/* Movements of the caret. */
typedef enum { AK_FORWARD_TO_CHARACTER_START = 0, AK_FORWARD_TO_CHARACTER_END = 1, AK_BACKWARD_TO_CHARACTER_START = 2,
               AK_FORWARD_TO_FORMAT_START = 3, AK_FORWARD_TO_FORMAT_END = 4, AK_BACKWARD_TO_FORMAT_START = 5, AK_FORWARD_TO_WORD_START = 6,
               AK_FORWARD_TO_WORD_END = 7, AK_BACKWARD_TO_WORD_START = 8, AK_FORWARD_TO_LINE_START = 9, AK_FORWARD_TO_LINE_END = 10,
               AK_BACKWARD_TO_LINE_START = 11, AK_FORWARD_TO_PARAGRAPH_START = 12, AK_FORWARD_TO_PARAGRAPH_END = 13,
               AK_BACKWARD_TO_PARAGRAPH_START = 14, AK_FORWARD_TO_PAGE_START = 15, AK_FORWARD_TO_PAGE_END = 16, AK_DOCUMENT_END = 17,
               AK_BACKWARD_TO_PAGE_START = 18, AK_DOCUMENT_START = 19 } ak_move;
/* The fields of a node, by their names in a script; docs/SCRIPT.md explains them, and which range their values have. */
typedef enum { AK_FIELD_CHILDREN = 0, AK_FIELD_LABELLED = 1, AK_FIELD_CONTROLS = 2, AK_FIELD_TREE = 3, AK_FIELD_ACTIVE = 4,
               AK_FIELD_LABEL = 5, AK_FIELD_VALUE = 6, AK_FIELD_DESCRIPTION = 7, AK_FIELD_PLACEHOLDER = 8, AK_FIELD_ROLE_DESCRIPTION = 9,
               AK_FIELD_URL = 10, AK_FIELD_AUTHOR_ID = 11, AK_FIELD_HTML_ID = 12, AK_FIELD_CLASS_NAME = 13, AK_FIELD_BRAILLE_LABEL = 14,
               AK_FIELD_BRAILLE_ROLE_DESCRIPTION = 15, AK_FIELD_COLUMN_INDEX_TEXT = 16, AK_FIELD_ROW_INDEX_TEXT = 17,
               AK_FIELD_FONT_FAMILY = 18, AK_FIELD_LANGUAGE = 19, AK_FIELD_HIDDEN = 20, AK_FIELD_CLIPS = 21, AK_FIELD_DISABLED = 22,
               AK_FIELD_READ_ONLY = 23, AK_FIELD_REQUIRED = 24, AK_FIELD_MODAL = 25, AK_FIELD_BUSY = 26, AK_FIELD_MULTISELECTABLE = 27,
               AK_FIELD_ITALIC = 28, AK_FIELD_LIVE_ATOMIC = 29, AK_FIELD_TOUCH_TRANSPARENT = 30, AK_FIELD_BOUNDS = 31, AK_FIELD_MOVE = 32,
               AK_FIELD_SELECTION = 33, AK_FIELD_CHARS = 34, AK_FIELD_WORDS = 35, AK_FIELD_CHARACTER_POSITIONS = 36,
               AK_FIELD_CHARACTER_WIDTHS = 37, AK_FIELD_PREV = 38, AK_FIELD_NEXT = 39, AK_FIELD_TOGGLED = 40, AK_FIELD_EXPANDED = 41,
               AK_FIELD_SELECTED = 42, AK_FIELD_LIVE = 43, AK_FIELD_ORIENTATION = 44, AK_FIELD_SORT_DIRECTION = 45,
               AK_FIELD_ARIA_CURRENT = 46, AK_FIELD_HAS_POPUP = 47, AK_FIELD_FONT_SIZE = 48, AK_FIELD_FONT_WEIGHT = 49,
               AK_FIELD_BACKGROUND_COLOR = 50, AK_FIELD_FOREGROUND_COLOR = 51, AK_FIELD_OVERLINE = 52, AK_FIELD_STRIKETHROUGH = 53,
               AK_FIELD_UNDERLINE = 54, AK_FIELD_TEXT_DIRECTION = 55, AK_FIELD_TEXT_ALIGN = 56, AK_FIELD_VERTICAL_OFFSET = 57,
               AK_FIELD_NUMBER = 58, AK_FIELD_MIN = 59, AK_FIELD_MAX = 60, AK_FIELD_STEP = 61, AK_FIELD_JUMP = 62, AK_FIELD_LEVEL = 63,
               AK_FIELD_SET_SIZE = 64, AK_FIELD_POSITION = 65, AK_FIELD_SCROLL_X = 66, AK_FIELD_SCROLL_X_MIN = 67,
               AK_FIELD_SCROLL_X_MAX = 68, AK_FIELD_SCROLL_Y = 69, AK_FIELD_SCROLL_Y_MIN = 70, AK_FIELD_SCROLL_Y_MAX = 71,
               AK_FIELD_ACTIONS = 72, AK_FIELD_CHILD_ACTIONS = 73 } ak_field;
/* Roles, as a uint32_t. One without a name is AK_ROLE_OTHER and its number, up to 65535: AK_ROLE_OTHER + 328 is a heading. */
typedef enum { AK_ROLE_UNKNOWN = 0, AK_ROLE_WINDOW = 1, AK_ROLE_SCROLL_VIEW = 2, AK_ROLE_PARAGRAPH = 3, AK_ROLE_GENERIC_CONTAINER = 4,
               AK_ROLE_TEXT_RUN = 5, AK_ROLE_LABEL = 6, AK_ROLE_IMAGE = 7, AK_ROLE_DOCUMENT = 8, AK_ROLE_TERMINAL = 9,
               AK_ROLE_TEXT_INPUT = 10, AK_ROLE_MULTILINE_TEXT_INPUT = 11, AK_ROLE_SEARCH_INPUT = 12, AK_ROLE_DATE_INPUT = 13,
               AK_ROLE_DATE_TIME_INPUT = 14, AK_ROLE_WEEK_INPUT = 15, AK_ROLE_MONTH_INPUT = 16, AK_ROLE_TIME_INPUT = 17,
               AK_ROLE_EMAIL_INPUT = 18, AK_ROLE_NUMBER_INPUT = 19, AK_ROLE_PASSWORD_INPUT = 20, AK_ROLE_PHONE_NUMBER_INPUT = 21,
               AK_ROLE_URL_INPUT = 22, AK_ROLE_EDITABLE_COMBO_BOX = 23, AK_ROLE_SPIN_BUTTON = 24, AK_ROLE_LIST_BOX = 25,
               AK_ROLE_TAB_LIST = 26, AK_ROLE_ALERT_DIALOG = 27, AK_ROLE_DIALOG = 28, AK_ROLE_COMBO_BOX = 29,
               AK_ROLE_DISCLOSURE_TRIANGLE = 30, AK_ROLE_TREE_ITEM = 31, AK_ROLE_BUTTON = 32, AK_ROLE_CHECK_BOX = 33,
               AK_ROLE_DEFAULT_BUTTON = 34, AK_ROLE_LINK = 35, AK_ROLE_MENU_ITEM = 36, AK_ROLE_MENU_ITEM_CHECK_BOX = 37,
               AK_ROLE_MENU_ITEM_RADIO = 38, AK_ROLE_RADIO_BUTTON = 39, AK_ROLE_DOC_BACK_LINK = 40, AK_ROLE_DOC_BIBLIO_REF = 41,
               AK_ROLE_DOC_GLOSS_REF = 42, AK_ROLE_DOC_NOTE_REF = 43, AK_ROLE_COLOR_WELL = 44, AK_ROLE_GRID = 45,
               AK_ROLE_MENU_LIST_POPUP = 46, AK_ROLE_RADIO_GROUP = 47, AK_ROLE_SLIDER = 48, AK_ROLE_SWITCH = 49, AK_ROLE_TREE_GRID = 50,
               AK_ROLE_ARTICLE = 51, AK_ROLE_DEFINITION = 52, AK_ROLE_DESCRIPTION_LIST = 53, AK_ROLE_GRAPHICS_DOCUMENT = 54,
               AK_ROLE_LIST = 55, AK_ROLE_LIST_ITEM = 56, AK_ROLE_PDF_ROOT = 57, AK_ROLE_PROGRESS_INDICATOR = 58,
               AK_ROLE_ROOT_WEB_AREA = 59, AK_ROLE_TERM = 60, AK_ROLE_TIMER = 61, AK_ROLE_TOOLBAR = 62, AK_ROLE_TOOLTIP = 63,
               AK_ROLE_COMMENT = 64, AK_ROLE_TAB = 65, AK_ROLE_LIST_BOX_OPTION = 66, AK_ROLE_MENU_LIST_OPTION = 67, AK_ROLE_LIST_GRID = 68,
               AK_ROLE_MENU = 69, AK_ROLE_MENU_BAR = 70, AK_ROLE_TREE = 71, AK_ROLE_OTHER = 65536 } ak_role;
/* Actions, as a uint32_t. Another one is AK_ACTION_OTHER and its number, up to 255. */
typedef enum { AK_ACTION_CLICK = 0, AK_ACTION_FOCUS = 1, AK_ACTION_INCREMENT = 2, AK_ACTION_DECREMENT = 3,
               AK_ACTION_OTHER = 256 } ak_action;
/* The values of the fields that have few, each type named after its field, and the styles of a line above, through or below text. */
typedef enum { AK_TOGGLED_TRUE = 0, AK_TOGGLED_FALSE = 1, AK_TOGGLED_MIXED = 2 } ak_toggled;
typedef enum { AK_LIVE_OFF = 0, AK_LIVE_POLITE = 1, AK_LIVE_ASSERTIVE = 2 } ak_live;
typedef enum { AK_ORIENTATION_HORIZONTAL = 0, AK_ORIENTATION_VERTICAL = 1 } ak_orientation;
typedef enum { AK_SORT_DIRECTION_ASCENDING = 0, AK_SORT_DIRECTION_DESCENDING = 1, AK_SORT_DIRECTION_OTHER = 2 } ak_sort_direction;
typedef enum { AK_ARIA_CURRENT_FALSE = 0, AK_ARIA_CURRENT_TRUE = 1, AK_ARIA_CURRENT_PAGE = 2, AK_ARIA_CURRENT_STEP = 3,
               AK_ARIA_CURRENT_LOCATION = 4, AK_ARIA_CURRENT_DATE = 5, AK_ARIA_CURRENT_TIME = 6 } ak_aria_current;
typedef enum { AK_HAS_POPUP_MENU = 0, AK_HAS_POPUP_LISTBOX = 1, AK_HAS_POPUP_TREE = 2, AK_HAS_POPUP_GRID = 3,
               AK_HAS_POPUP_DIALOG = 4 } ak_has_popup;
typedef enum { AK_TEXT_DIRECTION_LEFT_TO_RIGHT = 0, AK_TEXT_DIRECTION_RIGHT_TO_LEFT = 1, AK_TEXT_DIRECTION_TOP_TO_BOTTOM = 2,
               AK_TEXT_DIRECTION_BOTTOM_TO_TOP = 3 } ak_text_direction;
typedef enum { AK_TEXT_ALIGN_LEFT = 0, AK_TEXT_ALIGN_RIGHT = 1, AK_TEXT_ALIGN_CENTER = 2, AK_TEXT_ALIGN_JUSTIFY = 3 } ak_text_align;
typedef enum { AK_VERTICAL_OFFSET_SUBSCRIPT = 0, AK_VERTICAL_OFFSET_SUPERSCRIPT = 1 } ak_vertical_offset;
typedef enum { AK_STYLE_SOLID = 0, AK_STYLE_DOTTED = 1, AK_STYLE_DASHED = 2, AK_STYLE_DOUBLE = 3, AK_STYLE_WAVY = 4 } ak_style;

#if defined(__cplusplus)
static_assert(sizeof(ak_filter_result) == sizeof(uint32_t), "the library was built without -fshort-enums");
#elif defined(__STDC_VERSION__) && __STDC_VERSION__ >= 201112L
_Static_assert(sizeof(ak_filter_result) == sizeof(uint32_t), "the library was built without -fshort-enums");
#endif

typedef struct { void *at; bool is_there; } ak_tree;
/* All zeros, as a static ak_tree is without it. */
#ifdef __cplusplus
#define AK_TREE_CLOSED (ak_tree{ nullptr, false })
#else
#define AK_TREE_CLOSED ((ak_tree){ 0, false })
#endif

/* A node's id in its tree, and the index of that tree: 0 is the root tree. */
typedef struct { uint64_t node; uint32_t tree; } ak_id;
/* A change, and the node before and after it: 0 where there is none. */
typedef struct { uint64_t old_node; uint64_t new_node; uint32_t old_tree; uint32_t new_tree; uint8_t kind; bool has_old; bool has_new; } ak_event;
/* `line`: the number of the bad line, from 1. `done`: how many commands were carried out before an update was refused, or memory
 * ran out. Of a refusal `rule` is its rule, one of ak_rule, `node` the node that the rule is about, and `tree_id` the bytes of the UUID of
 * the tree that AK_GRAFTED_TWICE, AK_NO_GRAFT, AK_NO_FIRST_TREE_INFO and AK_FOCUS_ON_EMPTY_GRAFT are about. All else is 0. */
typedef struct { uint64_t line; uint64_t done; uint64_t node; uint8_t tree_id[16]; uint8_t rule; } ak_stop;
/* A rectangle, in units of 1/64 pixel. An edge beyond 64 bits is the nearest number within them. */
typedef struct { int64_t x0; int64_t y0; int64_t x1; int64_t y1; } ak_bounds;
/* A position in a text by all its names: its run, and how many of the run's characters are before it; how many scalars and how many
 * UTF-16 code units of the text are before it; its line, from 0. Where two runs meet, `is_end` is the end of the first; with `index` it
 * names the position. */
typedef struct { uint64_t run; size_t character; size_t index; size_t utf16_index; size_t line; bool is_end; } ak_position;
/* Values of fields. Rectangles and translations are in units of 1/64 pixel. A selection has its fixed end and the end that moves, each a run
 * and how many of its characters are before it. `alpha` is the opacity. `style` is one of ak_style. */
typedef struct { int32_t x0; int32_t y0; int32_t x1; int32_t y1; } ak_rect;
typedef struct { int32_t x; int32_t y; } ak_translation;
typedef struct { uint64_t anchor; size_t anchor_character; uint64_t focus; size_t focus_character; } ak_selection;
typedef struct { uint8_t red; uint8_t green; uint8_t blue; uint8_t alpha; } ak_color;
typedef struct { uint32_t style; ak_color color; } ak_decoration;

/* Opens a tree that has nothing yet; what it held is freed. AK_DONE or AK_NO_MEMORY. */
uint8_t ak_tree_open(ak_tree *tree);
/* Closes it, and frees what it held. A closed one stays so. */
void ak_tree_close(ak_tree *tree);

/* Carries out updates, up to their `end`, and `host on` and `host off`; `print` and questions do nothing. All lines are read first: on
 * AK_BAD_LINE nothing is carried out. On AK_REFUSED the update has changed nothing, and what comes after it isn't carried out.
 * `stop` is written unless the tree is closed. */
uint8_t ak_tree_feed(ak_tree *tree, const uint8_t *lines, size_t length, ak_stop *stop);
/* The name of a rule, as a script's output has it: MissingData. It is cut off at `room`, and `length` says how long it is. It needs no tree.
 * AK_NO_SUCH: no rule has this number. */
uint8_t ak_rule_name(ak_rule rule, uint8_t *buffer, size_t room, size_t *length);

/* An update without lines. It is begun, then its nodes one by one, each followed by its fields; then it is sent. What a line of a script
 * says can be said so, and the library keeps the begun update with the tree.
 *
 * ak_update_begin names the tree by the 16 bytes of its id, or by none of them the root tree, and the node that has the focus there. An
 * update that was begun and not sent is forgotten. ak_update_root says the tree's root, without a toolkit, and the toolkit's name and
 * version may follow it. ak_update_node begins a node, which has a role alone.
 *
 * The other calls set a field of the node that was begun last, in place of what it had; a list may be empty, and ak_update_action adds one
 * action. ak_update_count sets a count, and the size and the weight of a text, ak_update_choice one of few values, ak_update_tree the tree
 * that is grafted at the node. `field` is one of the AK_FIELD numbers.
 *
 * AK_OUT_OF_PLACE: no update is begun; for a field, none of its nodes; for a toolkit, no root. AK_NO_SUCH: no field with this number has
 * such a value; there is no such role, action or choice; a text isn't UTF-8; an id of a tree hasn't 16 bytes; a number is out of range.
 * With these, and with AK_NO_MEMORY, the begun update is as it was. */
uint8_t ak_update_begin(ak_tree *tree, const uint8_t *tree_id, size_t length, uint64_t focus);
uint8_t ak_update_root(ak_tree *tree, uint64_t root);
uint8_t ak_update_toolkit_name(ak_tree *tree, const uint8_t *text, size_t length);
uint8_t ak_update_toolkit_version(ak_tree *tree, const uint8_t *text, size_t length);
uint8_t ak_update_node(ak_tree *tree, uint64_t node, uint32_t role);
uint8_t ak_update_ids(ak_tree *tree, ak_field field, const uint64_t *ids, size_t count);
uint8_t ak_update_id(ak_tree *tree, ak_field field, uint64_t id);
uint8_t ak_update_text(ak_tree *tree, ak_field field, const uint8_t *text, size_t length);
uint8_t ak_update_flag(ak_tree *tree, ak_field field);
uint8_t ak_update_bool(ak_tree *tree, ak_field field, bool is_so);
uint8_t ak_update_choice(ak_tree *tree, ak_field field, uint32_t choice);
uint8_t ak_update_number(ak_tree *tree, ak_field field, int64_t number);
uint8_t ak_update_count(ak_tree *tree, ak_field field, size_t count);
uint8_t ak_update_numbers(ak_tree *tree, ak_field field, const uint16_t *numbers, size_t count);
uint8_t ak_update_units(ak_tree *tree, ak_field field, const int32_t *units, size_t count);
uint8_t ak_update_action(ak_tree *tree, ak_field field, uint32_t action);
uint8_t ak_update_tree(ak_tree *tree, ak_field field, const uint8_t *tree_id, size_t length);
uint8_t ak_update_rect(ak_tree *tree, ak_field field, int32_t x0, int32_t y0, int32_t x1, int32_t y1);
uint8_t ak_update_translation(ak_tree *tree, ak_field field, int32_t x, int32_t y);
uint8_t ak_update_selection(ak_tree *tree, ak_field field, uint64_t anchor, size_t anchor_character, uint64_t focus, size_t focus_character);
uint8_t ak_update_color(ak_tree *tree, ak_field field, uint8_t red, uint8_t green, uint8_t blue, uint8_t alpha);
uint8_t ak_update_decoration(ak_tree *tree, ak_field field, uint32_t style, uint8_t red, uint8_t green, uint8_t blue, uint8_t alpha);
/* Carries out the begun update as ak_tree_feed carries out one, and answers as it does, with the same `stop` and events. No update is begun
 * then, whatever is answered, but for AK_OUT_OF_PLACE: none was, and nothing is written. */
uint8_t ak_update_send(ak_tree *tree, ak_stop *stop);

/* As the lines `host on` and `host off`. AK_NO_MEMORY: it is done, and the events are lost. An update that is begun stays so, as it does
 * in ak_tree_feed. */
uint8_t ak_tree_host_focus(ak_tree *tree, bool is_focused);

/* What the last lines, the last update that was sent, or the last change of the host's focus has changed, in order. The update that makes
 * the tree has no events. AK_NOTHING: there is no event with this index. AK_LOST: memory for an event ran out then, and the tree is to be
 * read anew. */
uint8_t ak_tree_event_count(ak_tree *tree, size_t *count);
uint8_t ak_tree_event(ak_tree *tree, size_t index, ak_event *event);

/* AK_NOTHING: there is no tree yet; nothing has the focus, or the host hasn't. */
uint8_t ak_tree_root(ak_tree *tree, ak_id *root);
uint8_t ak_tree_focus(ak_tree *tree, ak_id *focus);

/* Of a node. AK_NO_NODE: the tree hasn't the node. AK_NOTHING: it has no parent, label, value or text. Lists are cut off at `room`, and
 * `count` and `length` say how long they are; texts are UTF-8 without an end mark. Of a password ak_node_value and ak_node_text answer a
 * bullet for each character. */
uint8_t ak_node_parent(ak_tree *tree, uint64_t node, uint32_t tree_index, ak_id *parent);
uint8_t ak_node_children(ak_tree *tree, uint64_t node, uint32_t tree_index, ak_id *buffer, size_t room, size_t *count);
uint8_t ak_node_role(ak_tree *tree, uint64_t node, uint32_t tree_index, uint8_t *buffer, size_t room, size_t *length);
uint8_t ak_node_label(ak_tree *tree, uint64_t node, uint32_t tree_index, uint8_t *buffer, size_t room, size_t *length);
uint8_t ak_node_value(ak_tree *tree, uint64_t node, uint32_t tree_index, uint8_t *buffer, size_t room, size_t *length);
uint8_t ak_node_text(ak_tree *tree, uint64_t node, uint32_t tree_index, uint8_t *buffer, size_t room, size_t *length);

/* Where a node lies, what it is, and what a filter shows. A role's number is one of AK_ROLE. AK_NO_SUCH: no flag or filter has this number.
 * AK_NO_NODE: the tree hasn't the node. AK_NOTHING: it has no box; nothing is hit; no ancestor is included. A point is in the node's
 * coordinates and in units of 1/64 pixel; what is hit is the node or one below it. The filtered children are the nodes that the filter shows in place of
 * the children. */
uint8_t ak_node_role_number(ak_tree *tree, uint64_t node, uint32_t tree_index, uint32_t *number);
uint8_t ak_node_bounds(ak_tree *tree, uint64_t node, uint32_t tree_index, ak_bounds *bounds);
uint8_t ak_node_flag(ak_tree *tree, uint64_t node, uint32_t tree_index, ak_flag flag, bool *is_set);
uint8_t ak_node_filter(ak_tree *tree, uint64_t node, uint32_t tree_index, ak_filter filter, ak_filter_result *answer);
uint8_t ak_node_hit(ak_tree *tree, uint64_t node, uint32_t tree_index, int64_t x, int64_t y, ak_filter filter, ak_id *hit);
uint8_t ak_node_filtered_parent(ak_tree *tree, uint64_t node, uint32_t tree_index, ak_filter filter, ak_id *parent);
uint8_t ak_node_filtered_children(ak_tree *tree, uint64_t node, uint32_t tree_index, ak_filter filter, ak_id *buffer, size_t room, size_t *count);

/* In the text of a node's runs, by an index that counts its scalars, and, where two runs meet there, the end of the first or the start of
 * the second. AK_NO_SUCH: no movement has this number. AK_NO_NODE: the tree hasn't the node. AK_NOTHING: it has no text; the index is past
 * its end; there is no character to move by; there is no selection. The selection's moving end, its focus, is where the caret is. */
uint8_t ak_text_position(ak_tree *tree, uint64_t node, uint32_t tree_index, size_t index, bool is_end, ak_position *position);
uint8_t ak_text_move(ak_tree *tree, uint64_t node, uint32_t tree_index, size_t index, bool is_end, ak_move movement, ak_position *position);
uint8_t ak_text_selection_anchor(ak_tree *tree, uint64_t node, uint32_t tree_index, ak_position *anchor);
uint8_t ak_text_selection_focus(ak_tree *tree, uint64_t node, uint32_t tree_index, ak_position *focus);
uint8_t ak_text_between(ak_tree *tree, uint64_t node, uint32_t tree_index, size_t from, size_t to, uint8_t *buffer, size_t room, size_t *length);

/* A field of a node as the last update of the node set it, by the call for its kind of value: as in an update, but that ak_field_flag is
 * also for those that may be unset, and that ak_field_actions answers the whole set. What the library makes of fields, as of those of
 * ancestors, is not here. A list or a set that isn't set is empty, and a flag isn't set. AK_NO_SUCH: no field with this number has such a
 * value. AK_NO_NODE: the tree hasn't the node. AK_NOTHING: the node has no value there. Lists are cut off at `room`.
 *
 * Beware: ak_field_text answers what was sent. Of AK_FIELD_VALUE of a password, and of its text runs, that is what is typed into it. Only
 * ak_node_value and ak_node_text mask it. */
uint8_t ak_field_text(ak_tree *tree, uint64_t node, uint32_t tree_index, ak_field field, uint8_t *buffer, size_t room, size_t *length);
uint8_t ak_field_ids(ak_tree *tree, uint64_t node, uint32_t tree_index, ak_field field, uint64_t *buffer, size_t room, size_t *count);
uint8_t ak_field_id(ak_tree *tree, uint64_t node, uint32_t tree_index, ak_field field, uint64_t *id);
uint8_t ak_field_flag(ak_tree *tree, uint64_t node, uint32_t tree_index, ak_field field, bool *is_set);
uint8_t ak_field_choice(ak_tree *tree, uint64_t node, uint32_t tree_index, ak_field field, uint32_t *choice);
uint8_t ak_field_number(ak_tree *tree, uint64_t node, uint32_t tree_index, ak_field field, int64_t *number);
uint8_t ak_field_count(ak_tree *tree, uint64_t node, uint32_t tree_index, ak_field field, size_t *count);
uint8_t ak_field_numbers(ak_tree *tree, uint64_t node, uint32_t tree_index, ak_field field, uint16_t *buffer, size_t room, size_t *count);
uint8_t ak_field_units(ak_tree *tree, uint64_t node, uint32_t tree_index, ak_field field, int32_t *buffer, size_t room, size_t *count);
uint8_t ak_field_actions(ak_tree *tree, uint64_t node, uint32_t tree_index, ak_field field, uint32_t *buffer, size_t room, size_t *count);
uint8_t ak_field_tree(ak_tree *tree, uint64_t node, uint32_t tree_index, ak_field field, uint8_t *buffer, size_t room, size_t *length);
uint8_t ak_field_rect(ak_tree *tree, uint64_t node, uint32_t tree_index, ak_field field, ak_rect *rect);
uint8_t ak_field_translation(ak_tree *tree, uint64_t node, uint32_t tree_index, ak_field field, ak_translation *translation);
uint8_t ak_field_selection(ak_tree *tree, uint64_t node, uint32_t tree_index, ak_field field, ak_selection *selection);
uint8_t ak_field_color(ak_tree *tree, uint64_t node, uint32_t tree_index, ak_field field, ak_color *color);
uint8_t ak_field_decoration(ak_tree *tree, uint64_t node, uint32_t tree_index, ak_field field, ak_decoration *decoration);

/* ---- What the library computes of a node. Each kind of question has its numbers; those named FILTERED, and the sets, items and selection
 * containers, are by the given filter, and the others ignore it. AK_NO_SUCH: a number means nothing. AK_NO_NODE: the tree hasn't the node.
 * AK_NOTHING: there is no such value, number or node. docs/FROM_C.md has the library's call that each is. */

/* States, by the numbers that AK_TOGGLED, AK_ORIENTATION and AK_LIVE have; AK_STATE_SELECTED is 1 or 0. */
typedef enum { AK_STATE_TOGGLED = 0, AK_STATE_SELECTED = 1, AK_STATE_ORIENTATION = 2, AK_STATE_LIVE = 3 } ak_state;
typedef enum { AK_COUNT_CHILDREN = 0, AK_COUNT_INDEX = 1, AK_COUNT_FILTERED_CHILDREN = 2, AK_COUNT_FILTERED_INDEX = 3,
               AK_COUNT_SET_SIZE = 4, AK_COUNT_SET_POSITION = 5, AK_COUNT_CONTAINER_SET_SIZE = 6 } ak_count;
typedef enum { AK_RELATIVE_ACTIVE_DESCENDANT = 0, AK_RELATIVE_DEEPEST_FIRST_CHILD = 1, AK_RELATIVE_DEEPEST_LAST_CHILD = 2,
               AK_RELATIVE_SELECTION_CONTAINER = 3 } ak_relative;
typedef enum { AK_LIST_LABELLED_BY = 0, AK_LIST_CONTROLS = 1, AK_LIST_PRECEDING_SIBLINGS = 2, AK_LIST_FOLLOWING_SIBLINGS = 3,
               AK_LIST_DESCENDANTS = 4, AK_LIST_ITEMS = 5, AK_LIST_PRECEDING_FILTERED_SIBLINGS = 6,
               AK_LIST_FOLLOWING_FILTERED_SIBLINGS = 7, AK_LIST_FILTERED_DESCENDANTS = 8 } ak_list;
/* How text looks: each property is that of the nearest node, from the node or the run upwards, that has it. */
typedef enum { AK_TEXT_STYLE_TEXT_DIRECTION = 0, AK_TEXT_STYLE_FONT_FAMILY = 1, AK_TEXT_STYLE_LANGUAGE = 2, AK_TEXT_STYLE_FONT_SIZE = 3,
               AK_TEXT_STYLE_FONT_WEIGHT = 4, AK_TEXT_STYLE_BACKGROUND_COLOR = 5, AK_TEXT_STYLE_FOREGROUND_COLOR = 6,
               AK_TEXT_STYLE_OVERLINE = 7, AK_TEXT_STYLE_STRIKETHROUGH = 8, AK_TEXT_STYLE_UNDERLINE = 9, AK_TEXT_STYLE_TEXT_ALIGN = 10,
               AK_TEXT_STYLE_VERTICAL_OFFSET = 11, AK_TEXT_STYLE_ITALIC = 12 } ak_style_name;

/* A point, or by how much something is shifted, in units of 1/64 pixel. A number beyond 64 bits is the nearest one within them. */
typedef struct { int64_t x; int64_t y; } ak_point;
/* A property of how text looks. `number`: a size in hundredths of a pixel, a weight, 1 for italic text, or the number that an update has for
 * a direction, an alignment, an offset, or the style of a line. The rest is a colour, of the text, behind it, or of a line. All else is 0. */
typedef struct { uint32_t number; uint8_t red; uint8_t green; uint8_t blue; uint8_t alpha; } ak_style_value;

uint8_t ak_node_state(ak_tree *tree, uint64_t node, uint32_t tree_index, ak_state state, uint32_t *value);
/* Indexes and positions are counted from 0. None of these makes a list. */
uint8_t ak_node_count(ak_tree *tree, uint64_t node, uint32_t tree_index, ak_count count, ak_filter filter, size_t *number);
uint8_t ak_node_child_at(ak_tree *tree, uint64_t node, uint32_t tree_index, ak_filter filter, size_t index, ak_id *child);
uint8_t ak_node_relative(ak_tree *tree, uint64_t node, uint32_t tree_index, ak_relative relative, ak_filter filter, ak_id *found);
/* Siblings before the node come nearest first, all else in order. */
uint8_t ak_node_list(ak_tree *tree, uint64_t node, uint32_t tree_index, ak_list list, ak_filter filter, ak_id *buffer, size_t room, size_t *count);
uint8_t ak_node_supports_action(ak_tree *tree, uint64_t node, uint32_t tree_index, uint32_t action, ak_filter filter, bool *supports);
/* Several flags at once: bit k of `wanted` is the flag with the number k, and bit k of `set` what it says. Only these are computed. */
uint8_t ak_node_flags(ak_tree *tree, uint64_t node, uint32_t tree_index, uint64_t wanted, uint64_t *set);
/* By how much a node is shifted, with all its ancestors; and a point of the tree's own coordinates in those of the node, as ak_node_hit and
 * AK_SPOT_POINT take it. */
uint8_t ak_node_transform(ak_tree *tree, uint64_t node, uint32_t tree_index, ak_point *by);
uint8_t ak_node_point(ak_tree *tree, uint64_t node, uint32_t tree_index, int64_t x, int64_t y, ak_point *own);
/* ak_node_style: all properties but those that are texts, the font's family and the language, which ak_node_style_text gives. */
uint8_t ak_node_style(ak_tree *tree, uint64_t node, uint32_t tree_index, ak_style_name property, ak_style_value *value);
uint8_t ak_node_style_text(ak_tree *tree, uint64_t node, uint32_t tree_index, ak_style_name property, uint8_t *buffer, size_t room, size_t *length);
/* The 16 bytes of the UUID of the node's tree; all 0 of the root tree. */
uint8_t ak_node_tree_id(ak_tree *tree, uint64_t node, uint32_t tree_index, uint8_t *buffer, size_t room, size_t *length);
/* The root of the tree with the UUID of 16 bytes, or with none of them of the root tree: its `tree` is the index. AK_NO_SUCH: another number of
 * bytes. */
uint8_t ak_tree_subtree_root(ak_tree *tree, const uint8_t *tree_id, size_t length, ak_id *root);
/* The node that the trees declare focused, across grafts, whether or not the host has the focus; and the nearest dialog around ak_tree_focus. */
uint8_t ak_tree_declared_focus(ak_tree *tree, ak_id *focus);
uint8_t ak_tree_is_host_focused(ak_tree *tree, bool *is_focused);
uint8_t ak_tree_active_dialog(ak_tree *tree, ak_id *dialog);
/* `AccessKit` if no name was sent; no version without a name. */
uint8_t ak_tree_toolkit_name(ak_tree *tree, uint8_t *buffer, size_t room, size_t *length);
uint8_t ak_tree_toolkit_version(ak_tree *tree, uint8_t *buffer, size_t room, size_t *length);
/* The name of the role with this number, as `Button`; of one that is sent by a number its name in the Rust crate, as `Heading`, and else
 * `Other(7)`. It needs no tree. AK_NO_SUCH: no role has this number. */
uint8_t ak_role_name(uint32_t role, uint8_t *buffer, size_t room, size_t *length);

/* ---- In the text of a node's runs. The answers are as for ak_text_position. */

/* A position by one of its names, which `kind` says; the members that it doesn't use are ignored. */
typedef enum { AK_SPOT_INDEX = 0,            /* `index` counts scalars; `is_end` is the end of a run that another follows */
               AK_SPOT_UTF16_INDEX = 1,      /* `index` counts UTF-16 code units */
               AK_SPOT_RUN = 2,              /* `index` counts the characters of the run `run` */
               AK_SPOT_POINT = 3,            /* `x` and `y`, in the node's coordinates and in units of 1/64 pixel */
               AK_SPOT_END = 4,
               AK_SPOT_SELECTION_ANCHOR = 5,
               AK_SPOT_SELECTION_FOCUS = 6 /* the caret */ } ak_spot_kind;
typedef struct { uint32_t kind; bool is_end; uint64_t run; size_t index; int64_t x; int64_t y; } ak_spot;
/* Which numbers of a position are wanted, as bits; its run, character and side are always there. Nothing is counted for the others, which are
 * 0. */
typedef enum { AK_WANT_INDEX = 1, AK_WANT_UTF16_INDEX = 2, AK_WANT_LINE = 4 } ak_want;
typedef enum { AK_UNIT_CHARACTER = 0, AK_UNIT_FORMAT = 1, AK_UNIT_WORD = 2, AK_UNIT_LINE = 3, AK_UNIT_PARAGRAPH = 4,
               AK_UNIT_PAGE = 5 } ak_unit;
typedef enum { AK_TEST_CHARACTER_AFTER = 0, AK_TEST_CHARACTER_BEFORE = 1, AK_TEST_FORMAT_START = 2, AK_TEST_WORD_START = 3,
               AK_TEST_LINE_START = 4, AK_TEST_LINE_END = 5, AK_TEST_PARAGRAPH_START = 6, AK_TEST_PARAGRAPH_END = 7,
               AK_TEST_PARAGRAPH_SEPARATOR = 8, AK_TEST_DOCUMENT_START = 9, AK_TEST_DOCUMENT_END = 10 } ak_test;
/* Why runs make no text: the node's role holds none, or the first run that breaks a rule, and the first rule that it breaks. */
typedef enum { AK_DEFECT_ROLE = 0, AK_DEFECT_PREVIOUS_LINK = 1, AK_DEFECT_PREVIOUS_UNANSWERED = 2, AK_DEFECT_TREE = 3,
               AK_DEFECT_CHARACTER_LENGTHS = 4, AK_DEFECT_WORD_STARTS = 5, AK_DEFECT_CHARACTER_POSITIONS = 6,
               AK_DEFECT_CHARACTER_WIDTHS = 7, AK_DEFECT_TOO_LONG = 8, AK_DEFECT_EMPTY = 9, AK_DEFECT_NEXT_LINK = 10,
               AK_DEFECT_NEXT_UNANSWERED = 11 } ak_defect_rule;
/* `link`: where a link leads, if that is the rule. `run_tree`: the index of the run's tree. */
typedef struct { uint64_t run; uint64_t link; uint32_t run_tree; uint8_t rule; } ak_defect;
typedef struct { ak_position start; ak_position end; } ak_span;

uint8_t ak_text_place(ak_tree *tree, uint64_t node, uint32_t tree_index, const ak_spot *spot, uint32_t wanted, ak_position *position);
uint8_t ak_text_moved(ak_tree *tree, uint64_t node, uint32_t tree_index, const ak_spot *spot, ak_move movement, uint32_t wanted, ak_position *position);
uint8_t ak_text_test(ak_tree *tree, uint64_t node, uint32_t tree_index, const ak_spot *spot, ak_test test, bool *holds);
/* The unit that a position is in: from it, or else from the nearest start of one before it, to where a movement to the end of the unit ends.
 * At the end of the text a character is empty. */
uint8_t ak_text_unit(ak_tree *tree, uint64_t node, uint32_t tree_index, const ak_spot *spot, ak_unit unit, uint32_t wanted, ak_span *span);
/* A line by its number, from 0. After the last one, if it isn't empty or the only one, comes an empty one, for the caret at the end. */
uint8_t ak_text_line(ak_tree *tree, uint64_t node, uint32_t tree_index, size_t line, uint32_t wanted, ak_span *span);
/* How many scalars it has. */
uint8_t ak_text_length(ak_tree *tree, uint64_t node, uint32_t tree_index, size_t *length);
/* The boxes of the text from one position up to another, a box for each run, after all translations; at one position that of a caret. None, if a
 * run hasn't what that takes. */
uint8_t ak_text_boxes(ak_tree *tree, uint64_t node, uint32_t tree_index, const ak_spot *from, const ak_spot *to, ak_bounds *buffer, size_t room, size_t *count);
/* How a position's run looks, and whether the runs from one position up to another differ in that. */
uint8_t ak_text_style(ak_tree *tree, uint64_t node, uint32_t tree_index, const ak_spot *spot, ak_style_name property, ak_style_value *value);
uint8_t ak_text_style_text(ak_tree *tree, uint64_t node, uint32_t tree_index, const ak_spot *spot, ak_style_name property, uint8_t *buffer, size_t room, size_t *length);
uint8_t ak_text_differs(ak_tree *tree, uint64_t node, uint32_t tree_index, const ak_spot *from, const ak_spot *to, ak_style_name property, bool *differs);
/* AK_NOTHING also: the runs make a text, or there are none. */
uint8_t ak_text_defect(ak_tree *tree, uint64_t node, uint32_t tree_index, ak_defect *defect);

#ifdef __cplusplus
}
#endif
#endif
