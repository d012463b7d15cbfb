/* The numbers of AT-SPI that the adapter uses, and which of its roles stands for a role of the tree. */
#ifndef AK_ATSPI_NAMES_H
#define AK_ATSPI_NAMES_H
#include "accesskit_proved.h"
#include <stdint.h>

enum { ROLE_COLUMN_HEADER = 10, ROLE_FILLER = 20, ROLE_FRAME = 23, ROLE_LABEL = 29, ROLE_MENU = 33, ROLE_PANEL = 39, ROLE_ROW_HEADER = 47,
       ROLE_TABLE = 55, ROLE_TABLE_CELL = 56, ROLE_TOGGLE_BUTTON = 62, ROLE_TREE_TABLE = 66, ROLE_UNKNOWN = 67, ROLE_APPLICATION = 75,
       ROLE_ENTRY = 79, ROLE_TABLE_ROW = 90, ROLE_COUNT = 130 };
/* States, by their bits. */
enum { STATE_ACTIVE = 1, STATE_BUSY = 3, STATE_CHECKED = 4, STATE_DEFUNCT = 6, STATE_EDITABLE = 7, STATE_ENABLED = 8, STATE_EXPANDABLE = 9,
       STATE_EXPANDED = 10, STATE_FOCUSABLE = 11, STATE_FOCUSED = 12, STATE_HORIZONTAL = 14, STATE_MODAL = 16, STATE_MULTI_LINE = 17,
       STATE_MULTISELECTABLE = 18, STATE_PRESSED = 20, STATE_SELECTABLE = 22, STATE_SELECTED = 23, STATE_SENSITIVE = 24, STATE_SHOWING = 25,
       STATE_SINGLE_LINE = 26, STATE_VERTICAL = 29, STATE_VISIBLE = 30, STATE_INDETERMINATE = 32, STATE_REQUIRED = 33,
       STATE_SELECTABLE_TEXT = 38, STATE_IS_DEFAULT = 39, STATE_CHECKABLE = 41, STATE_HAS_POPUP = 42, STATE_READ_ONLY = 43,
       STATE_COUNT = 44 };
/* An application, by its number in the tree. */
enum { ROLE_NUMBER_APPLICATION = AK_ROLE_OTHER + 258 };
enum { RELATION_LABELLED_BY = 2, RELATION_CONTROLLER_FOR = 3, RELATION_EMBEDS = 13 };
enum { LAYER_WIDGET = 3, LAYER_WINDOW = 7 };
enum { COORDINATES_SCREEN = 0, COORDINATES_WINDOW = 1, COORDINATES_PARENT = 2 };

/* The role of AT-SPI for a role of the tree, ROLE_UNKNOWN if there is none. */
unsigned atspi_role(uint32_t role);
/* The names of the roles and states of AT-SPI. */
extern const char *const role_names[ROLE_COUNT], *const state_names[STATE_COUNT];
/* What ARIA calls a role that screen readers look for by that name, as those of landmarks, or NULL. */
const char *aria_role(uint32_t role);
#endif
