/* Which role of AT-SPI stands for a role of the tree, and what AT-SPI calls its roles and states. */
#include "names.h"
#include <stddef.h>

const char *const role_names[ROLE_COUNT] = {
    "invalid", "accelerator label", "alert", "animation", "arrow", "calendar", "canvas", "check box", "check menu item", "color chooser",
    "column header", "combo box", "date editor", "desktop icon", "desktop frame", "dial", "dialog", "directory pane", "drawing area",
    "file chooser", "filler", "focus traversable", "font chooser", "frame", "glass pane", "html container", "icon", "image",
    "internal frame", "label", "layered pane", "list", "list item", "menu", "menu bar", "menu item", "option pane", "page tab",
    "page tab list", "panel", "password text", "popup menu", "progress bar", "push button", "radio button", "radio menu item", "root pane",
    "row header", "scroll bar", "scroll pane", "separator", "slider", "spin button", "split pane", "status bar", "table", "table cell",
    "table column header", "table row header", "tearoff menu item", "terminal", "text", "toggle button", "tool bar", "tool tip", "tree",
    "tree table", "unknown", "viewport", "window", "extended", "header", "footer", "paragraph", "ruler", "application", "autocomplete",
    "editbar", "embedded", "entry", "chart", "caption", "document frame", "heading", "page", "section", "redundant object", "form", "link",
    "input method window", "table row", "tree item", "document spreadsheet", "document presentation", "document text", "document web",
    "document email", "comment", "list box", "grouping", "image map", "notification", "info bar", "level bar", "title bar", "block quote",
    "audio", "video", "definition", "article", "landmark", "log", "marquee", "math", "rating", "timer", "static", "math fraction",
    "math root", "subscript", "superscript", "description list", "description term", "description value", "footnote", "content deletion",
    "content insertion", "mark", "suggestion", "push button menu",
};
const char *const state_names[STATE_COUNT] = {
    "invalid", "active", "armed", "busy", "checked", "collapsed", "defunct", "editable", "enabled", "expandable", "expanded", "focusable",
    "focused", "has-tooltip", "horizontal", "iconified", "modal", "multi-line", "multiselectable", "opaque", "pressed", "resizable",
    "selectable", "selected", "sensitive", "showing", "single-line", "stale", "transient", "vertical", "visible", "manages-descendants",
    "indeterminate", "required", "truncated", "animated", "invalid-entry", "supports-autocompletion", "selectable-text", "is-default",
    "visited", "checkable", "has-popup", "read-only",
};
/* By the numbers of AK_ROLE. */
static const uint8_t of_roles[] = {
    67, 23, 49, 73, 39, 116, 29, 27, 82, 60, 79, 61, 79, 12, 12, 12, 12, 12, 79, 79, 40, 79, 79, 11, 52, 98, 38, 16, 16, 11, 62, 91, 43, 7,
    43, 88, 35, 8, 45, 44, 88, 88, 88, 88, 43, 55, 33, 39, 51, 62, 66, 109, 108, 121, 82, 31, 32, 82, 42, 95, 122, 115, 63, 64, 97, 37, 32,
    35, 55, 33, 34, 65,
};
/* From AK_ROLE_OTHER + 256 on, which docs/SCRIPT.md lists. */
static const uint8_t of_others[] = {
    116, 101, 78, 106, 110, 105, 6, 81, 67, 56, 116, 10, 110, 125, 110, 126, 123, 122, 39, 31, 110, 110, 110, 110, 32, 110, 110, 85, 110,
    27, 85, 110, 85, 32, 110, 85, 110, 110, 85, 124, 110, 110, 110, 110, 97, 50, 72, 71, 110, 110, 110, 110, 85, 85, 83, 97, 110, 78, 116,
    39, 81, 39, 81, 110, 85, 87, 39, 27, 56, 39, 110, 85, 83, 28, 28, 67, 67, 55, 56, 90, 29, 116, 116, 111, 110, 116, 112, 113, 116, 103,
    110, 97, 39, 43, 78, 43, 85, 110, 90, 39, 47, 39, 116, 48, 110, 85, 85, 85, 50, 54, 116, 128, 82, 39, 55, 116, 104, 67, 107, 28,
};
#define OTHER(number) AK_ROLE_OTHER + number
static const struct {
    uint32_t role;
    const char *name;
} aria_roles[] = {
    {AK_ROLE_GRID, "grid"}, {AK_ROLE_TREE_GRID, "treegrid"}, {AK_ROLE_SWITCH, "switch"}, {OTHER(257), "alert"}, {OTHER(260), "banner"},
    {OTHER(268), "complementary"}, {OTHER(270), "contentinfo"}, {OTHER(315), "feed"}, {OTHER(317), "figure"}, {OTHER(319), "contentinfo"},
    {OTHER(321), "form"}, {OTHER(324), "gridcell"}, {OTHER(326), "banner"}, {OTHER(339), "log"}, {OTHER(340), "main"},
    {OTHER(342), "marquee"}, {OTHER(346), "navigation"}, {OTHER(353), "region"}, {OTHER(360), "search"}, {OTHER(365), "status"},
    {OTHER(369), "tabpanel"},
};

unsigned atspi_role(uint32_t role) {
    if (role < sizeof of_roles) return of_roles[role];
    uint32_t other = role - AK_ROLE_OTHER - 256;
    return role >= AK_ROLE_OTHER + 256 && other < sizeof of_others ? of_others[other] : ROLE_UNKNOWN;
}

const char *aria_role(uint32_t role) {
    for (size_t i = 0; i < sizeof aria_roles / sizeof aria_roles[0]; i++)
        if (role == aria_roles[i].role) return aria_roles[i].name;
    return NULL;
}
