/* Tables: rows are the nodes with that role below a table, and cells those below a row, through other nodes that are no part of a table.
 * Those that are scrolled out count too, and hidden ones don't. A cell's place is that of its row among the rows, and its own among the
 * cells of the row; each spans one row and one column. */
#include "inside.h"
#include <string.h>

typedef enum { NO_PART, TABLE, ROW, CELL } part_kind;

static part_kind kind_of(const view *v, ak_id id) {
    static const uint8_t kinds[ROLE_COUNT] = {[ROLE_TABLE] = TABLE, [ROLE_TREE_TABLE] = TABLE, [ROLE_TABLE_ROW] = ROW,
                                              [ROLE_TABLE_CELL] = CELL, [ROLE_COLUMN_HEADER] = CELL, [ROLE_ROW_HEADER] = CELL};
    return kinds[atspi_role(number_of_role(v, id))];
}

/* The nearest part of a table above a node, if it is of some kind. */
static ak_id part_above(const view *v, ak_id id, part_kind wanted) {
    do id = FOUND(node_parent, v, ID(id));
    while (is_some(id) && kind_of(v, id) == NO_PART);
    return kind_of(v, id) == wanted ? id : NOBODY;
}

static ak_id row_of(const view *v, ak_id cell) {
    return kind_of(v, cell) == CELL ? part_above(v, cell, ROW) : NOBODY;
}

static ak_id table_of(const view *v, ak_id cell) {
    return part_above(v, row_of(v, cell), TABLE);
}

TELLS(is_table, kind_of(v, id) == TABLE)
TELLS(is_cell, is_some(table_of(v, id)))
/* Adds the rows of a table or the cells of a row. */
static void add_parts(const view *v, ak_id id, part_kind wanted, GArray *found) {
    g_autoptr(GArray) list = read_ids(v, id, ALL_CHILDREN);
    for (guint i = 0; i < list->len; i++) {
        part_kind kind = kind_of(v, AT(list, i));
        if (has_flag(v, AT(list, i), AK_HIDDEN)) continue;
        if (kind == wanted) g_array_append_val(found, AT(list, i));
        else if (kind == NO_PART) add_parts(v, AT(list, i), wanted, found);
    }
}

static GArray *parts_of(const view *v, ak_id id, part_kind wanted) {
    GArray *found = new_ids();
    add_parts(v, id, wanted, found);
    return found;
}

static ak_id part_at(const view *v, ak_id of, part_kind kind, int64_t index) {
    g_autoptr(GArray) all = parts_of(v, of, kind);
    return index >= 0 && index < all->len ? AT(all, index) : NOBODY;
}

static int index_in(const view *v, ak_id of, part_kind kind, ak_id part) {
    g_autoptr(GArray) all = parts_of(v, of, kind);
    for (guint i = 0; i < all->len; i++)
        if (is_same(AT(all, i), part)) return (int)i;
    return -1;
}

static ak_id cell_at(const view *v, ak_id table, int64_t row, int64_t column) {
    return part_at(v, part_at(v, table, ROW, row), CELL, column);
}

/* ---- Table. The index of a cell is made of its row and its column. */

enum { INDEX_STEP = 1 << 16 };

ANSWERS(get_row_count, count_answer(parts_of(r->now, r->id, ROW)))
/* How many cells the longest row has. */
static GVariant *get_column_count(request *r) {
    g_autoptr(GArray) rows = parts_of(r->now, r->id, ROW);
    guint most = 0;
    for (guint i = 0; i < rows->len; i++) {
        g_autoptr(GArray) cells = parts_of(r->now, AT(rows, i), CELL);
        most = MAX(most, cells->len);
    }
    return INT_ANSWER(most);
}

/* What is to be said of a cell that may be there. */
static GVariant *if_cell(request *r, int64_t row, int64_t column, int64_t answer, int64_t otherwise) {
    return INT_ANSWER(is_some(cell_at(r->now, r->id, row, column)) ? answer : otherwise);
}

static GVariant *header_at(request *r, int64_t row, int64_t column, unsigned role) {
    ak_id cell = cell_at(r->now, r->id, row, column);
    return reference(r->adapter, role_of(r->now, cell) == role ? cell : NOBODY);
}

ANSWERS(get_cell_at, reference(r->adapter, cell_at(r->now, r->id, r->numbers[0], r->numbers[1])))
ANSWERS(get_index_at, if_cell(r, r->numbers[0], r->numbers[1], r->numbers[0] * INDEX_STEP + r->numbers[1], -1))
ANSWERS(get_row_at_index, if_cell(r, r->numbers[0] / INDEX_STEP, r->numbers[0] % INDEX_STEP, r->numbers[0] / INDEX_STEP, -1))
ANSWERS(get_column_at_index, if_cell(r, r->numbers[0] / INDEX_STEP, r->numbers[0] % INDEX_STEP, r->numbers[0] % INDEX_STEP, -1))
ANSWERS(get_row_header, header_at(r, r->numbers[0], 0, ROLE_ROW_HEADER))
ANSWERS(get_column_header, header_at(r, 0, r->numbers[0], ROLE_COLUMN_HEADER))
ANSWERS(get_span, if_cell(r, r->numbers[0], r->numbers[1], 1, 0))
ANSWERS(get_no_node, reference(r->adapter, NOBODY))
ANSWERS(get_no_words, g_variant_new_string(""))
const method table_members[] = {
    {"NRows", NULL, "i", get_row_count}, {"NColumns", NULL, "i", get_column_count}, {"Caption", NULL, "(so)", get_no_node},
    {"Summary", NULL, "(so)", get_no_node}, {"GetAccessibleAt", "ii", "(so)", get_cell_at}, {"GetIndexAt", "ii", "i", get_index_at},
    {"GetRowAtIndex", "i", "i", get_row_at_index}, {"GetColumnAtIndex", "i", "i", get_column_at_index},
    {"GetRowDescription", "i", "s", get_no_words}, {"GetColumnDescription", "i", "s", get_no_words},
    {"GetRowExtentAt", "ii", "i", get_span}, {"GetColumnExtentAt", "ii", "i", get_span}, {"GetRowHeader", "i", "(so)", get_row_header},
    {"GetColumnHeader", "i", "(so)", get_column_header}, END};

/* ---- TableCell */

/* The number of a row in its table, or -1. All of a table are noted at once: else each of its cells would cost a walk over its rows. */
static int number_of_row(const view *v, ak_id row) {
    ak_id table = part_above(v, row, TABLE);
    if (!v->rows) return index_in(v, table, ROW, row);
    if (!g_hash_table_contains(v->rows, &row)) {
        g_autoptr(GArray) all = g_array_append_val(parts_of(v, table, ROW), row);
        for (guint i = all->len; i-- > 0;)
            g_hash_table_insert(v->rows, g_memdup2(&AT(all, i), sizeof row), GINT_TO_POINTER(i + 1 < all->len ? (int)i : -1));
    }
    return GPOINTER_TO_INT(g_hash_table_lookup(v->rows, &row));
}

/* Where a cell is in its table. */
static bool place_of(const view *v, ak_id id, int *row, int *column) {
    ak_id above = row_of(v, id);
    *row = number_of_row(v, above);
    *column = *row < 0 ? -1 : index_in(v, above, CELL, id);
    return *column >= 0;
}

int64_t cell_index(const view *v, ak_id id) {
    int row, column;
    return place_of(v, id, &row, &column) ? (int64_t)row * INDEX_STEP + column : -1;
}

static GVariant *get_place(request *r) {
    int row, column;
    place_of(r->now, r->id, &row, &column);
    return g_variant_new("(ii)", row, column);
}

ANSWERS(get_table, reference(r->adapter, table_of(r->now, r->id)))
/* The headers of a cell: those with which its column begins, or its row. */
static GVariant *headers_of(request *r, unsigned role) {
    GArray *found = new_ids();
    ak_id table = table_of(r->now, r->id);
    int row, column;
    bool is_column = role == ROLE_COLUMN_HEADER, is_there = place_of(r->now, r->id, &row, &column);
    for (int at = 0; is_there && at < (is_column ? row : column); at++) {
        ak_id header = is_column ? cell_at(r->now, table, at, column) : cell_at(r->now, table, row, at);
        if (role_of(r->now, header) != role) break;
        g_array_append_val(found, header);
    }
    return references(r->adapter, found);
}

ANSWERS(get_row_headers, headers_of(r, ROLE_ROW_HEADER))
ANSWERS(get_column_headers, headers_of(r, ROLE_COLUMN_HEADER))
ANSWERS(get_one, INT_ANSWER(1))
const method cell_members[] = {
    {"RowSpan", NULL, "i", get_one}, {"ColumnSpan", NULL, "i", get_one}, {"Position", NULL, "(ii)", get_place},
    {"Table", NULL, "(so)", get_table}, {"GetRowHeaderCells", "", "a(so)", get_row_headers},
    {"GetColumnHeaderCells", "", "a(so)", get_column_headers}, END};
