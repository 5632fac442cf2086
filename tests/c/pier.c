/* The pier network through the C functions: P1, P2, P4, a path, a link back that goes down and comes up, and a refusal, each
 * compared with the rows that it must give; and the scope's stream of 85 bytes through the reader.
 *
 *     make example
 */
#include "routes.h"
#include <stdio.h>
#include <string.h>

enum { NODES = 4, LINKS = 8 };
#define NO ROUTES_NO_LINK

static const uint16_t starts[LINKS] = {0, 0, 1, 1, 2, 2, 2, 3};
static const uint16_t ends[LINKS] = {1, 2, 0, 2, 0, 1, 3, 2};
static uint16_t costs[LINKS] = {4, 7, 4, 2, 7, 2, 1, 1};

static uint32_t dist[ROUTES_NODES];
static uint16_t parent[ROUTES_NODES], first[ROUTES_NODES];
static uint16_t list[ROUTES_NODES];
static size_t count;
static uint16_t values[2];
static int wrong;

static void hold(int right, const char *what) {
    printf("%s %s\n", right ? "ok   " : "WRONG", what);
    wrong += !right;
}

/* The first four rows are those given, and every other is empty. */
static int rows(const uint32_t d[NODES], const uint16_t p[NODES], const uint16_t f[NODES]) {
    for (size_t v = 0; v < ROUTES_NODES; v++) {
        int in = v < NODES;
        if (dist[v] != (in ? d[v] : ROUTES_UNREACHED) || parent[v] != (in ? p[v] : NO) || first[v] != (in ? f[v] : NO))
            return 0;
    }
    return 1;
}

/* The list starts with these, and the places behind them are as they were set. */
static int listed(size_t n, const uint16_t *nodes) {
    if (count != n || memcmp(list, nodes, n * sizeof *nodes) != 0)
        return 0;
    for (size_t i = n; i < ROUTES_NODES; i++)
        if (list[i] != 7777)
            return 0;
    return 1;
}

static uint16_t update(size_t n, const uint16_t *links, const uint16_t *prices) {
    for (size_t i = 0; i < ROUTES_NODES; i++)
        list[i] = 7777;
    return routes_update(NODES, 0, starts, LINKS, ends, LINKS, costs, LINKS, links, n, prices, n, dist, parent, first,
                         list, ROUTES_NODES, &count, values);
}

static const uint8_t stream[85] = {
    1, 0, 4, 0, 0,                                                                /* NETWORK */
    2, 0, 0, 0, 1, 0, 4, 2, 0, 0, 0, 2, 0, 7, 2, 0, 1, 0, 0, 0, 4, 2, 0, 1, 0, 2, 0, 2, /* LINKs */
    2, 0, 2, 0, 0, 0, 7, 2, 0, 2, 0, 1, 0, 2, 2, 0, 2, 0, 3, 0, 1, 2, 0, 3, 0, 2, 0, 1,
    5, 0, 2, 3, 0, 3, 0, 5, 3, 0, 0, 0, 2, 4,                                     /* ASK, P2's CHANGEs, APPLY */
    3, 0, 3, 0, 6, 4, 5, 0, 3, 9,                                                 /* P4's CHANGE, APPLY, ASK, no kind */
};

/* Reads the stream: its LINKs are the table, and its last byte is no record. */
static void read_stream(void) {
    uint8_t kind;
    uint32_t numbers[3];
    size_t place = 0, next, records = 0, links = 0, changes = 0;
    while (routes_read(stream, sizeof stream, place, &kind, numbers, &next) == 0 && kind != ROUTES_END) {
        if (kind == ROUTES_LINK && links < LINKS && numbers[0] == starts[links] && numbers[1] == ends[links] &&
            numbers[2] == costs[links])
            links++;
        changes += kind == ROUTES_CHANGE && numbers[2] == 0;
        records++;
        place = next;
    }
    hold(records == 16 && links == LINKS && changes == 3, "the stream's 16 records");
    hold(place == 84 && kind == ROUTES_END && next == 84, "the reader stands still at its byte 9");
    hold(routes_read(stream, 85, 84, &kind, numbers, &next) == ROUTES_UNKNOWN_KIND, "which is refusal 21");
    hold(routes_read(stream, 83, 81, &kind, numbers, &next) == ROUTES_CUT_SHORT && next == 81,
         "an ASK cut short is refusal 22");
    hold(routes_read(stream, 84, 84, &kind, numbers, &next) == 0 && kind == ROUTES_END && next == 84,
         "the stream's end");
    hold(routes_read(stream, 0, SIZE_MAX, &kind, numbers, &next) == 0 && kind == ROUTES_END && next == SIZE_MAX,
         "a place past the end");
}

int main(void) {
    read_stream();
    hold(routes_judge_links(NODES, 0, starts, LINKS, ends, LINKS, costs, LINKS, values) == ROUTES_ACCEPTED,
         "the table is accepted");

    hold(routes_build(NODES, 0, starts, LINKS, ends, LINKS, costs, LINKS, dist, parent, first, values) == 0 && values[0] == 0 && values[1] == 0,
         "P1 is accepted");
    hold(rows((uint32_t[]){0, 4, 6, 7}, (uint16_t[]){NO, 0, 3, 6}, (uint16_t[]){NO, 0, 0, 0}), "P1's rows");

    hold(update(2, (uint16_t[]){3, 0}, (uint16_t[]){5, 2}) == 0, "P2 is accepted");
    hold(rows((uint32_t[]){0, 2, 7, 8}, (uint16_t[]){NO, 0, 3, 6}, (uint16_t[]){NO, 0, 0, 0}), "P2's rows");
    hold(listed(3, (uint16_t[]){1, 2, 3}), "P2's list");
    hold(costs[3] == 5 && costs[0] == 2, "P2's costs");

    hold(update(0, starts, starts) == 0 && listed(0, list), "an empty batch changes nothing");
    hold(rows((uint32_t[]){0, 2, 7, 8}, (uint16_t[]){NO, 0, 3, 6}, (uint16_t[]){NO, 0, 0, 0}), "and leaves P2's rows");

    hold(update(1, (uint16_t[]){3}, (uint16_t[]){6}) == 0, "P4 is accepted");
    hold(rows((uint32_t[]){0, 2, 7, 8}, (uint16_t[]){NO, 0, 1, 6}, (uint16_t[]){NO, 0, 1, 1}), "P4's rows");
    hold(listed(2, (uint16_t[]){2, 3}), "P4's list");
    hold(routes_judge_tree(NODES, 0, starts, LINKS, ends, LINKS, costs, LINKS, dist, parent, first, values) == 0,
         "P4's tree fits");

    for (size_t i = 0; i < ROUTES_NODES; i++)
        list[i] = 7777;
    hold(routes_path(NODES, 0, starts, LINKS, ends, LINKS, costs, LINKS, dist, parent, first, 3, list, ROUTES_NODES,
                     &count, values) == 0 && listed(2, (uint16_t[]){1, 6}), "the path to node 3");

    hold(update(1, (uint16_t[]){7}, (uint16_t[]){0}) == 0 && listed(1, (uint16_t[]){3}), "link 7 down changes node 3");
    hold(rows((uint32_t[]){0, 2, 7, ROUTES_UNREACHED}, (uint16_t[]){NO, 0, 1, NO}, (uint16_t[]){NO, 0, 1, NO}),
         "which it was the link back of");
    hold(routes_path(NODES, 0, starts, LINKS, ends, LINKS, costs, LINKS, dist, parent, first, 3, list, ROUTES_NODES,
                     &count, values) == ROUTES_ASKED_UNREACHED, "no path to node 3");
    hold(update(1, (uint16_t[]){7}, (uint16_t[]){9}) == 0 && listed(1, (uint16_t[]){3}), "link 7 up changes it again");
    hold(rows((uint32_t[]){0, 2, 7, 8}, (uint16_t[]){NO, 0, 1, 6}, (uint16_t[]){NO, 0, 1, 1}), "to P4's rows");

    uint16_t before[LINKS];
    memcpy(before, costs, sizeof costs);
    hold(update(3, (uint16_t[]){3, 0, 3}, (uint16_t[]){1, 1, 1}) == ROUTES_ROW_NAMES_LINK_AGAIN && values[0] == 2 && values[1] == 0,
         "rows for links 3, 0, 3: refusal 9, row 2, earlier row 0");
    hold(listed(0, list) && memcmp(before, costs, sizeof costs) == 0, "which leaves the list and the costs");
    hold(rows((uint32_t[]){0, 2, 7, 8}, (uint16_t[]){NO, 0, 1, 6}, (uint16_t[]){NO, 0, 1, 1}), "and the tree");

    printf("%d wrong\n", wrong);
    return wrong != 0;
}
