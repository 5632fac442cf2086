/* The route calculation, for programs in C and others that can call C.
 *
 * Link with libroutes.a: `make archive` proves it and writes target/lib/libroutes.a, for x86-64 Linux, and `make install`
 * installs it with this header and a pkg-config file, `routes`. It asks for memcpy and memset and nothing else, allocates
 * nothing and keeps no pointer. Calls on memory that no other thread touches may run at the same time.
 *
 * Memory. All memory is the caller's, before and after the call.
 *   - A column or list is a pointer and a length in entries. Any length may be given: the functions judge it. The
 *     pointer must be valid for that length; for length 0 it isn't read through, but it still must not be null, and it
 *     must be aligned.
 *   - dist, parent and first point at ROUTES_NODES entries each, whatever the node count.
 *   - count points at one entry and values at two. They are written by every call, refused or not, and never read.
 *   - What a call writes (the parameters that aren't const) must share no memory with anything else that it is lent.
 *     What it only reads may be shared.
 *
 * Numbers. Any numbers may stand in the memory: every function judges its whole input before it writes.
 *
 * Answers. A function hands back 0 for acceptance, or the refusal's number, the smallest that applies. values[0] is the
 * link, node or row that the refusal carries, and 0 where it carries none or nothing is refused. values[1] is the earlier
 * row that refusal 9 carries too, and 0 with every other. Where there is a count, it is 0 with a refusal.
 */
#ifndef ROUTES_H
#define ROUTES_H

#include <stddef.h>
#include <stdint.h>

#ifdef __cplusplus
extern "C" {
#endif

#define ROUTES_NODES 256          /* the most nodes, and how many entries each of a tree's arrays has */
#define ROUTES_LINKS 4096         /* the most links */
#define ROUTES_ROWS 256           /* the most rows in a batch */
#define ROUTES_UNREACHED 16777215 /* the distance of a node that isn't reached */
#define ROUTES_NO_LINK 65535      /* stands where a link number is expected and there is no link */

enum routes_answer {
    ROUTES_ACCEPTED = 0,
    ROUTES_WRONG_NODE_COUNT = 1,      /* node count 0 or over 256 */
    ROUTES_WRONG_ROOT = 2,            /* root not below the node count */
    ROUTES_WRONG_COLUMNS = 3,         /* columns of unequal length, or over 4,096 links */
    ROUTES_WRONG_ENDS = 4,            /* a link's start or end not below the node count, or start = end; value: first such link */
    ROUTES_WRONG_ORDER = 5,           /* a link's start is below the one before it; value: first such link */
    ROUTES_TREE_UNFIT = 6,            /* the tree doesn't fit; value: smallest node that breaks a rule */
    ROUTES_TOO_MANY_ROWS = 7,         /* over 256 rows */
    ROUTES_ROW_NAMES_NO_LINK = 8,     /* a row names no link of the table; value: that row */
    ROUTES_ROW_NAMES_LINK_AGAIN = 9,  /* a row names a link of an earlier row; values: that row, and the earliest with the same link */
    ROUTES_ASKED_NO_NODE = 10,        /* asked node not below the node count */
    ROUTES_ASKED_UNREACHED = 11,      /* asked node is unreached */
    ROUTES_LIST_TOO_SHORT = 12,       /* list under the node count (update) or under the path's length (path) */
    ROUTES_UNKNOWN_KIND = 21,         /* no record has this kind (read) */
    ROUTES_CUT_SHORT = 22             /* the stream ends within the record's body (read) */
};

/* The kinds of records, each with the numbers of its body. A number has 16 bits in the stream, and is handed out in 32. */
enum routes_kind {
    ROUTES_END = 0,     /* no record */
    ROUTES_NETWORK = 1, /* node count, root */
    ROUTES_LINK = 2,    /* start, end, cost */
    ROUTES_CHANGE = 3,  /* link, new cost */
    ROUTES_APPLY = 4,   /* none */
    ROUTES_ASK = 5      /* node */
};

/* The table of links, which every function but routes_read takes first: the node count, the root, and for each link its
 * start, its end and its cost, a column each. A link's number is its place. Starts never fall; a cost of 0 means that the
 * link is down. Each direction is a link of its own. A link is usable when its cost isn't 0 and some link from its end to
 * its start has a cost that isn't 0; routes use no others. */

/* Judges a table of links: refusals 1 to 5. Writes the values alone. */
uint16_t routes_judge_links(
    size_t nodes, size_t root,
    const uint16_t *starts, size_t starts_len,
    const uint16_t *ends, size_t ends_len,
    const uint16_t *costs, size_t costs_len,
    uint16_t values[2]);

/* Judges whether a tree fits the table: refusals 1 to 6. Writes the values alone. */
uint16_t routes_judge_tree(
    size_t nodes, size_t root,
    const uint16_t *starts, size_t starts_len,
    const uint16_t *ends, size_t ends_len,
    const uint16_t *costs, size_t costs_len,
    const uint32_t *dist, const uint16_t *parent, const uint16_t *first,
    uint16_t values[2]);

/* Fresh build: refusals 1 to 5. Writes all 256 entries of dist, parent and first, which need not have been set: the
 * fresh tree, or with a refusal the empty one, every node unreached and no links in it. */
uint16_t routes_build(
    size_t nodes, size_t root,
    const uint16_t *starts, size_t starts_len,
    const uint16_t *ends, size_t ends_len,
    const uint16_t *costs, size_t costs_len,
    uint32_t *dist, uint16_t *parent, uint16_t *first,
    uint16_t values[2]);

/* Update: refusals 1 to 9 and 12. The batch stands in two columns, link numbers and new costs; it has a row for each
 * place that both have, so what the longer one has behind them isn't read. An empty batch is accepted: pass length 0 for
 * both, with any pointer that isn't null and is aligned, such as starts. dist, parent and first hold the tree, which must
 * fit the table as it stands.
 *
 * Accepted: the rows' costs are written into costs, whose other places stay; the tree becomes the next one; the changed
 * nodes stand in rising order in the first *count places of list, whose other places stay.
 * Refused: costs, the tree and list are as they were.
 * A list of `nodes` places is enough. */
uint16_t routes_update(
    size_t nodes, size_t root,
    const uint16_t *starts, size_t starts_len,
    const uint16_t *ends, size_t ends_len,
    uint16_t *costs, size_t costs_len,
    const uint16_t *batch_links, size_t batch_links_len,
    const uint16_t *batch_costs, size_t batch_costs_len,
    uint32_t *dist, uint16_t *parent, uint16_t *first,
    uint16_t *list, size_t list_len,
    size_t *count, uint16_t values[2]);

/* Path: refusals 1 to 6 and 10 to 12.
 *
 * Accepted: the link numbers from the root to the asked node stand in travel order in the first *count places of list,
 * whose other places stay. The root's path is empty.
 * Refused: list is as it was.
 * A list of `nodes` - 1 places is enough. */
uint16_t routes_path(
    size_t nodes, size_t root,
    const uint16_t *starts, size_t starts_len,
    const uint16_t *ends, size_t ends_len,
    const uint16_t *costs, size_t costs_len,
    const uint32_t *dist, const uint16_t *parent, const uint16_t *first,
    size_t node,
    uint16_t *list, size_t list_len,
    size_t *count, uint16_t values[2]);

/* Reads the record whose kind byte stands at a place of a record stream: refusals 21 and 22. Any place may be given, and
 * any length: this is the reader alone, which judges neither the order of the records nor their numbers.
 *
 * A record: *kind is its kind, the front of numbers its body's numbers with 0 in the places behind them, and *next the
 * place behind the record.
 * The end, which is any place at or past the length: *kind is ROUTES_END, all numbers are 0, and *next is place.
 * Refused: the same, with the refusal's number handed back. The refusal's place is that of the kind byte, so place.
 * *kind, the three numbers and *next are written by every call, refused or not, and never read. */
uint16_t routes_read(
    const uint8_t *stream, size_t stream_len, size_t place,
    uint8_t *kind, uint32_t numbers[3], size_t *next);

#ifdef __cplusplus
}
#endif

#endif
