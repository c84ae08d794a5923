/* The proved library, for C: link target/staticlib/libkusillaqe.a, which `crates/kusillaqe_c/archive` proves and makes, for x86-64.
 *
 * A slice passes as its address and its length. No address is NULL, also where the length is 0; each is aligned as its type asks; what
 * is written does not overlap anything else that is passed. Nothing else is asked: each function answers for every input. What is passed
 * as const is only read, and nothing is kept after a function has returned.
 */
#ifndef KUSILLAQE_H
#define KUSILLAQE_H

#include <stdbool.h>
#include <stddef.h>
#include <stdint.h>

#ifdef __cplusplus
extern "C" {
#endif

enum {
    /* Room beyond this many entries is never used. */
    KUSILLAQE_MOST_ENTRIES = 4096,
    /* A production has at most so many right symbols. */
    KUSILLAQE_MOST_RIGHT = 7,
    /* A compound graph has at most so many nodes: eight for the left symbol, and eight for each right one. */
    KUSILLAQE_MOST_NODES = 64,
    /* The longest table. */
    KUSILLAQE_MOST_BYTES = 58904
};

/* Stands where there is no record and no production: none has this number, so it cannot be taken for record 0. */
#define KUSILLAQE_NONE UINT32_MAX

/* Answers. */
enum {
    /* No finite complete tree rooted at the start symbol has a circle. Of a check: the table is good. */
    KUSILLAQE_NONCIRCULAR = 0,
    /* A bad table: the first rule that it breaks. These three have no record: fewer than 24 bytes; a count or the start symbol out of
     * range; an offset or the total wrong. */
    KUSILLAQE_HEADER_SHORT = 1,
    KUSILLAQE_COUNTS = 2,
    KUSILLAQE_OFFSETS = 3,
    /* The record is a symbol, a production. */
    KUSILLAQE_SYMBOL = 4,
    KUSILLAQE_PRODUCTION = 5,
    /* The record is an edge, and the first bad one decides: its production is not there; the source's or the target's occurrence, or
     * the attribute, is out of range; the target is not allowed; the edge is not above the one before. Looked at in this order: 10, 11,
     * 12, 13, 7. There is no 6. */
    KUSILLAQE_EDGE_ORDER = 7,
    KUSILLAQE_EDGE_PRODUCTION = 10,
    KUSILLAQE_EDGE_OCCURRENCE = 11,
    KUSILLAQE_EDGE_ATTRIBUTE = 12,
    KUSILLAQE_EDGE_TARGET = 13,
    /* The limit was reached. */
    KUSILLAQE_OUT_OF_STEPS = 8,
    /* The room was used up. */
    KUSILLAQE_OUT_OF_ROOM = 9,
    /* The shown tree, a subtree of some tree rooted at the start symbol, has a circle. */
    KUSILLAQE_CIRCULAR = 255
};

/* Marks: what a link of a compound graph is. No link is both. */
enum {
    /* A pair of the subtree at the occurrence of the node that the link leaves. */
    KUSILLAQE_PAIR = 0,
    /* An edge of the production. */
    KUSILLAQE_EDGE = 1
};

/* What a table breaks: the number of the first rule, 0 where it breaks none, and the first bad record, counted from 0 in its own table
 * of symbols, productions or edges; KUSILLAQE_NONE where no rule is broken and for 1, 2 and 3. */
struct kusillaqe_broken {
    uint32_t rule;
    uint32_t record;
};

/* A path or a circle in a compound graph. Node 8o + a is attribute a of occurrence o: the left symbol is occurrence 0, the right ones are
 * occurrences 1 to 7. Each link leads to the next node; the last one leads where the path does, in a circle to the first node. */
struct kusillaqe_trail {
    /* How many links there are; 0 where there is no path, or no circle. */
    uint32_t links;
    /* For each link the node that it leaves and its mark; the places beyond are 0. */
    uint32_t nodes[KUSILLAQE_MOST_NODES];
    uint32_t marks[KUSILLAQE_MOST_NODES];
};

struct kusillaqe_report {
    /* One of the answers. */
    uint32_t answer;
    /* Circular: the production at the root of the shown tree. A bad record: its number, as in kusillaqe_broken. Else KUSILLAQE_NONE. */
    uint32_t value;
    /* The closures made, the entries stored and the passes begun; all 0 for a bad table. */
    uint32_t closures;
    uint32_t entries;
    uint32_t passes;
    /* Circular: the entry numbers of the root's right symbols, of which the production's count says how many there are. All others are
     * 0, which is also an entry's number. */
    uint32_t root[KUSILLAQE_MOST_RIGHT];
    /* Circular: the circle in the compound graph of the root: a shortest one, and of these the least when written from its smallest
     * node. Else one of no links. */
    struct kusillaqe_trail circle;
};

/* The check of a table. Both numbers of `broken` are written, whatever the table is. */
void kusillaqe_check(const uint8_t *table, size_t table_length, struct kusillaqe_broken *broken);

/* The circularity test of a table with at most `limit` closures. Entry i has place i of symbols, graphs and productions, and places 7i
 * to 7i + 6 of kids: its symbol, its graph, in which the pair (a, b) is worth 2 to the power 8a + b, its production, and the entry
 * numbers of that one's right symbols, the unused ones 0. The room is the least number of entries that one of the four can hold, and at
 * most 4,096.
 *
 * Afterwards the first `entries` entries of each are the stored ones, and every place from there on is as it was; so after a bad table
 * all four are as they were, and what is lent beyond 4,096 entries is always. All 141 numbers of `report` are written. */
void kusillaqe_test(
    const uint8_t *table, size_t table_length,
    uint32_t limit,
    uint16_t *symbols, size_t symbols_length,
    uint64_t *graphs, size_t graphs_length,
    uint16_t *productions, size_t productions_length,
    uint16_t *kids, size_t kids_length,
    struct kusillaqe_report *report);

/* What the test is made of. Bit j of row i says that a link leads from node i to node j. */

/* The edges of some edge records, six bytes each: all 64 rows are written. An edge between nodes that are not there adds nothing. */
void kusillaqe_own_rows(const uint8_t *run, size_t run_length, uint64_t rows[64]);
/* A subtree's pairs are joined to the eight rows of its occurrence; the other rows are as they were, and all where there is no such
 * occurrence. */
void kusillaqe_place(uint64_t rows[64], uint64_t graph, size_t occurrence);
/* The closure of the nodes of the first occurrences, in their rows; the other rows are as they were. 8 occurrences are all. */
void kusillaqe_close(uint64_t rows[64], size_t occurrences);
/* Whether a node of the first occurrences leads to itself. */
bool kusillaqe_has_circle(const uint64_t rows[64], size_t occurrences);
/* The circle among the nodes of the first occurrences, as a report has it. Bit a of an occurrence's mask says that its attribute a is
 * inherited: by this a link is marked as an edge where an edge may lead to its end, to a synthesized attribute of the left symbol or an
 * inherited one of a right symbol, and else as a pair. All numbers of `circle` are written. */
void kusillaqe_circle(
    const uint64_t rows[64], size_t occurrences, const uint16_t masks[8],
    struct kusillaqe_trail *circle);
/* Likewise the shortest path of one or more links from one of these nodes to another or to itself, and of these the least. It has no
 * links where there is no path, or no such node. */
void kusillaqe_path(
    const uint64_t rows[64], size_t occurrences, const uint16_t masks[8],
    size_t from, size_t to,
    struct kusillaqe_trail *path);
/* The pairs among the nodes of the left symbol: (a, b) is worth 2 to the power 8a + b. */
uint64_t kusillaqe_root_graph(const uint64_t rows[64]);

#ifdef __cplusplus
}
#endif

#endif
