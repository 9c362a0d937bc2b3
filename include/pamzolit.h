/* The link plan: how much traffic can run between any two nodes of a network, and which links set that limit.
 *
 * The functions stand in the archive libexports.a, which is written in Rattle and proved: `tools/archive exports`
 * proves and writes it. They keep no state and allocate nothing. A plan lives in its caller's memory and is lent to
 * each call, and so does the record of a gate's window:
 *
 *     struct pamzolit_plan plan;
 *     struct pamzolit_headroom_reply left;
 *     size_t place;
 *     if (pamzolit_open(file, file_length, &plan, &place) != PAMZOLIT_ACCEPTED) ...
 *     if (pamzolit_headroom(&plan, s, t, demand, &left) != PAMZOLIT_ACCEPTED) ...
 *
 * What is promised. Each function but the listing and the reset returns a refusal number, 0 for none. What it is said
 * below to store it stores whether it refuses or not, and nothing else is written. A refused change or undo leaves the
 * plan as it was, and a refused reading the record; the calls that only ask the plan leave it always. This holds of
 * every content of the plan's and the record's memory and of every other argument. A plan that is not sound is refused
 * with 19 by every call on a plan.
 *
 * 19 tests shape, not truth: numbers within their limits, parents that lead to node 0, a lightest edge that is the
 * tree's, unused places that are 0. Whoever edits a plan so that it keeps this shape gets answers from what the plan
 * then holds. That answers are right, limits exact and changes undone as they were made is proved of plans that come
 * from pamzolit_open, pamzolit_change and pamzolit_undo, nothing else writing them. What a record holds is proved of
 * every list of resets and readings that begins with a reset, nothing else writing the record.
 *
 * What the caller owes:
 *   - no pointer is NULL; each is aligned for its type and valid for what it points to, with its length where it has
 *     one (of length 0 it may point anywhere but to NULL);
 *   - what a call writes does not overlap anything else that is handed to it;
 *   - nothing else writes what a call reads while it lasts, nor reads what it writes. A plan that is only asked (pair,
 *     preview, headroom, flow, write, reading) may be shared among threads, each of which reads by a record of its own;
 *   - size_t has 64 bits: the assertions at the end test it, and the layout.
 *
 * Capacities, weights, demands, headrooms and flows are tenths of a megabit per second. A set of nodes is a word, bit i
 * for node i. A call took at most 60 KB of stack where it was measured (`bench/run memory`); that is not proved.
 */
#ifndef PAMZOLIT_H
#define PAMZOLIT_H

#include <stddef.h>
#include <stdint.h>

#ifdef __cplusplus
extern "C" {
#endif

/* ---- limits */
#define PAMZOLIT_NODES 64         /* nodes of a network, at most */
#define PAMZOLIT_LINKS 256        /* links of a network, at most */
#define PAMZOLIT_CHANGES 64       /* changes that can be undone, at most */
#define PAMZOLIT_READINGS 1000000 /* readings since a reset, at most */
#define PAMZOLIT_FILE_MAX 1539    /* bytes of the longest file */
#define PAMZOLIT_LISTING_MAX 183040 /* the length that pamzolit_listing asks of its buffer */

/* ---- refusal numbers: of several faults the first is given, by the order of checks that each function names */
enum pamzolit_number {
    PAMZOLIT_ACCEPTED = 0,
    /* of a file, with their place: the offset of the faulty number's first byte, or of the first extra byte */
    PAMZOLIT_ENDS_EARLY = 1,        /* the file ends before a number's last byte, behind fewer than four of its bytes */
    PAMZOLIT_NUMBER_TOO_LONG = 2,   /* a number's fourth byte has the top bit set */
    PAMZOLIT_ZERO_GROUP = 3,        /* a number's last group of several is zero */
    PAMZOLIT_BAD_NODE_COUNT = 4,    /* n is not 1 to 64 */
    PAMZOLIT_TOO_MANY_LINKS = 5,    /* m is above 256 */
    PAMZOLIT_END_NOT_A_NODE = 6,    /* an end of a link is not below n */
    PAMZOLIT_EQUAL_ENDS = 7,        /* a link's ends are equal */
    PAMZOLIT_LINK_TOO_LARGE = 8,    /* a link's capacity is above 8,000,000 */
    PAMZOLIT_BYTES_FOLLOW = 9,      /* bytes follow the last link */
    /* of a change, a preview */
    PAMZOLIT_NO_SUCH_LINK = 10,     /* the link is not below m */
    PAMZOLIT_CAPACITY_TOO_LARGE = 11, /* the capacity is above 8,000,000 */
    PAMZOLIT_STACK_FULL = 12,       /* 64 changes can be undone already */
    /* of an undo */
    PAMZOLIT_NOTHING_TO_UNDO = 13,
    /* of a pair, a preview, a headroom, a flow, a reading */
    PAMZOLIT_NO_SUCH_NODE = 14,     /* s or t is not below n */
    PAMZOLIT_SAME_NODE = 15,        /* s equals t */
    PAMZOLIT_FLOW_LENGTH = 16,      /* a flow's buffer has not m places */
    PAMZOLIT_DEMAND_TOO_LARGE = 17, /* a headroom's or a reading's demand is above 1,000,000,000 */
    /* of writing */
    PAMZOLIT_BUFFER_TOO_SHORT = 18, /* the buffer is shorter than the file */
    /* of every call on a plan, before its others */
    PAMZOLIT_NOT_SOUND = 19,
    /* of a reading, after its others */
    PAMZOLIT_TOO_MANY_READINGS = 20 /* the record counts 1,000,000 readings or more */
};

/* ---- a plan: 3,104 bytes without padding or pointers, which may be copied, compared and saved as they are */

/* Nodes 0 to nodes - 1, and links of which link k joins a[k] and b[k] and has capacity[k]. Places from links on are
 * 0. */
struct pamzolit_network {
    size_t nodes;
    size_t links;
    uint8_t a[PAMZOLIT_LINKS];
    uint8_t b[PAMZOLIT_LINKS];
    uint32_t capacity[PAMZOLIT_LINKS];
};

/* The cut tree: each node's parent, and the weight of the edge between them. Node 0 has parent and weight 0; places
 * from nodes on are 0. */
struct pamzolit_tree {
    uint8_t parent[PAMZOLIT_NODES];
    uint32_t weight[PAMZOLIT_NODES];
};

/* The steps that made the tree: for each node s from 1 up its pivot, the least minimum cut that holds s and not the
 * pivot, and that cut's value. Node 0's places and those from nodes on are 0. */
struct pamzolit_steps {
    uint8_t pivot[PAMZOLIT_NODES];
    uint64_t side[PAMZOLIT_NODES];
    uint32_t value[PAMZOLIT_NODES];
};

/* Changes that can be undone, the newest at depth - 1: a link, and the capacity that it had before. Places from depth
 * on are 0. */
struct pamzolit_stack {
    size_t depth;
    uint16_t link[PAMZOLIT_CHANGES];
    uint32_t capacity[PAMZOLIT_CHANGES];
};

/* The tree's lightest edge, the one with the lowest node number among equals: the node below it, which is 1 or above,
 * and its weight; with one node both are 0. Of a plan of two nodes or more that comes from open, change and undo, no
 * side that is neither empty nor all nodes has a smaller value, no pair has a smaller limit, and some pair has this
 * one. */
struct pamzolit_edge {
    uint32_t node;
    uint32_t weight;
};

struct pamzolit_plan {
    struct pamzolit_network network;
    struct pamzolit_tree tree;
    struct pamzolit_steps steps;
    struct pamzolit_stack stack;
    struct pamzolit_edge lightest;
};

/* ---- the record of a gate's window: 12 bytes, which may be copied, compared and saved as a plan may */

/* The running numbers of a gate: the headroom of its last reading, the lowest since the reset, and how many readings
 * there were. After any list of resets and readings that begins with a reset, nothing else writing the record, count is
 * that of the readings accepted since the last reset, lowest the least of their headrooms and last the latest, both 0
 * if there is none. */
struct pamzolit_window {
    int32_t last;
    int32_t lowest;
    uint32_t count;
};

/* ---- replies */

/* The lightest edge of the path between s and t in the cut tree, the one with the lowest node number among equals, so
 * that both ends show the same: its weight, which is the limit between s and t; the node below the edge; the side that
 * holds s once the edge is cut, which is a minimum cut; and how many nodes that side has. Asked from the other end,
 * weight and node are the same, and the side is the complement. Beside a refusal all but the number is 0. */
struct pamzolit_pair_reply {
    uint32_t number;
    uint32_t weight;
    uint64_t side;
    size_t node;
    size_t size;
};

/* The pair's weight less the demand, and its text in megabits: twelve characters, right-aligned, no terminating 0.
 * Beside a refusal the value is 0 and the text is spaces. */
struct pamzolit_headroom_reply {
    uint32_t number;
    int32_t value;
    uint8_t text[12];
};

/* What the window shows: the headroom in megabits, four characters without a terminating 0. From -9.9 to 99.9 they are
 * right-aligned with one digit of tenths; below they are "LOW ", above "HIGH". Beside a refusal they are spaces. */
struct pamzolit_window_reply {
    uint32_t number;
    uint8_t text[4];
};

/* ---- calls on a plan; each returns its refusal number */

/* Opens a file: the plan is stored, and 0 as the place. Beside a refusal (1 to 9) *place is the place of the fault,
 * and the plan is all zeros, which every call refuses with 19. The plan's memory may hold anything before. */
uint32_t pamzolit_open(const uint8_t *file, size_t file_length, struct pamzolit_plan *plan, size_t *place);

/* Gives a link a capacity (refusals 19, 10, 11, 12), or undoes the newest change that stands (19, 13). *count is the
 * number of steps of the tree that were not kept; 0 beside a refusal, which leaves the plan as it was. */
uint32_t pamzolit_change(struct pamzolit_plan *plan, size_t link, uint32_t capacity, uint32_t *count);
uint32_t pamzolit_undo(struct pamzolit_plan *plan, uint32_t *count);

/* The limit between s and t and what sets it, the same edge from both ends (19, 14, 15). reply->number is what is
 * returned. */
uint32_t pamzolit_pair(const struct pamzolit_plan *plan, size_t s, size_t t, struct pamzolit_pair_reply *reply);

/* What pamzolit_change followed by pamzolit_pair would give on a copy of the plan, which is itself left as it was: the
 * pair's reply under that capacity, and the change's count. Refused as the change is, also where the stack is full, and
 * then as the pair is (19, 10, 11, 12, 14, 15). reply->number is what is returned; beside a refusal all else in the
 * reply is 0, and *count too. */
uint32_t pamzolit_preview(const struct pamzolit_plan *plan, size_t link, uint32_t capacity, size_t s, size_t t,
                          struct pamzolit_pair_reply *reply, uint32_t *count);

/* What a demand leaves of the limit between s and t (19, 14, 15, 17). reply->number is what is returned. */
uint32_t pamzolit_headroom(const struct pamzolit_plan *plan, size_t s, size_t t, uint32_t demand,
                           struct pamzolit_headroom_reply *reply);

/* Reads a headroom into a gate's record and shows it (19, 14, 15, 17, 20): it becomes the last, and the lowest too if
 * count was 0 or the lowest was above it; count goes up by 1. This holds of every record, also of one that no reset
 * made. Beside a refusal the record is left as it was. reply->number is what is returned. */
uint32_t pamzolit_reading(struct pamzolit_window *window, const struct pamzolit_plan *plan, size_t s, size_t t,
                          uint32_t demand, struct pamzolit_window_reply *reply);

/* A flow from s to t that no other exceeds (19, 14, 15, 16): out gets one number for each link, positive from a to b.
 * Beside a refusal out is left as it was. */
uint32_t pamzolit_flow(const struct pamzolit_plan *plan, size_t s, size_t t, int32_t *out, size_t out_length);

/* Writes the plan's file to the first bytes of out (19, 18) and leaves the rest; *used is its length. Beside a
 * refusal out is left as it was, and *used is 0. */
uint32_t pamzolit_write(const struct pamzolit_plan *plan, uint8_t *out, size_t out_length, size_t *used);

/* ---- a call on a record */

/* Makes all three numbers 0. The record's memory may hold anything before. */
void pamzolit_reset(struct pamzolit_window *window);

/* ---- a call on a file */

/* Writes what the program `pairs` prints for a file, and returns its length; SIZE_MAX, and nothing is written, if out
 * is shorter than PAMZOLIT_LISTING_MAX. */
size_t pamzolit_listing(const uint8_t *file, size_t file_length, uint8_t *out, size_t out_length);

#ifdef __cplusplus
}
#endif

/* ---- the layout that the archive was compiled for */
#ifdef __cplusplus
#define PAMZOLIT_ASSERT(holds, what) static_assert(holds, what)
#else
#define PAMZOLIT_ASSERT(holds, what) _Static_assert(holds, what)
#endif
#define PAMZOLIT_AT(type, field, offset) \
    PAMZOLIT_ASSERT(offsetof(struct type, field) == (offset), #type "." #field " is not at " #offset)
#define PAMZOLIT_SIZE(type, size) PAMZOLIT_ASSERT(sizeof(struct type) == (size), #type " has not " #size " bytes")

PAMZOLIT_ASSERT(sizeof(size_t) == 8 && SIZE_MAX == UINT64_MAX, "size_t has not 64 bits");

PAMZOLIT_SIZE(pamzolit_network, 1552);
PAMZOLIT_AT(pamzolit_network, nodes, 0);
PAMZOLIT_AT(pamzolit_network, links, 8);
PAMZOLIT_AT(pamzolit_network, a, 16);
PAMZOLIT_AT(pamzolit_network, b, 272);
PAMZOLIT_AT(pamzolit_network, capacity, 528);

PAMZOLIT_SIZE(pamzolit_tree, 320);
PAMZOLIT_AT(pamzolit_tree, parent, 0);
PAMZOLIT_AT(pamzolit_tree, weight, 64);

PAMZOLIT_SIZE(pamzolit_steps, 832);
PAMZOLIT_AT(pamzolit_steps, pivot, 0);
PAMZOLIT_AT(pamzolit_steps, side, 64);
PAMZOLIT_AT(pamzolit_steps, value, 576);

PAMZOLIT_SIZE(pamzolit_stack, 392);
PAMZOLIT_AT(pamzolit_stack, depth, 0);
PAMZOLIT_AT(pamzolit_stack, link, 8);
PAMZOLIT_AT(pamzolit_stack, capacity, 136);

PAMZOLIT_SIZE(pamzolit_edge, 8);
PAMZOLIT_AT(pamzolit_edge, node, 0);
PAMZOLIT_AT(pamzolit_edge, weight, 4);

PAMZOLIT_SIZE(pamzolit_plan, 3104);
PAMZOLIT_AT(pamzolit_plan, network, 0);
PAMZOLIT_AT(pamzolit_plan, tree, 1552);
PAMZOLIT_AT(pamzolit_plan, steps, 1872);
PAMZOLIT_AT(pamzolit_plan, stack, 2704);
PAMZOLIT_AT(pamzolit_plan, lightest, 3096);

PAMZOLIT_SIZE(pamzolit_window, 12);
PAMZOLIT_AT(pamzolit_window, last, 0);
PAMZOLIT_AT(pamzolit_window, lowest, 4);
PAMZOLIT_AT(pamzolit_window, count, 8);

PAMZOLIT_SIZE(pamzolit_pair_reply, 32);
PAMZOLIT_AT(pamzolit_pair_reply, number, 0);
PAMZOLIT_AT(pamzolit_pair_reply, weight, 4);
PAMZOLIT_AT(pamzolit_pair_reply, side, 8);
PAMZOLIT_AT(pamzolit_pair_reply, node, 16);
PAMZOLIT_AT(pamzolit_pair_reply, size, 24);

PAMZOLIT_SIZE(pamzolit_headroom_reply, 20);
PAMZOLIT_AT(pamzolit_headroom_reply, number, 0);
PAMZOLIT_AT(pamzolit_headroom_reply, value, 4);
PAMZOLIT_AT(pamzolit_headroom_reply, text, 8);

PAMZOLIT_SIZE(pamzolit_window_reply, 8);
PAMZOLIT_AT(pamzolit_window_reply, number, 0);
PAMZOLIT_AT(pamzolit_window_reply, text, 4);

#undef PAMZOLIT_AT
#undef PAMZOLIT_SIZE
#undef PAMZOLIT_ASSERT

#endif
