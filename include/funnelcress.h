/* Funnelcress for C: a proved box-tree converter and ray walker. Link libfunnelcress.a (`rt lib` in crates/funnelcress, x86-64-v2
 * Linux); nothing else is needed.
 *
 * For every function:
 * - A slice is a pointer and a length, in elements. A slice of length 0 is not read or written, and its pointer may be
 *   NULL; any other pointer must be that of so many elements, aligned as the type asks.
 * - A slice that is written must not overlap another slice of the same call. Slices that are only read may overlap.
 * - No function keeps a pointer, allocates, or has state of its own: calls may run on many threads at once, as long as
 *   none writes what another reads or writes.
 * - Any values are allowed in the slices. What can't be used is refused, with a number that says why:
 *     1  some length is wrong for its layout (tree 7 words a node, record 80 bytes a node, pane 6 floats, ray 8, a byte for
 *        the quarter hour of each), or the tree has not 2n - 1 nodes
 *     2  more than 65,536 positions, those of a joined tree too, 65,535 record nodes or 65,536 rays of a report
 *     3  the leaf limit exceeds 3, or the order is neither 0 nor 1
 *     4  too little room was lent for outputs or work
 *     5  a link of no known kind, or one that leads out of the tree or the index list
 *     6  a box, or a pane met, that is not finite, past 2^40 either way, or with a lower end above its upper one
 *     7  a node or position that is not reached exactly once, or a path of over 127 edges, in a joined tree too
 *     8  some node of the record would lie deeper than level 31
 *     9  a ray whose origin or direction is not finite or past 2^40 either way, or whose tmin or tmax is a NaN
 *    10  a damaged record, an index that names no pane, or a forged walker
 *    11  any-hit meets more positions than its list has room for
 *    12  losses that are not one for each pane, or one over 1,000,000
 *    13  an index word of a joined tree that 32 bits don't hold
 *    14  spans that are not two bytes for each pane, a span whose first quarter hour is past its last, a quarter hour over
 *        95, a side table to be read that has not 16 bytes a record node, or at conversion an index word past the panes
 *   Causes are looked at in rising number, but 12 and then 14 right after 6, and 13 right after 7; those of a walk come
 *   where the walk meets them.
 * - Zeros of a ray's origin and direction have no sign: -0.0 there is read as +0.0. tmin and tmax are read as they are.
 * - Unless said otherwise a refused call leaves all slices as they were, and no call writes past what it says.
 *
 * docs/API.md names the definition that each function is proved to meet. */
#ifndef FUNNELCRESS_H
#define FUNNELCRESS_H

#include <stddef.h>
#include <stdint.h>

#ifdef __cplusplus
extern "C" {
#endif

/* Sizes. */
#define FUNNELCRESS_NODE_BYTES 80      /* bytes of a record node */
#define FUNNELCRESS_TREE_WORDS 7       /* words of a tree node: lower and upper corner as float bits, link */
#define FUNNELCRESS_RAY_FLOATS 8       /* origin x y z, direction x y z, tmin, tmax */
#define FUNNELCRESS_PANE_FLOATS 6      /* min x y z, max x y z */
#define FUNNELCRESS_SPAN_BYTES 2       /* a pane's first and last quarter hour, both included */
#define FUNNELCRESS_SIDE_BYTES 16      /* bytes of a side table for a record node: a span for each slot */
#define FUNNELCRESS_MAX_POSITIONS 65536
#define FUNNELCRESS_MAX_NODES 65535
#define FUNNELCRESS_MAX_RAYS 65536     /* rays of a report */
#define FUNNELCRESS_MAX_LOSS 1000000   /* a pane's loss, in thousandths of a decibel */
#define FUNNELCRESS_LAST_QUARTER 95    /* the quarter hour that ends at midnight; 0 begins there */
#define FUNNELCRESS_WALKER_HEAD 18     /* words of a walker's state */
#define FUNNELCRESS_WALKER_STACK 32    /* and of its stack */

/* A link: where an inner node's pair of children begins, or a leaf's position. */
#define FUNNELCRESS_INNER(child) ((uint32_t)(child))
#define FUNNELCRESS_LEAF(position) (UINT32_C(1) << 30 | (uint32_t)(position))

/* What a returned 64-bit number holds: node tests (queries only), the kind of answer, and its value. Kind 2 is refused
 * with the cause as its value, from every function. */
static inline uint32_t funnelcress_tests(uint64_t number) { return (uint32_t)(number >> 48); }
static inline uint32_t funnelcress_kind(uint64_t number) { return (uint32_t)(number >> 32 & 0xffff); }
static inline uint32_t funnelcress_value(uint64_t number) { return (uint32_t)number; }
/* The cause of refusal, 0 for none. (Any-hit's 11 is its kind 1.) */
static inline uint32_t funnelcress_cause(uint64_t number) {
    return funnelcress_kind(number) == 2 ? funnelcress_value(number) : 0;
}

/* Lengths for a tree of n leaves: its words, decision words (and as many costs), record bytes, side table bytes; and
 * working words of the record check. */
static inline size_t funnelcress_tree_words(size_t n) { return n == 0 ? 0 : 7 * (2 * n - 1); }
static inline size_t funnelcress_table_words(size_t n) { return funnelcress_tree_words(n); }
static inline size_t funnelcress_record_bytes(size_t n) { return n == 0 ? 0 : n == 1 ? 80 : 80 * (n - 1); }
static inline size_t funnelcress_side_bytes(size_t n) { return n == 0 ? 0 : n == 1 ? 16 : 16 * (n - 1); }
static inline size_t funnelcress_check_words(size_t record_len, size_t n) { return record_len / 80 + n; }
/* Working words of a join of trees with so many leaves. */
static inline size_t funnelcress_join_marks(size_t first, size_t second) {
    size_t most = first < second ? second : first;
    return most == 0 ? 0 : 3 * most - 1;
}

/* Converts a tree to a record and its index list.
 *   words      7 (2n - 1) words of the tree, none for n = 0; read
 *   indices    n words; a leaf's position is a place in them; read
 *   limit      the most leaves of a leaf child, 0 to 3 (0 acts as 1)
 *   order      1: children take the slots that suit the directions of rays; 0: as gathered. Either way any ray meets the
 *              same panes as often, by as many node tests; positions and their sequence may differ
 *   decisions, costs   working slices of funnelcress_table_words(n) or more; the tables are left there
 *   record     funnelcress_record_bytes(n) bytes or more
 *   list       n words or more
 * Returns kind 0 with 65,536 times the deepest level plus the number of record nodes, or kind 2. Written then: the first
 * 80 bytes a node of record and the first n words of list. Refused 5 to 8, the needed part of decisions and costs is
 * zero; record and list stay. Refusals: 1 to 8. */
uint64_t funnelcress_bvh2_to_cwbvh(const uint32_t *words, size_t words_len, const uint32_t *indices, size_t indices_len,
                                   uint32_t limit, uint32_t order, uint32_t *decisions, size_t decisions_len, float *costs,
                                   size_t costs_len, uint8_t *record, size_t record_len, uint32_t *list, size_t list_len);

/* The same for panes that are there at some quarter hours of the day alone: it writes a side table too, in which slot i of
 * record node v has the first quarter hour at byte 16 v + 2i and the last at the next, the narrowest span over the panes
 * below that slot; an empty slot has 0 and 0.
 *   words, indices, limit, order, decisions, costs, record, list      as funnelcress_bvh2_to_cwbvh has them
 *   panes      how many panes there are; each index word names one of them
 *   spans      FUNNELCRESS_SPAN_BYTES a pane: its first quarter hour, then its last, 0 to FUNNELCRESS_LAST_QUARTER, both
 *              included; what is there over midnight is two panes; read
 *   side       funnelcress_side_bytes(n) bytes or more
 * Returns as funnelcress_bvh2_to_cwbvh does. Written then also: the first 16 bytes a node of side, which is what a report
 * is to be given; what is behind stays. A refused call leaves side as it was, and 14 what 5 leaves. Refusals, looked at in
 * this order: 1, 2, 3, 4, 5, 6, 14, 7, 8. */
uint64_t funnelcress_bvh2_to_cwbvh_timed(const uint32_t *words, size_t words_len, const uint32_t *indices, size_t indices_len,
                                         uint32_t limit, uint32_t order, size_t panes, const uint8_t *spans, size_t spans_len,
                                         uint32_t *decisions, size_t decisions_len, float *costs, size_t costs_len,
                                         uint8_t *record, size_t record_len, uint32_t *list, size_t list_len, uint8_t *side,
                                         size_t side_len);

/* The record check.
 *   record     80 bytes a node; read
 *   n          how many positions the record has
 *   work       funnelcress_check_words(record_len, n) working words or more
 * Returns kind 0 (sound, with the deepest level), kind 1 (unsound), or kind 2. Unless refused, the needed part of work is
 * zero afterwards. Refusals: 1, 2, 4. */
uint64_t funnelcress_validate(const uint8_t *record, size_t record_len, size_t n, uint32_t *work, size_t work_len);

/* The positions that a ray passes, each once, at the front of list.
 * Returns kind 0 with how many (and the node tests), kind 1 with the length that list needs (refused 11; list stays), or
 * kind 2. Refusals: 1, 2, 9, 10, 11. */
uint64_t funnelcress_any_hit(const uint8_t *record, size_t record_len, size_t n, const float *ray, size_t ray_len,
                             uint32_t *list, size_t list_len);

/* The nearest pane that the walk meets; one that the ray enters before its tmin is passed over.
 *   indices    the index list of the record, a word a position; read
 *   panes      6 floats each; a position's pane is the one that its index word names; read
 *   out        1 float or more: a hit's distance is written to out[0], and nothing else
 * Returns kind 0 (a hit, with its position), kind 1 (none), or kind 2. Refusals: 1, 2, 4, 6, 9, 10. */
uint64_t funnelcress_closest(const uint8_t *record, size_t record_len, const uint32_t *indices, size_t indices_len,
                             const float *panes, size_t panes_len, const float *ray, size_t ray_len, float *out,
                             size_t out_len);

/* Whether no pane is entered from the ray's tmin on and before its tmax. Returns kind 0 (missed), kind 1 (blocked), or kind 2. Writes nothing.
 * Refusals: 1, 2, 6, 9, 10. */
uint64_t funnelcress_miss(const uint8_t *record, size_t record_len, const uint32_t *indices, size_t indices_len,
                          const float *panes, size_t panes_len, const float *ray, size_t ray_len);

/* A report over many rays: what each ray loses to the panes that it meets, and what each pane takes from all rays.
 *   indices    the index list of the record, a word a position; read
 *   panes      how many panes there are; a position's pane is the one that its index word names
 *   losses     a word for each pane: its loss in thousandths of a decibel, 0 to FUNNELCRESS_MAX_LOSS; read
 *   rays       8 floats each, at most FUNNELCRESS_MAX_RAYS rays; read
 *   ray_totals     a word for each ray, or more: what all positions that it passes take from it, in the order of the rays
 *   pane_totals    a word for each pane, or more: its loss times how often all rays pass a position of it
 * Returns kind 0 with the node tests of all rays as its value, or kind 2. Written then: the front of both totals, nothing
 * past it; the two add up to the same, and 64 bits hold every total. Refused, it writes nothing, whichever ray was at
 * fault. Refusals, looked at in this order: 1, 2, 4, 12, 9 for any ray, and then 10, where a ray meets a damaged node or
 * an index word that names none of the panes. */
uint64_t funnelcress_report(const uint8_t *record, size_t record_len, const uint32_t *indices, size_t indices_len,
                            size_t panes, const uint32_t *losses, size_t losses_len, const float *rays, size_t rays_len,
                            uint64_t *ray_totals, size_t ray_totals_len, uint64_t *pane_totals, size_t pane_totals_len);

/* A report over rays that each have a quarter hour: a ray passes only what is there then. It passes a slot whose box and
 * whose span in the side table let it through, and meets a position whose pane's own span holds its quarter hour besides.
 *   record, indices, panes, losses, rays, ray_totals, pane_totals      as funnelcress_report has them
 *   side       the record's side table, 16 bytes a node and no more; read as it is: a span whose first is past its last
 *              holds no quarter hour
 *   spans      FUNNELCRESS_SPAN_BYTES a pane, as at conversion; read
 *   quarters   a byte for each ray, 0 to FUNNELCRESS_LAST_QUARTER; read
 * Returns and writes as funnelcress_report does. Refusals, looked at in this order: 1, also where quarters are not one byte
 * a ray, 2, 4, 12, 14, 9 for any ray, and then 10, as there. */
uint64_t funnelcress_report_timed(const uint8_t *record, size_t record_len, const uint8_t *side, size_t side_len,
                                  const uint32_t *indices, size_t indices_len, size_t panes, const uint8_t *spans,
                                  size_t spans_len, const uint32_t *losses, size_t losses_len, const float *rays,
                                  size_t rays_len, const uint8_t *quarters, size_t quarters_len, uint64_t *ray_totals,
                                  size_t ray_totals_len, uint64_t *pane_totals, size_t pane_totals_len);

/* Joins two trees under a new root, whose box is the union of theirs. Every other box stays bit for bit; the second's
 * leaves stand behind the first's, and its panes are counted on from the first's.
 *   first, second      7 (2n - 1) words of a tree of n leaves, none for n = 0; read
 *   first_indices, second_indices      a word for each leaf of that tree; read
 *   first_panes        how many panes the first's index words name: it is added to each index word of the second
 *   marks      funnelcress_join_marks(first_indices_len, second_indices_len) working words or more
 *   words      funnelcress_tree_words(n) or more, n being the leaves of both trees together
 *   indices    n words or more
 * Returns kind 0 with n, or kind 2. Written then: the first funnelcress_tree_words(n) of words and the first n of indices;
 * the needed part of marks is zero. Next to an empty tree the other stays as it is, a second one with its index words
 * moved up all the same; two empty trees write nothing. Refused 5, 6, 7 or 13, the needed part of marks is zero; words and
 * indices stay. Refusals, each looked at in both trees before the next: 1, 2 (also n over 65,536), 4, 5, 6, 7 (also a path
 * of over 126 edges where both have leaves, since the new root's is one more), 13 (some index word of the second plus
 * first_panes is over 4,294,967,295). */
uint64_t funnelcress_join(const uint32_t *first, size_t first_len, const uint32_t *first_indices, size_t first_indices_len,
                          size_t first_panes, const uint32_t *second, size_t second_len, const uint32_t *second_indices,
                          size_t second_indices_len, uint32_t *marks, size_t marks_len, uint32_t *words, size_t words_len,
                          uint32_t *indices, size_t indices_len);

/* A walker: a ray walked step by step, for callers who test panes themselves. It is kept in words that the caller
 * lends, which are opaque and may be copied and kept. Neither pointer may be NULL. */
typedef struct funnelcress_walker {
    uint64_t head[FUNNELCRESS_WALKER_HEAD];
    uint64_t stack[FUNNELCRESS_WALKER_STACK];
} funnelcress_walker;

/* Begins: kind 0 with 0, or kind 2 with the words as they were. Refusals: 1, 9. */
uint64_t funnelcress_begin(const float *ray, size_t ray_len, uint64_t head[FUNNELCRESS_WALKER_HEAD],
                           uint64_t stack[FUNNELCRESS_WALKER_STACK]);

/* One step on a record of n positions: kind 0 (a node was tested, with its number), kind 1 (a position, with its number),
 * kind 3 (done, now and later), or kind 2 with the words as they were. Any words hold some walker; one that no walk leads
 * to is forged, refused 10, as is one with -0.0 in its ray's origin or direction. Refusals: 1, 2, 10. */
uint64_t funnelcress_step(uint64_t head[FUNNELCRESS_WALKER_HEAD], uint64_t stack[FUNNELCRESS_WALKER_STACK],
                          const uint8_t *record, size_t record_len, size_t n);

/* Tells a distance: one from the ray's tmin on and below the walker's reach becomes its reach, any other does nothing, a
 * NaN too. Refuses nothing. */
void funnelcress_tell(uint64_t head[FUNNELCRESS_WALKER_HEAD], uint64_t stack[FUNNELCRESS_WALKER_STACK], float distance);

/* The half area of each box of six floats, at the front of out. Returns 0 or the cause. Refusals: 1, 4. */
uint32_t funnelcress_half_areas(const float *boxes, size_t boxes_len, float *out, size_t out_len);

/* The distance at which a ray enters each box, negative from inside, infinity for a miss, at the front of out. The ray's
 * zeros are read as by every function, its tmin and tmax not at all. Returns 0 or the cause. Refusals: 1, 4. */
uint32_t funnelcress_entry_distances(const float *boxes, size_t boxes_len, const float *ray, size_t ray_len, float *out,
                                     size_t out_len);

#ifdef __cplusplus
}
#endif

#endif
