/* A small house from C: its tree converted, the record checked, a ray asked for what it meets, a report of two rays, one of
 * a screen drawn at noon, and the house joined to a corridor.
 *
 *   (cd crates/funnelcress && rt lib)
 *   cc -std=c11 -O2 -Iinclude examples/house.c crates/funnelcress/out/libfunnelcress.a -o target/house && target/house */
#include "funnelcress.h"
#include <math.h>
#include <stdio.h>
#include <stdlib.h>
#include <string.h>

enum { PANES = 6 };

/* Four walls and two halves of a roof, in metres: min x y z, max x y z. */
static const float panes[PANES][6] = {
    {0.0f, 0.0f, 0.0f, 8.0f, 0.02f, 3.0f}, {0.0f, 4.98f, 0.0f, 8.0f, 5.0f, 3.0f}, {0.0f, 0.0f, 0.0f, 0.02f, 5.0f, 3.0f},
    {7.98f, 0.0f, 0.0f, 8.0f, 5.0f, 3.0f}, {0.0f, 0.0f, 3.0f, 8.0f, 2.5f, 4.0f},  {0.0f, 2.5f, 3.0f, 8.0f, 5.0f, 4.0f},
};

static const char *names[PANES] = {"south wall", "north wall", "west wall", "east wall", "south roof", "north roof"};

/* What each takes from a ray, in thousandths of a decibel. */
static const uint32_t losses[PANES] = {458, 458, 458, 458, 706, 706};

/* What a call was refused for ends the program. */
static uint64_t unless_refused(const char *call, uint64_t number) {
    if (funnelcress_cause(number) != 0) {
        fprintf(stderr, "%s: refused %u\n", call, funnelcress_cause(number));
        exit(1);
    }
    return number;
}

/* A tree node: a box around panes from..to, and a link. */
static void put_node(uint32_t *node, int from, int to, uint32_t link) {
    float box[6];
    memcpy(box, panes[from], sizeof box);
    for (int i = from; i < to; i++) {
        for (int k = 0; k < 3; k++) {
            box[k] = panes[i][k] < box[k] ? panes[i][k] : box[k];
            box[k + 3] = panes[i][k + 3] > box[k + 3] ? panes[i][k + 3] : box[k + 3];
        }
    }
    memcpy(node, box, sizeof box);
    node[6] = link;
}

/* A chain: node 2k has leaf k and the rest of the panes as its children. */
static void build_tree(uint32_t *words, uint32_t *indices) {
    for (int k = 0; k < PANES; k++) {
        indices[k] = (uint32_t)k;
        if (k + 1 < PANES) {
            put_node(words + 7 * (2 * k), k, PANES, FUNNELCRESS_INNER(2 * k + 1));
            put_node(words + 7 * (2 * k + 1), k, k + 1, FUNNELCRESS_LEAF(k));
        } else {
            put_node(words + 7 * (2 * k), k, k + 1, FUNNELCRESS_LEAF(k));
        }
    }
}

/* The house as a record: its length in bytes. */
static size_t convert(uint8_t *record, uint32_t *list) {
    static uint32_t words[7 * (2 * PANES - 1)], indices[PANES], decisions[7 * (2 * PANES - 1)];
    static float costs[7 * (2 * PANES - 1)];
    build_tree(words, indices);
    uint64_t number = funnelcress_bvh2_to_cwbvh(
        words, funnelcress_tree_words(PANES), indices, PANES, 3, 1, decisions, funnelcress_table_words(PANES), costs,
        funnelcress_table_words(PANES), record, funnelcress_record_bytes(PANES), list, PANES);
    uint32_t nodes = funnelcress_value(unless_refused("convert", number)) & 0xffff;
    printf("converted: %u nodes\n", nodes);
    return (size_t)nodes * FUNNELCRESS_NODE_BYTES;
}

static void check(const uint8_t *record, size_t length) {
    uint32_t work[2 * PANES];
    uint64_t number = unless_refused("check", funnelcress_validate(record, length, PANES, work, 2 * PANES));
    if (funnelcress_kind(number) != 0) {
        fprintf(stderr, "the record is not sound\n");
        exit(1);
    }
    printf("sound %u\n", funnelcress_value(number));
}

/* All that the ray passes, by a walker that is told nothing. */
static void walk(const uint8_t *record, size_t length, const uint32_t *list, const float *ray) {
    funnelcress_walker w;
    unless_refused("begin", funnelcress_begin(ray, FUNNELCRESS_RAY_FLOATS, w.head, w.stack));
    for (;;) {
        uint64_t number = unless_refused("step", funnelcress_step(w.head, w.stack, record, length, PANES));
        if (funnelcress_kind(number) == 3) {
            return;
        }
        if (funnelcress_kind(number) == 1) {
            printf("passes %s\n", names[list[funnelcress_value(number)]]);
        }
    }
}

/* What a ray and the same towards the north lose, and what each pane takes from both. */
static void report(const uint8_t *record, size_t length, const uint32_t *list, const float *ray) {
    float rays[2][8];
    uint64_t ray_totals[2], pane_totals[PANES];
    memcpy(rays[0], ray, sizeof rays[0]);
    memcpy(rays[1], ray, sizeof rays[1]);
    rays[1][4] = -ray[4];
    uint64_t number = unless_refused("report", funnelcress_report(record, length, list, PANES, PANES, losses, PANES, rays[0], 16,
                                                                  ray_totals, 2, pane_totals, PANES));
    printf("two rays lose %.3f and %.3f dB, by %u node tests\n", ray_totals[0] / 1e3, ray_totals[1] / 1e3, funnelcress_value(number));
    for (int k = 0; k < PANES; k++) {
        printf("%s takes %.3f dB\n", names[k], pane_totals[k] / 1e3);
    }
}

/* The house with a screen for its south wall, drawn from 10:00 to 14:00: what a ray loses at 9:00 and at noon. */
static void screen(const float *ray) {
    static uint32_t words[7 * (2 * PANES - 1)], indices[PANES], list[PANES], decisions[7 * (2 * PANES - 1)];
    static float costs[7 * (2 * PANES - 1)];
    uint8_t record[80 * PANES], side[16 * PANES], spans[PANES][2];
    const uint8_t quarters[2] = {4 * 9, 4 * 12};
    uint64_t ray_totals[2], pane_totals[PANES];
    float rays[2][8];
    build_tree(words, indices);
    for (int k = 0; k < PANES; k++) {
        spans[k][0] = k == 0 ? 4 * 10 : 0;
        spans[k][1] = k == 0 ? 4 * 14 - 1 : FUNNELCRESS_LAST_QUARTER;
    }
    uint64_t number = funnelcress_bvh2_to_cwbvh_timed(
        words, funnelcress_tree_words(PANES), indices, PANES, 3, 1, PANES, spans[0], 2 * PANES, decisions, funnelcress_table_words(PANES),
        costs, funnelcress_table_words(PANES), record, funnelcress_record_bytes(PANES), list, PANES, side, funnelcress_side_bytes(PANES));
    uint32_t nodes = funnelcress_value(unless_refused("timed convert", number)) & 0xffff;
    memcpy(rays[0], ray, sizeof rays[0]);
    memcpy(rays[1], ray, sizeof rays[1]);
    number = unless_refused("timed report", funnelcress_report_timed(record, (size_t)nodes * FUNNELCRESS_NODE_BYTES, side,
                                                                     (size_t)nodes * FUNNELCRESS_SIDE_BYTES, list, PANES, PANES, spans[0],
                                                                     2 * PANES, losses, PANES, rays[0], 16, quarters, 2, ray_totals, 2,
                                                                     pane_totals, PANES));
    printf("the ray loses %.3f dB at 9:00 and %.3f dB at noon\n", ray_totals[0] / 1e3, ray_totals[1] / 1e3);
}

/* The house and the roof of a corridor as one tree: the corridor's pane is counted on from the house's. */
static void join(void) {
    static uint32_t house[7 * (2 * PANES - 1)], house_indices[PANES], marks[3 * PANES];
    static uint32_t words[7 * (2 * PANES + 1)], indices[PANES + 1];
    const float roof[6] = {8.0f, 2.0f, 2.5f, 12.0f, 3.0f, 2.52f};
    uint32_t corridor[7] = {0, 0, 0, 0, 0, 0, FUNNELCRESS_LEAF(0)}, corridor_index = 0;
    float root[6];
    build_tree(house, house_indices);
    memcpy(corridor, roof, sizeof roof);
    uint64_t number = unless_refused(
        "join", funnelcress_join(house, funnelcress_tree_words(PANES), house_indices, PANES, PANES, corridor, 7, &corridor_index, 1, marks,
                                 funnelcress_join_marks(PANES, 1), words, funnelcress_tree_words(PANES + 1), indices, PANES + 1));
    memcpy(root, words, sizeof root);
    printf("with a corridor: %u leaves, %.1f m long, its roof is pane %u\n", funnelcress_value(number), root[3] - root[0], indices[PANES]);
}

int main(void) {
    uint8_t record[80 * PANES];
    uint32_t list[PANES], met[PANES];
    float distance = 0.0f;
    const float ray[8] = {4.0f, 2.0f, 0.8f, 0.3f, -0.5f, 0.4f, 0.0f, INFINITY};
    size_t length = convert(record, list);
    check(record, length);
    uint64_t any = unless_refused("any-hit", funnelcress_any_hit(record, length, PANES, ray, 8, met, PANES));
    printf("a ray from the bench passes %u positions, by %u node tests\n", funnelcress_value(any), funnelcress_tests(any));
    walk(record, length, list, ray);
    uint64_t near = unless_refused(
        "closest", funnelcress_closest(record, length, list, PANES, panes[0], 6 * PANES, ray, 8, &distance, 1));
    if (funnelcress_kind(near) == 0) {
        printf("nearest: %s at %.3f\n", names[list[funnelcress_value(near)]], distance);
    }
    uint64_t miss = unless_refused("miss", funnelcress_miss(record, length, list, PANES, panes[0], 6 * PANES, ray, 8));
    printf("the sun %s\n", funnelcress_kind(miss) == 0 ? "is seen" : "is behind glass");
    report(record, length, list, ray);
    screen(ray);
    join();
    printf("no nodes, NULL for empty slices: %u positions\n",
           funnelcress_value(unless_refused("any-hit", funnelcress_any_hit(NULL, 0, 0, ray, 8, NULL, 0))));
    return 0;
}
