/* Each cause of refusal from C, with guards around what is lent: prints a line a call, and fails where one is not refused
 * as it must be or a guard was written.
 *
 *   cc -std=c11 -O2 -Iinclude examples/refusals.c crates/funnelcress/out/libfunnelcress.a -o target/refusals && target/refusals */
#include "funnelcress.h"
#include <math.h>
#include <stdio.h>
#include <string.h>

enum { MOST = 256 };

static const float T[3][6] = {{0, 0, 0, 3, 1, 1}, {0, 0, 0, 1, 1, 1}, {2, 0, 0, 3, 1, 1}};
static const float along[8] = {-1, 0.5f, 0.5f, 1, 0, 0, 0, INFINITY};

static uint32_t words[21], indices[2] = {0, 1};
static uint32_t decisions[MOST], list[MOST], work[MOST];
static float costs[MOST], out[MOST];
static uint8_t record[MOST], side[MOST];
static uint64_t ray_totals[MOST], pane_totals[MOST];
static int failures;

/* A sample tree of two leaves in `words`, and patterns in all that is lent. */
static void fresh(void) {
    const uint32_t links[3] = {FUNNELCRESS_INNER(1), FUNNELCRESS_LEAF(0), FUNNELCRESS_LEAF(1)};
    for (int v = 0; v < 3; v++) {
        memcpy(words + 7 * v, T[v], sizeof T[v]);
        words[7 * v + 6] = links[v];
    }
    memset(decisions, 0xa5, sizeof decisions);
    memset(costs, 0xa5, sizeof costs);
    memset(record, 0xa5, sizeof record);
    memset(side, 0xa5, sizeof side);
    memset(list, 0xa5, sizeof list);
    memset(work, 0xa5, sizeof work);
    memset(out, 0xa5, sizeof out);
    memset(ray_totals, 0xa5, sizeof ray_totals);
    memset(pane_totals, 0xa5, sizeof pane_totals);
}

/* Whether the bytes from a place on are as `fresh` left them. */
static int kept(const void *all, size_t from, size_t size) {
    const uint8_t *bytes = all;
    for (size_t i = from; i < size; i++) {
        if (bytes[i] != 0xa5) {
            return 0;
        }
    }
    return 1;
}

static void expect(const char *call, uint32_t cause, uint64_t number, int stayed) {
    int good = funnelcress_cause(number) == cause && stayed;
    printf("%-44s refused %2u%s\n", call, funnelcress_cause(number), good ? "" : "   WRONG");
    failures += !good;
}

/* Conversion with so many words, indices and room, and its outputs untouched. */
static void convert(const char *call, uint32_t cause, size_t words_len, size_t n, uint32_t limit, uint32_t order, size_t room) {
    uint64_t number =
        funnelcress_bvh2_to_cwbvh(words, words_len, indices, n, limit, order, decisions, room, costs, 21, record, 80, list, 2);
    size_t used = cause >= 5 ? 21 * sizeof(uint32_t) : 0;
    int zero = 1;
    for (size_t i = 0; i < used / sizeof(uint32_t); i++) {
        zero = zero && decisions[i] == 0 && costs[i] == 0;
    }
    expect(call, cause, number,
           zero && kept(decisions, used, sizeof decisions) && kept(costs, used, sizeof costs) && kept(record, 0, MOST) && kept(list, 0, sizeof list));
    fresh();
}

static void trees(void) {
    float nan = NAN;
    convert("convert, a word short", 1, 20, 2, 3, 1, 21);
    convert("convert, leaf limit 4", 3, 21, 2, 4, 1, 21);
    convert("convert, order 2", 3, 21, 2, 3, 2, 21);
    convert("convert, decisions short", 4, 21, 2, 3, 1, 20);
    words[6] = FUNNELCRESS_INNER(2);
    convert("convert, a link beyond the tree", 5, 21, 2, 3, 1, 21);
    memcpy(words + 7, &nan, sizeof nan);
    convert("convert, a box with a NaN", 6, 21, 2, 3, 1, 21);
    words[20] = FUNNELCRESS_LEAF(0);
    convert("convert, a position held twice", 7, 21, 2, 3, 1, 21);
}

/* Timed conversion with these spans of so many panes and with so much room for the side table: refused, all outputs untouched, and from 5
 * on the working slices zero. */
static void convert_timed(const char *call, uint32_t cause, size_t panes, const uint8_t *spans, size_t spans_len, size_t room) {
    uint64_t number = funnelcress_bvh2_to_cwbvh_timed(words, 21, indices, 2, 3, 0, panes, spans, spans_len, decisions, 21, costs, 21, record,
                                                      80, list, 2, side, room);
    size_t used = cause >= 5 ? 21 : 0;
    int zero = 1;
    for (size_t i = 0; i < used; i++) {
        zero = zero && decisions[i] == 0 && costs[i] == 0;
    }
    expect(call, cause, number,
           zero && kept(decisions, 4 * used, sizeof decisions) && kept(costs, 4 * used, sizeof costs) && kept(record, 0, MOST) &&
               kept(list, 0, sizeof list) && kept(side, 0, MOST));
    fresh();
}

static const uint8_t spans[4] = {32, 63, 60, 95};

static void timed_trees(void) {
    const uint8_t swapped[4] = {63, 32, 60, 95}, late[4] = {32, 63, 60, 96};
    convert_timed("timed convert, side table short", 4, 2, spans, 3, funnelcress_side_bytes(2) - 1);
    convert_timed("timed convert, a span byte short", 14, 2, spans, 3, 16);
    convert_timed("timed convert, a span from 63 to 32", 14, 2, swapped, 4, 16);
    convert_timed("timed convert, a span to 96", 14, 2, late, 4, 16);
    convert_timed("timed convert, an index past the panes", 14, 1, spans, 2, 16);
    words[20] = FUNNELCRESS_LEAF(0);
    convert_timed("timed convert, a position held twice", 7, 2, spans, 4, 16);
    words[20] = FUNNELCRESS_LEAF(0);
    convert_timed("timed convert, both", 14, 2, late, 4, 16);
    uint64_t number = funnelcress_bvh2_to_cwbvh_timed(words, 21, indices, 2, 3, 0, 2, spans, 4, decisions, 21, costs, 21, record, 80, list, 2,
                                                      side, MOST);
    int right = number == 1 && memcmp(side, spans, 4) == 0;
    for (int i = 4; i < 16; i++) {
        right = right && side[i] == 0;
    }
    expect("timed convert, nothing wrong", 0, number, right && kept(side, 16, MOST) && kept(record, 80, MOST));
    fresh();
}

/* A join of the sample with a second tree, with room for so many words: refused, its outputs untouched, and from 5 on the five marks
 * that two leaves need zero. */
static void join(const char *call, uint32_t cause, const uint32_t *second, size_t second_len, const uint32_t *second_indices, size_t n,
                 size_t panes, size_t room) {
    uint64_t number = funnelcress_join(words, 21, indices, 2, panes, second, second_len, second_indices, n, work, 5, decisions, room, list, 4);
    size_t used = cause >= 5 ? funnelcress_join_marks(2, 2) : 0;
    int zero = 1;
    for (size_t i = 0; i < used; i++) {
        zero = zero && work[i] == 0;
    }
    expect(call, cause, number,
           zero && kept(work, used * sizeof work[0], sizeof work) && kept(decisions, 0, sizeof decisions) && kept(list, 0, sizeof list));
    fresh();
}

static void joins(void) {
    static const uint32_t many[7 * 131069], many_indices[65535];
    const uint32_t links[7] = {1, 3, 5, FUNNELCRESS_LEAF(0), FUNNELCRESS_LEAF(1), FUNNELCRESS_LEAF(2), FUNNELCRESS_LEAF(3)};
    uint32_t second[21];
    float nan = NAN;
    memcpy(second, words, sizeof second);
    join("join, a word short", 1, second, 20, indices, 2, 2, 49);
    join("join, 65,537 leaves", 2, many, 7 * 131069, many_indices, 65535, 2, 49);
    join("join, words short", 4, second, 21, indices, 2, 2, 48);
    join("join, an index word of 2^32", 13, second, 21, indices, 2, UINT32_MAX, 49);
    second[20] = FUNNELCRESS_LEAF(0);
    join("join, a position held twice", 7, second, 21, indices, 2, UINT32_MAX, 49);
    memcpy(second + 7, &nan, sizeof nan);
    join("join, a box with a NaN", 6, second, 21, indices, 2, 2, 49);
    second[6] = FUNNELCRESS_INNER(2);
    join("join, a link beyond the tree", 5, second, 21, indices, 2, 2, 49);
    uint64_t number = funnelcress_join(words, 21, indices, 2, 2, words, 21, indices, 2, work, 5, decisions, 49, list, 4);
    int right = number == 4 && list[0] == 0 && list[1] == 1 && list[2] == 2 && list[3] == 3;
    for (int v = 0; v < 7; v++) {
        right = right && decisions[7 * v + 6] == links[v];
    }
    int past_kept = kept(work, 20, sizeof work) && kept(decisions, 4 * 49, sizeof decisions) && kept(list, 16, sizeof list);
    expect("join, nothing wrong", 0, number, right && past_kept);
    fresh();
}

/* The queries on the sample's record, with something wrong. */
static void queries(const uint8_t *good, const uint32_t *good_list) {
    float ray[8];
    uint8_t bad[80];
    memcpy(ray, along, sizeof ray);
    ray[7] = NAN;
    memcpy(bad, good, sizeof bad);
    bad[12] = 255;
    expect("check, a byte short", 1, funnelcress_validate(good, 79, 2, work, 3), kept(work, 0, sizeof work));
    expect("check, too many positions", 2, funnelcress_validate(good, 80, 65537, work, 3), kept(work, 0, sizeof work));
    expect("check, no working words", 4, funnelcress_validate(good, 80, 2, NULL, 0), 1);
    expect("any-hit, a ray of seven", 1, funnelcress_any_hit(good, 80, 2, along, 7, list, 2), kept(list, 0, sizeof list));
    expect("any-hit, tmax a NaN", 9, funnelcress_any_hit(good, 80, 2, ray, 8, list, 2), kept(list, 0, sizeof list));
    ray[6] = NAN, ray[7] = along[7];
    expect("any-hit, tmin a NaN", 9, funnelcress_any_hit(good, 80, 2, ray, 8, list, 2), kept(list, 0, sizeof list));
    expect("any-hit, a damaged record", 10, funnelcress_any_hit(bad, 80, 2, along, 8, list, 2), kept(list, 0, sizeof list));
    uint64_t lacking = funnelcress_any_hit(good, 80, 2, along, 8, list, 1);
    int eleven = funnelcress_kind(lacking) == 1 && funnelcress_value(lacking) == 2 && kept(list, 0, sizeof list);
    printf("%-44s refused 11, %u needed%s\n", "any-hit, a short list", funnelcress_value(lacking), eleven ? "" : "   WRONG");
    failures += !eleven;
    expect("closest, no float lent", 4, funnelcress_closest(good, 80, good_list, 2, T[1], 12, along, 8, NULL, 0), 1);
    expect("closest, an index past the panes", 10, funnelcress_closest(good, 80, good_list, 2, T[1], 6, along, 8, out, 1), kept(out, 0, sizeof out));
    expect("miss, panes of seven floats", 1, funnelcress_miss(good, 80, good_list, 2, T[1], 7, along, 8), 1);
}

/* A report of two rays for two panes, with so many floats, losses and room: refused, and both totals untouched. */
static void report(const char *call, uint32_t cause, const uint8_t *bytes, const uint32_t *good_list, const float *rays, size_t floats,
                   const uint32_t *losses, size_t losses_len, size_t room) {
    uint64_t number =
        funnelcress_report(bytes, 80, good_list, 2, 2, losses, losses_len, rays, floats, ray_totals, room, pane_totals, 2);
    expect(call, cause, number, kept(ray_totals, 0, sizeof ray_totals) && kept(pane_totals, 0, sizeof pane_totals));
}

static void reports(const uint8_t *good, const uint32_t *good_list) {
    static float many[8 * 65537];
    const uint32_t losses[3] = {3000, 1000000, 1000001}, past[2] = {0, 2};
    float rays[2][8];
    uint8_t bad[80];
    memcpy(rays[0], along, sizeof along);
    memcpy(rays[1], along, sizeof along);
    memcpy(bad, good, sizeof bad);
    bad[12] = 255;
    report("report, rays of fifteen floats", 1, good, good_list, rays[0], 15, losses, 2, 2);
    report("report, 65,537 rays", 2, good, good_list, many, 8 * 65537, losses, 2, 2);
    report("report, room for one ray", 4, good, good_list, rays[0], 16, losses, 2, 1);
    report("report, three losses for two panes", 12, good, good_list, rays[0], 16, losses, 3, 2);
    report("report, a loss of 1,000,001", 12, good, good_list, rays[0], 16, losses + 1, 2, 2);
    report("report, an index past the panes", 10, good, past, rays[0], 16, losses, 2, 2);
    report("report, a damaged record", 10, bad, good_list, rays[0], 16, losses, 2, 2);
    rays[1][7] = NAN;
    report("report, tmax of the last ray a NaN", 9, good, past, rays[0], 16, losses, 2, 2);
    rays[1][7] = 2.5f;
    uint64_t number = funnelcress_report(good, 80, good_list, 2, 2, losses, 2, rays[0], 16, ray_totals, 2, pane_totals, 2);
    int totals = ray_totals[0] == 1003000 && ray_totals[1] == 3000 && pane_totals[0] == 6000 && pane_totals[1] == 1000000;
    int past_kept = kept(ray_totals, 16, sizeof ray_totals) && kept(pane_totals, 16, sizeof pane_totals);
    expect("report, nothing wrong", 0, number, totals && past_kept && number == 2);
}

/* A timed report of the sample by two rays, with so many spans, side table bytes and quarter hours: refused, and both totals untouched. */
static void report_timed(const char *call, uint32_t cause, const uint8_t *good, const uint8_t *table, size_t table_len, size_t spans_len,
                         const uint8_t *quarters, size_t quarters_len, float last_tmax) {
    const uint32_t losses[2] = {3000, 500};
    float rays[2][8];
    memcpy(rays[0], along, sizeof along);
    memcpy(rays[1], along, sizeof along);
    rays[1][7] = last_tmax;
    uint64_t number = funnelcress_report_timed(good, 80, table, table_len, indices, 2, 2, spans, spans_len, losses, 2, rays[0], 16, quarters,
                                               quarters_len, ray_totals, 2, pane_totals, 2);
    if (cause != 0) {
        expect(call, cause, number, kept(ray_totals, 0, sizeof ray_totals) && kept(pane_totals, 0, sizeof pane_totals));
    } else {
        int totals = ray_totals[0] == 3000 && ray_totals[1] == 3500 && pane_totals[0] == 6000 && pane_totals[1] == 500;
        int past_kept = kept(ray_totals, 16, sizeof ray_totals) && kept(pane_totals, 16, sizeof pane_totals);
        expect(call, 0, number, totals && past_kept && number == 2);
    }
    fresh();
}

static void timed_reports(void) {
    const uint8_t quarters[3] = {40, 61, 96};
    uint8_t good[80], table[32];
    uint32_t good_list[2];
    failures += funnelcress_bvh2_to_cwbvh_timed(words, 21, indices, 2, 3, 0, 2, spans, 4, decisions, 21, costs, 21, good, 80, good_list, 2,
                                                table, 16) != 1;
    fresh();
    report_timed("timed report, a quarter hour short", 1, good, table, 16, 3, quarters, 1, NAN);
    report_timed("timed report, a span byte short", 14, good, table, 16, 3, quarters, 2, NAN);
    report_timed("timed report, side table of 17 bytes", 14, good, table, 17, 4, quarters, 2, NAN);
    report_timed("timed report, quarter hour 96", 14, good, table, 16, 4, quarters + 1, 2, NAN);
    report_timed("timed report, tmax of the last ray a NaN", 9, good, table, 16, 4, quarters, 2, NAN);
    report_timed("timed report, nothing wrong", 0, good, table, 16, 4, quarters, 2, INFINITY);
}

static void walkers(const uint8_t *good) {
    funnelcress_walker w, before;
    memset(&w, 0xa5, sizeof w);
    expect("begin, a ray of nine", 1, funnelcress_begin(along, 9, w.head, w.stack), kept(&w, 0, sizeof w));
    expect("step, words that no walk left", 10, funnelcress_step(w.head, w.stack, good, 80, 2), kept(&w, 0, sizeof w));
    failures += funnelcress_begin(along, 8, w.head, w.stack) != 0;
    before = w;
    expect("step, a byte short", 1, funnelcress_step(w.head, w.stack, good, 79, 2), memcmp(&w, &before, sizeof w) == 0);
    expect("step, too many positions", 2, funnelcress_step(w.head, w.stack, good, 80, 65537), memcmp(&w, &before, sizeof w) == 0);
}

/* A walker just begun, with -0.0 in one of the words 0 to 5, its ray's origin and direction, and with this inverse of a direction
 * that is zero there (words 6 to 8): forged, and what it is told becomes its reach (word 10) all the same. */
static void forged(const uint8_t *good, int at, const char *named, uint64_t inverse) {
    char call[64];
    funnelcress_walker w, before;
    failures += funnelcress_begin(along, 8, w.head, w.stack) != 0;
    w.head[at] = 0x80000000;
    if (at >= 3) {
        w.head[at + 3] = inverse;
    }
    before = w;
    uint64_t number = funnelcress_step(w.head, w.stack, good, 80, 2);
    int stayed = memcmp(&w, &before, sizeof w) == 0;
    funnelcress_tell(w.head, w.stack, 2.0f);
    before.head[10] = 0x40000000;
    snprintf(call, sizeof call, "step, -0.0 in %s %c%s", at < 3 ? "origin" : "direction", "xyz"[at % 3], named);
    expect(call, 10, number, stayed && memcmp(&w, &before, sizeof w) == 0);
}

/* -0.0 in origin and direction: read as +0.0 where a ray is asked, forged where a walker's words hold it. */
static void zeros(const uint8_t *good) {
    const float ray[8] = {-1, -0.0f, 0.5f, 1, -0.0f, -0.0f, 0, INFINITY};
    uint32_t met[2];
    uint64_t number = funnelcress_any_hit(good, 80, 2, ray, 8, met, 2);
    expect("any-hit, -0.0 in origin and direction", 0, number, funnelcress_value(number) == 2 && met[0] == 1 && met[1] == 0);
    for (int at = 0; at < 6; at++) {
        forged(good, at, "", 0x4b000000);
    }
    for (int at = 3; at < 6; at++) {
        forged(good, at, ", inverse -2^23", 0xcb000000);
    }
}

int main(void) {
    uint8_t good[80];
    uint32_t good_list[2];
    fresh();
    trees();
    timed_trees();
    joins();
    if (funnelcress_bvh2_to_cwbvh(words, 21, indices, 2, 3, 1, decisions, 21, costs, 21, good, 80, good_list, 2) != 1) {
        return 1;
    }
    fresh();
    queries(good, good_list);
    reports(good, good_list);
    timed_reports();
    walkers(good);
    zeros(good);
    printf("%d wrong\n", failures);
    return failures != 0;
}
