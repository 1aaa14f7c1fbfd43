/* Calls every function of tanqesha.h: answers worked out from document 01, each lent slice one too short, damaged and empty
 * ones; after a refusal all lent memory must be as it was. Prints one line; the status is 1 if a check failed. */
#include <math.h>
#include <stdio.h>
#include <stdlib.h>
#include <string.h>

#include "../tanqesha.h"

#define BEFORE 0xabcdu
#define BEFORE_REAL (-7.5)
#define COUNT(array) (sizeof(array) / sizeof((array)[0]))
/* the length of slice k, one less if it is the one to cut */
#define LENGTH(array, k) (COUNT(array) - ((k) == cut))
#define WHOLE 99

static unsigned checks, failures;

static void check(int holds, int line, const char *what)
{
    checks++;
    if (!holds) {
        failures++;
        printf("check.c:%d: %s\n", line, what);
    }
}

#define CHECK(condition) check((condition) ? 1 : 0, __LINE__, #condition)
/* equal bytes */
#define SAME(a, b) (sizeof(a) == sizeof(b) && memcmp((a), (b), sizeof(a)) == 0)

/* ---- numbers and labels */

static void numbers(void)
{
    const double items[] = {1e16, 1.0, -1e16, 0.25};
    CHECK(tanqesha_is_valid(-0.0) && tanqesha_is_valid(2.5));
    CHECK(!tanqesha_is_valid(-1.0) && !tanqesha_is_valid(INFINITY) && !tanqesha_is_valid(NAN));
    CHECK(tanqesha_is_zero(-0.0) && !tanqesha_is_zero(5e-324) && !tanqesha_is_zero(NAN));
    CHECK(tanqesha_sum(items, 4) == 0.25 && tanqesha_sum(items, 1) == 1e16 && tanqesha_sum(items, 0) == 0.0);
}

static void labels(void)
{
    uint32_t list[4] = {70, 50, 9, 9}, full[257], id = BEFORE, present = BEFORE, value = BEFORE;
    const uint32_t list_before[4] = {70, 50, 8, 9}, twice[2] = {70, 70};
    size_t total = BEFORE, i;
    for (i = 0; i < 257; i++)
        full[i] = (uint32_t)i;

    /* refused: the references and the list are kept */
    CHECK(tanqesha_intern(list, 2, 2, 8, &id, &total) == TANQESHA_STORE);
    CHECK(tanqesha_intern(list, 0, 0, 8, &id, &total) == TANQESHA_STORE);
    CHECK(tanqesha_intern(list, 1, 2, 8, &id, &total) == TANQESHA_OUT_OF_RANGE);
    CHECK(tanqesha_intern(full, 257, 256, 256, &id, &total) == TANQESHA_MODEL_SIZE);
    CHECK(tanqesha_intern(full, 257, 257, 0, &id, &total) == TANQESHA_MODEL_SIZE);
    CHECK(list[0] == 70 && list[1] == 50 && list[2] == 9 && full[256] == 256 && id == BEFORE && total == BEFORE);
    CHECK(tanqesha_intern(list, 4, 2, 50, &id, &total) == 0 && id == 1 && total == 2);
    CHECK(tanqesha_intern(list, 4, 2, 8, &id, &total) == 0 && id == 2 && total == 3 && SAME(list, list_before));

    id = BEFORE;
    CHECK(tanqesha_get(list, 1, 2, 50, &present, &id) == TANQESHA_OUT_OF_RANGE);
    CHECK(tanqesha_get(twice, 2, 2, 50, &present, &id) == TANQESHA_OUT_OF_RANGE);
    CHECK(tanqesha_get(full, 257, 257, 50, &present, &id) == TANQESHA_MODEL_SIZE);
    CHECK(present == BEFORE && id == BEFORE);
    CHECK(tanqesha_get(list, 4, 2, 51, &present, &id) == 0 && present == 0 && id == BEFORE);
    CHECK(tanqesha_get(list, 0, 0, 51, &present, &id) == 0 && present == 0 && id == BEFORE);
    CHECK(tanqesha_get(list, 4, 2, 50, &present, &id) == 0 && present == 1 && id == 1);

    CHECK(tanqesha_resolve(list, 1, 2, 1, &value) == TANQESHA_OUT_OF_RANGE);
    CHECK(tanqesha_resolve(list, 4, 2, 2, &value) == TANQESHA_OUT_OF_RANGE);
    CHECK(tanqesha_resolve(list, 0, 0, 0, &value) == TANQESHA_OUT_OF_RANGE);
    CHECK(tanqesha_resolve(full, 257, 257, 1, &value) == TANQESHA_MODEL_SIZE);
    CHECK(value == BEFORE);
    CHECK(tanqesha_resolve(list, 4, 2, 1, &value) == 0 && value == 50);
}

/* ---- models */

/* A model in memory, and which of its slices is one too short. */
struct model {
    size_t states, edges, labels;
    uint32_t present, start;
    uint32_t label_values[3], offsets[4], edge_labels[3], edge_targets[3];
    double edge_weights[3];
    size_t lengths[5];
};

/* counts, initial state and columns of a model, as arguments */
#define MODEL(m)                                                                                                   \
    (m)->states, (m)->edges, (m)->labels, (m)->present, (m)->start, (m)->label_values, (m)->lengths[0], (m)->offsets, \
        (m)->lengths[1], (m)->edge_labels, (m)->lengths[2], (m)->edge_targets, (m)->lengths[3], (m)->edge_weights,    \
        (m)->lengths[4]

/* 0 to 1 with label 70 at 3.5, 0 to 2 with 50 at 1, 2 to itself with 50 at 2; label 90 has no edge. */
static const struct model sample = {3, 3, 3, 1, 0, {70, 50, 90}, {0, 2, 2, 3}, {0, 1, 1}, {1, 2, 2}, {3.5, 1.0, 2.0}, {3, 4, 3, 3, 3}};
/* State 0 with rates to 1, or to 1 and 2, under one label. */
static const struct model at_2 = {2, 1, 1, 1, 0, {7}, {0, 1, 1}, {0}, {1}, {2.0}, {1, 3, 1, 1, 1}};
static const struct model at_4 = {2, 1, 1, 1, 0, {7}, {0, 1, 1}, {0}, {1}, {4.0}, {1, 3, 1, 1, 1}};
static const struct model at_3_1 = {3, 2, 1, 1, 0, {7}, {0, 2, 2, 2}, {0, 0}, {1, 2}, {3.0, 1.0}, {1, 4, 2, 2, 2}};
static const struct model at_2_2 = {3, 2, 1, 1, 0, {7}, {0, 2, 2, 2}, {0, 0}, {1, 2}, {2.0, 2.0}, {1, 4, 2, 2, 2}};

/* Damage number k to the sample; answers the refusal, or 0 if there is no such damage. */
static uint32_t damage(struct model *m, unsigned k)
{
    *m = sample;
    switch (k) {
    case 0: m->states = 2001; return TANQESHA_MODEL_SIZE;
    case 1: m->edges = 4097; return TANQESHA_MODEL_SIZE;
    case 2: m->labels = 257; return TANQESHA_MODEL_SIZE;
    case 3: case 4: case 5: case 6: case 7: m->lengths[k - 3]--; return TANQESHA_OUT_OF_RANGE;
    case 8: memset(m->lengths, 0, sizeof m->lengths); return TANQESHA_OUT_OF_RANGE;
    case 9: m->start = 3; return TANQESHA_OUT_OF_RANGE;
    case 10: m->edge_targets[1] = 3; return TANQESHA_OUT_OF_RANGE;
    case 11: m->edge_labels[2] = 3; return TANQESHA_OUT_OF_RANGE;
    case 12: m->offsets[0] = 1; return TANQESHA_OUT_OF_RANGE;
    case 13: m->offsets[3] = 2; return TANQESHA_OUT_OF_RANGE;
    case 14: m->offsets[1] = 3; return TANQESHA_OUT_OF_RANGE;
    case 15: m->edge_labels[0] = 1; m->edge_labels[1] = 0; return TANQESHA_OUT_OF_RANGE;
    case 16: m->label_values[2] = 70; return TANQESHA_OUT_OF_RANGE;
    case 17: m->edge_weights[0] = -0.0; return TANQESHA_OUT_OF_RANGE;
    case 18: m->edge_weights[0] = NAN; return TANQESHA_WEIGHT;
    case 19: m->edge_weights[0] = ldexp(1.0, 53); return TANQESHA_WEIGHT;
    case 20: m->edge_weights[0] = -1.0; return TANQESHA_WEIGHT;
    default: return 0;
    }
}

static void building(void)
{
    const uint32_t sources[] = {0, 0, 0, 1, 2}, label_of[] = {70, 50, 70, 90, 50}, targets[] = {1, 2, 1, 0, 2};
    const double weights[] = {3.0, 1.0, 0.5, -0.0, 2.0}, bad_weights[] = {3.0, 1.0, 0.5, -0.0, NAN};
    const uint32_t outside[] = {0, 0, 0, 1, 3};
    struct {
        uint32_t label_values[5], offsets[4], edge_labels[5], edge_targets[5];
        double edge_weights[5];
        size_t edges, distinct;
    } lent, before;
    const uint32_t offsets[] = {0, 2, 2, 3};
    size_t cut = WHOLE;
    memset(&before, 0x5e, sizeof before);
    memcpy(&lent, &before, sizeof before);
#define BUILD(states, start, given, from, weight)                                                                    \
    tanqesha_build(states, 1, start, given, from, LENGTH(sources, 0), label_of, LENGTH(label_of, 1), targets,         \
                   LENGTH(targets, 2), weight, LENGTH(weights, 3), lent.label_values, LENGTH(lent.label_values, 4),   \
                   lent.offsets, LENGTH(lent.offsets, 5), lent.edge_labels, LENGTH(lent.edge_labels, 6),              \
                   lent.edge_targets, LENGTH(lent.edge_targets, 7), lent.edge_weights, LENGTH(lent.edge_weights, 8),  \
                   &lent.edges, &lent.distinct)
    for (cut = 0; cut < 9; cut++)
        CHECK(BUILD(3, 0, 5, sources, weights) == TANQESHA_STORE);
    CHECK(BUILD(3, 0, 6, sources, weights) == TANQESHA_STORE);
    CHECK(BUILD(2001, 0, 5, sources, weights) == TANQESHA_MODEL_SIZE);
    CHECK(BUILD(3, 0, 4097, sources, weights) == TANQESHA_MODEL_SIZE);
    CHECK(BUILD(3, 3, 5, sources, weights) == TANQESHA_OUT_OF_RANGE);
    CHECK(BUILD(3, 0, 5, outside, weights) == TANQESHA_OUT_OF_RANGE);
    CHECK(BUILD(3, 0, 5, sources, bad_weights) == TANQESHA_WEIGHT);
    CHECK(memcmp(&lent, &before, sizeof before) == 0);
    CHECK(BUILD(3, 0, 5, sources, weights) == 0 && lent.edges == 3 && lent.distinct == 3);
    CHECK(memcmp(lent.label_values, sample.label_values, sizeof sample.label_values) == 0 && SAME(lent.offsets, offsets));
    CHECK(memcmp(lent.edge_labels, sample.edge_labels, sizeof sample.edge_labels) == 0);
    CHECK(memcmp(lent.edge_targets, sample.edge_targets, sizeof sample.edge_targets) == 0);
    CHECK(memcmp(lent.edge_weights, sample.edge_weights, sizeof sample.edge_weights) == 0);
    /* what stands behind is kept */
    CHECK(memcmp(lent.label_values + 3, before.label_values + 3, 2 * sizeof(uint32_t)) == 0);
    CHECK(memcmp(lent.edge_weights + 3, before.edge_weights + 3, 2 * sizeof(double)) == 0);
    /* no states and no transitions, every slice empty but one offset */
    CHECK(tanqesha_build(0, 0, 0, 0, sources, 0, label_of, 0, targets, 0, weights, 0, lent.label_values, 0, lent.offsets, 1,
                         lent.edge_labels, 0, lent.edge_targets, 0, lent.edge_weights, 0, &lent.edges, &lent.distinct) == 0);
    CHECK(lent.edges == 0 && lent.distinct == 0 && lent.offsets[0] == 0);
}

static void too_many_targets(void)
{
    uint32_t sources[32] = {0}, label_of[32] = {0}, targets[32], label_values[32], offsets[34], edge_labels[32], edge_targets[32];
    double weights[32], edge_weights[32];
    size_t edges = BEFORE, distinct = BEFORE, given;
    for (given = 0; given < 32; given++) {
        targets[given] = (uint32_t)given + 1;
        weights[given] = 1.0;
    }
    for (given = 32; given > 30; given--) {
        uint32_t number = tanqesha_build(33, 0, 0, given, sources, 32, label_of, 32, targets, 32, weights, 32, label_values, 32,
                                         offsets, 34, edge_labels, 32, edge_targets, 32, edge_weights, 32, &edges, &distinct);
        CHECK(number == (given == 32 ? TANQESHA_TARGETS : 0));
        CHECK(given == 32 ? edges == BEFORE && distinct == BEFORE : edges == 31 && distinct == 1);
    }
}

static void reading(void)
{
    const struct model *m = &sample;
    struct model bad;
    size_t count = BEFORE, from = BEFORE, to = BEFORE;
    uint32_t found = BEFORE, state = BEFORE, value = BEFORE, id = BEFORE, number;
    unsigned k;
    for (k = 0; (number = damage(&bad, k)) != 0; k++) {
        CHECK(tanqesha_model_refusal(MODEL(&bad)) == number);
        CHECK(tanqesha_num_states(MODEL(&bad), &count) == number);
        CHECK(tanqesha_num_transitions(MODEL(&bad), &count) == number);
        CHECK(tanqesha_num_labels(MODEL(&bad), &count) == number);
        CHECK(tanqesha_initial(MODEL(&bad), &found, &state) == number);
        CHECK(tanqesha_successors(MODEL(&bad), 0, &from, &to) == number);
        CHECK(tanqesha_label(MODEL(&bad), 0, &value) == number);
        CHECK(tanqesha_label_id(MODEL(&bad), 70, &found, &id) == number);
    }
    CHECK(tanqesha_successors(MODEL(m), 3, &from, &to) == TANQESHA_OUT_OF_RANGE);
    CHECK(tanqesha_label(MODEL(m), 3, &value) == TANQESHA_OUT_OF_RANGE);
    CHECK(count == BEFORE && from == BEFORE && to == BEFORE);
    CHECK(found == BEFORE && state == BEFORE && value == BEFORE && id == BEFORE);

    CHECK(tanqesha_model_refusal(MODEL(m)) == 0);
    CHECK(tanqesha_num_states(MODEL(m), &count) == 0 && count == 3);
    CHECK(tanqesha_num_transitions(MODEL(&at_2), &count) == 0 && count == 1);
    CHECK(tanqesha_num_labels(MODEL(m), &count) == 0 && count == 3);
    CHECK(tanqesha_initial(MODEL(m), &found, &state) == 0 && found == 1 && state == 0);
    CHECK(tanqesha_successors(MODEL(m), 2, &from, &to) == 0 && from == 2 && to == 3);
    CHECK(tanqesha_label(MODEL(m), 1, &value) == 0 && value == 50);
    CHECK(tanqesha_label_id(MODEL(m), 91, &found, &id) == 0 && found == 0 && id == BEFORE);
    CHECK(tanqesha_label_id(MODEL(m), 90, &found, &id) == 0 && found == 1 && id == 2);
    bad = sample;
    bad.present = 0;
    state = BEFORE;
    CHECK(tanqesha_initial(MODEL(&bad), &found, &state) == 0 && found == 0 && state == BEFORE);
}

/* ---- networks */

static struct tanqesha_network net, kept;

static void networks(void)
{
    double flow = BEFORE_REAL;
    size_t phases = BEFORE, pushes = BEFORE;
    CHECK(sizeof(struct tanqesha_link) == 24 && offsetof(struct tanqesha_link, cap) == 8);
    CHECK(sizeof net == 61216 && offsetof(struct tanqesha_network, list) == 52508);
    memset(&net, 0x5e, sizeof net);
    kept = net;
    CHECK(tanqesha_new_network(67, &net) == TANQESHA_NETWORK_OR_MASSES);
    CHECK(tanqesha_add_edge(&net, 0, 1, 1.0, 0.0) == TANQESHA_NETWORK_OR_MASSES);
    CHECK(tanqesha_max_flow(&net, 0, 1, &flow, &phases, &pushes) == TANQESHA_NETWORK_OR_MASSES);
    CHECK(memcmp(&net, &kept, sizeof net) == 0 && flow == BEFORE_REAL && phases == BEFORE && pushes == BEFORE);

    CHECK(tanqesha_new_network(3, &net) == 0 && net.nodes == 3 && net.count == 0 && net.starts[66] == 0 && net.list[2175] == 0);
    CHECK(tanqesha_add_edge(&net, 0, 1, 0.75, 2.0) == 0 && tanqesha_add_edge(&net, 1, 2, 0.5, 0.0) == 0);
    CHECK(net.count == 4 && net.links[0].head == 1 && net.links[0].cap == 0.75 && net.links[0].cost == 2.0);
    CHECK(net.links[1].head == 0 && net.links[1].cap == 0.0 && net.links[1].cost == -2.0);
    CHECK(net.starts[1] == 1 && net.starts[2] == 3 && net.starts[3] == 4 && net.list[2] == 2 && net.list[3] == 3);
    kept = net;
    CHECK(tanqesha_add_edge(&net, 3, 1, 1.0, 0.0) == 15 && tanqesha_add_edge(&net, 0, 3, 1.0, 0.0) == 15);
    CHECK(tanqesha_add_edge(&net, 0, 1, NAN, 0.0) == 15 && tanqesha_add_edge(&net, 0, 1, 1.0, INFINITY) == 15);
    CHECK(tanqesha_max_flow(&net, 0, 0, &flow, &phases, &pushes) == 15);
    CHECK(tanqesha_max_flow(&net, 0, 3, &flow, &phases, &pushes) == 15);
    net.list[0] = kept.list[0] = 3;
    CHECK(tanqesha_max_flow(&net, 0, 2, &flow, &phases, &pushes) == 15);
    CHECK(tanqesha_add_edge(&net, 0, 1, 1.0, 0.0) == 15);
    CHECK(memcmp(&net, &kept, sizeof net) == 0 && flow == BEFORE_REAL && phases == BEFORE && pushes == BEFORE);
    net.list[0] = 0;
    CHECK(tanqesha_max_flow(&net, 0, 2, &flow, &phases, &pushes) == 0 && flow == 0.5 && phases == 1 && pushes == 1);
    CHECK(net.links[0].cap == 0.25 && net.links[1].cap == 0.5 && net.links[2].cap == 0.0 && net.links[3].cap == 0.5);
}

static void rows(void)
{
    const uint32_t heads[] = {1, 0, 2, 1}, list[] = {0, 1, 2, 3};
    uint32_t starts[67] = {0, 1, 3, 4};
    const double costs[] = {2.0, -2.0, 0.0, 0.0}, before[] = {0.75, 0.0, 0.5, 0.0}, after[] = {0.25, 0.5, 0.0, 0.5};
    double caps[] = {0.75, 0.0, 0.5, 0.0}, flow = BEFORE_REAL;
    size_t phases = BEFORE, pushes = BEFORE, cut;
#define ROWS                                                                                                         \
    heads, LENGTH(heads, 0), caps, LENGTH(caps, 1), costs, LENGTH(costs, 2), starts, LENGTH(starts, 3), list,         \
        LENGTH(list, 4), 3
    for (cut = 0; cut < 5; cut++) {
        CHECK(tanqesha_network_refusal(ROWS, 0, 2) == TANQESHA_NETWORK_OR_MASSES);
        CHECK(tanqesha_max_flow_rows(ROWS, 0, 2, &flow, &phases, &pushes) == TANQESHA_NETWORK_OR_MASSES);
    }
    CHECK(tanqesha_network_refusal(ROWS, 2, 2) == 15 && tanqesha_max_flow_rows(ROWS, 2, 2, &flow, &phases, &pushes) == 15);
    starts[1] = 2;
    CHECK(tanqesha_network_refusal(ROWS, 0, 2) == 15 && tanqesha_max_flow_rows(ROWS, 0, 2, &flow, &phases, &pushes) == 15);
    starts[1] = 1;
    CHECK(SAME(caps, before) && flow == BEFORE_REAL && phases == BEFORE && pushes == BEFORE);
    CHECK(tanqesha_network_refusal(ROWS, 0, 2) == 0);
    CHECK(tanqesha_max_flow_rows(ROWS, 0, 2, &flow, &phases, &pushes) == 0);
    CHECK(SAME(caps, after) && flow == 0.5 && phases == 1 && pushes == 1);
    /* no links, and no starts */
    memset(starts, 0, sizeof starts);
    CHECK(tanqesha_max_flow_rows(heads, 0, caps, 0, costs, 0, starts, 67, list, 0, 2, 0, 1, &flow, &phases, &pushes) == 0);
    CHECK(flow == 0.0 && phases == 0 && pushes == 0);
    CHECK(tanqesha_network_refusal(heads, 0, caps, 0, costs, 0, starts, 0, list, 0, 2, 0, 1) == 15);
}

/* ---- relations */

static void relations(void)
{
    const uint32_t classes[] = {0, 1, 2}, other[] = {9, 1, 2};
    const uint8_t alike[] = {0xa5, 0xa5, 0x5e}, apart[] = {0xa1, 0xa4, 0x5e}, zero[5] = {0}, whole[5] = {0x5e, 0x5e, 0x5e, 0x5e, 0x5e};
    uint8_t bytes[3] = {0x5e, 0x5e, 0x5e}, scratch[5] = {0x5e, 0x5e, 0x5e, 0x5e, 0x5e};
    uint32_t related = BEFORE, present = BEFORE, number;
    double epsilon = BEFORE_REAL;
    struct model bad;
    unsigned k;
#define THREE(left, right, left_classes, left_length, right_length, e, rho, length, one, two, three)                         \
    CHECK(tanqesha_epsdelta(MODEL(left), MODEL(right), left_classes, left_length, classes, right_length, e, rho, scratch,    \
                            length) == (one));                                                                               \
    CHECK(tanqesha_epsdelta_bisimilar(MODEL(left), MODEL(right), left_classes, left_length, classes, right_length, e, rho,   \
                                      scratch, length, &related) == (two));                                                  \
    CHECK(tanqesha_min_epsilon(MODEL(left), MODEL(right), left_classes, left_length, classes, right_length, rho, scratch,    \
                               length, &present, &epsilon) == (three))
    for (k = 0; (number = damage(&bad, k)) != 0; k++) {
        THREE(&bad, &at_2_2, classes, 3, 3, 0.25, 1.0, 5, number, number, number);
        THREE(&at_3_1, &bad, classes, 3, 3, 0.25, 1.0, 5, number, number, number);
    }
    THREE(&at_3_1, &at_2_2, classes, 2, 3, 0.25, 1.0, 5, TANQESHA_STORE, TANQESHA_STORE, TANQESHA_STORE);
    THREE(&at_3_1, &at_2_2, classes, 3, 2, 0.25, 1.0, 5, TANQESHA_STORE, TANQESHA_STORE, TANQESHA_STORE);
    THREE(&at_3_1, &at_2_2, classes, 3, 3, 0.25, 1.0, 4, TANQESHA_STORE, TANQESHA_STORE, TANQESHA_STORE);
    THREE(&at_3_1, &at_2_2, classes, 0, 0, 0.25, 1.0, 0, TANQESHA_STORE, TANQESHA_STORE, TANQESHA_STORE);
    THREE(&at_3_1, &at_2_2, classes, 3, 3, NAN, 0.5, 5, TANQESHA_TOLERANCE, TANQESHA_TOLERANCE, TANQESHA_TOLERANCE);
    bad = at_3_1;
    bad.present = 0;
    THREE(&bad, &at_2_2, classes, 3, 3, -1.0, 0.5, 5, TANQESHA_TOLERANCE, TANQESHA_NO_INITIAL_STATE, TANQESHA_NO_INITIAL_STATE);
    CHECK(SAME(scratch, whole) && related == BEFORE && present == BEFORE && epsilon == BEFORE_REAL);

    /* the card of document 01, and M8 */
    CHECK(tanqesha_epsdelta(MODEL(&at_2), MODEL(&at_4), classes, 2, classes, 2, 0.0, 2.0, bytes, 3) == 0 && SAME(bytes, alike));
    CHECK(tanqesha_related(2, 2, bytes, 2, 0, 0, &related) == 0 && related == 1);
    CHECK(tanqesha_related(2, 2, bytes, 2, 0, 1, &related) == 0 && related == 0);
    CHECK(tanqesha_epsdelta(MODEL(&at_2), MODEL(&at_4), classes, 2, classes, 2, -0.0, 1.5, bytes, 3) == 0 && SAME(bytes, apart));
    related = BEFORE;
    CHECK(tanqesha_related(2, 2, bytes, 1, 0, 0, &related) == TANQESHA_STORE);
    CHECK(tanqesha_related(2, 2, bytes, 0, 0, 0, &related) == TANQESHA_STORE);
    CHECK(tanqesha_related(2, 2, bytes, 2, 2, 0, &related) == TANQESHA_OUT_OF_RANGE);
    CHECK(tanqesha_related(2, 2, bytes, 2, 0, 2, &related) == TANQESHA_OUT_OF_RANGE);
    CHECK(tanqesha_related(2001, 2, bytes, 2, 0, 0, &related) == TANQESHA_MODEL_SIZE);
    CHECK(related == BEFORE);

    /* M9 and M10 */
    CHECK(tanqesha_epsdelta_bisimilar(MODEL(&at_3_1), MODEL(&at_2_2), classes, 3, classes, 3, 0.25, 1.0, scratch, 5, &related) == 0);
    CHECK(related == 1 && SAME(scratch, zero));
    memset(scratch, 0x5e, sizeof scratch);
    CHECK(tanqesha_epsdelta_bisimilar(MODEL(&at_3_1), MODEL(&at_2_2), classes, 3, classes, 3, 0.2, 1.0, scratch, 5, &related) == 0);
    CHECK(related == 0 && SAME(scratch, zero));
    memset(scratch, 0x5e, sizeof scratch);
    CHECK(tanqesha_min_epsilon(MODEL(&at_3_1), MODEL(&at_2_2), other, 3, classes, 3, 1.0, scratch, 5, &present, &epsilon) == 0);
    CHECK(present == 0 && epsilon == BEFORE_REAL && SAME(scratch, zero));
    CHECK(tanqesha_min_epsilon(MODEL(&at_3_1), MODEL(&at_2_2), classes, 3, classes, 3, 1.0, scratch, 5, &present, &epsilon) == 0);
    CHECK(present == 1 && epsilon == 0.25);
}

/* 2,001 states together are 7 in 500,000 bytes and 10 in 500,501. */
static void states_together(void)
{
    const size_t room = 500501;
    uint8_t *bytes = calloc(room, 1);
    uint32_t *zeros = calloc(1002, sizeof *zeros), related = BEFORE;
    double weight = 1.0;
    if (bytes == NULL || zeros == NULL) {
        CHECK(0);
    } else {
#define STILL(states) states, 0, 0, 0, 0, zeros, 0, zeros, (states) + 1, zeros, 0, zeros, 0, &weight, 0
        CHECK(tanqesha_epsdelta(STILL(1000), STILL(1000), zeros, 1000, zeros, 1000, 0.0, 1.0, bytes, 500000) == 0);
        CHECK(tanqesha_related(1000, 1000, bytes, 500000, 999, 999, &related) == 0 && related == 1);
        CHECK(tanqesha_epsdelta(STILL(1000), STILL(1001), zeros, 1000, zeros, 1001, 0.0, 1.0, bytes, 500000) == TANQESHA_STORE);
        CHECK(tanqesha_epsdelta(STILL(1000), STILL(1001), zeros, 1000, zeros, 1001, 0.0, 1.0, bytes, room) == TANQESHA_STATES_TOGETHER);
        CHECK(tanqesha_related(1000, 1001, bytes, room, 0, 0, &related) == TANQESHA_STATES_TOGETHER && related == 1);
    }
    free(bytes);
    free(zeros);
}

/* ---- the report of a card */

static void cards(void)
{
    static const char worked[] = "     2     0     1\n     0\n     1\n     0     0     1     2\n"
                                 "     2     0     1\n     0\n     1\n     0     0     1     4\n     0  2048\n";
    static const char text[] = "     2     2     2\n     0     0\n     1     1\n";
    static uint8_t out[13332], before[13332];
    const uint8_t *card = (const uint8_t *)worked;
    const size_t length = sizeof worked - 1;
    size_t written = BEFORE;
    memset(out, 0x7e, sizeof out);
    memcpy(before, out, sizeof out);
    CHECK(tanqesha_report(card, length, out, 13330, &written) == TANQESHA_STORE);
    CHECK(tanqesha_report(card, length, out, 0, &written) == TANQESHA_STORE);
    CHECK(written == BEFORE && SAME(out, before));
    CHECK(tanqesha_report(card, length, out, 13331, &written) == 0 && written == sizeof text - 1);
    CHECK(memcmp(out, text, written) == 0 && memcmp(out + written, before, sizeof out - written) == 0);
    /* no card: what is printed is a refusal's line */
    CHECK(tanqesha_report(card, length - 1, out, sizeof out, &written) == 0 && written == 7 && memcmp(out, "     1\n", 7) == 0);
    CHECK(tanqesha_report(card, 0, out, sizeof out, &written) == 0 && written == 7 && memcmp(out, "     1\n", 7) == 0);
}

/* ---- transports */

static void transports(void)
{
    const double a[] = {0.5, 0.5}, b[] = {0.25, 0.75}, costs[] = {0.0, 1.0, 1.0, 0.0}, negative[] = {0.0, -1.0, 1.0, 0.0};
    struct {
        uint32_t rows[4], columns[4];
        double masses[4], total;
        size_t cells;
    } lent, before;
    size_t cut = WHOLE;
    memset(&before, 0x5e, sizeof before);
    memcpy(&lent, &before, sizeof before);
#define TRANSPORT(cost)                                                                                              \
    tanqesha_transport(a, LENGTH(a, 0), b, LENGTH(b, 1), cost, LENGTH(costs, 2), lent.rows, LENGTH(lent.rows, 3),     \
                       lent.columns, LENGTH(lent.columns, 4), lent.masses, LENGTH(lent.masses, 5), &lent.total, &lent.cells)
    for (cut = 0; cut < 6; cut++)
        CHECK(TRANSPORT(costs) == (cut < 2 ? TANQESHA_TOTALS : TANQESHA_STORE));
    CHECK(TRANSPORT(negative) == TANQESHA_NETWORK_OR_MASSES);
    CHECK(memcmp(&lent, &before, sizeof before) == 0);
    CHECK(TRANSPORT(costs) == 0 && lent.total == 0.25 && lent.cells == 3);
    CHECK(lent.rows[0] == 0 && lent.rows[1] == 0 && lent.rows[2] == 1 && lent.rows[3] == before.rows[3]);
    CHECK(lent.columns[0] == 0 && lent.columns[1] == 1 && lent.columns[2] == 1 && lent.columns[3] == before.columns[3]);
    CHECK(lent.masses[0] == 0.25 && lent.masses[1] == 0.25 && lent.masses[2] == 0.5 && lent.masses[3] == before.masses[3]);
    CHECK(tanqesha_transport(a, 0, b, 0, costs, 0, lent.rows, 0, lent.columns, 0, lent.masses, 0, &lent.total, &lent.cells) == 0);
    CHECK(lent.total == 0.0 && lent.cells == 0);
}

/* ---- chains */

static void chains(void)
{
    const double seen[] = {1.0, 3.0}, nan_seen[] = {1.0, NAN};
    struct {
        uint32_t offsets[4], targets[4];
        double probabilities[4], observations[3];
        size_t entries;
    } lent, before;
    struct model bad;
    double rate = BEFORE_REAL;
    size_t cut = WHOLE;
    uint32_t number;
    unsigned k;
    memset(&before, 0x5e, sizeof before);
    memcpy(&lent, &before, sizeof before);
#define UNIFORMISE(m, q, observed)                                                                                   \
    tanqesha_uniformise(MODEL(m), q, observed, LENGTH(seen, 0), lent.offsets, (size_t)3 - (cut == 1), lent.targets,   \
                        (size_t)3 - (cut == 2), lent.probabilities, (size_t)3 - (cut == 3), lent.observations,        \
                        (size_t)2 - (cut == 4), &lent.entries)
    for (cut = 0; cut < 5; cut++)
        CHECK(UNIFORMISE(&at_2, 4.0, seen) == TANQESHA_STORE);
    cut = WHOLE;
    for (k = 0; (number = damage(&bad, k)) != 0; k++) {
        CHECK(UNIFORMISE(&bad, 4.0, seen) == number);
        CHECK(tanqesha_common_rate(MODEL(&bad), MODEL(&at_4), &rate) == number);
        CHECK(tanqesha_common_rate(MODEL(&at_4), MODEL(&bad), &rate) == number);
    }
    bad = at_2;
    bad.present = 0;
    CHECK(UNIFORMISE(&bad, 0.0, nan_seen) == TANQESHA_NO_INITIAL_STATE);
    CHECK(UNIFORMISE(&at_2, 0.0, nan_seen) == TANQESHA_DISCOUNT_OR_RATE);
    CHECK(UNIFORMISE(&at_2, 4.0, nan_seen) == TANQESHA_OBSERVATION);
    CHECK(memcmp(&lent, &before, sizeof before) == 0 && rate == BEFORE_REAL);

    CHECK(tanqesha_common_rate(MODEL(&at_2), MODEL(&at_4), &rate) == 0 && rate == 4.0);
    CHECK(UNIFORMISE(&at_2, rate, seen) == 0 && lent.entries == 3);
    CHECK(lent.offsets[0] == 0 && lent.offsets[1] == 2 && lent.offsets[2] == 3 && lent.offsets[3] == before.offsets[3]);
    CHECK(lent.targets[0] == 0 && lent.targets[1] == 1 && lent.targets[2] == 1 && lent.targets[3] == before.targets[3]);
    CHECK(lent.probabilities[0] == 0.5 && lent.probabilities[1] == 0.5 && lent.probabilities[2] == 1.0);
    CHECK(lent.observations[0] == 1.0 && lent.observations[1] == 3.0 && lent.observations[2] == before.observations[2]);
}

static void scaling(void)
{
    const uint32_t offsets[] = {0, 2, 3}, targets[] = {0, 1, 1}, falling[] = {1, 0, 1};
    const double probabilities[] = {0.5, 0.5, 1.0};
    const double left_before[] = {2.0, 4.0}, right_before[] = {3.0, 6.0}, left_after[] = {0.0, 0.5}, right_after[] = {0.25, 1.0};
    double left[] = {2.0, 4.0}, right[] = {3.0, 6.0}, scale = BEFORE_REAL;
    size_t cut = WHOLE;
#define NORMALISE(start, leads)                                                                                       \
    tanqesha_normalise(2, 3, start, offsets, LENGTH(offsets, 0), leads, LENGTH(targets, 1), probabilities,             \
                       LENGTH(probabilities, 2), left, LENGTH(left, 3), 2, 3, 1, offsets, LENGTH(offsets, 4), targets,  \
                       LENGTH(targets, 5), probabilities, LENGTH(probabilities, 6), right, LENGTH(right, 7), &scale)
    for (cut = 0; cut < 8; cut++)
        CHECK(NORMALISE(0, targets) == (cut == 3 || cut == 7 ? TANQESHA_STORE : TANQESHA_OUT_OF_RANGE));
    CHECK(NORMALISE(2, targets) == TANQESHA_OUT_OF_RANGE);
    CHECK(NORMALISE(0, falling) == TANQESHA_CHAIN);
    left[1] = NAN;
    CHECK(NORMALISE(0, targets) == TANQESHA_OBSERVATION && left[1] != left[1]);
    left[1] = 4.0;
    CHECK(tanqesha_normalise(0, 0, 0, offsets, 1, targets, 0, probabilities, 0, left, 0, 0, 0, 0, offsets, 1, targets, 0,
                             probabilities, 0, right, 0, &scale) == TANQESHA_OUT_OF_RANGE);
    CHECK(SAME(left, left_before) && SAME(right, right_before) && scale == BEFORE_REAL);
    CHECK(NORMALISE(0, targets) == 0 && scale == 4.0 && SAME(left, left_after) && SAME(right, right_after));
}

/* ---- distances */

/* The memory lent to a distance. */
struct lent {
    uint32_t lefts[4096], rights[4096];
    uint64_t index[4096];
    uint32_t places[9];
    double masses[9];
    struct tanqesha_contribution records[64];
    uint32_t chain_offsets[2][4], chain_targets[2][5];
    double chain_probabilities[2][5], chain_observations[2][3];
    double value, error_bound, discount;
    size_t pairs_explored, contributions, rounds;
};

static struct lent lent, before, zeros;

/* Fills the memory before a call. */
static void mark(void)
{
    memset(&before, 0x5e, sizeof before);
    memcpy(&lent, &before, sizeof before);
}

/* Whether all scratch is zero, in the chains too if there are any. */
static int swept(int chains)
{
    return SAME(lent.lefts, zeros.lefts) && SAME(lent.rights, zeros.rights) && SAME(lent.index, zeros.index) &&
           SAME(lent.places, zeros.places) && SAME(lent.masses, zeros.masses) &&
           (!chains || (SAME(lent.chain_offsets, zeros.chain_offsets) && SAME(lent.chain_targets, zeros.chain_targets) &&
                        SAME(lent.chain_probabilities, zeros.chain_probabilities) &&
                        SAME(lent.chain_observations, zeros.chain_observations)));
}

/* Whether the records from k on, and what the last pointers point to, are as they were. */
static int untouched(size_t k)
{
    const double reals[] = {lent.value, lent.error_bound, lent.discount};
    const double reals_before[] = {before.value, before.error_bound, before.discount};
    const size_t counts[] = {lent.pairs_explored, lent.contributions, lent.rounds};
    const size_t counts_before[] = {before.pairs_explored, before.contributions, before.rounds};
    if (memcmp(lent.records + k, before.records + k, (64 - k) * sizeof lent.records[0]) != 0)
        return 0;
    return k > 0 || (SAME(reals, reals_before) && SAME(counts, counts_before));
}

static void distances(void)
{
    const uint32_t offsets[] = {0, 2, 3}, targets[] = {0, 1, 1}, falling[] = {1, 0, 1};
    const double probabilities[] = {0.5, 0.5, 1.0}, left[] = {0.0, 1.0}, right[] = {0.0, 0.0}, outside[] = {0.0, 1.5};
    size_t cut = WHOLE, rounds = 200, top = 10, places = 9, masses = 9;
    double gamma = 0.5;
#define RUN                                                                                                           \
    gamma, 1e-6, rounds, top, lent.lefts, LENGTH(lent.lefts, 8), lent.rights, LENGTH(lent.rights, 9), lent.index,      \
        LENGTH(lent.index, 10), lent.places, places, lent.masses, masses,                                              \
        lent.records, LENGTH(lent.records, 11), &lent.value, &lent.error_bound, &lent.discount, &lent.pairs_explored,  \
        &lent.contributions, &lent.rounds
#define DISTANCE(start, leads, seen)                                                                                  \
    tanqesha_distance(2, 3, start, offsets, LENGTH(offsets, 0), leads, LENGTH(targets, 1), probabilities,              \
                      LENGTH(probabilities, 2), seen, LENGTH(left, 3), 2, 3, 0, offsets, LENGTH(offsets, 4), targets,   \
                      LENGTH(targets, 5), probabilities, LENGTH(probabilities, 6), right, LENGTH(right, 7), RUN)
    mark();
    for (cut = 0; cut < 12; cut++)
        CHECK(DISTANCE(0, targets, left) == (cut == 3 || cut >= 7 ? TANQESHA_STORE : TANQESHA_OUT_OF_RANGE));
    cut = WHOLE;
    CHECK(DISTANCE(2, targets, left) == TANQESHA_OUT_OF_RANGE);
    CHECK(DISTANCE(0, falling, left) == TANQESHA_CHAIN);
    CHECK(DISTANCE(0, falling, outside) == TANQESHA_OBSERVATION);
    gamma = 1.0;
    CHECK(DISTANCE(0, falling, outside) == TANQESHA_DISCOUNT_OR_RATE);
    gamma = 0.5;
    top = 65;
    CHECK(DISTANCE(0, targets, left) == TANQESHA_TOP_OR_ROUNDS);
    top = 10;
    rounds = 10001;
    CHECK(DISTANCE(0, targets, left) == TANQESHA_TOP_OR_ROUNDS);
    rounds = 200;
    CHECK(memcmp(&lent, &before, sizeof before) == 0);
    /* pairs (0, 0), (0, 1), (1, 0), (1, 1): 4 + 2 + 2 + 1 couplings */
    places = 8;
    mark();
    CHECK(DISTANCE(0, targets, left) == TANQESHA_COUPLING_STORE && untouched(0));
    CHECK(SAME(lent.lefts, zeros.lefts) && SAME(lent.index, zeros.index) && SAME(lent.masses, zeros.masses));
    CHECK(lent.places[7] == 0 && lent.places[8] == before.places[8]);
    places = 9;
    masses = 8;
    mark();
    CHECK(DISTANCE(0, targets, left) == TANQESHA_COUPLING_STORE && untouched(0));
    CHECK(SAME(lent.rights, zeros.rights) && SAME(lent.places, zeros.places) && lent.masses[7] == 0.0);
    masses = 9;
    mark();
    gamma = 1.0 - 1e-6;
    rounds = 0;
    CHECK(DISTANCE(0, targets, left) == TANQESHA_OCCUPANCY && untouched(0) && swept(0));
    /* without a round, the couplings are the product of the rows */
    gamma = 0.5;
    CHECK(DISTANCE(0, targets, left) == 0 && swept(0) && untouched(2) && lent.value == 0.0 && lent.error_bound == INFINITY);
    CHECK(lent.discount == 0.5 && lent.pairs_explored == 4 && lent.contributions == 2 && lent.rounds == 0);
    mark();
    rounds = 200;
    top = 1;
    CHECK(DISTANCE(0, targets, left) == 0 && swept(0) && untouched(1) && lent.contributions == 1 && lent.pairs_explored == 4);
    CHECK(lent.value > 0.333 && lent.value < 0.334 && lent.error_bound < 1e-6 && lent.rounds >= 1);
    CHECK(lent.records[0].left == 1 && lent.records[0].gap == 1.0);
    CHECK(lent.records[0].contribution == lent.records[0].occupancy * lent.records[0].gap);
}

static void model_distances(void)
{
    const double left[] = {0.0, 2.0}, right[] = {0.0, 2.0}, nan_seen[] = {0.0, NAN};
    struct model bad;
    size_t cut = WHOLE, rounds = 200, top = 10, places = 9, masses = 9;
    double gamma = 0.5;
    uint32_t number;
    unsigned k;
#define BISIM(m, s, seen)                                                                                             \
    tanqesha_bisim_distance(                                                                                          \
        MODEL(m), s, seen, LENGTH(left, 0), lent.chain_offsets[0], (size_t)4 - (cut == 1 ? 2 : 0), lent.chain_targets[0], \
        (size_t)5 - (cut == 2 ? 3 : 0), lent.chain_probabilities[0], (size_t)5 - (cut == 3 ? 3 : 0),                   \
        lent.chain_observations[0], (size_t)3 - (cut == 4 ? 2 : 0), MODEL(&at_4), 0, right, LENGTH(right, 5),          \
        lent.chain_offsets[1], (size_t)4 - (cut == 6 ? 2 : 0), lent.chain_targets[1], (size_t)5 - (cut == 7 ? 3 : 0),  \
        lent.chain_probabilities[1], (size_t)5 - (cut == 12 ? 3 : 0), lent.chain_observations[1],                      \
        (size_t)3 - (cut == 13 ? 2 : 0), RUN)
    mark();
    for (cut = 0; cut < 14; cut++)
        CHECK(BISIM(&at_2, 0, left) == TANQESHA_STORE);
    cut = WHOLE;
    for (k = 0; (number = damage(&bad, k)) != 0; k++)
        CHECK(BISIM(&bad, 0, left) == number);
    CHECK(BISIM(&at_2, 2, left) == TANQESHA_OUT_OF_RANGE);
    bad = at_2;
    bad.present = 0;
    gamma = 0.0;
    CHECK(BISIM(&bad, 0, nan_seen) == TANQESHA_NO_INITIAL_STATE);
    CHECK(BISIM(&at_2, 0, nan_seen) == TANQESHA_DISCOUNT_OR_RATE);
    gamma = 0.5;
    top = 65;
    CHECK(BISIM(&at_2, 0, nan_seen) == TANQESHA_OBSERVATION);
    CHECK(BISIM(&at_2, 0, left) == TANQESHA_TOP_OR_ROUNDS);
    CHECK(memcmp(&lent, &before, sizeof before) == 0);
    top = 10;
    /* pairs (0, 0), (0, 1), (1, 1): 2 + 2 + 1 couplings */
    places = 4;
    mark();
    CHECK(BISIM(&at_2, 0, left) == TANQESHA_COUPLING_STORE && untouched(0) && SAME(lent.chain_targets, zeros.chain_targets));
    places = 5;
    masses = 4;
    mark();
    CHECK(BISIM(&at_2, 0, left) == TANQESHA_COUPLING_STORE && untouched(0) && SAME(lent.chain_offsets, zeros.chain_offsets));
    places = masses = 9;
    mark();
    gamma = 1.0 - 1e-6;
    rounds = 0;
    CHECK(BISIM(&at_2, 0, left) == TANQESHA_OCCUPANCY && untouched(0) && swept(1));
    gamma = 0.5;
    rounds = 200;
    /* at rate 4 the left model stays or moves by halves, and the right one moves: seen 0 and 1 until it moves too */
    CHECK(BISIM(&at_2, 0, left) == 0 && swept(1) && untouched(1) && lent.pairs_explored == 3 && lent.contributions == 1);
    CHECK(lent.value > 0.166 && lent.value < 0.167 && lent.records[0].left == 0 && lent.records[0].right == 1);
    /* a model is at distance 0 from itself */
    CHECK(BISIM(&at_4, 0, left) == 0 && lent.value == 0.0 && lent.contributions == 0 && lent.rounds == 1);
}

int main(void)
{
    numbers();
    labels();
    building();
    too_many_targets();
    reading();
    networks();
    rows();
    relations();
    states_together();
    cards();
    transports();
    chains();
    scaling();
    distances();
    model_distances();
    printf("C: %u checks, %u failed\n", checks, failures);
    return failures != 0;
}
