/* Tanqesha for C and C++: when are two queue models alike? The functions of the static library libexports.a.
 *
 * Each function is proved to give the answer of its definition for every input, to stay within the memory lent to it, and
 * to end; crates/exports/src/ has its contract. No function keeps anything between calls, allocates memory or prints, so
 * calls may be made from several threads at once, each on memory of its own.
 *
 * What the caller answers for:
 * - A slice is a pointer and its length in elements (x and x_length); as much memory must be there, readable or, without
 *   const, writable. Other pointers are to one value. No pointer may be null, not even that of an empty slice, and all are
 *   aligned as C aligns their type.
 * - Memory that a call writes (pointers without const) overlaps no other memory lent to the same call.
 * - A call takes up to about half a megabyte of stack.
 *
 * Refusals. A function that can refuse returns the refusal's number (enum tanqesha_refusal), or 0 with its answer behind the
 * last pointers. A refusal returns its number and nothing else: all memory lent to the call, and what the last pointers
 * point to, is then as it was, but for the scratch of a distance, which is all zero after 16 to 19. Where several apply, the
 * lowest is given, but for 16, which stands after 18 in a distance. The comment of a function lists its refusals.
 *
 * Results in lent memory go over the front of a slice; what stands behind the result's end is kept.
 */
#ifndef TANQESHA_H
#define TANQESHA_H

#include <stdbool.h>
#include <stddef.h>
#include <stdint.h>

#ifdef __cplusplus
extern "C" {
#endif

/* ---- refusals: what is wrong, and what to mend */

enum tanqesha_refusal {
    /* not refused */
    TANQESHA_ACCEPTED = 0,
    /* A line of a card is not as laid out or is missing, or bytes follow the last line: count the columns of six, the lines
     * and the counts on the head lines (docs/CARD.md). */
    TANQESHA_CARD_LAYOUT = 1,
    /* A model of a card has over 32 states or 200 transitions: make it smaller. */
    TANQESHA_CARD_SIZE = 2,
    /* A model has over 2,000 states, 4,096 transitions or 256 distinct labels: make it smaller. */
    TANQESHA_MODEL_SIZE = 3,
    /* A state number or label id is not below its count, or a model or chain handed in is not as built (too few offsets, edges,
     * entries or labels for its counts, offsets that fall, edges out of order, a label twice, a zero weight): number states
     * from 0, and hand in what tanqesha_build or tanqesha_uniformise made, unchanged and whole. */
    TANQESHA_OUT_OF_RANGE = 4,
    /* A weight is neither zero nor from 2^-40 to 2^40 (2^52 in a built model), or NaN: choose another unit of time, or leave
     * the transition out. */
    TANQESHA_WEIGHT = 5,
    /* A state has over 31 distinct targets other than itself: join targets, or split the state. */
    TANQESHA_TARGETS = 6,
    /* A lent list or store is short: give an entry for each state, transition or cell, and lend as much room as the function
     * asks for. */
    TANQESHA_STORE = 7,
    /* An initial state is absent: build the model with one. */
    TANQESHA_NO_INITIAL_STATE = 8,
    /* epsilon is NaN, infinite or negative, or rho is NaN, below 1 or above 2^20: give 0 and 1 for 'not at all'. */
    TANQESHA_TOLERANCE = 9,
    /* Both models together have over 2,000 states: make one smaller. */
    TANQESHA_STATES_TOGETHER = 10,
    /* gamma is not above 0 and below 1, or the rate of tanqesha_uniformise not from 2^-40 to 2^64: choose gamma between 0
     * and 1, and a rate no less than the common rate. */
    TANQESHA_DISCOUNT_OR_RATE = 11,
    /* An observation is NaN or outside -2^40 to 2^40, in a distance of chains outside 0 to 1: scale the observations, or
     * normalise both chains together. */
    TANQESHA_OBSERVATION = 12,
    /* A chain has no or over 2,000 states, a row of no or over 32 entries, targets that don't rise strictly, a probability
     * not above 0 or above 1 + 1e-9, or a row sum over 1e-9 from 1: make the chain of a model, at a rate no less than its
     * greatest exit rate. */
    TANQESHA_CHAIN = 13,
    /* top is over 64 or max_rounds over 10,000: ask for fewer. */
    TANQESHA_TOP_OR_ROUNDS = 14,
    /* A network has over 66 nodes or 1,088 added links, a node out of range, source equal to sink, a capacity neither from 0 to
     * 2^40 nor infinite, an infinite one that leaves the source, a cost not from 0 to 2^40, or node lists other than adding its
     * links in order gives; or there are over 32 masses on a side, or a mass or a cost is not from 0 to 2^40: make the
     * network anew by tanqesha_new_network and tanqesha_add_edge, or scale the masses and costs. */
    TANQESHA_NETWORK_OR_MASSES = 15,
    /* The totals of the masses differ by over 1e-9 times the first, or 1 if that is less: scale one side. */
    TANQESHA_TOTALS = 16,
    /* The chains have over 4,096 pairs of states to look at: make them smaller. */
    TANQESHA_PAIRS = 17,
    /* The coupling store is shorter than the couplings of all pairs: lend a longer one. */
    TANQESHA_COUPLING_STORE = 18,
    /* The occupancy is not settled after 1,000,000 rounds: choose gamma farther from 1. */
    TANQESHA_OCCUPANCY = 19
};

/* ---- numbers */

/* Whether x is finite and at least 0. Never refuses. */
bool tanqesha_is_valid(double x);

/* Whether x is equal to 0; both zeros are. Never refuses. */
bool tanqesha_is_zero(double x);

/* The sum of the items, left to right from 0. Never refuses. */
double tanqesha_sum(const double *items, size_t items_length);

/* ---- labels. A list of label values, of which the first count are in use; a value's place is its id. */

/* The id of a value and the number of labels then: a new value is written to labels[count].
 * Refusals: 3 count is over 256, or the value is new and 256 are in use; 4 the list is shorter than count, or has a value
 * twice; 7 the value is new and there is no room. */
uint32_t tanqesha_intern(uint32_t *labels, size_t labels_length, size_t count, uint32_t value, uint32_t *id, size_t *total);

/* present: 1 with the value's id, or 0 if it has none, and id is kept.
 * Refusals: 3 count is over 256; 4 as above. */
uint32_t tanqesha_get(const uint32_t *labels, size_t labels_length, size_t count, uint32_t value,
                      uint32_t *present, uint32_t *id);

/* The value of an id.
 * Refusals: 3 count is over 256; 4 as above, or the id is not below count. */
uint32_t tanqesha_resolve(const uint32_t *labels, size_t labels_length, size_t count, uint32_t id, uint32_t *value);

/* ---- models. A built model is handed in as its counts (states, edges, labels), its initial state (none if present
 * is 0, else start), and its columns: the value of each label, where the edges of each state begin and the last ones end
 * (states + 1 offsets), and the label id, target and weight of each edge. Columns may be longer than the counts say. Every
 * function checks the model afresh. */

/* Builds the model of the first `given` transitions (source, label value, target, weight): edges by source, label id and
 * target, equal triples joined, zero weights dropped, labels with ids by first appearance. Behind the pointers: the number of
 * edges and of labels.
 * Needs given entries in every column but states + 1 offsets.
 * Refusals: 3; 4 a state number; 5 a weight given; 6; 7 a column of transitions or of the model is short (where one of
 * transitions is, 3 to 6 look at each as far as it goes). */
uint32_t tanqesha_build(size_t states, uint32_t present, uint32_t start, size_t given,
                        const uint32_t *sources, size_t sources_length, const uint32_t *labels, size_t labels_length,
                        const uint32_t *targets, size_t targets_length, const double *weights, size_t weights_length,
                        uint32_t *label_values, size_t label_values_length, uint32_t *offsets, size_t offsets_length,
                        uint32_t *edge_labels, size_t edge_labels_length, uint32_t *edge_targets, size_t edge_targets_length,
                        double *edge_weights, size_t edge_weights_length, size_t *edges, size_t *distinct);

/* The number of the check that a model fails, 0 if it is accepted: what tanqesha_build makes is.
 * Refusals: 3, 4, 5, 6. Nothing is written. */
uint32_t tanqesha_model_refusal(size_t states, size_t edges, size_t labels, uint32_t present, uint32_t start,
                                const uint32_t *label_values, size_t label_values_length,
                                const uint32_t *offsets, size_t offsets_length,
                                const uint32_t *edge_labels, size_t edge_labels_length,
                                const uint32_t *edge_targets, size_t edge_targets_length,
                                const double *edge_weights, size_t edge_weights_length);

/* How many states. Refusals: 3, 4, 5, 6. */
uint32_t tanqesha_num_states(size_t states, size_t edges, size_t labels, uint32_t present, uint32_t start,
                             const uint32_t *label_values, size_t label_values_length,
                             const uint32_t *offsets, size_t offsets_length,
                             const uint32_t *edge_labels, size_t edge_labels_length,
                             const uint32_t *edge_targets, size_t edge_targets_length,
                             const double *edge_weights, size_t edge_weights_length, size_t *count);

/* How many edges. Refusals: 3, 4, 5, 6. */
uint32_t tanqesha_num_transitions(size_t states, size_t edges, size_t labels, uint32_t present, uint32_t start,
                                  const uint32_t *label_values, size_t label_values_length,
                                  const uint32_t *offsets, size_t offsets_length,
                                  const uint32_t *edge_labels, size_t edge_labels_length,
                                  const uint32_t *edge_targets, size_t edge_targets_length,
                                  const double *edge_weights, size_t edge_weights_length, size_t *count);

/* How many labels. Refusals: 3, 4, 5, 6. */
uint32_t tanqesha_num_labels(size_t states, size_t edges, size_t labels, uint32_t present, uint32_t start,
                             const uint32_t *label_values, size_t label_values_length,
                             const uint32_t *offsets, size_t offsets_length,
                             const uint32_t *edge_labels, size_t edge_labels_length,
                             const uint32_t *edge_targets, size_t edge_targets_length,
                             const double *edge_weights, size_t edge_weights_length, size_t *count);

/* found: 1 with the initial state, or 0 if there is none, and state is kept. Refusals: 3, 4, 5, 6. */
uint32_t tanqesha_initial(size_t states, size_t edges, size_t labels, uint32_t present, uint32_t start,
                          const uint32_t *label_values, size_t label_values_length,
                          const uint32_t *offsets, size_t offsets_length,
                          const uint32_t *edge_labels, size_t edge_labels_length,
                          const uint32_t *edge_targets, size_t edge_targets_length,
                          const double *edge_weights, size_t edge_weights_length, uint32_t *found, uint32_t *state);

/* The edges of state s: those from place `from` up to place `to`, without the last. Refusals: 3; 4, of s too; 5; 6. */
uint32_t tanqesha_successors(size_t states, size_t edges, size_t labels, uint32_t present, uint32_t start,
                             const uint32_t *label_values, size_t label_values_length,
                             const uint32_t *offsets, size_t offsets_length,
                             const uint32_t *edge_labels, size_t edge_labels_length,
                             const uint32_t *edge_targets, size_t edge_targets_length,
                             const double *edge_weights, size_t edge_weights_length,
                             uint32_t s, size_t *from, size_t *to);

/* The value of a label id. Refusals: 3; 4, of the id too; 5; 6. */
uint32_t tanqesha_label(size_t states, size_t edges, size_t labels, uint32_t present, uint32_t start,
                        const uint32_t *label_values, size_t label_values_length,
                        const uint32_t *offsets, size_t offsets_length,
                        const uint32_t *edge_labels, size_t edge_labels_length,
                        const uint32_t *edge_targets, size_t edge_targets_length,
                        const double *edge_weights, size_t edge_weights_length, uint32_t id, uint32_t *value);

/* found: 1 with the id of a label value, or 0 if it has none, and id is kept. Refusals: 3, 4, 5, 6. */
uint32_t tanqesha_label_id(size_t states, size_t edges, size_t labels, uint32_t present, uint32_t start,
                           const uint32_t *label_values, size_t label_values_length,
                           const uint32_t *offsets, size_t offsets_length,
                           const uint32_t *edge_labels, size_t edge_labels_length,
                           const uint32_t *edge_targets, size_t edge_targets_length,
                           const double *edge_weights, size_t edge_weights_length,
                           uint32_t value, uint32_t *found, uint32_t *id);

/* ---- networks */

/* A link: the node that it leads to, the capacity left, and its cost for a unit. */
struct tanqesha_link {
    uint32_t head;
    double cap;
    double cost;
};

/* A network: links 2k and 2k + 1, of the first count, are an added link and its reverse. The links that leave node u are
 * list[starts[u]] up to list[starts[u + 1] - 1]. Its bytes may be anything before tanqesha_new_network. */
struct tanqesha_network {
    struct tanqesha_link links[2176];
    size_t count;
    size_t nodes;
    uint32_t starts[67];
    uint32_t list[2176];
};

/* The maximum flow from source to sink over links in rows (head, capacity left and cost of each, where the list of each node
 * starts, and the lists), the number of phases and of pushes. caps keeps the capacities left.
 * Needs as many caps and costs as heads, 67 starts, and as many list entries as heads or more.
 * Refusals: 15, of a row that is short or long too. */
uint32_t tanqesha_max_flow_rows(const uint32_t *heads, size_t heads_length, double *caps, size_t caps_length,
                                const double *costs, size_t costs_length, const uint32_t *starts, size_t starts_length,
                                const uint32_t *list, size_t list_length, size_t nodes, size_t source, size_t sink,
                                double *flow, size_t *phases, size_t *pushes);

/* 15 if tanqesha_max_flow_rows refuses these, 0 if not. Nothing is written. */
uint32_t tanqesha_network_refusal(const uint32_t *heads, size_t heads_length, const double *caps, size_t caps_length,
                                  const double *costs, size_t costs_length, const uint32_t *starts, size_t starts_length,
                                  const uint32_t *list, size_t list_length, size_t nodes, size_t source, size_t sink);

/* Makes net a network of so many nodes, at most 66, without links; every byte of its fields is set.
 * Refusals: 15. */
uint32_t tanqesha_new_network(size_t nodes, struct tanqesha_network *net);

/* Adds a link from one node to another, and its reverse of capacity 0 and the cost negated: links net->count - 2 and
 * net->count - 1 then. Checks the whole network first.
 * Refusals: 15, also where there are 1,088 added links already, or a run has left a capacity of over 2^40. */
uint32_t tanqesha_add_edge(struct tanqesha_network *net, size_t from, size_t to, double capacity, double cost);

/* The maximum flow from source to sink, the number of phases and of pushes. Only the capacities of net's links change: each is
 * what the run leaves.
 * Refusals: 15. */
uint32_t tanqesha_max_flow(struct tanqesha_network *net, size_t source, size_t sink,
                           double *flow, size_t *phases, size_t *pushes);

/* ---- relations of two models, with a class for each state. Over T = left + right states, right states
 * numbered after the left ones, a relation is T * T bits in (T * T + 7) / 8 bytes: the pair (s, t) is bit s * T + t, the
 * lowest bit of a byte first; spare bits are 0. */

/* Which states of two models are alike: equal classes, exit rates that differ at most by the factor rho, jumps to alike
 * states of which at most the share epsilon goes astray (docs/CLAIM.md). The relation stands in the bytes then.
 * Refusals: 3 to 6 of either model; 7 fewer classes than states, or too few bytes; 9; 10. */
uint32_t tanqesha_epsdelta(size_t left_states, size_t left_edges, size_t left_labels, uint32_t left_present, uint32_t left_start,
                           const uint32_t *left_label_values, size_t left_label_values_length,
                           const uint32_t *left_offsets, size_t left_offsets_length,
                           const uint32_t *left_edge_labels, size_t left_edge_labels_length,
                           const uint32_t *left_edge_targets, size_t left_edge_targets_length,
                           const double *left_edge_weights, size_t left_edge_weights_length,
                           size_t right_states, size_t right_edges, size_t right_labels, uint32_t right_present, uint32_t right_start,
                           const uint32_t *right_label_values, size_t right_label_values_length,
                           const uint32_t *right_offsets, size_t right_offsets_length,
                           const uint32_t *right_edge_labels, size_t right_edge_labels_length,
                           const uint32_t *right_edge_targets, size_t right_edge_targets_length,
                           const double *right_edge_weights, size_t right_edge_weights_length,
                           const uint32_t *left_classes, size_t left_classes_length,
                           const uint32_t *right_classes, size_t right_classes_length,
                           double epsilon, double rho, uint8_t *relation, size_t relation_length);

/* related: 1 if the bytes hold left state s with right state t, else 0. Any bytes are read as they are.
 * Refusals: 3 a count over 2,000; 4 s or t is not below its count; 7 too few bytes; 10. */
uint32_t tanqesha_related(size_t left_states, size_t right_states, const uint8_t *relation, size_t relation_length,
                          uint32_t s, uint32_t t, uint32_t *related);

/* related: 1 if the initial states of two models are alike, else 0. The bytes are work space, all 0 at the end, those past
 * the relation too; a refusal leaves them as they were.
 * Refusals: 3 to 6 of either model; 7 fewer classes than states, or too few bytes; 8; 9; 10. */
uint32_t tanqesha_epsdelta_bisimilar(size_t left_states, size_t left_edges, size_t left_labels, uint32_t left_present, uint32_t left_start,
                                     const uint32_t *left_label_values, size_t left_label_values_length,
                                     const uint32_t *left_offsets, size_t left_offsets_length,
                                     const uint32_t *left_edge_labels, size_t left_edge_labels_length,
                                     const uint32_t *left_edge_targets, size_t left_edge_targets_length,
                                     const double *left_edge_weights, size_t left_edge_weights_length,
                                     size_t right_states, size_t right_edges, size_t right_labels, uint32_t right_present, uint32_t right_start,
                                     const uint32_t *right_label_values, size_t right_label_values_length,
                                     const uint32_t *right_offsets, size_t right_offsets_length,
                                     const uint32_t *right_edge_labels, size_t right_edge_labels_length,
                                     const uint32_t *right_edge_targets, size_t right_edge_targets_length,
                                     const double *right_edge_weights, size_t right_edge_weights_length,
                                     const uint32_t *left_classes, size_t left_classes_length,
                                     const uint32_t *right_classes, size_t right_classes_length,
                                     double epsilon, double rho, uint8_t *relation, size_t relation_length, uint32_t *related);

/* present: 1 with an epsilon at which the initial states are alike, found by halvings down to about 1e-4; or 0 if they are not even at 1, and
 * epsilon is kept. The bytes are work space, as above.
 * Refusals: 3 to 6 of either model; 7 fewer classes than states, or too few bytes; 8; 9 of rho; 10. */
uint32_t tanqesha_min_epsilon(size_t left_states, size_t left_edges, size_t left_labels, uint32_t left_present, uint32_t left_start,
                              const uint32_t *left_label_values, size_t left_label_values_length,
                              const uint32_t *left_offsets, size_t left_offsets_length,
                              const uint32_t *left_edge_labels, size_t left_edge_labels_length,
                              const uint32_t *left_edge_targets, size_t left_edge_targets_length,
                              const double *left_edge_weights, size_t left_edge_weights_length,
                              size_t right_states, size_t right_edges, size_t right_labels, uint32_t right_present, uint32_t right_start,
                              const uint32_t *right_label_values, size_t right_label_values_length,
                              const uint32_t *right_offsets, size_t right_offsets_length,
                              const uint32_t *right_edge_labels, size_t right_edge_labels_length,
                              const uint32_t *right_edge_targets, size_t right_edge_targets_length,
                              const double *right_edge_weights, size_t right_edge_weights_length,
                              const uint32_t *left_classes, size_t left_classes_length,
                              const uint32_t *right_classes, size_t right_classes_length,
                              double rho, uint8_t *relation, size_t relation_length, uint32_t *present, double *epsilon);

/* ---- the report of a card */

/* Writes what the report program prints for the bytes of a card, and how many bytes that is: a report, or a line with one of
 * 1, 2, 4 and 9, which are no refusals of the call (docs/CARD.md).
 * Needs room for 13,331 bytes, whatever the card.
 * Refusals: 7. */
uint32_t tanqesha_report(const uint8_t *card, size_t card_length, uint8_t *out, size_t out_length, size_t *written);

/* ---- transports */

/* A plan that moves masses a to masses b along cheapest paths, with a cost for each pair, row after row: the row, column and
 * mass of its cells above 1e-12 in row order; what it costs, and how many cells it has. That it is the cheapest, or moves all
 * mass, is not claimed.
 * Needs a_length * b_length costs, and as much room in each column of the plan.
 * Refusals: 7; 15; 16. */
uint32_t tanqesha_transport(const double *a, size_t a_length, const double *b, size_t b_length,
                            const double *costs, size_t costs_length,
                            uint32_t *plan_rows, size_t plan_rows_length, uint32_t *plan_columns, size_t plan_columns_length,
                            double *plan_masses, size_t plan_masses_length, double *total, size_t *cells);

/* ---- chains. A chain is its counts (states, entries), its initial state, and its lists: where the entries of each state
 * begin and the last ones end (states + 1 offsets), the target and probability of each entry, an observation of each state. */

/* The greatest exit rate of two models, or 1 if nothing moves. Refusals: 3 to 6 of either model. */
uint32_t tanqesha_common_rate(size_t left_states, size_t left_edges, size_t left_labels, uint32_t left_present, uint32_t left_start,
                              const uint32_t *left_label_values, size_t left_label_values_length,
                              const uint32_t *left_offsets, size_t left_offsets_length,
                              const uint32_t *left_edge_labels, size_t left_edge_labels_length,
                              const uint32_t *left_edge_targets, size_t left_edge_targets_length,
                              const double *left_edge_weights, size_t left_edge_weights_length,
                              size_t right_states, size_t right_edges, size_t right_labels, uint32_t right_present, uint32_t right_start,
                              const uint32_t *right_label_values, size_t right_label_values_length,
                              const uint32_t *right_offsets, size_t right_offsets_length,
                              const uint32_t *right_edge_labels, size_t right_edge_labels_length,
                              const uint32_t *right_edge_targets, size_t right_edge_targets_length,
                              const double *right_edge_weights, size_t right_edge_weights_length, double *rate);

/* The chain of a model at a rate: each weight divided by it, targets joined and rising, and what is left to stay if it is above
 * 1e-15. Behind the pointer: how many entries. Its states and initial state are the model's. A rate below an exit rate is not
 * refused here; the rows then add up to more than 1, and where a sum is over 1e-9 more, what takes the chain
 * refuses it.
 * Needs an observation for each state; room for states + 1 offsets, edges + states targets and probabilities, and states
 * observations.
 * Refusals: 3, 4, 5, 6; 7; 8; 11; 12. */
uint32_t tanqesha_uniformise(size_t states, size_t edges, size_t labels, uint32_t present, uint32_t start,
                             const uint32_t *label_values, size_t label_values_length,
                             const uint32_t *offsets, size_t offsets_length,
                             const uint32_t *edge_labels, size_t edge_labels_length,
                             const uint32_t *edge_targets, size_t edge_targets_length,
                             const double *edge_weights, size_t edge_weights_length,
                             double rate, const double *observations, size_t observations_length,
                             uint32_t *chain_offsets, size_t chain_offsets_length,
                             uint32_t *chain_targets, size_t chain_targets_length,
                             double *chain_probabilities, size_t chain_probabilities_length,
                             double *chain_observations, size_t chain_observations_length, size_t *entries);

/* Maps the observations of two chains to 0 to 1, by one least and one greatest over both; all to 0 if these are equal. Behind
 * the pointer: by how much they differ.
 * Refusals: 4; 7 fewer observations than states; 12; 13. */
uint32_t tanqesha_normalise(size_t left_states, size_t left_entries, uint32_t left_initial,
                            const uint32_t *left_offsets, size_t left_offsets_length,
                            const uint32_t *left_targets, size_t left_targets_length,
                            const double *left_probabilities, size_t left_probabilities_length,
                            double *left_observations, size_t left_observations_length,
                            size_t right_states, size_t right_entries, uint32_t right_initial,
                            const uint32_t *right_offsets, size_t right_offsets_length,
                            const uint32_t *right_targets, size_t right_targets_length,
                            const double *right_probabilities, size_t right_probabilities_length,
                            double *right_observations, size_t right_observations_length, double *scale);

/* ---- distances */

/* A pair of states, how far its observations are apart, the discounted time spent in it, and the product of the two. */
struct tanqesha_contribution {
    uint32_t left;
    uint32_t right;
    double gap;
    double occupancy;
    double contribution;
};

/* The distance of the initial states of two chains, discounted by gamma, with observations from 0 to 1. A tolerance that is NaN or
 * below 1e-12 counts as 1e-12. Behind the pointers: the distance, its error bound (infinite without a round; that the true distance
 * is within it is not claimed), gamma, how many pairs there are to look at, how many contributions are listed (at most top), and
 * how many rounds of improvement were made (at most max_rounds). The contributions are over the front of the records, largest
 * first, equal ones in the order of their discovery.
 * The lists of pairs (lefts, rights, index) and the coupling store (places, masses) are scratch: all zero after any call that is
 * not refused with 4 to 14, which leave them as they were.
 * Needs an observation for each state; 4,096 entries in each list of pairs; 64 records; and in places and in masses as many
 * entries as the row lengths of each pair to look at multiplied, added up (never more than left_entries x right_entries).
 * Refusals: 4; 7; 11; 12; 13; 14; 17; 18; 16; 19, in this order. */
uint32_t tanqesha_distance(size_t left_states, size_t left_entries, uint32_t left_initial,
                           const uint32_t *left_offsets, size_t left_offsets_length,
                           const uint32_t *left_targets, size_t left_targets_length,
                           const double *left_probabilities, size_t left_probabilities_length,
                           const double *left_observations, size_t left_observations_length,
                           size_t right_states, size_t right_entries, uint32_t right_initial,
                           const uint32_t *right_offsets, size_t right_offsets_length,
                           const uint32_t *right_targets, size_t right_targets_length,
                           const double *right_probabilities, size_t right_probabilities_length,
                           const double *right_observations, size_t right_observations_length,
                           double gamma, double tolerance, size_t max_rounds, size_t top,
                           uint32_t *lefts, size_t lefts_length, uint32_t *rights, size_t rights_length,
                           uint64_t *index, size_t index_length,
                           uint32_t *places, size_t places_length, double *masses, size_t masses_length,
                           struct tanqesha_contribution *records, size_t records_length,
                           double *value, double *error_bound, double *discount,
                           size_t *pairs, size_t *listed, size_t *rounds);

/* ---- distances of models */

/* The distance of a state of each of two models, by what is observed of their states: both are made chains at their common rate,
 * and the observations are scaled together to 0 to 1, as by tanqesha_uniformise and tanqesha_normalise. The rest as in
 * tanqesha_distance. The lists of both chains are scratch too.
 * Needs for each model what tanqesha_uniformise needs; in places and masses never more than the entries of both chains multiplied.
 * Refusals: 3; 4, of the states asked for too; 5; 6; 7; 8; 11; 12; 14; 17; 18; 16; 19, in this order. */
uint32_t tanqesha_bisim_distance(size_t left_states, size_t left_edges, size_t left_labels, uint32_t left_present, uint32_t left_start,
                                 const uint32_t *left_label_values, size_t left_label_values_length,
                                 const uint32_t *left_offsets, size_t left_offsets_length,
                                 const uint32_t *left_edge_labels, size_t left_edge_labels_length,
                                 const uint32_t *left_edge_targets, size_t left_edge_targets_length,
                                 const double *left_edge_weights, size_t left_edge_weights_length,
                                 uint32_t left_state, const double *left_observations, size_t left_observations_length,
                                 uint32_t *left_chain_offsets, size_t left_chain_offsets_length,
                                 uint32_t *left_chain_targets, size_t left_chain_targets_length,
                                 double *left_chain_probabilities, size_t left_chain_probabilities_length,
                                 double *left_chain_observations, size_t left_chain_observations_length,
                                 size_t right_states, size_t right_edges, size_t right_labels, uint32_t right_present, uint32_t right_start,
                                 const uint32_t *right_label_values, size_t right_label_values_length,
                                 const uint32_t *right_offsets, size_t right_offsets_length,
                                 const uint32_t *right_edge_labels, size_t right_edge_labels_length,
                                 const uint32_t *right_edge_targets, size_t right_edge_targets_length,
                                 const double *right_edge_weights, size_t right_edge_weights_length,
                                 uint32_t right_state, const double *right_observations, size_t right_observations_length,
                                 uint32_t *right_chain_offsets, size_t right_chain_offsets_length,
                                 uint32_t *right_chain_targets, size_t right_chain_targets_length,
                                 double *right_chain_probabilities, size_t right_chain_probabilities_length,
                                 double *right_chain_observations, size_t right_chain_observations_length,
                                 double gamma, double tolerance, size_t max_rounds, size_t top,
                                 uint32_t *lefts, size_t lefts_length, uint32_t *rights, size_t rights_length,
                                 uint64_t *index, size_t index_length,
                                 uint32_t *places, size_t places_length, double *masses, size_t masses_length,
                                 struct tanqesha_contribution *records, size_t records_length,
                                 double *value, double *error_bound, double *discount,
                                 size_t *pairs, size_t *listed, size_t *rounds);

#ifdef __cplusplus
}
#endif

#endif
