//! The entries, their refusal numbers, and how many comparisons each needs.

/// Each entry with its row of refusal numbers.
pub const ROWS: &[(&str, &[u32])] = &[
    ("is_valid", &[]),
    ("is_zero", &[]),
    ("sum", &[]),
    ("intern", &[3, 4, 7]),
    ("get", &[3, 4]),
    ("resolve", &[3, 4]),
    ("build", &[3, 4, 5, 6, 7]),
    ("model_refusal", &[3, 4, 5, 6]),
    ("num_states", &[3, 4, 5, 6]),
    ("num_transitions", &[3, 4, 5, 6]),
    ("num_labels", &[3, 4, 5, 6]),
    ("initial", &[3, 4, 5, 6]),
    ("successors", &[3, 4, 5, 6]),
    ("label", &[3, 4, 5, 6]),
    ("label_id", &[3, 4, 5, 6]),
    ("new", &[15]),
    ("add_edge", &[15]),
    ("max_flow", &[15]),
    ("transport", &[7, 15, 16]),
    ("epsdelta", &[3, 4, 5, 6, 7, 9, 10]),
    ("related", &[3, 4, 7, 10]),
    ("epsdelta_bisimilar", &[3, 4, 5, 6, 7, 8, 9, 10]),
    ("min_epsilon", &[3, 4, 5, 6, 7, 8, 9, 10]),
    ("common_rate", &[3, 4, 5, 6]),
    ("uniformise", &[3, 4, 5, 6, 7, 8, 11, 12]),
    ("normalise", &[4, 7, 12, 13]),
    // 16 can't be met inside them (POINTS.md, P53)
    ("distance", &[4, 7, 11, 12, 13, 14, 17, 18, 19]),
    (
        "bisim_distance",
        &[3, 4, 5, 6, 7, 8, 11, 12, 14, 17, 18, 19],
    ),
    ("report", &[7]),
];

/// The parts of `max_flow` that the library has beside it: the run over rows, and its check alone.
pub const PARTS: &[(&str, &[u32])] = &[("max_flow_rows", &[15]), ("network_refusal", &[15])];

/// The refusal numbers that an entry prints where it is not refused itself; each, and a text without one, is counted as
/// the numbers of its row are.
pub fn printed_numbers(name: &str) -> &'static [u32] {
    match name {
        "report" => &[1, 2, 4, 9],
        _ => &[],
    }
}

/// Least number of comparisons of an entry, and least number for each refusal number of its row and for none.
pub fn floors(name: &str) -> (u64, u64) {
    match name {
        // 0 to 66 nodes are accepted, which is 67 inputs
        "new" => (1_000, 67),
        _ => (10_000, 200),
    }
}

/// Least number of comparisons for a refusal number of the entry's row, or for none: a run that 19 ends has 1,000,000 rounds.
pub fn floor(name: &str, number: u32) -> u64 {
    match number {
        19 => 24,
        _ => floors(name).1,
    }
}
