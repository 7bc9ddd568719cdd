//! What is compared: a writer of cases, and the proved program that answers them.

pub struct Kind {
    /// The writer's name.
    pub name: &'static str,
    pub program: &'static str,
    /// How many cases a turn has: a few seconds of them.
    pub cases: u64,
    /// The functions behind the letters that the writer counts cases by.
    pub functions: &'static [(&'static str, &'static str)],
}

pub const KINDS: [Kind; 7] = [
    Kind {
        name: "numbers",
        program: "replay_numbers",
        cases: 200_000,
        functions: &[],
    },
    Kind {
        name: "banks",
        program: "replay_bank",
        cases: 20_000,
        functions: &[],
    },
    Kind {
        name: "costs",
        program: "replay_costs",
        cases: 50_000,
        functions: &COSTS,
    },
    Kind {
        name: "goodput",
        program: "replay_goodput",
        cases: 50_000,
        functions: &GOODPUT,
    },
    Kind {
        name: "gates",
        program: "replay_gates",
        cases: 50_000,
        functions: &[("r", "gated_ragged_draft"), ("v", "gated_block_verify")],
    },
    Kind {
        name: "ledgers",
        program: "replay_ledger",
        cases: 2_000,
        functions: &[
            ("f", "full storages"),
            ("l", "long sequences"),
            ("n", "no room"),
            ("s", "short sequences"),
        ],
    },
    Kind {
        name: "planners",
        program: "replay_planner",
        cases: 5_000,
        functions: &[
            ("d", "planners with damaged plans"),
            ("f", "full planners"),
            ("p", "whole planners"),
            ("s", "planners whose widths settle"),
        ],
    },
];

const COSTS: [(&str, &str); 23] = [
    ("a", "is_unconstrained"),
    ("b", "is_block"),
    ("c", "decide"),
    ("d", "seconds"),
    ("e", "collect"),
    ("f", "step_time_frac"),
    ("g", "ragged_seconds"),
    ("h", "has_draft"),
    ("i", "first"),
    ("j", "table_refusal"),
    ("k", "walk_candidates"),
    ("l", "decide_lent"),
    ("m", "max_batch"),
    ("n", "collect_lent"),
    ("o", "record_refusal"),
    ("p", "price_curve"),
    ("q", "pass_seconds"),
    ("r", "batch_range"),
    ("s", "step_time"),
    ("t", "read"),
    ("u", "switch_refusal"),
    ("v", "drafter_refusal"),
    ("w", "rates_refusal"),
];

const GOODPUT: [(&str, &str); 8] = [
    ("a", "aggregate_depth"),
    ("b", "bank_expected"),
    ("c", "curve"),
    ("d", "best_depth"),
    ("e", "expected_by_depth"),
    ("m", "model_expected"),
    ("s", "survival_chain"),
    ("t", "total_cost"),
];
