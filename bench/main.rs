//! Measures the library beside the published Rust, both on the same inputs in one run. A row for a part stands in the part's
//! module, and trees and records come from the oracle's generator and the published conversion.
mod boxes;
mod calls;
mod conversions;
mod joins;
mod nodes;
mod queries;
mod records;
mod reports;
mod timed;
mod timed_calls;
mod timing;
mod trees;

#[allow(dead_code)]
#[path = "../oracle/driver/convert.rs"]
mod convert;
#[allow(dead_code)]
#[path = "../oracle/driver/generate.rs"]
mod generate;
#[allow(dead_code)]
#[path = "../oracle/driver/rng.rs"]
mod rng;
#[allow(dead_code)]
#[path = "../oracle/driver/tree.rs"]
mod tree;

/// The modules that arguments name, or all: see bench/README.md.
fn main() {
    let parts: [(&str, fn()); 9] = [
        ("boxes", boxes::rows),
        ("nodes", nodes::rows),
        ("trees", trees::rows),
        ("conversions", conversions::rows),
        ("joins", joins::rows),
        ("records", records::rows),
        ("queries", queries::rows),
        ("reports", reports::rows),
        ("timed", timed::rows),
    ];
    let names: Vec<String> = std::env::args().skip(1).filter(|a| parts.iter().any(|(name, _)| a == name)).collect();
    for (name, rows) in parts {
        if names.is_empty() || names.iter().any(|a| a == name) {
            rows();
        }
    }
}
