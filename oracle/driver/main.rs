//! The oracle: the published Rust, run on trees and rays, with its answers written for the gate's `replay`.
mod accept;
mod calls;
mod causes;
mod checks;
mod children;
mod compare;
mod conversions;
mod convert;
mod corners;
mod differences;
mod generate;
mod join;
mod join_draws;
mod join_sizes;
mod joins;
mod large;
mod leaves;
mod long;
mod loss;
mod loss_sizes;
mod losses;
mod made;
mod nodes;
mod odd;
mod ordering;
mod queries;
mod query;
mod record;
mod rng;
mod run;
mod samples;
mod scene;
mod seats;
mod show;
mod small;
mod spans;
mod store;
mod timed;
mod timed_causes;
mod timed_compare;
mod timed_conversions;
mod timed_corners;
mod timed_large;
mod timed_loss;
mod timed_loss_sizes;
mod timed_losses;
mod timed_queries;
mod timed_run;
mod timed_scene;
mod timed_steps;
mod tree;
mod walk;
mod walker;
mod zeros;

use std::io::Read;
use std::path::Path;

const SEED: u64 = 20261005;

const USAGE: &str = "oracle samples          print T's record and check the samples
oracle store FOLDER     write the files of stored answers
oracle compare TREES    compare the published code with the rules on random trees and rays
oracle show             read a tree's words as showrecord does, and print what it prints
oracle tables           read the same, and print the decision words and cost bits of each node
oracle differences      print where the published code and the rules differ, with smallest inputs";

fn store(folder: &str) -> bool {
    let at = |name: &str| Path::new(folder).join(name);
    std::fs::create_dir_all(folder).unwrap();
    store::write(&at("leaves"), &leaves::groups(SEED));
    store::write(&at("conversion"), &corners::groups(SEED + 1));
    store::write(&at("check"), &checks::groups(SEED + 2));
    store::write(&at("checkrecord"), &checks::line_groups());
    let queries = [queries::groups(SEED + 3), causes::groups(SEED + 8), long::groups(SEED + 9)];
    store::write(&at("queries"), &queries.into_iter().flatten().collect::<Vec<_>>());
    store::write(&at("steps"), &calls::groups(SEED + 10));
    store::write(&at("large"), &large::groups(SEED + 11));
    store::write(&at("losses"), &losses::groups(SEED + 12));
    store::write(&at("joins"), &joins::groups(SEED + 13));
    store::write(&at("ordering"), &ordering::groups(SEED + 14));
    store::write(&at("timed_conversion"), &timed_conversions::groups(SEED + 15));
    store::write(&at("timed_queries"), &timed_queries::groups(SEED + 16));
    store::write(&at("timed_steps"), &timed_steps::groups(SEED + 17));
    store::write(&at("timed_losses"), &timed_losses::groups(SEED + 18));
    store::write(&at("timed_large"), &timed_large::groups(SEED + 19));
    store::write(&at("showrecord"), &show::groups(SEED + 4));
    store::write(&at("nodes"), &nodes::groups(SEED + 6));
    store::write(&at("children"), &children::groups(SEED + 7));
    true
}

/// Prints what becomes of standard input.
fn print(what: fn(&[u8]) -> String) -> bool {
    let mut input = vec![];
    std::io::stdin().read_to_end(&mut input).unwrap();
    print!("{}", what(&input));
    true
}

fn main() {
    let words: Vec<String> = std::env::args().skip(1).collect();
    let done = match words.iter().map(|w| w.as_str()).collect::<Vec<_>>()[..] {
        ["samples"] => samples::run(),
        ["store", folder] => store(folder),
        ["compare", trees] => compare::run(SEED + 5, trees.parse().unwrap()),
        ["show"] => print(show::showrecord),
        ["tables"] => print(show::tables),
        ["differences"] => differences::run(),
        _ => {
            eprintln!("{USAGE}");
            false
        }
    };
    std::process::exit(!done as i32);
}
