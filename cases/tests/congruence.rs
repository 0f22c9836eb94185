//! Congruence closure, over plain nodes and over terms: cases, and a comparison of both with a plain fixed point on
//! random runs.

#[path = "congruence_parts/classes.rs"]
mod classes;
#[path = "congruence_parts/nodes.rs"]
mod nodes;
#[path = "congruence_parts/plain.rs"]
mod plain;

use cases::files::{check, lines};

#[test]
fn cases_of_nodes() {
    check(
        "plain nodes",
        28,
        &lines(include_str!("../data/closure.cases")),
        nodes::answer,
    );
}

#[test]
fn cases_of_classes() {
    check(
        "terms",
        26,
        &lines(include_str!("../data/classes.cases")),
        classes::answer,
    );
}

/// In each run over plain nodes equations are asserted and taken back; after each step all pairs of nodes are
/// compared with the fixed point, and the equations that an explanation lists have to give its equality alone.
#[test]
fn random_runs_of_nodes() {
    let tally = nodes::all_runs();
    println!(
        "{} random runs: {} pairs compared, {} of them equal, {} explanations, {} differ",
        nodes::RUNS,
        tally.pairs,
        tally.equal,
        tally.explained,
        tally.differ
    );
    assert_eq!(tally.differ, 0);
    // The seeds give so many.
    let counts = (tally.pairs, tally.equal, tally.explained);
    assert_eq!(counts, (2_932_392, 651_332, 72_947));
}

/// In each run over terms nodes of all sorts are made, equations and inequations are asserted and taken back. What
/// comes of each is compared: whether some structure meets the literals, and that none meets those that a conflict
/// lists. At the end all pairs are compared, and the literals that an explanation lists.
#[test]
fn random_runs_of_classes() {
    let tally = classes::all_runs();
    println!(
        "{} random runs: {} literals asserted, {} conflicts, {} pairs compared, \
         {} of them equal, {} explanations, {} differ",
        classes::RUNS,
        tally.asserted,
        tally.conflicts,
        tally.pairs,
        tally.equal,
        tally.explained,
        tally.differ
    );
    assert_eq!(tally.differ, 0);
    // The seeds give so many.
    assert_eq!((tally.asserted, tally.conflicts), (287_751, 29_701));
    let counts = (tally.pairs, tally.equal, tally.explained);
    assert_eq!(counts, (1_292_000, 74_288, 10_244));
}

/// 100,000 equations between 10,000 names with an application, then a read, at each.
#[test]
fn long_chains() {
    nodes::long_chain(10_000, 100_000);
    classes::long_chain(10_000, 100_000);
}
