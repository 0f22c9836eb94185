//! Queries near the limit, and many small ones: what is decided of each, and how long it took.

use crate::brute::decided;
use cases::queries::query_of;
use jh_query::queries::size;
use std::time::Instant;

/// A small query of an ordinary program: an element is pushed on a counted list.
const ORDINARY: &str =
    "1 2 1 0 3 not in 1 var 0 is card var 0 num 0 not same 1 0 not within union var 0 one 1 var 0";

/// Pieces that are joined two by two by an operator.
fn joined(operator: &str, pieces: Vec<String>) -> String {
    format!("{operator} ").repeat(pieces.len() - 1) + &pieces.join(" ")
}

/// Eight elements, which are all in a set of all objects.
fn members() -> String {
    let members = (0..8)
        .map(|element| format!("in {element} var 0"))
        .collect();
    format!("2 8 0 0 1 equal var 0 all {}", joined("and", members))
}

/// Eight elements, which are all apart and in both of two sets.
fn apart() -> String {
    let mut text = "2 8 0 0 36 ".to_string();
    for element in 0..8 {
        text += &format!("in {element} inter var 0 var 1 ");
        text.extend((0..element).map(|other| format!("not same {element} {other} ")));
    }
    text + "equal var 0 var 1"
}

/// Three elements, and six sets each of which is within the next.
fn chain() -> String {
    let links: String = (0..5)
        .map(|set| format!("within var {set} var {} ", set + 1))
        .collect();
    format!("6 3 0 0 5 {links}and implies in 1 var 0 in 1 var 5 implies in 2 var 0 in 2 var 5")
}

/// That an even number of so many flags is true doesn't hang on their order.
fn parity(flags: u32) -> String {
    let flag = |number| format!("flag {number}");
    let forward = joined("iff", (0..flags).map(flag).collect());
    let backward = joined("iff", (0..flags).rev().map(flag).collect());
    format!("0 1 0 {flags} 0 iff {forward} {backward}")
}

#[test]
fn small_queries() {
    let query = query_of(ORDINARY);
    let start = Instant::now();
    let valid = (0..1_000).filter(|_| decided(&query) == "valid").count();
    println!(
        "1000 small queries: {valid} valid, {} microseconds",
        start.elapsed().as_micros()
    );
    assert_eq!(valid, 1_000);
}

#[test]
fn large_queries() {
    let multiple = "0 1 1 0 1 is scale 1200001 num 0 const 1 false".to_string();
    let cardinals =
        "1 1 1 0 1 is add scale 80003 card var 0 scale 80027 num 0 const 640003 false".to_string();
    let queries = [
        (
            "8 elements in a set of all objects",
            members(),
            33_264_000,
            "valid",
        ),
        (
            "8 elements apart in two sets",
            apart(),
            66_528_000,
            "refuted",
        ),
        ("a chain of 6 sets", chain(), 17_846_400, "valid"),
        ("parity of 7 flags", parity(7), 256, "valid"),
        ("parity of 20 flags", parity(20), 2_097_152, "valid"),
        ("parity of 25 flags", parity(25), 67_108_864, "valid"),
        ("a multiple that is 1", multiple, 48_000_085, "valid"),
        ("three large factors", cardinals, 28_802_964, "refuted"),
    ];
    for (name, text, wanted_size, wanted) in queries {
        let query = query_of(&text);
        let start = Instant::now();
        let decided = decided(&query);
        println!(
            "{name}: size {}, {decided}, {} microseconds",
            size(&query),
            start.elapsed().as_micros()
        );
        assert_eq!((size(&query), decided), (wanted_size, wanted));
    }
}
