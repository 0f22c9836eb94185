//! Digit systems and queries of regions: what is found for them, beside what was worked by hand and what brute force
//! says, and what those near the limits cost.

#[path = "region_parts/brute.rs"]
mod brute;
#[path = "region_parts/digits.rs"]
mod digits;
#[path = "region_parts/large.rs"]
mod large;
#[path = "region_parts/random.rs"]
mod random;

use brute::{decided, try_sizes};
use cases::queries::{cond_text, query_of};
use jh_query::queries::{size, Query};
use random::{random_query, Draws};

/// The greatest size of a query that is decided.
const LIMIT: u128 = 67_108_864;

/// Queries that were worked by hand: what each is about, its text, its size and what is decided of it.
const WORKED: [(&str, &str, u128, &str); 13] = [
    (
        "a counter is 0 again after a step",
        "0 1 1 0 2 is num 0 const 0 not is num 0 const 3 is add num 0 const 1 const 0",
        149_940,
        "refuted",
    ),
    (
        "an element is pushed on a counted stack",
        "2 2 1 0 3 not in 1 var 0 is card var 0 num 0 equal var 1 union var 0 one 1 is card var 1 add num 0 \
         const 1",
        281_880,
        "valid",
    ),
    (
        "two members of a set of two",
        "1 3 0 0 3 is card var 0 const 2 in 1 var 0 in 2 var 0 same 1 2",
        2_016,
        "refuted",
    ),
    (
        "two members of a set of one",
        "1 3 0 0 3 is card var 0 const 1 in 1 var 0 in 2 var 0 same 1 2",
        1_824,
        "valid",
    ),
    (
        "a universe of one object",
        "0 2 0 0 1 is card all const 1 same 1 0",
        102,
        "valid",
    ),
    (
        "a chain of six sets",
        "6 1 0 0 5 within var 0 var 1 within var 1 var 2 within var 2 var 3 within var 3 var 4 within var 4 \
         var 5 within var 0 var 5",
        8_320,
        "valid",
    ),
    (
        "a chain of seven sets",
        "7 1 0 0 6 within var 0 var 1 within var 1 var 2 within var 2 var 3 within var 3 var 4 within var 4 \
         var 5 within var 5 var 6 within var 0 var 6",
        33_024,
        "too large",
    ),
    (
        "two elements that may differ",
        "0 3 0 0 0 same 1 2",
        12,
        "refuted",
    ),
    (
        "an element that may be null",
        "0 1 0 0 0 false",
        2,
        "refuted",
    ),
    (
        "a number below 0 that isn't 0 is not above it",
        "0 1 1 0 2 not less num 0 const 0 not is num 0 const 0 not less minus num 0 const 1 const 0",
        53_550,
        "valid",
    ),
    (
        "a flag wanted both ways",
        "0 1 0 2 3 flag 0 not flag 0 or flag 1 flag 1 false",
        4,
        "valid",
    ),
    (
        "no number is 1 more than its double",
        "0 1 1 0 1 is scale 2 num 0 const 1 false",
        125,
        "valid",
    ),
    (
        "a remainder",
        "0 1 1 0 1 divides 3 num 0 divides 3 add num 0 const 2",
        35_280,
        "refuted",
    ),
];

#[test]
fn worked_queries() {
    let mut differing = 0;
    for (name, text, wanted_size, wanted) in WORKED {
        let query = query_of(text);
        let came = (size(&query), decided(&query));
        if came != (wanted_size, wanted) {
            println!("{name}: size {}, {}", came.0, came.1);
            differing += 1;
        }
    }
    println!("{} worked queries, {differing} differ", WORKED.len());
    assert_eq!(differing, 0);
}

/// What came of random queries.
#[derive(Default)]
struct Counts {
    valid: u32,
    /// How many of those that are valid were tried on all sizes within a bound.
    whole: u32,
    refuted: u32,
    large: u32,
}

/// Decides a random query, and compares it with brute force. Whether they agree.
fn agrees(query: &Query, draws: &mut Draws, counts: &mut Counts) -> bool {
    match decided(query) {
        "valid" => {
            let tried = try_sizes(query, draws);
            counts.valid += 1;
            counts.whole += u32::from(tried.is_whole);
            !tried.is_refuted
        }
        "refuted" => {
            counts.refuted += 1;
            true
        }
        "too large" => {
            counts.large += 1;
            size(query) > LIMIT
        }
        _ => false,
    }
}

/// 6,000 random queries. One that is said to be valid is tried under all sizes within a bound, where there are at
/// most a thousand of them, else under a thousand that are drawn.
#[test]
fn random_queries() {
    let mut draws = Draws(20_261_127);
    let mut counts = Counts::default();
    let mut differing = 0;
    for _ in 0..6_000 {
        let query = random_query(&mut draws);
        if !agrees(&query, &mut draws, &mut counts) {
            let hyps: Vec<String> = query.hyps.items().iter().map(cond_text).collect();
            println!("differs: {} |- {}", hyps.join("; "), cond_text(&query.goal));
            differing += 1;
        }
    }
    let Counts {
        valid,
        whole,
        refuted,
        large,
    } = counts;
    println!(
        "6000 random queries: {valid} valid, {whole} of them under all small sizes, \
         {refuted} refuted, {large} too large, {differing} differ"
    );
    assert_eq!(differing, 0);
    // The seed gives so many.
    assert_eq!((valid, whole, refuted, large), (2_302, 1_548, 2_653, 1_045));
}
