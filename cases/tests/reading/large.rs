//! Large sources, some of them hard on a reader: of each the bytes, the tokens, whether it is read,
//! and how long it takes.

use crate::fault;
use jh_lex::lexer::tokens;
use rattle_std::alloc::Global;
use std::time::Instant;

/// A class, with code, comments, a specification and formulas.
const CLASS: &str = "class Cell {
    private static Cell first; // the first of all
    /*: invariant shape: \"tree [Cell.next]\";
        invariant root: \"first = null | (ALL y. y..Cell.next ~= first)\"; */
    public static void add(Cell n)
    /*: requires \"n ~= null & n ~: content\" modifies content */
    { n.next = first; first = n; if (n.size >= 4096) { size = size + 1; } }
}
";

/// How many bytes and tokens a source has. Prints how long the tokens take.
fn counts(name: &str, source: &str) -> String {
    let start = Instant::now();
    let count = tokens(Global, source.as_bytes()).unwrap().len();
    println!(
        "{name}: {} microseconds for the tokens",
        start.elapsed().as_micros()
    );
    format!("bytes {}, tokens {count}", source.len())
}

/// What comes of a source. Prints how long it takes.
fn outcome(name: &str, source: &str) -> String {
    let start = Instant::now();
    let fault = fault(source.as_bytes());
    println!(
        "{name}: {} microseconds for all",
        start.elapsed().as_micros()
    );
    match fault {
        None => "read".into(),
        Some((7, place)) => format!("refused 7 at {}:{}", place.line, place.column),
        Some((number, _)) => format!("refused {number}"),
    }
}

#[test]
fn large_sources_are_read_or_refused() {
    let lines = include_str!("../../data/reading/large.cases").lines();
    let cases: Vec<&str> = lines.filter(|line| line.contains('|')).collect();
    for case in &cases {
        let parts: Vec<&str> = case.split('|').collect();
        let [name, front, part, times, end, wanted] = parts[..] else {
            panic!("{case}");
        };
        let source = front.to_string() + &part.repeat(times.parse().unwrap()) + end;
        let found = format!("{}, {}", counts(name, &source), outcome(name, &source));
        assert_eq!(found, wanted, "{name}");
    }
    println!("{} sources", cases.len());
    assert!(!cases.is_empty());
}

#[test]
fn a_megabyte_has_so_many_tokens() {
    let counts = counts("1 MB of classes", &CLASS.repeat(2763));
    assert_eq!(counts, "bytes 1000206, tokens 251434");
}
