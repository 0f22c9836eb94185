//! Congruence closure over the terms and formulas of a table, with inequations: cases, random runs and a long chain.

use crate::plain::{is_conflict, number, pairs, parts_of, picked, sorted, Labels, Tally, Term};
use cases::files::Case;
use cases::random::Random;
use cases::words::{leaf, made, operation};
use jh_arena::makers::free_object;
use jh_arena::table::{Own, Shape, Table};
use jh_cong::classes::{Classes, CongError, Said};
use jh_name::name;
use rattle_std::alloc::Global;
use std::time::Instant;

/// How many random runs there are.
pub const RUNS: u64 = 20_000;

/// How many steps a run has.
const STEPS: usize = 60;

/// Of how many pairs the explanation is compared at the end of a run.
const PAIRS: usize = 10;

/// The nodes without parts that each table of a run has.
const LEAVES: &str = "a b c f g m n p q S 1 2 true false";

/// How often it is tried to make one more node.
const TRIES: usize = 120;

/// The operations of which the other nodes are made.
const OPERATIONS: [Shape; 12] = [
    Shape::ReadObject(0, 0),
    Shape::ReadObject(0, 0),
    Shape::ReadNumber(0, 0),
    Shape::ReadTruth(0, 0),
    Shape::Add(0, 0),
    Shape::Scale(2, 0),
    Shape::Less(0, 0),
    Shape::EqObject(0, 0),
    Shape::Single(0),
    Shape::Member(0, 0),
    Shape::Negation(0),
    Shape::Update(0, 0, 0),
];

/// Asserts a literal. Answers by which literals it is a conflict, where it is one.
fn assert(classes: &mut Classes, said: Said) -> Option<Vec<usize>> {
    let told = if said.holds {
        classes.assert_eq(Global, said.left, said.right)
    } else {
        classes.assert_ne(Global, said.left, said.right)
    };
    match told {
        Ok(()) => None,
        Err(CongError::Conflict(listed)) => Some(listed.items().to_vec()),
        Err(CongError::Memory) => panic!("memory"),
    }
}

/// The nodes of a text: words without parts, and operations with the places of their parts, with dots between them.
fn nodes_of(table: &mut Table, text: &str) -> Vec<usize> {
    let mut nodes: Vec<usize> = Vec::new();
    for word in text.split_whitespace() {
        let mut pieces = word.split('.');
        let first = pieces.next().expect("a word");
        let parts: Vec<usize> = pieces.map(|place| nodes[number(place)]).collect();
        let node = match operation(first) {
            Some(operation) => made(table, operation, &parts),
            None => leaf(table, word),
        };
        nodes.push(node.unwrap_or_else(|| panic!("{word} is no node")));
    }
    nodes
}

/// A word as a literal, `0=1` or `0!=1`, over the places of nodes.
fn literal(nodes: &[usize], word: &str) -> Option<Said> {
    let (left, right) = word.split_once('=')?;
    let holds = !left.ends_with('!');
    let (left, right) = (number(left.trim_end_matches('!')), number(right));
    Some(Said {
        left: nodes[left],
        right: nodes[right],
        holds,
    })
}

/// What comes of a step: a literal, or a number of literals that are kept.
fn step(classes: &mut Classes, nodes: &[usize], word: &str) -> String {
    let Some(said) = literal(nodes, word) else {
        classes.undo(number(word));
        return "back, ".to_string();
    };
    if !classes.can_be_said(said.left, said.right) {
        return "ill-sorted, ".to_string();
    }
    match assert(classes, said) {
        None => "ok, ".to_string(),
        Some(listed) => format!("conflict{}, ", sorted(&listed)),
    }
}

/// What is said in a case `NODES | STEPS | PAIR`.
pub fn answer(case: &Case) -> String {
    let (nodes, steps, pair) = parts_of(&case.given);
    let mut table = Table::new(Global).expect("memory");
    let nodes = nodes_of(&mut table, nodes);
    let mut classes = Classes::new(Global, table).expect("memory");
    let mut said: String = steps
        .split_whitespace()
        .map(|word| step(&mut classes, &nodes, word))
        .collect();
    let pair = literal(&nodes, pair).expect("a pair");
    if !classes.can_be_said(pair.left, pair.right) {
        return said + "ill-sorted";
    }
    match classes
        .explain(Global, pair.left, pair.right)
        .expect("memory")
    {
        Some(listed) => said += &format!("equal by{}", sorted(&listed)),
        None => said += "not equal",
    }
    said
}

/// Names, constants and random nodes over them.
fn random_table(random: &mut Random) -> Table {
    let mut table = Table::new(Global).expect("memory");
    nodes_of(&mut table, LEAVES);
    for _ in 0..TRIES {
        let operation = OPERATIONS[random.below(OPERATIONS.len())];
        let parts: Vec<usize> = (0..operation.own().count())
            .map(|_| random.below(table.len()))
            .collect();
        made(&mut table, operation, &parts);
    }
    table
}

/// A node as the plain fixed point takes it: its operation is the shape with 0 for each part.
fn term_of(shape: Shape) -> Term<Shape> {
    let parts = match shape.own() {
        Own::None => vec![],
        Own::One(a) => vec![a],
        Own::Two(a, b) => vec![a, b],
        Own::Three(a, b, c) => vec![a, b, c],
    };
    Term {
        operation: shape.put(0, &[0, 0, 0][..parts.len()]),
        parts,
    }
}

/// A literal that is asserted in a run: some structure meets all so far, or neither all nor the listed ones are met,
/// and it is taken back.
fn take(
    terms: &[Term<Shape>],
    classes: &mut Classes,
    said: &mut Vec<Said>,
    one: Said,
    tally: &mut Tally,
) {
    if !classes.can_be_said(one.left, one.right) {
        return;
    }
    tally.asserted += 1;
    said.push(one);
    match assert(classes, one) {
        None => tally.expect(!is_conflict(terms, said)),
        Some(listed) => {
            tally.conflicts += 1;
            tally.expect(is_conflict(terms, said));
            tally.expect(is_conflict(terms, &picked(said, &listed)));
            said.pop();
        }
    }
}

/// Compares which pairs are equal at the end of a run, and some explanations.
fn compare(
    terms: &[Term<Shape>],
    classes: &Classes,
    said: &[Said],
    random: &mut Random,
    tally: &mut Tally,
) {
    let labels = Labels::new(terms, said);
    for (left, right) in pairs(terms.len()) {
        if classes.can_be_said(left, right) {
            tally.count_pair(&labels, left, right, classes.same(left, right));
        }
    }
    for _ in 0..PAIRS {
        let (left, right) = random.pair(terms.len());
        if classes.can_be_said(left, right) {
            let listed = classes.explain(Global, left, right).expect("memory");
            tally.count_explanation(terms, said, (left, right), listed.as_deref());
        }
    }
}

/// The run of a seed: literals are asserted, and now and then taken back.
fn run(seed: u64, tally: &mut Tally) {
    let mut random = Random::new(seed);
    let mut classes = Classes::new(Global, random_table(&mut random)).expect("memory");
    let table = classes.table();
    let terms: Vec<_> = (0..table.len())
        .map(|node| term_of(table.shape(node)))
        .collect();
    let mut said = Vec::new();
    for _ in 0..STEPS {
        if random.one_in(12) {
            let kept = random.below(classes.len());
            classes.undo(kept);
            said.truncate(kept);
        } else {
            let (left, right) = random.pair(terms.len());
            let holds = !random.one_in(3);
            take(
                &terms,
                &mut classes,
                &mut said,
                Said { left, right, holds },
                tally,
            );
        }
    }
    compare(&terms, &classes, &said, &mut random, tally);
}

/// What came of all random runs.
pub fn all_runs() -> Tally {
    let mut tally = Tally::default();
    for seed in 0..RUNS {
        run(seed, &mut tally);
    }
    tally
}

/// Names, then a field, and then a read of it at each name.
fn chain_table(names: usize) -> Table {
    let mut table = Table::new(Global).expect("memory");
    for turn in 0..names {
        let name = name(Global, "a", turn as u32).expect("memory");
        free_object(&mut table, &name).expect("memory");
    }
    leaf(&mut table, "f").expect("a field");
    for at in 0..names {
        made(&mut table, Shape::ReadObject(0, 0), &[names, at]).expect("a read");
    }
    table
}

/// Asserts equations of neighbours in a ring of names, each of them several times, and explains why the reads at the
/// first and at the middle name are equal. Prints how long each takes.
pub fn long_chain(names: usize, equations: usize) {
    let mut classes = Classes::new(Global, chain_table(names)).expect("memory");
    let start = Instant::now();
    for number in 0..equations {
        let left = number * 7_919 % names;
        let right = (left + 1) % names;
        assert!(classes.can_be_said(left, right));
        assert!(assert(
            &mut classes,
            Said {
                left,
                right,
                holds: true
            }
        )
        .is_none());
    }
    println!("{equations} equations: {} ms", start.elapsed().as_millis());
    let (left, right) = (names + 1, names + 1 + names / 2);
    assert!(classes.can_be_said(left, right));
    let start = Instant::now();
    let listed = classes
        .explain(Global, left, right)
        .expect("memory")
        .expect("an explanation");
    println!(
        "an explanation by {} equations: {} ms",
        listed.len(),
        start.elapsed().as_millis()
    );
    // Each way in the ring from the first to the middle name has half of the equations.
    assert!((names / 2..names).contains(&listed.len()));
    let start = Instant::now();
    classes.undo(0);
    println!("all taken back: {} ms", start.elapsed().as_millis());
    assert!(!classes.same(left, right));
}
