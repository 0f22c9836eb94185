//! Congruence closure over plain nodes: cases, random runs and a long chain.

use crate::plain::{number, pairs, parts_of, sorted, Labels, Tally, Term};
use cases::files::Case;
use cases::random::Random;
use cases::row;
use jh_closure::congruence_closure::{are_parts_inside, Closure, Node};
use jh_cong::classes::Said;
use rattle_std::alloc::Global;
use std::time::Instant;

/// How many random runs there are.
pub const RUNS: u64 = 20_000;

fn closure_of(nodes: &[Node]) -> Closure {
    Closure::new(Global, row(nodes.iter().copied()).into_vec()).expect("memory")
}

/// A word as a node: the number of an operation without parts, or OPERATION.LEFT.RIGHT.
fn node_of(word: &str) -> Node {
    match word.split('.').map(number).collect::<Vec<_>>()[..] {
        [operation] => Node::Leaf(operation),
        [operation, left, right] => Node::Apply(operation, left, right),
        _ => panic!("{word} is no node"),
    }
}

/// A word as an equation.
fn equation(word: &str) -> Option<(usize, usize)> {
    word.split_once('=')
        .map(|(left, right)| (number(left), number(right)))
}

/// What is said in a case `NODES | STEPS | PAIR`.
pub fn answer(case: &Case) -> String {
    let (nodes, steps, pair) = parts_of(&case.given);
    let nodes: Vec<Node> = nodes.split_whitespace().map(node_of).collect();
    if !are_parts_inside(&nodes) {
        return "outside".to_string();
    }
    let mut closure = closure_of(&nodes);
    for step in steps.split_whitespace() {
        match equation(step) {
            Some((left, right)) => closure.assert(Global, left, right).expect("memory"),
            None => closure.undo(number(step)),
        }
    }
    let (left, right) = equation(pair).expect("a pair");
    match closure.explain(Global, left, right).expect("memory") {
        Some(listed) => format!("by{}", sorted(&listed)),
        None => "apart".to_string(),
    }
}

/// A node of a number: of few operations, with parts that are mostly earlier nodes and now and then any node.
fn random_node(random: &mut Random, number: usize, count: usize) -> Node {
    if number == 0 || random.one_in(3) {
        return Node::Leaf(random.below(6));
    }
    let reach = if random.one_in(8) { count } else { number };
    Node::Apply(random.below(3), random.below(reach), random.below(reach))
}

fn term_of(node: &Node) -> Term<usize> {
    match *node {
        Node::Leaf(operation) => Term {
            operation,
            parts: vec![],
        },
        Node::Apply(operation, left, right) => Term {
            operation,
            parts: vec![left, right],
        },
    }
}

/// The run of a seed: equations are asserted, and now and then taken back; after each step all pairs are compared.
fn run(seed: u64, tally: &mut Tally) {
    let mut random = Random::new(seed);
    let count = random.below(9) + 2;
    let nodes: Vec<Node> = (0..count)
        .map(|number| random_node(&mut random, number, count))
        .collect();
    let terms: Vec<_> = nodes.iter().map(term_of).collect();
    let mut closure = closure_of(&nodes);
    let mut said = Vec::new();
    for _ in 0..8 {
        if random.one_in(4) {
            let kept = random.below(closure.len());
            closure.undo(kept);
            said.truncate(kept);
        } else {
            let (left, right) = random.pair(count);
            closure.assert(Global, left, right).expect("memory");
            said.push(Said {
                left,
                right,
                holds: true,
            });
        }
        let pair = random.pair(count);
        let labels = Labels::new(&terms, &said);
        for (left, right) in pairs(count) {
            tally.count_pair(&labels, left, right, closure.same(left, right));
        }
        let listed = closure.explain(Global, pair.0, pair.1).expect("memory");
        tally.count_explanation(&terms, &said, pair, listed.as_deref());
    }
}

/// What came of all random runs.
pub fn all_runs() -> Tally {
    let mut tally = Tally::default();
    for seed in 0..RUNS {
        run(seed, &mut tally);
    }
    tally
}

/// Asserts equations of neighbours in a ring of names, each of them several times, and explains why the applications
/// of an operation to the first and to the middle name are equal. Prints how long each takes.
pub fn long_chain(names: usize, equations: usize) {
    let start = Instant::now();
    let leaves = (0..names).map(Node::Leaf);
    let nodes: Vec<Node> = leaves
        .chain((0..names).map(|name| Node::Apply(0, name, name)))
        .collect();
    let mut closure = closure_of(&nodes);
    println!("{} nodes: {} ms", nodes.len(), start.elapsed().as_millis());
    let start = Instant::now();
    for number in 0..equations {
        let left = number * 7_919 % names;
        closure
            .assert(Global, left, (left + 1) % names)
            .expect("memory");
    }
    println!("{equations} equations: {} ms", start.elapsed().as_millis());
    let start = Instant::now();
    let listed = closure
        .explain(Global, names, names + names / 2)
        .expect("memory")
        .expect("an explanation");
    println!(
        "an explanation of {} equations: {} ms",
        listed.len(),
        start.elapsed().as_millis()
    );
    // Each way in the ring from the first to the middle name has half of the equations.
    assert!((names / 2..names).contains(&listed.len()));
    let start = Instant::now();
    closure.undo(0);
    println!("all taken back: {} ms", start.elapsed().as_millis());
    assert!(!closure.same(names, names + names / 2));
}
