//! Formulas that are nodes of a table: many substitutions, openings and conjunctions, a node that is too deep for any
//! walk, and the sequents behind many branches. Each test prints how long it took, which is a figure and has no
//! bound.

use cases::row;
use jh_arena::makers::free_truth;
use jh_boxed_calls::formulas::{
    carry, conjunction, free_object, negation, negation_normal, null, same_object, truth,
    unlabelled, vary,
};
use jh_boxed_calls::formulas::{Formulas, FreeNames, NodeList, Order, Table};
use jh_command_terms::command::Command;
use jh_name::{name, MethodId};
use jh_splitting::split_in;
use jh_weakest::precondition::wp_in;
use jh_weakest::sequent_count::count;
use rattle_std::alloc::Global;
use rattle_std::boxed::Box;
use std::thread::Builder;
use std::time::Instant;

/// How often equations are joined two by two: 4,096 of them have 12,288 nodes.
const LEVELS: u32 = 12;

/// How deep the negations nest over which no walk goes.
const DEEP: usize = 60_002;

/// How deep they nest at most where walks go over them.
const DEEPEST: usize = 10_000;

/// The stack, in bytes, on which walks go over deep nodes: as much as the first thread of a process mostly has.
const STACK: usize = 8 << 20;

fn new_table() -> Table {
    Table::new(Global).expect("memory")
}

/// The node of a conjunction of equations of names with null that are joined two by two this often. The turns of their
/// names are different where `first` is 1.
fn balanced(table: &mut Table, first: u32, levels: u32) -> usize {
    if levels == 0 {
        let name = name(Global, "x", first).expect("memory");
        let left = free_object(table, &name).expect("memory");
        let right = null(table).expect("memory");
        return same_object(table, left, right).expect("memory");
    }
    let left = balanced(table, 2 * first, levels - 1);
    let right = balanced(table, 2 * first + 1, levels - 1);
    conjunction(table, left, right).expect("memory")
}

/// Whether the formula with null for one of its names is made.
fn is_substituted(table: &mut Table, formula: usize, turn: u32) -> bool {
    let name = name(Global, "x", turn).expect("memory");
    let value = null(table).expect("memory");
    table.subst(formula, &name, value).is_ok()
}

/// Whether the formula is opened as the body of a binder, with null for the binder's variable.
fn is_opened(table: &mut Table, formula: usize) -> bool {
    let value = null(table).expect("memory");
    table.open(formula, value).is_ok()
}

/// Prints what was done, how many nodes there are then, and how long it took since a start. Compares the number of
/// nodes.
fn report(what: &str, table: &Table, wanted: usize, start: Instant) {
    println!(
        "{what}: {} nodes, {} microseconds",
        table.len(),
        start.elapsed().as_micros()
    );
    assert_eq!(table.len(), wanted);
}

/// A substitution for one of 4,096 names adds the twelve conjunctions on the way to its equation, and all of them
/// together one equation of null with null.
#[test]
fn substitutions() {
    for times in [0, 2_000] {
        let start = Instant::now();
        let mut table = new_table();
        let formula = balanced(&mut table, 1, LEVELS);
        assert!((0..times).all(|turn| is_substituted(&mut table, formula, 4_096 + turn)));
        let added = if times == 0 {
            0
        } else {
            12 * times as usize + 1
        };
        report(
            &format!("{times} substitutions"),
            &table,
            12_288 + added,
            start,
        );
    }
}

/// Openings of a formula without loose variables add nothing.
#[test]
fn openings() {
    let start = Instant::now();
    let mut table = new_table();
    let formula = balanced(&mut table, 1, LEVELS);
    assert!((0..2_000).all(|_| is_opened(&mut table, formula)));
    report("2000 openings", &table, 12_288, start);
}

/// Conjunctions, each over the one before.
#[test]
fn conjunctions() {
    let start = Instant::now();
    let mut table = new_table();
    let part = balanced(&mut table, 1, 0);
    let conjoined = |made, _| conjunction(&mut table, part, made).expect("memory");
    (0..100_000).fold(part, conjoined);
    report("100000 conjunctions", &table, 100_003, start);
}

/// A call on a node: whether it is answered.
type Call = fn(&mut Table, usize) -> bool;

/// Calls that walk over a node.
const CALLS: [(&str, Call); 7] = [
    ("add_parts", |table, node| {
        NodeList::new(Global)
            .add_parts(table, &FreeNames, Order::OuterFirst, node)
            .is_ok()
    }),
    ("carry", |table, node| {
        carry(table, &mut new_table(), node).is_ok()
    }),
    ("subst", |table, node| is_substituted(table, node, 1)),
    ("open", is_opened),
    ("vary", |table, node| {
        let term = null(table).expect("memory");
        vary(table, node, term).is_ok()
    }),
    ("unlabelled", |table, node| unlabelled(table, node).is_ok()),
    ("negation_normal", |table, node| {
        negation_normal(table, node, true).is_ok()
    }),
];

/// Which calls on a node of so many negations are answered. The others answer want of memory.
fn answered(levels: usize) -> Vec<&'static str> {
    let mut table = new_table();
    let truth = truth(&mut table).expect("memory");
    let node = (0..levels).fold(truth, |made, _| negation(&mut table, made).expect("memory"));
    let answered = CALLS.iter().filter(|(_, call)| call(&mut table, node));
    answered.map(|(name, _)| *name).collect()
}

/// No call goes over a node that is too deep, and none ends the process; in two threads beside one another each goes
/// over the deepest node that isn't.
#[test]
fn deep_nodes() {
    let ask = |levels| {
        Builder::new()
            .stack_size(STACK)
            .spawn(move || answered(levels))
            .expect("a thread")
    };
    let threads = [ask(DEEP), ask(DEEPEST), ask(DEEPEST)];
    let [deep, first, second] = threads.map(|it| it.join().expect("an answer").len());
    println!(
        "{DEEP} levels: {deep} of {} calls are answered",
        CALLS.len()
    );
    println!(
        "{DEEPEST} levels, in threads: {first} and {second} of {} calls are answered",
        CALLS.len()
    );
    assert_eq!([deep, first, second], [0, 7, 7]);
}

/// The node of a name for a truth.
fn free(table: &mut Table, text: &str, turn: u32) -> usize {
    free_truth(table, &name(Global, text, turn).expect("memory")).expect("memory")
}

/// So many choices between a truth and its opposite, one behind the other.
fn branches(table: &mut Table, many: u32) -> Command {
    let assuming = |node| Box::new(Global, Command::Assume(node)).expect("memory");
    let steps = (0..many).map(|turn| {
        let yes = free(table, "c", turn);
        let no = negation(table, yes).expect("memory");
        Command::Choice(assuming(yes), assuming(no))
    });
    Command::Seq(row(steps))
}

/// Each branch doubles the sequents. The count stays at the greatest number.
#[test]
fn counts_behind_branches() {
    for many in [0, 1, 10, 100, 127, 128] {
        let mut table = new_table();
        let post = free(&mut table, "post", 0);
        let command = branches(&mut table, many);
        let count = count(&mut table, &command, post, post).expect("memory");
        println!("{many} branches: {count} sequents");
        assert_eq!(count, 1u128.checked_shl(many).unwrap_or(u128::MAX));
    }
}

#[test]
fn splits_behind_branches() {
    let mut table = new_table();
    let post = free(&mut table, "post", 0);
    let command = branches(&mut table, 10);
    let node = wp_in(&mut table, &command, post, post).expect("memory");
    let start = Instant::now();
    for _ in 0..200 {
        let method = MethodId {
            class: 0,
            method: 0,
        };
        let made = split_in(&mut table, method, node).expect("memory");
        assert_eq!(made.sequents.len(), 1_024);
    }
    println!(
        "10 branches, split 200 times: 1024 sequents, {} microseconds",
        start.elapsed().as_micros()
    );
}
