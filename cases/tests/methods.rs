//! What is made of programs and their methods: the values of formulas, the state, sequents and
//! commands, the commands of one call, and how long large programs take.
//!
//! The source of each case is read, checked and unfolded, and what the kind of the case asks for is
//! written, or why the source is refused. A case of `data/methods` is a line `SOURCE => TEXT`, or
//! stands between the lines `source`, `gives` and `end`; other lines are remarks. `formulas.cases`
//! has for each formula, in the order of the text, the number of the first one that has its value;
//! `state.cases` for each method the names of the state that it may write and that its `modifies`
//! names; `commands.cases` the boxed command of each method, what is assumed and asserted by its
//! label, what is assigned and chosen freely by its names, and behind it how many sequents its
//! weakest precondition has, as they are counted and as they are made. The other files have the
//! sequents of each method: the label, the hypotheses under their names, the goal; there a line
//! with `7 as before` stands for the first seven hypotheses of the sequent before. What is wanted
//! was worked out by hand, from the rules of names and definitions, the commands of each statement,
//! each step of a loop and of a call, and the splitting.
//!
//! Where the variable SEQUENTS_OF names a file, all sequents of the source in it are printed, with
//! all of their hypotheses; a path that isn't absolute begins at the folder `cases`.

#[path = "methods/calling.rs"]
mod calling;
#[path = "methods/large.rs"]
mod large;
#[path = "methods/showing.rs"]
mod showing;

use showing::{commands, sequents, shown, state, values};
use std::str::Lines;

/// The lines up to one that ends them.
fn until(lines: &mut Lines<'_>, end: &str) -> String {
    let part = lines.take_while(|line| *line != end);
    part.map(|line| line.to_string() + "\n").collect()
}

/// The sources of the cases of a file, each with what is wanted of it.
fn cases_of(text: &str) -> Vec<(String, String)> {
    let mut cases = Vec::new();
    let mut lines = text.lines();
    while let Some(line) = lines.next() {
        if line == "source" {
            cases.push((until(&mut lines, "gives"), until(&mut lines, "end")));
        } else if let Some((source, wanted)) = line.split_once(" => ") {
            cases.push((format!("{source}\n"), format!("{wanted}\n")));
        }
    }
    cases
}

/// Goes through the cases of some files, and prints how many there are, which is to be that many.
fn go_through(what: &str, count: usize, files: &[&str], made_of: fn(&str) -> String) {
    let cases: Vec<_> = files.iter().flat_map(|text| cases_of(text)).collect();
    let mut differing = 0;
    for (source, wanted) in &cases {
        let made = made_of(source);
        if made != *wanted {
            println!("{source}comes to\n{made}instead of\n{wanted}");
            differing += 1;
        }
    }
    println!(
        "{} cases of {what}, {differing} of them differ",
        cases.len()
    );
    assert_eq!((cases.len(), differing), (count, 0));
}

#[test]
fn formulas_have_these_values() {
    let files = [include_str!("../data/methods/formulas.cases")];
    go_through("values of formulas", 41, &files, |source| {
        shown(source, values)
    });
}

#[test]
fn methods_write_and_name_this_state() {
    let files = [include_str!("../data/methods/state.cases")];
    go_through("the state of methods", 54, &files, |source| {
        shown(source, state)
    });
}

#[test]
fn methods_have_these_sequents() {
    let files = [
        include_str!("../data/methods/statements.cases"),
        include_str!("../data/methods/loops.cases"),
        include_str!("../data/methods/calls.cases"),
        include_str!("../data/methods/methods.cases"),
    ];
    go_through("the sequents of methods", 45, &files, |source| {
        shown(source, |unfolded| sequents(unfolded, true))
    });
    if let Ok(path) = std::env::var("SEQUENTS_OF") {
        let source = std::fs::read_to_string(path).expect("a file");
        print!("{}", shown(&source, |unfolded| sequents(unfolded, false)));
    }
}

#[test]
fn methods_have_these_commands() {
    let files = [include_str!("../data/methods/commands.cases")];
    go_through("the commands of methods", 5, &files, |source| {
        shown(source, commands)
    });
}
