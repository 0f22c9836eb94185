//! Sources with figures of the sequents that the ground search goes over: how many facts, instances and atoms there
//! are; and with small budgets, whether the closed branches are leaves of one search, by a plain checker. The figures
//! were counted by a separate program, which isn't part of this repository.

#[path = "local_parts/checker.rs"]
mod checker;
#[path = "local_parts/figures.rs"]
mod figures;
#[path = "local_parts/leaves.rs"]
mod leaves;

use cases::files::{blocks, check, Case};
use jh_ast::Program;
use jh_name::MethodId;
use jh_prove::prover::local_form_of_sequent;
use jh_splitting::Sequents;
use rattle_std::alloc::Global;

/// The name of a method, with that of its class.
fn method_name(program: &Program, id: MethodId) -> String {
    let class = &program.classes.items()[id.class as usize];
    let method = &class.methods.items()[id.method as usize];
    format!("{}.{}", class.name.text.text(), method.name.text.text())
}

/// What the lines that are wanted of a source say as it comes out. A line is `CLASS.METHOD K: ` with the figures of
/// that sequent, or `CLASS.METHOD K by N: ` with what is said of a search with a budget of N branches.
fn answers(case: &Case) -> String {
    let tokens = jh_lex::lexer::tokens(Global, case.given.as_bytes()).expect("tokens");
    let program = jh_parse::programs::program(Global, &tokens).expect("a program");
    let typed = jh_type::checker::check(Global, program)
        .ok()
        .expect("a typed program");
    let unfolded = jh_unfolding::unfolder::unfold(Global, typed)
        .ok()
        .expect("an acyclic program");
    let mut parts = unfolded.into_parts(Global).expect("memory");
    let all = jh_obligations::program_sequents::obligations(
        Global,
        &parts.typed,
        &mut parts.table,
        &parts.formulas,
    );
    let all = all.ok().expect("sequents");
    let mut made = String::new();
    for line in case.wanted.lines() {
        let question = line.split(": ").next().expect("a question");
        let (label, leaves) = match question.split_once(" by ") {
            None => (question, None),
            Some((label, leaves)) => (label, Some(leaves.parse().expect("a number of branches"))),
        };
        let (name, number) = label.split_once(' ').expect("a label");
        let is_meant = |it: &&Sequents| method_name(parts.typed.program(), it.method) == name;
        let sequents = all.iter().find(is_meant).expect("a method");
        let sequent =
            sequents.sequents[number.parse::<usize>().expect("the number of a sequent") - 1];
        let form =
            local_form_of_sequent(Global, &mut parts.table, sequents, sequent).expect("memory");
        let answer = match leaves {
            None => figures::figures(&parts.table, &form),
            Some(leaves) => leaves::verdict(&parts.table, &form, leaves).to_string(),
        };
        made += &format!("{question}: {answer}\n");
    }
    made
}

#[test]
fn searches() {
    let cases = blocks(include_str!("../data/searches.cases"), "source");
    check("searches", 13, &cases, answers);
}
