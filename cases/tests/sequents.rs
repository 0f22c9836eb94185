//! Sequents as text, with their queries by `bapa_of` and what `prove` says of them. Each rule by which hypotheses are
//! kept has a sequent that needs it, and a neighbour that doesn't.

use cases::files::{blocks, check, Case};
use cases::queries::cond_text;
use cases::words::sequent_of;
use jh_boxed_calls::sequents::{bapa_of, prove, Answer, BapaCause};
use jh_name::options::Options;
use jh_query::queries::Query;
use rattle_std::alloc::Global;

/// How far the search by instances goes.
const OPTIONS: Options = Options {
    rounds: 1,
    leaves: 1_000,
};

/// A query as lines: how many sets, elements, numbers and flags there are, the hypotheses, and the goal.
fn query_text(query: &Query) -> String {
    let Query {
        sets,
        elements,
        numbers,
        flags,
        ..
    } = query;
    let hyps = query
        .hyps
        .items()
        .iter()
        .map(|it| format!("knows {}\n", cond_text(it)));
    format!(
        "{sets} sets, {elements} elements, {numbers} numbers, {flags} flags\n{}asks {}\n",
        hyps.collect::<String>(),
        cond_text(&query.goal)
    )
}

/// What is said of a sequent, and why regions don't prove it where nothing does.
fn verdict(answer: &Answer) -> String {
    match answer {
        Answer::Trivial => "trivial".to_string(),
        Answer::Bapa(_) => "bapa".to_string(),
        Answer::Local(_) => "local".to_string(),
        Answer::Unproved {
            bapa: BapaCause::Refuted(_),
            ..
        } => "refuted".to_string(),
        Answer::Unproved {
            bapa:
                BapaCause::TooLarge {
                    sets,
                    elements,
                    size,
                },
            ..
        } => {
            format!("too large: {sets}, {elements}, {size}")
        }
    }
}

#[test]
fn sequents() {
    let answer = |case: &Case| {
        let sequent = sequent_of(&case.given);
        let query = bapa_of(Global, &sequent).expect("memory");
        let answer = prove(Global, &sequent, OPTIONS).expect("memory");
        format!("{}{}\n", query_text(&query), verdict(&answer))
    };
    check(
        "sequents",
        59,
        &blocks(include_str!("../data/sequents.cases"), "sequent"),
        answer,
    );
}
