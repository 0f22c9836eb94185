//! The truth of the weakest precondition of a method, and of all its sequents, in the
//! interpretation that a heap is.

use crate::sources::Case;
use crate::world::Constants;
use cases::source::unfolded;
use jh_arena::table::Table;
use jh_boxed_calls::interpretations::{truth, Interp};
use jh_boxed_commands::conditions::{split, wp};
use jh_boxed_commands::methods::of_method;
use jh_form::Formula;
use jh_import::entering::enter_formula;
use jh_name::MethodId;
use jh_seq::sequent::Sequent;
use rattle_std::alloc::Global;

/// The first method of the first class.
const FIRST: MethodId = MethodId {
    class: 0,
    method: 0,
};

/// The most constants that a sequent may have.
const MOST_CONSTANTS: usize = 4;

/// What comes of the command of a method on a heap: the truth of its weakest precondition, how many
/// sequents there are, and the first that is false.
pub struct Judged {
    pub holds: bool,
    pub sequents: usize,
    pub first_false: Option<Sequent>,
}

/// The weakest precondition of the method of a case, and its sequents.
pub fn owed_of(case: &Case) -> (Formula, Vec<Sequent>) {
    let source = unfolded(&case.source)
        .ok()
        .expect("a source that isn't refused");
    let mut parts = source.into_parts(Global).unwrap();
    let command = of_method(
        Global,
        &parts.typed,
        &mut parts.table,
        &parts.formulas,
        FIRST,
    )
    .unwrap();
    let formula = wp(Global, &command.body, &command.returned, &command.returned).unwrap();
    let sequents = split(Global, FIRST, &formula)
        .unwrap()
        .into_iter()
        .collect();
    (formula, sequents)
}

/// The objects that a case takes by `new`, in the order of the text. Of the two parts of an `if`
/// the second, whose `new` bears the mark `or`, takes what the first does; where no object is left,
/// it is null.
fn taken_of(case: &Case) -> Vec<u32> {
    let free = case.world.free();
    let mut before = 0;
    let mut taken = Vec::new();
    for piece in case.body.split("new ").skip(1) {
        let is_other = piece
            .split_once(')')
            .is_some_and(|(class, _)| class.contains("/*or*/"));
        before -= usize::from(is_other);
        taken.push(free.get(before).copied().unwrap_or(0));
        before += 1;
    }
    taken
}

/// The truth of a formula.
pub fn truth_in(interp: &Interp, formula: &Formula) -> bool {
    assert!(interp.is_inside(), "an object is outside");
    truth(Global, interp, formula, &[])
        .ok()
        .expect("numbers that aren't too large")
}

/// Whether a sequent is false: its goal is, and none of those of its hypotheses that are kept.
pub fn is_false(interp: &Interp, sequent: &Sequent, is_kept: impl Fn(usize) -> bool) -> bool {
    let mut hyps = sequent.hyps.items().iter().enumerate();
    !truth_in(interp, &sequent.goal)
        && hyps.all(|(place, hyp)| !is_kept(place) || truth_in(interp, &hyp.fact))
}

/// The turn of the first constant of a sequent, and how many there are up to the last; 0 and 0
/// where there are none.
fn constants_of(sequent: &Sequent) -> (u32, usize) {
    let mut table = Table::new(Global).unwrap();
    enter_formula(&mut table, &sequent.goal).unwrap();
    for hyp in sequent.hyps.items() {
        enter_formula(&mut table, &hyp.fact).unwrap();
    }
    let names = (0..table.name_count()).map(|number| table.name_at(number));
    let turns: Vec<u32> = names
        .filter(|name| name.text() == "c")
        .map(|name| name.turn())
        .collect();
    let turns = || turns.iter().filter(|turn| **turn > 0);
    match (turns().min(), turns().max()) {
        (Some(first), Some(last)) => (*first, (last - first + 1) as usize),
        _ => (0, 0),
    }
}

/// Whether a sequent is false on a heap for some objects for its constants.
fn is_false_somewhere(case: &Case, taken: &[u32], sequent: &Sequent) -> bool {
    let (first, count) = constants_of(sequent);
    assert!(count <= MOST_CONSTANTS, "there are too many constants");
    let choices = case.world.greatest + 1;
    (0..choices.pow(count as u32)).any(|number| {
        let places = 0..count as u32;
        let objects: Vec<u32> = places
            .map(|place| number / choices.pow(place) % choices)
            .collect();
        let interp = case.world.interp(
            taken,
            Constants {
                first,
                objects: &objects,
            },
        );
        is_false(&interp, sequent, |_| true)
    })
}

/// What comes of the command of the method of a case on its heap.
pub fn judged_case(case: &Case) -> Judged {
    let (formula, sequents) = owed_of(case);
    let taken = taken_of(case);
    let interp = case.world.interp(
        &taken,
        Constants {
            first: 0,
            objects: &[],
        },
    );
    Judged {
        holds: truth_in(&interp, &formula),
        sequents: sequents.len(),
        first_false: sequents
            .into_iter()
            .find(|sequent| is_false_somewhere(case, &taken, sequent)),
    }
}
