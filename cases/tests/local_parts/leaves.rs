//! Whether the closed branches of a spent budget are leaves of one search that isn't finished.

use crate::checker::Checker;
use crate::figures::{Instances, ROUNDS};
use jh_arena::table::Table;
use jh_closure::structures::Literal;
use jh_import::entering::enter_formula;
use jh_local::{search_instances, Closed, LocalCause, Searched};
use jh_local_form::local_sequents::LocalForm;
use jh_propagation::trail::{opposite, Decided};

/// A closed branch over the nodes of a table: its decisions, and why it is closed.
struct Leaf {
    decisions: Vec<Decided>,
    explanation: Vec<Decided>,
}

/// Literals over the nodes of a table.
fn literals(table: &mut Table, literals: &[Literal]) -> Vec<Decided> {
    let mut entered = |literal: &Literal| Decided {
        atom: enter_formula(table, &literal.atom).expect("memory"),
        holds: literal.holds,
    };
    literals.iter().map(&mut entered).collect()
}

impl Leaf {
    fn new(table: &mut Table, closed: &Closed) -> Leaf {
        Leaf {
            decisions: literals(table, closed.decisions.items()),
            explanation: literals(table, closed.explanation.items()),
        }
    }

    /// Whether a branch begins with so many decisions of a list, and then with a literal.
    fn goes_on(&self, list: &[Decided], count: usize, literal: Decided) -> bool {
        shared(&self.decisions, list) >= count && self.decisions.get(count) == Some(&literal)
    }

    /// Whether no atom is decided twice.
    fn decides_once(&self) -> bool {
        let atoms = |end: usize| self.decisions[..end].iter().map(|it| it.atom);
        (0..self.decisions.len())
            .all(|place| atoms(place).all(|atom| atom != self.decisions[place].atom))
    }

    /// Whether the branch is open before each of its decisions, and propagation doesn't decide the atom of one.
    fn is_open_before(&self, checker: &mut Checker) -> bool {
        (0..self.decisions.len()).all(|place| {
            let found = checker.propagated(&self.decisions[..place]);
            found.is_some_and(|it| {
                it.iter()
                    .all(|literal| literal.atom != self.decisions[place].atom)
            })
        })
    }

    /// Whether a branch is closed by its explanation, in which each decision is needed.
    fn is_explained(&self, checker: &mut Checker) -> bool {
        let Leaf {
            decisions,
            explanation,
        } = self;
        let is_needed = |it: &Decided| {
            !decisions.contains(it) || !checker.closes_without(decisions, explanation, *it)
        };
        explanation.iter().all(is_needed) && checker.closes(decisions, explanation)
    }
}

/// With how many decisions two lists begin that are the same.
fn shared(left: &[Decided], right: &[Decided]) -> usize {
    left.iter()
        .zip(right)
        .take_while(|(left, right)| left == right)
        .count()
}

/// Whether two lists part: behind what they share the second has the opposite of what the first has.
fn do_part(left: &[Decided], right: &[Decided]) -> bool {
    let place = shared(left, right);
    place < left.len() && right.get(place) == Some(&opposite(left[place]))
}

/// Whether a literal is needed after so many decisions of a list.
fn is_needed(leaves: &[Leaf], list: &[Decided], count: usize, literal: Decided) -> bool {
    leaves
        .iter()
        .any(|it| it.goes_on(list, count, literal) && it.explanation.contains(&literal))
}

/// Whether the second of two branches was searched where the decision at which they part is needed.
fn is_turned(leaves: &[Leaf], first: &Leaf, second: &Leaf) -> bool {
    let list = &first.decisions;
    let count = shared(list, &second.decisions);
    count < list.len() && is_needed(leaves, list, count, list[count])
}

/// Whether a decision of a branch is needed whose other side wasn't searched.
fn is_open_behind(leaves: &[Leaf], list: &[Decided]) -> bool {
    (0..list.len()).any(|count| {
        let other = opposite(list[count]);
        is_needed(leaves, list, count, list[count])
            && !leaves.iter().any(|it| it.goes_on(list, count, other))
    })
}

/// Whether something is so of each two branches, the earlier one first.
fn each_two(leaves: &[Leaf], is_so: impl Fn(&Leaf, &Leaf) -> bool) -> bool {
    (0..leaves.len()).all(|place| {
        leaves[..place]
            .iter()
            .all(|before| is_so(before, &leaves[place]))
    })
}

/// What is said of the leaves of a search.
fn verdict_on_leaves(checker: &mut Checker, leaves: &[Leaf]) -> &'static str {
    let mut decisions = leaves.iter().flat_map(|it| &it.decisions);
    if !decisions.all(|it| checker.atoms.contains(&it.atom)) {
        "a decision is on no atom"
    } else if !leaves.iter().all(Leaf::decides_once) {
        "an atom is decided twice"
    } else if !each_two(leaves, |first, second| {
        do_part(&first.decisions, &second.decisions)
    }) {
        "two branches don't part"
    } else if !each_two(leaves, |first, second| is_turned(leaves, first, second)) {
        "a second side was searched without need"
    } else if !leaves
        .iter()
        .any(|it| is_open_behind(leaves, &it.decisions))
    {
        "the search is finished"
    } else if !leaves.iter().all(|it| it.is_open_before(checker)) {
        "a branch was closed before its last decision, or decided what propagation says"
    } else if !leaves.iter().all(|it| it.is_explained(checker)) {
        "a branch isn't explained"
    } else {
        "leaves of one search"
    }
}

/// Whether so many closed branches of a local form are leaves of one search that isn't finished, or what else the
/// search comes to.
pub fn verdict(table: &Table, form: &LocalForm, leaves: usize) -> &'static str {
    match search_instances(table, form, ROUNDS, leaves).expect("memory") {
        Searched::Proved(_) => "no ground model",
        Searched::Unproved(LocalCause::Open(_)) => "a ground model",
        Searched::Unproved(LocalCause::TooMany(_)) => "too many instances",
        Searched::Unproved(LocalCause::Budget(closed)) if closed.items().len() != leaves => {
            "not so many branches"
        }
        Searched::Unproved(LocalCause::Budget(closed)) => {
            let mut instances = Instances::of(table, form);
            let closed = closed.items().iter();
            let leaves: Vec<Leaf> = closed
                .map(|it| Leaf::new(&mut instances.table, it))
                .collect();
            verdict_on_leaves(&mut Checker::new(instances), &leaves)
        }
    }
}
