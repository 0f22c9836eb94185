//! Which hypotheses of a sequent its query keeps, where it keeps none but those of which a query
//! can say all. The rules stand here once more, over the names of formulas, so that a wrong choice
//! shows.

use jh_arena::table::{Shape, Table};
use jh_form::Formula;
use jh_import::entering::enter_formula;
use jh_name::{Name, Sort};
use jh_seq::sequent::Sequent;
use rattle_std::alloc::Global;
use std::collections::HashSet;

/// What a name stands for. `alloc` and the sets of the objects of a class are of the kind Class.
#[derive(Clone, Copy, PartialEq)]
enum Kind {
    Object,
    Number,
    Truth,
    Set,
    Class,
    Field,
}

/// The text and the turn of a name.
type Spelled = (String, u32);

/// What a formula says: its names, whether a query can say all of it, and whether it is one of
/// which a query says nothing.
struct Saying {
    names: Vec<(Kind, Spelled)>,
    is_plain: bool,
    is_silent: bool,
}

/// The name that stands at a node, where one does, and what it stands for.
pub fn name_there(table: &Table, node: usize) -> Option<(Sort, &Name)> {
    match table.shape(node) {
        Shape::FreeObject(name) => Some((Sort::Obj, table.name_at(name))),
        Shape::FreeNumber(name) => Some((Sort::Int, table.name_at(name))),
        Shape::FreeTruth(name) => Some((Sort::Bool, table.name_at(name))),
        Shape::FreeField(name) => Some((Sort::Field, table.name_at(name))),
        Shape::FreeSet(name) => Some((Sort::Set, table.name_at(name))),
        _ => None,
    }
}

/// What a name of a sort stands for.
fn kind_of(sort: Sort, name: &Name) -> Kind {
    match sort {
        Sort::Obj => Kind::Object,
        Sort::Int => Kind::Number,
        Sort::Bool => Kind::Truth,
        Sort::Field => Kind::Field,
        Sort::Set if name.text().contains('.') => Kind::Set,
        Sort::Set => Kind::Class,
    }
}

/// Whether a query says what stands at a node as it is: no read, no binder, nothing of a field as a
/// whole, and nothing that is folded away.
fn is_said(shape: Shape) -> bool {
    match shape {
        Shape::ReadObject(..)
        | Shape::ReadNumber(..)
        | Shape::ReadSet(..)
        | Shape::ReadTruth(..) => false,
        Shape::Bound(_) | Shape::Compr(_) | Shape::All(_) | Shape::Ex(_) => false,
        Shape::Update(..) | Shape::Reach(..) | Shape::Tree(_) => false,
        Shape::True | Shape::False => false,
        Shape::Divides(factor, _) => factor > 0,
        _ => true,
    }
}

impl Saying {
    /// What a formula says. A query says all of True alone: nothing.
    fn of(formula: &Formula) -> Saying {
        let mut table = Table::new(Global).unwrap();
        enter_formula(&mut table, formula).unwrap();
        let named = (0..table.len()).filter_map(|node| name_there(&table, node));
        let is_said = (0..table.len()).all(|node| is_said(table.shape(node)));
        Saying {
            names: named
                .map(|(sort, name)| (kind_of(sort, name), (name.text().to_string(), name.turn())))
                .collect(),
            is_plain: is_said || matches!(formula, Formula::True),
            is_silent: matches!(formula, Formula::All(_)),
        }
    }

    /// Its names that link it with others: none where a query can't say all of it.
    fn links<'a>(&'a self, linking: &'a [Kind]) -> impl Iterator<Item = &'a Spelled> {
        let names = self
            .names
            .iter()
            .filter(|(kind, _)| self.is_plain && linking.contains(kind));
        names.map(|(_, name)| name)
    }

    /// Whether each set of a class that it reads is read by the goal.
    fn reads_within(&self, goal: &Saying) -> bool {
        let mut classes = self.names.iter().filter(|(kind, _)| *kind == Kind::Class);
        classes.all(|(_, class)| goal.names.iter().any(|(_, name)| name == class))
    }
}

/// Which hypotheses are kept beside a goal: those that are linked with it, by sets and numbers
/// where it has some, else by any names but fields and classes, and those that have no names but
/// those of sets of classes; of both those that read no class that the goal doesn't.
fn kept_beside(sayings: &[Saying], goal: &Saying) -> Vec<bool> {
    let few = [Kind::Set, Kind::Number];
    let linking: &[Kind] = if goal.names.iter().any(|(kind, _)| few.contains(kind)) {
        &few
    } else {
        &[Kind::Set, Kind::Number, Kind::Object, Kind::Truth]
    };
    let mut known: HashSet<&Spelled> = goal.links(linking).collect();
    for _ in sayings {
        for saying in sayings {
            if saying.links(linking).any(|name| known.contains(name)) {
                known.extend(saying.links(linking));
            }
        }
    }
    let kept = |saying: &Saying| {
        let is_linked = saying.links(linking).any(|name| known.contains(name));
        let is_nameless = saying.names.iter().all(|(kind, _)| *kind == Kind::Class);
        (is_linked || is_nameless) && saying.reads_within(goal)
    };
    sayings.iter().map(kept).collect()
}

/// Which hypotheses of a sequent its query keeps. None where a query can't say all of the goal or
/// of one that is kept, or the sequent names the facts that it follows from.
pub fn kept_hyps(sequent: &Sequent) -> Option<Vec<bool>> {
    let goal = Saying::of(&sequent.goal);
    if !goal.is_plain || !sequent.mark.from.items().is_empty() {
        return None;
    }
    let sayings: Vec<Saying> = sequent
        .hyps
        .items()
        .iter()
        .map(|hyp| Saying::of(&hyp.fact))
        .collect();
    let kept = kept_beside(&sayings, &goal);
    let mut both = sayings.iter().zip(&kept);
    let is_part_said = both.any(|(saying, kept)| !saying.is_plain && (*kept || !saying.is_silent));
    (!is_part_said).then_some(kept)
}
