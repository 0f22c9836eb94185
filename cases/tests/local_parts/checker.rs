//! When literals clash, and what propagation adds to them: a plain program, which goes through all instances and all
//! atoms again and again. Only congruence is asked of the classes of terms.

use crate::figures::{add_atoms, Instances};
use jh_arena::table::{Shape, Table};
use jh_cong::classes::{Classes, CongError};
use jh_form::Formula;
use jh_import::entering::enter_formula;
use jh_propagation::trail::{opposite, Decided};
use rattle_std::alloc::Global;
use std::collections::{BTreeSet, HashMap};

/// Literals by their atoms.
type Values = HashMap<usize, bool>;

/// Instances with their atoms, the classes of their terms, and the nodes of True and False.
pub struct Checker {
    classes: Classes,
    instances: Vec<usize>,
    pub atoms: BTreeSet<usize>,
    yes: usize,
    no: usize,
}

/// The sides of an equation.
fn sides(table: &Table, atom: usize) -> Option<(usize, usize)> {
    match table.shape(atom) {
        Shape::EqObject(a, b) | Shape::EqNumber(a, b) | Shape::EqSet(a, b) | Shape::Iff(a, b) => {
            Some((a, b))
        }
        _ => None,
    }
}

/// The value of an instance by its connectives alone, where what is said of atoms decides it.
fn value(table: &Table, said: &dyn Fn(usize) -> Option<bool>, node: usize) -> Option<bool> {
    match table.shape(node) {
        Shape::True => Some(true),
        Shape::False => Some(false),
        Shape::Negation(a) => match table.shape(a) {
            Shape::True => Some(false),
            Shape::False => Some(true),
            _ => said(a).map(|holds| !holds),
        },
        Shape::And(a, b) => joined(value(table, said, a), || value(table, said, b), false),
        Shape::Or(a, b) => joined(value(table, said, a), || value(table, said, b), true),
        _ => said(node),
    }
}

/// The value of two parts that are joined: one part alone that has the strong truth decides it.
fn joined(left: Option<bool>, right: impl Fn() -> Option<bool>, strong: bool) -> Option<bool> {
    if left == Some(strong) {
        return left;
    }
    match right() {
        Some(right) if right == strong => Some(strong),
        Some(right) if left.is_some() => Some(right),
        _ => None,
    }
}

impl Checker {
    pub fn new(instances: Instances) -> Checker {
        let atoms = instances.atoms();
        let Instances { mut table, items } = instances;
        let yes = enter_formula(&mut table, &Formula::True).expect("memory");
        let no = enter_formula(&mut table, &Formula::False).expect("memory");
        let classes = Classes::new(Global, table).expect("memory");
        Checker {
            classes,
            instances: items,
            atoms,
            yes,
            no,
        }
    }

    /// Tells the classes a literal: of an equation that its sides are equal or not, of any other atom that it is True
    /// or False. Answers whether it is met with those before it.
    fn tell(&mut self, literal: Decided) -> bool {
        let (left, right, are_equal) = match sides(self.classes.table(), literal.atom) {
            Some((left, right)) => (left, right, literal.holds),
            None => (
                literal.atom,
                if literal.holds { self.yes } else { self.no },
                true,
            ),
        };
        assert!(self.classes.can_be_said(left, right));
        let told = if are_equal {
            self.classes.assert_eq(Global, left, right)
        } else {
            self.classes.assert_ne(Global, left, right)
        };
        match told {
            Ok(()) => true,
            Err(CongError::Conflict(_)) => false,
            Err(CongError::Memory) => panic!("memory"),
        }
    }

    /// Whether literals clash: no structure meets them, or they make an instance false. Where they don't, the classes
    /// know them.
    pub fn clash(&mut self, literals: &[Decided]) -> bool {
        self.classes.undo(0);
        if !literals.iter().all(|it| self.tell(*it)) {
            return true;
        }
        let values: Values = literals.iter().map(|it| (it.atom, it.holds)).collect();
        let said = |atom: usize| values.get(&atom).copied();
        let table = self.classes.table();
        self.instances
            .iter()
            .any(|it| value(table, &said, *it) == Some(false))
    }

    fn are_same(&self, left: usize, right: usize) -> bool {
        self.classes.can_be_said(left, right) && self.classes.same(left, right)
    }

    /// What follows of an atom from what the classes know.
    fn following(&self, atom: usize) -> Option<bool> {
        match sides(self.classes.table(), atom) {
            Some((left, right)) => self.are_same(left, right).then_some(true),
            None if self.are_same(atom, self.yes) => Some(true),
            None => self.are_same(atom, self.no).then_some(false),
        }
    }

    /// The truth that an instance forces of an atom: its opposite makes the instance false.
    fn forced(&self, values: &Values, instance: usize, atom: usize) -> Option<bool> {
        [true, false].into_iter().find(|holds| {
            let said = |other: usize| {
                if other == atom {
                    Some(!holds)
                } else {
                    values.get(&other).copied()
                }
            };
            value(self.classes.table(), &said, instance) == Some(false)
        })
    }

    /// Adds the literals that an instance without a value forces.
    fn add_forced(&self, found: &mut Vec<Decided>, values: &mut Values, instance: usize) {
        let table = self.classes.table();
        if value(table, &|atom| values.get(&atom).copied(), instance).is_some() {
            return;
        }
        let mut atoms = BTreeSet::new();
        add_atoms(table, &mut atoms, instance);
        for atom in atoms {
            if values.contains_key(&atom) {
                continue;
            }
            if let Some(holds) = self.forced(values, instance, atom) {
                found.push(Decided { atom, holds });
                values.insert(atom, holds);
            }
        }
    }

    /// The literals after propagation; none, where they clash.
    pub fn propagated(&mut self, literals: &[Decided]) -> Option<Vec<Decided>> {
        let mut found = literals.to_vec();
        let mut values: Values = literals.iter().map(|it| (it.atom, it.holds)).collect();
        loop {
            if self.clash(&found) {
                return None;
            }
            let before = found.len();
            for atom in &self.atoms {
                if values.contains_key(atom) {
                    continue;
                }
                if let Some(holds) = self.following(*atom) {
                    found.push(Decided { atom: *atom, holds });
                    values.insert(*atom, holds);
                }
            }
            for instance in &self.instances {
                self.add_forced(&mut found, &mut values, *instance);
            }
            if found.len() == before {
                return Some(found);
            }
        }
    }

    /// Whether a literal may go on behind others: it was decided, or its opposite clashes with them.
    fn may_stand(&mut self, decisions: &[Decided], kept: &[Decided], literal: Decided) -> bool {
        decisions.contains(&literal) || self.clash(&[kept, &[opposite(literal)]].concat())
    }

    /// Whether each literal of an explanation is over an atom, and was decided or follows from those before it, and all
    /// clash.
    pub fn closes(&mut self, decisions: &[Decided], explanation: &[Decided]) -> bool {
        let stands = |place: usize| {
            let literal = explanation[place];
            self.atoms.contains(&literal.atom)
                && self.may_stand(decisions, &explanation[..place], literal)
        };
        (0..explanation.len()).all(stands) && self.clash(explanation)
    }

    /// Whether what is left of an explanation without a decision, as much of it as may stand, still clashes.
    pub fn closes_without(
        &mut self,
        decisions: &[Decided],
        explanation: &[Decided],
        out: Decided,
    ) -> bool {
        let mut kept = Vec::new();
        for literal in explanation {
            if *literal != out && self.may_stand(decisions, &kept, *literal) {
                kept.push(*literal);
            }
        }
        self.clash(&kept)
    }
}
