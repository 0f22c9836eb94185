//! How much there is to search of a sequent.

use jh_arena::table::{Shape, Table};
use jh_ground_input::facts_apart;
use jh_instantiation::instances::{count, entries, InstanceError};
use jh_local_form::local_sequents::LocalForm;
use std::collections::BTreeSet;

/// After how many rounds instances are counted.
pub const ROUNDS: u32 = 1;

/// Instances in a table of their own.
pub struct Instances {
    pub table: Table,
    pub items: Vec<usize>,
}

impl Instances {
    /// The instances of the facts of a local form, those with a quantifier left out; none, where there can be too many.
    pub fn of(table: &Table, form: &LocalForm) -> Instances {
        let mut apart = facts_apart(table, form).expect("memory");
        let items = match entries(&mut apart.table, &apart.facts, apart.first, ROUNDS) {
            Ok(made) => made.items.iter().map(|it| it.formula).collect(),
            Err(InstanceError::TooMany(_)) => Vec::new(),
            Err(InstanceError::Memory) => panic!("memory"),
        };
        let is_instance = |it: &usize| !has_quantifier(&apart.table, *it);
        let items = items.into_iter().filter(is_instance).collect();
        Instances {
            table: apart.table,
            items,
        }
    }

    /// The atoms of all instances.
    pub fn atoms(&self) -> BTreeSet<usize> {
        let mut atoms = BTreeSet::new();
        for item in &self.items {
            add_atoms(&self.table, &mut atoms, *item);
        }
        atoms
    }
}

/// Adds the atoms of a formula in negation normal form. Constants aren't atoms.
pub fn add_atoms(table: &Table, atoms: &mut BTreeSet<usize>, node: usize) {
    let atom = match table.shape(node) {
        Shape::And(a, b) | Shape::Or(a, b) => {
            add_atoms(table, atoms, a);
            return add_atoms(table, atoms, b);
        }
        Shape::Negation(a) => a,
        _ => node,
    };
    if !matches!(table.shape(atom), Shape::True | Shape::False) {
        atoms.insert(atom);
    }
}

/// Whether a quantifier stands in a formula in negation normal form.
fn has_quantifier(table: &Table, node: usize) -> bool {
    match table.shape(node) {
        Shape::And(a, b) | Shape::Or(a, b) => has_quantifier(table, a) || has_quantifier(table, b),
        Shape::All(_) | Shape::Ex(_) => true,
        _ => false,
    }
}

/// The figures of a local form: facts with the negated goal, instances that there can be, instances, and atoms in them.
pub fn figures(table: &Table, form: &LocalForm) -> String {
    let mut apart = facts_apart(table, form).expect("memory");
    let count = count(&mut apart.table, &apart.facts, apart.first, ROUNDS).expect("memory");
    let instances = Instances::of(table, form);
    format!(
        "facts {}, count {count}, instances {}, atoms {}",
        form.facts.items().len() + 1,
        instances.items.len(),
        instances.atoms().len()
    )
}
