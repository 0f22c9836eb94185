//! Universes of up to four objects with three fields and two names of objects, and the truth of formulas in them: a
//! plain evaluator, which follows paths by marking objects.

use jh_form::{FieldTerm, Formula, Term};

/// What the names are in a universe of the objects 0 to `last`. A field or an object is named by its turn.
pub struct World {
    pub last: usize,
    pub fields: [[usize; 4]; 3],
    pub objects: [usize; 2],
}

/// How formulas are read.
#[derive(Clone, Copy, PartialEq, Eq)]
pub enum Reading {
    /// As they stand.
    Whole,
    /// Without the guards of the axiom of an update: where a way is joined by And with an implication between ways or
    /// with a negation, the way alone is read.
    Unguarded,
}

/// Whether a formula has the form of a guard of the axiom of an update.
fn is_guard(formula: &Formula) -> bool {
    match formula {
        Formula::Implies(..) => true,
        Formula::Not(inner) => matches!(**inner, Formula::And(..)),
        _ => false,
    }
}

impl World {
    /// The object to which a field leads.
    fn child(&self, field: &FieldTerm, object: usize) -> usize {
        match field {
            FieldTerm::Free(name) => self.fields[name.turn() as usize][object],
            FieldTerm::Update(..) => panic!("no axiom has an update"),
        }
    }

    /// Whether an object is reached from another.
    fn reaches(&self, fields: &[FieldTerm], from: usize, to: usize) -> bool {
        let mut marked = [false; 4];
        let mut open = vec![from];
        while let Some(object) = open.pop() {
            if !marked[object] {
                marked[object] = true;
                open.extend(fields.iter().map(|field| self.child(field, object)));
            }
        }
        marked[to]
    }

    /// Whether the fields are the edges of a forest: no object but null is on a cycle, or is led to twice.
    fn is_forest(&self, fields: &[FieldTerm]) -> bool {
        let is_on_cycle = |object| {
            fields
                .iter()
                .any(|field| self.reaches(fields, self.child(field, object), object))
        };
        let parents = |of| {
            let leads = |object| {
                fields
                    .iter()
                    .filter(move |field| self.child(field, object) == of)
            };
            (0..=self.last).flat_map(leads).count()
        };
        (1..=self.last).all(|object| !is_on_cycle(object) && parents(object) <= 1)
    }

    /// The object that a term is, under binders of these objects, the innermost last.
    fn value(&self, term: &Term, bound: &[usize]) -> usize {
        match term {
            Term::Bound(number) => bound[bound.len() - 1 - *number as usize],
            Term::Free(name) => self.objects[name.turn() as usize],
            Term::Null => 0,
            Term::Read(field, object) => self.child(field, self.value(object, bound)),
        }
    }

    /// Whether a formula is true. It reads those parts alone of which axioms are made.
    fn holds(&self, formula: &Formula, bound: &[usize], reading: Reading) -> bool {
        let holds = |part: &Formula| self.holds(part, bound, reading);
        let holds_at =
            |part: &Formula, object| self.holds(part, &[bound, &[object]].concat(), reading);
        match formula {
            Formula::True => true,
            Formula::Not(a) => !holds(a),
            Formula::And(a, b) => {
                let is_way = matches!(**a, Formula::Reach(..));
                let is_left_out = reading == Reading::Unguarded && is_way && is_guard(b);
                holds(a) && (is_left_out || holds(b))
            }
            Formula::Or(a, b) => holds(a) || holds(b),
            Formula::Implies(a, b) => !holds(a) || holds(b),
            Formula::Iff(a, b) => holds(a) == holds(b),
            Formula::All(a) => (0..=self.last).all(|object| holds_at(a, object)),
            Formula::Ex(a) => (0..=self.last).any(|object| holds_at(a, object)),
            Formula::EqObj(a, b) => self.value(a, bound) == self.value(b, bound),
            Formula::Reach(fields, a, b) => {
                self.reaches(fields.items(), self.value(a, bound), self.value(b, bound))
            }
            Formula::Tree(fields) => self.is_forest(fields.items()),
            _ => panic!("no axiom has such a part"),
        }
    }

    /// Whether a formula without loose bound variables is true.
    pub fn has(&self, formula: &Formula, reading: Reading) -> bool {
        self.holds(formula, &[], reading)
    }
}

/// A field with another value at an object.
fn updated(mut field: [usize; 4], at: usize, value: usize) -> [usize; 4] {
    field[at] = value;
    field
}

/// All worlds of three objects with one field, and a second that is the first with a value at an object.
pub fn small_worlds() -> Vec<World> {
    let mut worlds = Vec::new();
    for number in 0..27 {
        let field = [number % 3, number / 3 % 3, number / 9 % 3, 0];
        for (at, value) in (0..3).flat_map(|at| (0..3).map(move |value| (at, value))) {
            let fields = [field, [0; 4], updated(field, at, value)];
            worlds.push(World {
                last: 2,
                fields,
                objects: [at, value],
            });
        }
    }
    worlds
}

/// Numbers that look like chance: a linear congruence modulo 2^32, of which the upper bits are used.
struct Draws(u32);

impl Draws {
    fn next(&mut self) -> u32 {
        self.0 = self.0.wrapping_mul(1_664_525).wrapping_add(1_013_904_223);
        self.0
    }

    /// A field of four objects.
    fn wild_field(&mut self) -> [usize; 4] {
        [0; 4].map(|_: usize| (self.next() >> 24 & 3) as usize)
    }

    /// Gives an object a parent before it, or none, where that field of the parent still leads to null.
    fn add_child(&mut self, fields: &mut [[usize; 4]; 2], object: usize) {
        let draw = self.next();
        let parent = (draw >> 20 & 3) as usize;
        let edge = &mut fields[(draw >> 28 & 1) as usize][parent];
        if parent != 0 && object > parent && *edge == 0 {
            *edge = object;
        }
    }

    /// Two fields of four objects that are a forest and lead from null to null.
    fn grown_fields(&mut self) -> [[usize; 4]; 2] {
        let mut fields = [[0; 4]; 2];
        self.add_child(&mut fields, 2);
        self.add_child(&mut fields, 3);
        fields
    }
}

/// A sample of worlds of four objects with two fields, every other of them a forest, and a third that is the first or
/// the second with a value at an object.
pub fn large_worlds(count: usize, is_first_changed: bool) -> Vec<World> {
    let mut draws = Draws(1);
    let world = |number| {
        let fields = if number % 2 == 0 {
            draws.grown_fields()
        } else {
            [draws.wild_field(), draws.wild_field()]
        };
        let draw = draws.next();
        let (at, value) = ((draw >> 24 & 3) as usize, (draw >> 28 & 3) as usize);
        let changed = updated(fields[usize::from(!is_first_changed)], at, value);
        World {
            last: 3,
            fields: [fields[0], fields[1], changed],
            objects: [at, value],
        }
    };
    (0..count).map(world).collect()
}
