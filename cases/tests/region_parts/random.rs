//! Random queries.

use cases::row;
use jh_query::queries::{Cond, Num, Query, SetExpr};
use rattle_std::alloc::Global;
use rattle_std::boxed::Box;

/// Numbers that look random: a linear congruence modulo 2^64, of which the upper bits are used.
pub struct Draws(pub u64);

impl Draws {
    /// A number below a bound, or 0 where the bound is 0.
    pub fn below(&mut self, bound: u32) -> u32 {
        self.0 = self
            .0
            .wrapping_mul(6_364_136_223_846_793_005)
            .wrapping_add(1_442_695_040_888_963_407);
        (self.0 >> 33).checked_rem(u64::from(bound)).unwrap_or(0) as u32
    }
}

fn boxed<T>(value: T) -> Box<T> {
    Box::new(Global, value).expect("memory")
}

/// How many sets, elements, numbers and flags there are, and what draws over them.
struct Maker<'a> {
    draws: &'a mut Draws,
    sets: u32,
    elements: u32,
    numbers: u32,
    flags: u32,
}

impl Maker<'_> {
    fn below(&mut self, bound: u32) -> u32 {
        self.draws.below(bound)
    }

    /// A number from the lowest on, of so many.
    fn from(&mut self, lowest: i64, count: u32) -> i64 {
        lowest + i64::from(self.below(count))
    }

    fn plain_set(&mut self) -> SetExpr {
        match self.below(8) {
            0 => SetExpr::Empty,
            1 => SetExpr::All,
            2 => SetExpr::One(self.below(self.elements)),
            _ if self.sets > 0 => SetExpr::Var(self.below(self.sets)),
            _ => SetExpr::All,
        }
    }

    fn set(&mut self, depth: u32) -> SetExpr {
        if depth == 0 || self.below(2) == 0 {
            return self.plain_set();
        }
        let kind = self.below(5);
        let left = boxed(self.set(depth - 1));
        match kind {
            0 => SetExpr::Compl(left),
            1 => SetExpr::Inter(left, boxed(self.set(depth - 1))),
            2 => SetExpr::Diff(left, boxed(self.set(depth - 1))),
            _ => SetExpr::Union(left, boxed(self.set(depth - 1))),
        }
    }

    fn plain_number(&mut self) -> Num {
        match self.below(5) {
            0 => Num::Const(self.from(-1, 4)),
            1 | 2 if self.numbers > 0 => Num::Var(self.below(self.numbers)),
            1 | 2 => Num::Const(1),
            _ => Num::Card(boxed(self.set(1))),
        }
    }

    fn number(&mut self, depth: u32) -> Num {
        if depth == 0 || self.below(2) == 0 {
            return self.plain_number();
        }
        match self.below(4) {
            0 => Num::Neg(boxed(self.number(depth - 1))),
            1 => Num::Scale(self.from(-2, 5), boxed(self.number(depth - 1))),
            2 => Num::Add(boxed(self.number(depth - 1)), boxed(self.number(depth - 1))),
            _ => Num::Sub(boxed(self.number(depth - 1)), boxed(self.number(depth - 1))),
        }
    }

    fn element_atom(&mut self) -> Cond {
        match self.below(3) {
            0 if self.flags > 0 => Cond::Flag(self.below(self.flags)),
            0 => Cond::True,
            1 => Cond::SameElement(self.below(self.elements), self.below(self.elements)),
            _ => Cond::In(self.below(self.elements), self.set(2)),
        }
    }

    fn atom(&mut self) -> Cond {
        match self.below(8) {
            0..=2 => self.element_atom(),
            3 => Cond::EqualSet(self.set(2), self.set(2)),
            4 => Cond::Within(self.set(2), self.set(2)),
            5 => Cond::EqualNum(self.number(2), self.number(1)),
            6 => Cond::LessNum(self.number(2), self.number(1)),
            _ => Cond::Divides(self.from(1, 3), self.number(2)),
        }
    }

    fn cond(&mut self, depth: u32) -> Cond {
        if depth == 0 || self.below(5) < 2 {
            return self.atom();
        }
        let kind = self.below(6);
        let left = boxed(self.cond(depth - 1));
        match kind {
            0 | 1 => Cond::Not(left),
            2 => Cond::And(left, boxed(self.cond(depth - 1))),
            3 => Cond::Or(left, boxed(self.cond(depth - 1))),
            4 => Cond::Implies(left, boxed(self.cond(depth - 1))),
            _ => Cond::Iff(left, boxed(self.cond(depth - 1))),
        }
    }
}

/// A query of at most 3 sets, 3 elements, 2 numbers and 2 flags.
pub fn random_query(draws: &mut Draws) -> Query {
    let (sets, elements) = (draws.below(4), draws.below(3) + 1);
    let (numbers, flags) = (draws.below(3), draws.below(3));
    let count = draws.below(4);
    let mut maker = Maker {
        draws,
        sets,
        elements,
        numbers,
        flags,
    };
    let hyps = row((0..count).map(|_| maker.cond(2)));
    Query {
        sets,
        elements,
        numbers,
        flags,
        hyps,
        goal: maker.cond(2),
    }
}
