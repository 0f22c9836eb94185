//! The interpretation that sizes list, and whether a sequent is false there.

use crate::judging::is_false;
use crate::keeping::{kept_hyps, name_there};
use cases::row;
use cases::values::name;
use jh_arena::table::Table;
use jh_boxed_calls::interpretations::Interp;
use jh_import::entering::enter_formula;
use jh_name::{Name, Sort};
use jh_query::queries::{Sizes, Whole};
use jh_seq::sequent::Sequent;
use rattle_std::alloc::Global;

/// The most objects that are listed.
const MOST_OBJECTS: usize = 100;

/// The objects that are listed: the classes of the first ones, and the region of each.
#[derive(Default)]
struct Objects {
    classes: Vec<u32>,
    regions: Vec<u64>,
}

/// The number of binary digits, the least first; none where there are more than 60.
fn number_of(digits: &[bool]) -> Option<u64> {
    let value = |number: u64, digit: &bool| number * 2 + u64::from(*digit);
    (digits.len() <= 60).then(|| digits.iter().rev().fold(0, value))
}

/// A whole number, where its digits aren't too many.
fn whole_of(whole: &Whole) -> Option<i128> {
    let plus = number_of(whole.plus.items())?;
    let minus = number_of(whole.minus.items())?;
    Some(i128::from(plus) - i128::from(minus))
}

impl Objects {
    /// The objects of sizes, where they are few enough: one for each class, and behind them those
    /// that are no elements.
    fn of(sizes: &Sizes) -> Option<Objects> {
        let mut objects = Objects::default();
        for spot in sizes.spots.items() {
            if !objects.classes.contains(&spot.class) {
                objects.classes.push(spot.class);
                objects.regions.push(spot.region);
            }
        }
        for (region, digits) in (0..).zip(sizes.rest.items()) {
            let count = usize::try_from(number_of(digits.items())?).unwrap();
            if objects.regions.len().saturating_add(count) > MOST_OBJECTS {
                return None;
            }
            objects
                .regions
                .extend(std::iter::repeat(region).take(count));
        }
        Some(objects)
    }

    /// The members of a set, by its number.
    fn members(&self, set: usize) -> impl Iterator<Item = u32> + '_ {
        let objects = (0..).zip(&self.regions);
        objects
            .filter(move |(_, region)| *region >> set & 1 == 1)
            .map(|(object, _)| object)
    }

    /// The object of a class.
    fn place(&self, class: u32) -> u32 {
        self.classes.iter().position(|it| *it == class).unwrap() as u32
    }
}

/// The names of the hypotheses that are kept and of the goal, each sort in the order in which they
/// first stand.
#[derive(Default)]
struct Names {
    objects: Vec<Name>,
    numbers: Vec<Name>,
    truths: Vec<Name>,
    sets: Vec<Name>,
}

impl Names {
    fn of(sequent: &Sequent, kept: &[bool]) -> Names {
        let mut table = Table::new(Global).unwrap();
        for (hyp, kept) in sequent.hyps.items().iter().zip(kept) {
            if *kept {
                enter_formula(&mut table, &hyp.fact).unwrap();
            }
        }
        enter_formula(&mut table, &sequent.goal).unwrap();
        let mut names = Names::default();
        for (sort, it) in (0..table.len()).filter_map(|node| name_there(&table, node)) {
            let it = name(it.text(), it.turn());
            match sort {
                Sort::Obj => names.objects.push(it),
                Sort::Int => names.numbers.push(it),
                Sort::Bool => names.truths.push(it),
                Sort::Set => names.sets.push(it),
                Sort::Field => {}
            }
        }
        names
    }

    /// The interpretation that sizes list, which say of so many names and of no others. Null is the
    /// first element.
    fn interp(self, objects: &Objects, sizes: &Sizes, numbers: Vec<i128>) -> Interp {
        let spots = sizes.spots.items();
        assert_eq!(spots.len(), self.objects.len() + 1, "elements");
        assert_eq!(numbers.len(), self.numbers.len(), "numbers");
        assert_eq!(sizes.flags.items().len(), self.truths.len(), "flags");
        assert_eq!(sizes.rest.items().len(), 1 << self.sets.len(), "regions");
        let elements = spots[1..].iter().map(|spot| objects.place(spot.class));
        let flags = sizes.flags.items().iter().copied();
        let sets = self.sets.into_iter().enumerate();
        Interp {
            greatest: objects.regions.len() as u32 - 1,
            objects: row(self.objects.into_iter().zip(elements)),
            ints: row(self.numbers.into_iter().zip(numbers)),
            truths: row(self.truths.into_iter().zip(flags)),
            sets: row(sets.map(|(number, name)| (name, row(objects.members(number))))),
            fields: row([]),
        }
    }
}

/// Whether sizes that are said to refute the query of a sequent list an interpretation that can be
/// made: where a query says all of the goal and of the hypotheses that it keeps, and there are few
/// objects and digits. Then these hypotheses are true in it, and the goal is false.
pub fn is_tried(sequent: &Sequent, sizes: &Sizes) -> bool {
    let Some(kept) = kept_hyps(sequent) else {
        return false;
    };
    let Some(numbers) = sizes.numbers.items().iter().map(whole_of).collect() else {
        return false;
    };
    let Some(objects) = Objects::of(sizes) else {
        return false;
    };
    let interp = Names::of(sequent, &kept).interp(&objects, sizes, numbers);
    let is_refuted = is_false(&interp, sequent, |place| kept[place]);
    assert!(is_refuted, "sizes list nothing that refutes a sequent");
    true
}
