//! What is decided of a query, and sizes that are tried on it.

use cases::row;
use jh_bapa::decision::{decide, is_well_formed, Decided};
use jh_name::Row;
use jh_query::queries::{fits, is_true, Query, Sizes, Spot, Whole};
use rattle_std::alloc::Global;

use crate::random::Draws;

/// How many sizes are tried on a query at most.
const MOST: u64 = 1_000;

/// How far sizes are tried: each rest is below `rests`, and numbers are from `-numbers` to `numbers`.
#[derive(Clone, Copy)]
struct Bound {
    rests: u32,
    numbers: u32,
}

/// The bounds that are tried, the widest first.
const BOUNDS: [Bound; 3] = [
    Bound {
        rests: 4,
        numbers: 3,
    },
    Bound {
        rests: 3,
        numbers: 2,
    },
    Bound {
        rests: 2,
        numbers: 1,
    },
];

/// What trying sizes on a query showed.
pub struct Tried {
    /// Whether some of them refute it.
    pub is_refuted: bool,
    /// Whether all sizes within a bound were tried, up to those that refute it.
    pub is_whole: bool,
}

/// Whether sizes fit a query and make it false.
fn is_refuting(query: &Query, sizes: &Sizes) -> bool {
    fits(query, sizes) && is_true(query, sizes) == Some(false)
}

/// What is decided of a query, in a word. A refuting answer counts only where its sizes refute the query.
pub fn decided(query: &Query) -> &'static str {
    assert!(is_well_formed(query));
    match decide(Global, query) {
        Decided::Valid => "valid",
        Decided::Refuted(sizes) if is_refuting(query, &sizes) => "refuted",
        Decided::Refuted(_) => "wrong",
        Decided::TooLarge { .. } => "too large",
        Decided::Memory => panic!("memory"),
    }
}

/// How many choices there are of each thing that makes sizes, within a bound: the places of the elements, the rests,
/// the numbers and the flags. An element is one of those before it, or an object of its own in one of the regions.
fn counts_of(query: &Query, bound: Bound) -> Vec<u32> {
    let regions = 1 << query.sets;
    let mut counts: Vec<u32> = (0..query.elements)
        .map(|element| regions + element)
        .collect();
    counts.extend((0..regions).map(|_| bound.rests));
    counts.extend((0..query.numbers).map(|_| 2 * bound.numbers + 1));
    counts.extend((0..query.flags).map(|_| 2));
    counts
}

/// How many sizes there are of so many choices.
fn product(counts: &[u32]) -> u64 {
    counts.iter().fold(1, |product: u64, count| {
        product.saturating_mul(u64::from(*count))
    })
}

/// The digits of a number below 8.
fn digits_of(number: u32) -> Row<bool> {
    row((0..3).map(|place| number >> place & 1 == 1))
}

/// The sizes that choices make.
fn sizes_of(query: &Query, choices: &[u32], bound: Bound) -> Sizes {
    let mut choices = choices.iter().copied();
    let mut next = || choices.next().expect("a choice");
    let mut spots: Vec<Spot> = Vec::new();
    for element in 0..query.elements {
        let choice = next();
        let own = || Spot {
            class: element,
            region: u64::from(choice - element),
        };
        spots.push(spots.get(choice as usize).copied().unwrap_or_else(own));
    }
    let rest = row((0..1 << query.sets).map(|_| digits_of(next())));
    let numbers = (0..query.numbers).map(|_| Whole {
        plus: digits_of(next()),
        minus: digits_of(bound.numbers),
    });
    let numbers = row(numbers);
    let flags = row((0..query.flags).map(|_| next() == 1));
    Sizes {
        rest,
        spots: row(spots),
        numbers,
        flags,
    }
}

/// Turns choices on by one. False after the last.
fn turn(choices: &mut [u32], counts: &[u32]) -> bool {
    for (choice, count) in choices.iter_mut().zip(counts) {
        if *choice + 1 < *count {
            *choice += 1;
            return true;
        }
        *choice = 0;
    }
    false
}

/// Tries sizes on a query: all within the widest bound that has few enough, else some that are drawn.
pub fn try_sizes(query: &Query, draws: &mut Draws) -> Tried {
    let is_small = |bound: &Bound| product(&counts_of(query, *bound)) <= MOST;
    let bound = BOUNDS.into_iter().find(is_small).unwrap_or(BOUNDS[2]);
    let counts = counts_of(query, bound);
    let is_whole = is_small(&bound);
    let mut choices = vec![0; counts.len()];
    for _ in 0..MOST {
        if is_refuting(query, &sizes_of(query, &choices, bound)) {
            return Tried {
                is_refuted: true,
                is_whole,
            };
        }
        if !is_whole {
            choices = counts.iter().map(|count| draws.below(*count)).collect();
        } else if !turn(&mut choices, &counts) {
            break;
        }
    }
    Tried {
        is_refuted: false,
        is_whole,
    }
}
