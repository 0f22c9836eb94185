//! Formulas and terms with interpretations, and axioms of reachability, which are also evaluated, by following paths,
//! in all worlds of three objects with one field and one update of it, and in a sample of four objects with two
//! fields; and without the guards of an update, so that it is seen to find false formulas.

#[path = "formula_parts/interpretations.rs"]
mod interpretations;
#[path = "formula_parts/spelling.rs"]
mod spelling;
#[path = "formula_parts/worlds.rs"]
mod worlds;

use cases::files::{check, lines, Case};
use cases::row;
use jh_form::{Formula, Term};
use jh_name::{name, Name};
use jh_reach::{axioms, Backbone, NameBase};
use rattle_std::alloc::Global;
use worlds::{large_worlds, small_worlds, Reading, World};

/// How many worlds of four objects are tried.
const SAMPLE: usize = 4_000;

/// The name of a field. Its turn is its place among those of a `World`, where g is the field that changed.
fn field(text: &str) -> Name {
    let turn = ["f", "h", "g"]
        .iter()
        .position(|it| *it == text)
        .expect("a field");
    name(Global, text, turn as u32).expect("memory")
}

/// The name of an object. Its turn is its place among those of a `World`.
fn object(text: &str) -> Term {
    let turn = ["a", "v"]
        .iter()
        .position(|it| *it == text)
        .expect("an object");
    Term::Free(name(Global, text, turn as u32).expect("memory"))
}

/// The axioms of a list of fields, which are letters. Where g is among them, it is the field `changed` with v at a.
fn axioms_of(fields: &str, changed: Option<&str>) -> Vec<Formula> {
    let base = changed.map(|changed| NameBase {
        place: fields.find('g').expect("the field that changed") as u32,
        field: field(changed),
        at: object("a"),
        value: object("v"),
    });
    let letters = (0..fields.len()).map(|place| field(&fields[place..=place]));
    let backbone = Backbone {
        fields: row(letters),
        base,
    };
    axioms(Global, &[backbone])
        .expect("memory")
        .into_iter()
        .collect()
}

/// The axioms of the lists of which the cases speak.
fn axioms_named(fields: &str) -> Vec<Formula> {
    let changed = match fields {
        "f" | "fh" => None,
        "g" | "gh" => Some("f"),
        "fg" => Some("h"),
        _ => panic!("{fields} is no list of fields"),
    };
    axioms_of(fields, changed)
}

#[test]
fn values() {
    let cases = lines(include_str!("../data/values.cases"));
    check("values", 241, &cases, |case| {
        interpretations::answer(&case.given)
    });
}

#[test]
fn axioms_as_text() {
    let answer = |case: &Case| {
        let (fields, number) = case
            .given
            .split_once(' ')
            .expect("a list of fields and a number");
        let axioms = axioms_named(fields);
        let axiom = axioms.get(number.parse::<usize>().expect("a number") - 1);
        axiom.map_or("none".to_string(), |axiom| spelling::formula(axiom, 0))
    };
    check(
        "axioms",
        28,
        &lines(include_str!("../data/axioms.cases")),
        answer,
    );
}

/// Looks at the axioms of a list in worlds. Prints how often one was looked at and how often it was false.
fn looked_at(fields: &str, worlds: &[World], reading: Reading) -> (usize, usize) {
    let axioms = axioms_named(fields);
    let is_false = |world: &World| {
        axioms
            .iter()
            .filter(|axiom| !world.has(axiom, reading))
            .count()
    };
    let looked = (
        worlds.len() * axioms.len(),
        worlds.iter().map(is_false).sum(),
    );
    let how = if reading == Reading::Whole {
        ""
    } else {
        " without the guard"
    };
    println!(
        "{fields}{how}: {} times looked at, {} times false",
        looked.0, looked.1
    );
    looked
}

#[test]
fn axioms_are_true() {
    let small = small_worlds();
    let large = large_worlds(SAMPLE, false);
    assert_eq!(looked_at("f", &small, Reading::Whole), (2_187, 0));
    assert_eq!(looked_at("g", &small, Reading::Whole), (2_430, 0));
    assert_eq!(looked_at("fh", &large, Reading::Whole), (36_000, 0));
    assert_eq!(looked_at("fg", &large, Reading::Whole), (40_000, 0));
    assert_eq!(
        looked_at("gh", &large_worlds(SAMPLE, true), Reading::Whole),
        (40_000, 0)
    );
}

/// In how many worlds the axiom of an update is false without its guard was counted by a separate program.
#[test]
fn guards_are_needed() {
    assert_eq!(
        looked_at("g", &small_worlds(), Reading::Unguarded),
        (2_430, 10)
    );
    assert_eq!(
        looked_at("fg", &large_worlds(SAMPLE, false), Reading::Unguarded),
        (40_000, 131)
    );
}
