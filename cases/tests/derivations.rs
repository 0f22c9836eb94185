//! Sequents with derivations, and what comes of their replay. Each rule has a step that meets it and one that just
//! doesn't.

use cases::files::{check, lines, Case};
use cases::row;
use cases::words::{formula, named, sequent, Words};
use jh_deriv::{replay, Base, DerivStep, Derivation, Replayed};
use jh_name::Kind;
use jh_seq::sequent::{Hyp, Sequent};
use rattle_std::alloc::Global;
use std::time::Instant;

/// How many cuts the long derivation has: with what closes their branches it has 100,001 steps.
const ROUNDS: usize = 33_333;

/// The sequent of hypotheses that are written one behind another and of a goal.
fn sequent_of(hyps: &str, goal: &str) -> Sequent {
    let facts = Words::all(hyps, |words| words.rest(Words::formula));
    let hyps = facts.into_iter().map(|fact| Hyp { name: None, fact });
    sequent(row([]), row(hyps), formula(goal))
}

/// The base that is written as the place of the member that changed, the field before that, the object where it
/// changed, and its value there.
fn base(words: &mut Words) -> Base {
    let place = words.word().parse().expect("a place");
    Base {
        place,
        field: words.field(),
        at: words.object(),
        value: words.object(),
    }
}

/// A step that reads two objects by a field of a kind.
fn reading(words: &mut Words, kind: Kind) -> DerivStep {
    DerivStep::Read(kind, words.field(), words.object(), words.object())
}

/// The step that words are: its rule's word and its operands.
fn step(words: &mut Words) -> DerivStep {
    match words.word() {
        "absurd" => DerivStep::Absurd,
        "pair" => DerivStep::Pair(words.formula()),
        "reflexive" => DerivStep::Reflexive(words.formula()),
        "symmetric" => DerivStep::Symmetric(words.operand(), words.operand()),
        "transitive" => DerivStep::Transitive(words.operand(), words.operand(), words.operand()),
        "at" => reading(words, Kind::Obj),
        "atint" => reading(words, Kind::Int),
        "atbool" => reading(words, Kind::Bool),
        "atset" => reading(words, Kind::Set),
        "replace" => DerivStep::Replace(
            words.formula(),
            words.formula(),
            words.operand(),
            words.operand(),
        ),
        "conjuncts" => DerivStep::And(words.formula()),
        "disjuncts" => DerivStep::Or(words.formula()),
        "implication" => DerivStep::Implies(words.formula()),
        "equivalence" => DerivStep::Iff(words.formula()),
        "inward" => DerivStep::Not(words.formula()),
        "instance" => DerivStep::All(words.formula(), words.object()),
        "cut" => DerivStep::Cut(words.formula()),
        "updating" => DerivStep::Update(words.field()),
        "open" => DerivStep::Open(words.formula()),
        "witness" => {
            let witness = named(words.word());
            DerivStep::Exists(words.formula(), witness)
        }
        rule @ ("axiom" | "based") => {
            let number = words.word().parse().expect("the number of an axiom");
            let base = (rule == "based").then(|| base(words));
            DerivStep::Axiom(number, row(words.rest(Words::field)), base)
        }
        rule => panic!("{rule} is no rule"),
    }
}

fn step_of(text: &str) -> DerivStep {
    Words::all(text, step)
}

/// What comes of the replay of a case `HYPOTHESES |- GOAL : STEP ; STEP`: yes, or no and the number of a step.
fn answer(case: &Case) -> String {
    let (sequent, steps) = case.given.split_once(" : ").expect("a sequent and steps");
    let (hyps, goal) = sequent.split_once("|-").expect("hypotheses and a goal");
    let derivation = Derivation {
        steps: row(steps.split(';').map(step_of)),
    };
    match replay(Global, &derivation, &sequent_of(hyps, goal)) {
        Replayed::Yes => "yes".to_string(),
        Replayed::No(step) => format!("no {step}"),
        Replayed::Memory => panic!("memory"),
    }
}

#[test]
fn derivations() {
    let cases = lines(include_str!("../data/derivations.cases"));
    check("derivations", 139, &cases, answer);
}

/// A derivation of cuts, each in the right branch of the one before, and of what closes each branch: the facts `p &
/// q` and `~ p`.
#[test]
fn long_derivation() {
    let closing = ["conjuncts and p q", "pair p"];
    let cuts = (0..ROUNDS).flat_map(|_| ["cut s", closing[0], closing[1]]);
    let derivation = Derivation {
        steps: row(cuts.chain(closing).map(step_of)),
    };
    let start = Instant::now();
    let answer = replay(Global, &derivation, &sequent_of("and p q not p", "false"));
    let count = derivation.steps.items().len();
    println!("{count} steps: {} ms", start.elapsed().as_millis());
    assert!(count == 100_001 && matches!(answer, Replayed::Yes));
}
