//! Random methods, run on random heaps, beside the truth of their weakest preconditions and of all
//! their sequents there.
//!
//! A method is a random text of `data/logic/logic.grammar`, with `requires`, `modifies`, `ensures`
//! and an invariant, and is run from a random heap of up to three objects that is well formed.
//! Where the run returns and meets its promises, the weakest precondition is true in the
//! interpretation that the heap is, and so is each sequent, whichever objects its constants are;
//! where the run fails or breaks a promise, the weakest precondition is false, and the first
//! sequent that is false bears the label of what is broken, for null, asserts and notes at the
//! place where the run stops, and isn't proved. The fresh names of `new` have the objects that the
//! run takes. What is asked at entry and promised at a return is not taken from the commands: two
//! more methods of the source, `before` and `twin`, assert it in runs, and the frame is compared
//! between the texts of two heaps.
//!
//! Methods of `data/logic/answers.grammar` speak of statics, sets and numbers alone. Where all
//! sequents of one are proved, it is run on a hundred random heaps, and breaks no promise on any.
//! Where sizes are said to refute the query of a sequent, and a query says all of its goal and of
//! the hypotheses that it keeps, the interpretation that the sizes list is made: these hypotheses
//! are true there, and the goal is false. Which hypotheses are kept is found once more, by the
//! names of the formulas.
//!
//! The variable LOGIC_METHODS says how many methods of the one grammar are tried, and half as many
//! of the other; 2,000 take some minutes.

#[path = "logic/answers.rs"]
mod answers;
#[path = "logic/comparing.rs"]
mod comparing;
#[path = "logic/grammar.rs"]
mod grammar;
#[path = "logic/judging.rs"]
mod judging;
#[path = "logic/keeping.rs"]
mod keeping;
#[path = "logic/listing.rs"]
mod listing;
#[path = "logic/running.rs"]
mod running;
#[path = "logic/sources.rs"]
mod sources;
#[path = "logic/world.rs"]
mod world;

use answers::Score;
use comparing::Tally;
use grammar::rules_of;
use sources::Case;

/// How many methods of the first grammar are tried where nothing says so.
const TRIED: u64 = 300;

/// The number of the first method that is compared. The ten from here on return, fail, find no
/// object, aren't entered, and break promises, each at least once.
const FIRST: u64 = 277;

/// What comes of these runs.
const RUNS: &str = "returned 71, broke its promises 14, failed 75, found no object 50, not entered 90, overflowed 0
tried 300, sequents 4546, differed 0";

/// What comes of the answers for half as many methods of the second grammar.
const ANSWERS: &str =
    "asked 150, sequents 1761, refuted 140, accepted 91, entered 5255, differed 0";

/// How many methods of the first grammar are tried.
fn count() -> u64 {
    match std::env::var("LOGIC_METHODS") {
        Ok(count) => count.parse().expect("a number of methods"),
        Err(_) => TRIED,
    }
}

/// Prints a case where what is asked of it panics.
struct Asked(u64, String);

impl Drop for Asked {
    fn drop(&mut self) {
        if std::thread::panicking() {
            println!("method {}\n{}", self.0, self.1);
        }
    }
}

#[test]
fn runs_agree_with_weakest_preconditions_and_sequents() {
    let rules = rules_of(include_str!("../data/logic/logic.grammar"));
    let mut tally = Tally::default();
    for seed in FIRST..FIRST + count() {
        let case = Case::random(&rules, seed);
        let _asked = Asked(seed, case.to_string());
        tally.compare(seed, &case);
    }
    println!("{tally}");
    assert_eq!(tally.differed, 0);
    if count() == TRIED {
        assert_eq!(tally.to_string(), RUNS);
    }
}

#[test]
fn accepted_methods_break_no_promise() {
    let rules = rules_of(include_str!("../data/logic/answers.grammar"));
    let mut score = Score::default();
    for seed in 0..count() / 2 {
        let mut case = Case::random(&rules, seed);
        let _asked = Asked(seed, case.to_string());
        score.ask(seed, &mut case);
    }
    println!("{score}");
    assert_eq!(score.differed, 0);
    if count() == TRIED {
        assert_eq!(score.to_string(), ANSWERS);
    }
}
