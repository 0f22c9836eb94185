//! Runs of the methods of a source, and what they say of `go`.

use crate::sources::Case;
use cases::source::unfolded;
use jh_machine::continuation::Stop;
use jh_name::Place;
use jh_run::outcome::{run_method, Unreturned};
use rattle_std::alloc::Global;

/// How many steps a run may take.
const STEPS: u64 = 10_000;

/// What runs say of a method on a heap.
#[derive(Clone, Copy, Debug, PartialEq)]
pub enum Said {
    /// It may not be entered there.
    NotEntered,
    /// It returns, and meets all that it promises.
    Returns,
    /// It finds no object to take, which is no fault.
    NoObject,
    /// It dereferences null at a place.
    Null(Place),
    /// It fails an assertion at a place.
    Fails(Place),
    /// It returns, and breaks `ensures`.
    BreaksEnsures,
    /// It returns, and breaks an invariant.
    BreaksInvariant,
    /// It returns, and changes what it may not.
    BreaksFrame,
    /// A number left the integers of runs.
    Overflows,
}

/// The heap with which the run of a method of a case ends, or why it stops.
fn run(case: &Case, name: &str) -> Result<String, Stop> {
    let source = unfolded(&case.source)
        .ok()
        .expect("a source that isn't refused");
    match run_method(Global, source, "Node", name, case.heap.as_bytes(), STEPS) {
        Ok(text) => Ok(text.as_str().to_string()),
        Err(Unreturned::Stopped(stop)) => Err(stop),
        Err(_) => panic!("`{name}` isn't run"),
    }
}

/// Whether what a line of a heap says has to stay: the value of a static that `modifies` doesn't
/// name, or of such a field at an object that there was.
fn stays(case: &Case, line: &str) -> bool {
    let words: Vec<&str> = line.split(' ').collect();
    let is_modified = |member: &str| {
        let own = member.split_once('.').map(|(_class, own)| own);
        own.is_some_and(|own| case.modifies.contains(&own))
    };
    match words[0] {
        "static" => !is_modified(words[1]),
        "field" => !is_modified(words[1]) && case.world.has(words[2].parse().unwrap()),
        _ => false,
    }
}

/// Whether all that has to stay of a heap stands in another.
fn stays_in(case: &Case, text: &str, other: &str) -> bool {
    let mut staying = text.lines().filter(|line| stays(case, line));
    staying.all(|line| other.lines().any(|there| there == line))
}

/// What is said of a method that returns with a heap: that of its twin, and by the heap that it
/// keeps its frame.
fn said_at_end(case: &Case, last: &str) -> Said {
    match run(case, "twin") {
        Err(Stop::AssertFailed(place)) => {
            let line = case.source.lines().nth(place.line as usize - 1).unwrap();
            if line.contains("assert promised:") {
                Said::BreaksEnsures
            } else {
                assert!(line.contains("assert kept:"), "`twin` fails at {place:?}");
                Said::BreaksInvariant
            }
        }
        Ok(text) => {
            assert_eq!(text, last, "`twin` ends with another heap");
            if stays_in(case, &case.heap, last) && stays_in(case, last, &case.heap) {
                Said::Returns
            } else {
                Said::BreaksFrame
            }
        }
        Err(_) => panic!("`twin` stops"),
    }
}

/// What runs say of the method of a case on its heap.
pub fn said_by_runs(case: &Case) -> Said {
    match run(case, "before") {
        Ok(_) => {}
        Err(Stop::AssertFailed(_)) => return Said::NotEntered,
        Err(_) => panic!("`before` stops"),
    }
    match run(case, "go") {
        Ok(last) => said_at_end(case, &last),
        Err(Stop::Null(place)) => Said::Null(place),
        Err(Stop::AssertFailed(place)) => Said::Fails(place),
        Err(Stop::NoObject(_)) => Said::NoObject,
        Err(Stop::Overflow(_)) => Said::Overflows,
        Err(_) => panic!("`go` takes all steps"),
    }
}
