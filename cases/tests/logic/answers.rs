//! Methods that are accepted, run on many heaps.

use crate::judging::owed_of;
use crate::listing::is_tried;
use crate::running::{said_by_runs, Said};
use crate::sources::Case;
use cases::random::Random;
use jh_boxed_calls::sequents::{prove, Answer, BapaCause};
use jh_name::options::Options;
use jh_prove::prover::is_unproved;
use jh_seq::sequent::Sequent;
use rattle_std::alloc::Global;
use std::fmt;

/// On how many heaps an accepted method is run.
const HEAPS: u32 = 100;

/// How far the search for a proof of a sequent goes: a little way, since there are many sequents.
const OPTIONS: Options = Options {
    rounds: 1,
    leaves: 200,
};

/// How many methods were tried and accepted, how many sequents they have and how many of these were
/// seen to be false where sizes refute their queries, on how many heaps accepted methods were
/// entered, and how many methods differed.
#[derive(Default)]
pub struct Score {
    pub tried: u64,
    pub sequents: usize,
    pub refuted: u64,
    pub accepted: u64,
    pub entered: u64,
    pub differed: u64,
}

impl fmt::Display for Score {
    fn fmt(&self, f: &mut fmt::Formatter<'_>) -> fmt::Result {
        write!(
            f,
            "asked {}, sequents {}, refuted {}, accepted {}, entered {}, differed {}",
            self.tried, self.sequents, self.refuted, self.accepted, self.entered, self.differed
        )
    }
}

/// Whether a sequent is proved.
pub fn is_proved(sequent: &Sequent) -> bool {
    !is_unproved(&prove(Global, sequent, OPTIONS).unwrap())
}

impl Score {
    /// Whether a sequent is proved. Where sizes are said to refute its query, they are tried.
    fn is_sure(&mut self, sequent: &Sequent) -> bool {
        let answer = prove(Global, sequent, OPTIONS).unwrap();
        if let Answer::Unproved {
            bapa: BapaCause::Refuted(sizes),
            ..
        } = &answer
        {
            self.refuted += u64::from(is_tried(sequent, sizes));
        }
        !is_unproved(&answer)
    }

    /// What a run of an accepted method says that it may not do, on one of many heaps.
    fn broken(&mut self, case: &mut Case, random: &mut Random) -> Option<Said> {
        for _heap in 0..HEAPS {
            case.renew(random);
            match said_by_runs(case) {
                Said::NotEntered => {}
                Said::Returns | Said::NoObject | Said::Overflows => self.entered += 1,
                said => return Some(said),
            }
        }
        None
    }

    /// Asks for the answers on the method of a seed, and runs it where it is accepted. Prints it
    /// where it breaks a promise.
    pub fn ask(&mut self, seed: u64, case: &mut Case) {
        let (_, sequents) = owed_of(case);
        self.tried += 1;
        self.sequents += sequents.len();
        let sure = sequents
            .iter()
            .filter(|sequent| self.is_sure(sequent))
            .count();
        if sure < sequents.len() {
            return;
        }
        self.accepted += 1;
        if let Some(said) = self.broken(case, &mut Random::new(seed.wrapping_add(1 << 32))) {
            self.differed += 1;
            println!("method {seed}\n{case}{said:?}, accepted");
        }
    }
}
