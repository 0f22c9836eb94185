//! What runs say of a method, beside what its command comes to.

use crate::answers::is_proved;
use crate::judging::{judged_case, Judged};
use crate::running::{said_by_runs, Said};
use crate::sources::Case;
use cases::text::kind_word;
use jh_form::MarkKind;
use jh_name::Place;
use jh_seq::sequent::Sequent;
use std::fmt;

/// How many methods were tried, how many sequents they have, and what came of them.
#[derive(Default)]
pub struct Tally {
    pub tried: u64,
    pub sequents: usize,
    pub differed: u64,
    pub returned: u64,
    pub broke: u64,
    pub failed: u64,
    pub no_object: u64,
    pub not_entered: u64,
    pub overflowed: u64,
}

impl fmt::Display for Tally {
    fn fmt(&self, f: &mut fmt::Formatter<'_>) -> fmt::Result {
        writeln!(
            f,
            "returned {}, broke its promises {}, failed {}, found no object {}, not entered {}, overflowed {}",
            self.returned, self.broke, self.failed, self.no_object, self.not_entered, self.overflowed
        )?;
        write!(
            f,
            "tried {}, sequents {}, differed {}",
            self.tried, self.sequents, self.differed
        )
    }
}

/// Whether what comes of a command is what runs say. The weakest precondition is true, and so is
/// each sequent, where nothing is owed or the run returns and meets its promises. Else it is false,
/// and the first sequent that is false has the label of what the run breaks, and isn't proved.
fn agree(said: Said, judged: &Judged) -> bool {
    let Some(sequent) = &judged.first_false else {
        return judged.holds
            && matches!(
                said,
                Said::NotEntered | Said::Returns | Said::NoObject | Said::Overflows
            );
    };
    let (kind, place) = (sequent.mark.kind, sequent.mark.place);
    let is_label = match said {
        Said::NotEntered | Said::Returns | Said::NoObject => false,
        Said::Overflows => true,
        Said::Null(wanted) => kind == MarkKind::Null && place == wanted,
        Said::Fails(wanted) => matches!(kind, MarkKind::Assert | MarkKind::Note) && place == wanted,
        Said::BreaksEnsures => kind == MarkKind::Post,
        Said::BreaksInvariant => kind == MarkKind::Inv,
        Said::BreaksFrame => kind == MarkKind::Frame,
    };
    is_label && !judged.holds && !is_proved(sequent)
}

/// What a sequent is told by.
fn label(sequent: &Sequent) -> String {
    let Place { line, column } = sequent.mark.place;
    let proved = if is_proved(sequent) { ", proved" } else { "" };
    format!("{} {line}:{column}{proved}", kind_word(sequent.mark.kind))
}

impl Tally {
    /// Counts what runs say.
    fn count(&mut self, said: Said) {
        *match said {
            Said::NotEntered => &mut self.not_entered,
            Said::Returns => &mut self.returned,
            Said::NoObject => &mut self.no_object,
            Said::Null(_) | Said::Fails(_) => &mut self.failed,
            Said::BreaksEnsures | Said::BreaksInvariant | Said::BreaksFrame => &mut self.broke,
            Said::Overflows => &mut self.overflowed,
        } += 1;
    }

    /// Compares the case of a seed, and prints it where it differs.
    pub fn compare(&mut self, seed: u64, case: &Case) {
        let said = said_by_runs(case);
        let judged = judged_case(case);
        self.tried += 1;
        self.sequents += judged.sequents;
        self.count(said);
        if !agree(said, &judged) {
            self.differed += 1;
            let label = judged.first_false.as_ref().map_or("none".into(), label);
            println!(
                "method {seed}\n{case}{said:?}\nweakest precondition {}",
                judged.holds
            );
            println!("the first false sequent: {label}");
        }
    }
}
