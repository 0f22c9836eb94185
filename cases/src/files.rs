//! Cases that stand in files, as `cases/data` has them. Their remarks say how each file is read.

/// A case: what is given, and what is wanted of it.
#[derive(Default)]
pub struct Case {
    pub given: String,
    pub wanted: String,
}

/// The cases of a text that are a line each, with an arrow before what is wanted. Other lines are remarks.
pub fn lines(text: &str) -> Vec<Case> {
    let parted = text.lines().filter_map(|line| line.split_once(" => "));
    let case = |(given, wanted): (&str, &str)| Case {
        given: given.to_string(),
        wanted: wanted.trim().to_string(),
    };
    parted.map(case).collect()
}

/// The cases of a text that stand between lines: the line `opening`, what is given, the line `gives`, what is wanted,
/// and the line `end`. Other lines are remarks.
pub fn blocks(text: &str, opening: &str) -> Vec<Case> {
    enum Part {
        Remark,
        Given,
        Wanted,
    }
    let mut cases = Vec::new();
    let mut case = Case::default();
    let mut part = Part::Remark;
    for line in text.lines() {
        match (line, &part) {
            (word, _) if word == opening => part = Part::Given,
            ("gives", _) => part = Part::Wanted,
            ("end", _) => {
                cases.push(std::mem::take(&mut case));
                part = Part::Remark;
            }
            (_, Part::Remark) => (),
            (_, Part::Given) => case.given += &format!("{line}\n"),
            (_, Part::Wanted) => case.wanted += &format!("{line}\n"),
        }
    }
    cases
}

/// Goes through cases, prints each whose answer isn't what is wanted and how many there were, and panics where one
/// differs or there aren't as many as there should be.
pub fn check(what: &str, count: usize, cases: &[Case], answer: impl Fn(&Case) -> String) {
    let mut differing = 0;
    for case in cases {
        let came = answer(case);
        if came != case.wanted {
            println!(
                "{}\ncomes to\n{came}\ninstead of\n{}",
                case.given, case.wanted
            );
            differing += 1;
        }
    }
    println!("{what}: {} cases, {differing} of them differ", cases.len());
    assert_eq!((cases.len(), differing), (count, 0));
}
