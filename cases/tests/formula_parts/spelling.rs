//! Formulas as text, those parts of them of which axioms are made.

use jh_form::{FieldTerm, Formula, Term};

/// The names of bound variables, from the outermost binder on.
const VARIABLES: [&str; 4] = ["x", "y", "z", "w"];

/// The name of a bound variable under so many binders.
fn variable(number: u32, binders: usize) -> &'static str {
    VARIABLES[binders - 1 - number as usize]
}

fn field(field: &FieldTerm) -> &str {
    match field {
        FieldTerm::Free(name) => name.text(),
        FieldTerm::Update(..) => "?",
    }
}

/// A list of fields in brackets.
fn fields(list: &[FieldTerm]) -> String {
    format!("[{}]", list.iter().map(field).collect::<Vec<_>>().join(" "))
}

/// A term under so many binders, with a dot before a field that is read.
fn term(shown: &Term, binders: usize) -> String {
    match shown {
        Term::Bound(number) => variable(*number, binders).to_string(),
        Term::Free(name) => name.text().to_string(),
        Term::Null => "null".to_string(),
        Term::Read(read, object) => format!("{}.{}", term(object, binders), field(read)),
    }
}

/// A formula under so many binders.
pub fn formula(shown: &Formula, binders: usize) -> String {
    let pair = |a, sign, b| format!("({} {sign} {})", formula(a, binders), formula(b, binders));
    let bound = |word, a| {
        format!(
            "{word} {}. {}",
            variable(0, binders + 1),
            formula(a, binders + 1)
        )
    };
    match shown {
        Formula::True => "True".to_string(),
        Formula::False => "False".to_string(),
        Formula::Not(a) => format!("~ {}", formula(a, binders)),
        Formula::And(a, b) => pair(a, "&", b),
        Formula::Or(a, b) => pair(a, "|", b),
        Formula::Implies(a, b) => pair(a, "-->", b),
        Formula::Iff(a, b) => pair(a, "iff", b),
        Formula::All(a) => bound("ALL", a),
        Formula::Ex(a) => bound("EX", a),
        Formula::EqObj(a, b) => format!("{} = {}", term(a, binders), term(b, binders)),
        Formula::Reach(list, a, b) => {
            format!(
                "R{} {} {}",
                fields(list.items()),
                term(a, binders),
                term(b, binders)
            )
        }
        Formula::Tree(list) => format!("tree {}", fields(list.items())),
        _ => "?".to_string(),
    }
}
