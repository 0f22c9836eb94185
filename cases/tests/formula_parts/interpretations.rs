//! Interpretations from words, and what questions come to in them.

use cases::row;
use cases::words::{named, Words};
use jh_boxed_calls::interpretations::{
    member, number, object, truth, FieldValue, Interp, SemError,
};
use jh_name::{Name, Row};
use rattle_std::alloc::Global;

/// An interpretation, and the objects for bound variables, the innermost binder's last.
struct Setting {
    interp: Interp,
    bound: Vec<u32>,
}

/// Items with a sign between them.
fn parted<T>(word: &str, sign: char, item: impl Fn(&str) -> T) -> Row<T> {
    row(word.split(sign).map(item))
}

/// Objects with commas between, or none, which is written as `-`.
fn objects(word: &str) -> Row<u32> {
    if word == "-" {
        return row([]);
    }
    parted(word, ',', |it| it.parse().expect("an object"))
}

fn number_of(word: &str) -> i128 {
    word.parse().expect("a number")
}

fn truth_of(word: &str) -> bool {
    word.parse().expect("a truth")
}

/// The interpretation of a text: the greatest object, and then entries of the kinds below, each with a name and a
/// value. The entry `under` has objects for bound variables and no name.
fn setting(text: &str) -> Setting {
    let mut words = text.split_whitespace();
    let greatest = words
        .next()
        .and_then(|it| it.parse().ok())
        .expect("the greatest object");
    let mut bound = Vec::new();
    let (mut objects_of, mut ints, mut truths, mut sets) =
        (Vec::new(), Vec::new(), Vec::new(), Vec::new());
    let mut fields: Vec<(Name, FieldValue)> = Vec::new();
    while let Some(kind) = words.next() {
        let first = words.next().expect("a name");
        if kind == "under" {
            bound = objects(first).items().to_vec();
            continue;
        }
        let (name, value) = (named(first), words.next().expect("a value"));
        match kind {
            "object" => objects_of.push((name, value.parse().expect("an object"))),
            "number" => ints.push((name, number_of(value))),
            "truth" => truths.push((name, truth_of(value))),
            "set" => sets.push((name, objects(value))),
            "objects" => fields.push((name, FieldValue::Obj(objects(value)))),
            "numbers" => fields.push((name, FieldValue::Int(parted(value, ',', number_of)))),
            "truths" => fields.push((name, FieldValue::Bool(parted(value, ',', truth_of)))),
            "sets" => fields.push((name, FieldValue::Set(parted(value, '/', objects)))),
            _ => panic!("{kind} is no kind of entry"),
        }
    }
    let (objects, ints, truths) = (row(objects_of), row(ints), row(truths));
    let interp = Interp {
        greatest,
        objects,
        ints,
        truths,
        sets: row(sets),
        fields: row(fields),
    };
    Setting { interp, bound }
}

/// The text of an answer, or of why there is none.
fn shown<T: ToString>(came: Result<T, SemError>) -> String {
    match came {
        Ok(value) => value.to_string(),
        Err(SemError::Wide) => "wide".to_string(),
        Err(SemError::Memory) => "memory".to_string(),
    }
}

/// What comes of a question `QUESTION | INTERPRETATION`: `truth`, `number`, `object`, or `member` with an object, and
/// the words of what is asked for.
pub fn answer(text: &str) -> String {
    let (question, interpretation) = text
        .split_once('|')
        .expect("a question and an interpretation");
    let Setting { interp, bound } = setting(interpretation);
    if !interp.is_inside() || !interp.has_all(&bound) {
        return "outside".to_string();
    }
    Words::all(question, |words| match words.word() {
        "truth" => shown(truth(Global, &interp, &words.formula(), &bound)),
        "number" => shown(number(Global, &interp, &words.number(), &bound)),
        "object" => {
            shown(object(Global, &interp, &words.object(), &bound).map(|it| format!("object {it}")))
        }
        "member" => {
            let asked = words.word().parse().expect("an object");
            let set = words.set();
            if asked > interp.greatest {
                return "outside".to_string();
            }
            shown(member(Global, &interp, asked, &set, &bound))
        }
        word => panic!("{word} is no question"),
    })
}
