//! Nodes of a table, formulas, terms and sequents from words, each before its parts, so that cases can hold them as
//! text.

use crate::row;
use jh_arena::makers::{
    bound, constant, free_field, free_number, free_object, free_set, free_truth, labelled,
};
use jh_arena::table::{Shape, Table};
use jh_export::{boxed_field, boxed_formula, boxed_int, boxed_set, boxed_term, value};
use jh_form::{FieldTerm, Formula, IntTerm, Mark, MarkKind, SetTerm, Term, Value};
use jh_import::entering::enter_formula;
use jh_name::{name, MethodId, Name, Place, Row, Sort};
use jh_seq::sequent::{Hyp, Sequent};
use rattle_std::alloc::Global;
use std::str::SplitWhitespace;

/// The operation of a word, with 0 for each part, or none where the word is no operation's. `times` and `divides` have
/// a colon and a factor behind them.
pub fn operation(word: &str) -> Option<Shape> {
    match word.split_once(':') {
        Some(("times", factor)) => Some(Shape::Scale(factor.parse().ok()?, 0)),
        Some(("divides", factor)) => Some(Shape::Divides(factor.parse().ok()?, 0)),
        Some(_) => None,
        None => operation_without_factor(word),
    }
}

fn operation_without_factor(word: &str) -> Option<Shape> {
    Some(match word {
        "true" => Shape::True,
        "false" => Shape::False,
        "not" => Shape::Negation(0),
        "and" => Shape::And(0, 0),
        "or" => Shape::Or(0, 0),
        "implies" => Shape::Implies(0, 0),
        "iff" => Shape::Iff(0, 0),
        "all" => Shape::All(0),
        "ex" => Shape::Ex(0),
        "eqobj" => Shape::EqObject(0, 0),
        "eqint" => Shape::EqNumber(0, 0),
        "eqset" => Shape::EqSet(0, 0),
        "less" => Shape::Less(0, 0),
        "most" => Shape::LessEqual(0, 0),
        "member" => Shape::Member(0, 0),
        "subset" => Shape::Subset(0, 0),
        "null" => Shape::Null,
        "read" => Shape::ReadObject(0, 0),
        "readint" => Shape::ReadNumber(0, 0),
        "readbool" => Shape::ReadTruth(0, 0),
        "readset" => Shape::ReadSet(0, 0),
        "sum" => Shape::Add(0, 0),
        "minus" => Shape::Sub(0, 0),
        "neg" => Shape::Neg(0),
        "twice" => Shape::Scale(2, 0),
        "card" => Shape::Card(0),
        "empty" => Shape::Empty,
        "univ" => Shape::Univ,
        "single" => Shape::Single(0),
        "union" => Shape::Union(0, 0),
        "inter" => Shape::Inter(0, 0),
        "diff" => Shape::Diff(0, 0),
        "compl" => Shape::Compl(0),
        "compr" => Shape::Compr(0),
        "update" => Shape::Update(0, 0, 0),
        _ => return None,
    })
}

/// Whether the parts of an operation are nodes of the sorts that it wants. The value of an update may have any.
fn is_fitting(table: &Table, shape: Shape) -> bool {
    let is = |node: usize, sort: Sort| node < table.len() && table.sort(node) == sort;
    match shape {
        Shape::Null | Shape::Empty | Shape::Univ | Shape::True | Shape::False => true,
        Shape::ReadObject(a, b)
        | Shape::ReadNumber(a, b)
        | Shape::ReadTruth(a, b)
        | Shape::ReadSet(a, b) => is(a, Sort::Field) && is(b, Sort::Obj),
        Shape::Neg(a) | Shape::Scale(_, a) | Shape::Divides(_, a) => is(a, Sort::Int),
        Shape::Add(a, b) | Shape::Sub(a, b) => is(a, Sort::Int) && is(b, Sort::Int),
        Shape::EqNumber(a, b) | Shape::Less(a, b) | Shape::LessEqual(a, b) => {
            is(a, Sort::Int) && is(b, Sort::Int)
        }
        Shape::Card(a) | Shape::Compl(a) => is(a, Sort::Set),
        Shape::Union(a, b) | Shape::Inter(a, b) | Shape::Diff(a, b) => {
            is(a, Sort::Set) && is(b, Sort::Set)
        }
        Shape::EqSet(a, b) | Shape::Subset(a, b) => is(a, Sort::Set) && is(b, Sort::Set),
        Shape::Compr(a) | Shape::Negation(a) | Shape::All(a) | Shape::Ex(a) => is(a, Sort::Bool),
        Shape::And(a, b) | Shape::Or(a, b) | Shape::Implies(a, b) | Shape::Iff(a, b) => {
            is(a, Sort::Bool) && is(b, Sort::Bool)
        }
        Shape::Single(a) => is(a, Sort::Obj),
        Shape::EqObject(a, b) => is(a, Sort::Obj) && is(b, Sort::Obj),
        Shape::Member(a, b) => is(a, Sort::Obj) && is(b, Sort::Set),
        Shape::Update(a, b, c) => is(a, Sort::Field) && is(b, Sort::Obj) && c < table.len(),
        _ => false,
    }
}

/// The node of an operation with these parts in place of its own, or none where there are more or fewer, or one isn't
/// of the sort that is wanted.
pub fn made(table: &mut Table, operation: Shape, parts: &[usize]) -> Option<usize> {
    let shape = (parts.len() == operation.own().count()).then(|| operation.put(0, parts))?;
    is_fitting(table, shape).then(|| table.make(shape).expect("memory"))
}

/// The sort of a word for one.
fn sort_named(word: &str) -> Option<Sort> {
    match word {
        "object" => Some(Sort::Obj),
        "number" => Some(Sort::Int),
        "truth" => Some(Sort::Bool),
        "set" => Some(Sort::Set),
        "field" => Some(Sort::Field),
        _ => None,
    }
}

/// The sort of a name, by its first letter.
fn sort_of(word: &str) -> Option<Sort> {
    match word.chars().next()? {
        'a'..='e' | 'w'..='z' => Some(Sort::Obj),
        'f'..='h' => Some(Sort::Field),
        'i'..='n' => Some(Sort::Int),
        'p'..='s' => Some(Sort::Bool),
        'A'..='Z' => Some(Sort::Set),
        _ => None,
    }
}

/// The node of a word without parts, or none where the word is none of these: a name, whose first letter tells its sort
/// (objects from a to e and from w to z, fields from f to h, numbers from i to n, truths from p to s, and capitals for
/// sets), a name behind the word for its sort and a colon, an integer, or `_` and the number of a bound variable.
pub fn leaf(table: &mut Table, word: &str) -> Option<usize> {
    let (sort, word) = match word.split_once(':') {
        Some((sort, word)) => (Some(sort_named(sort)?), word),
        None => (sort_of(word), word),
    };
    let Some(sort) = sort else {
        let made = match word.strip_prefix('_') {
            Some(number) => bound(table, number.parse().ok()?),
            None => constant(table, word.parse().ok()?),
        };
        return Some(made.expect("memory"));
    };
    let name = &named(word);
    let made = match sort {
        Sort::Obj => free_object(table, name),
        Sort::Int => free_number(table, name),
        Sort::Bool => free_truth(table, name),
        Sort::Set => free_set(table, name),
        Sort::Field => free_field(table, name),
    };
    Some(made.expect("memory"))
}

/// The name of a word.
pub fn named(word: &str) -> Name {
    name(Global, word, 0).expect("memory")
}

/// A label of a kind that names facts.
fn mark(kind: MarkKind, from: Row<Name>) -> Mark {
    Mark {
        kind,
        place: Place { line: 1, column: 1 },
        name: None,
        from,
    }
}

/// Words that are read one after another. Reading panics where a word isn't what is wanted.
///
/// Beside operations and words without parts there are `mark`, which puts a label on a formula, and `reach:2` and
/// `tree:2`, with a colon and the number of fields, which come first.
pub struct Words<'a> {
    table: Table,
    words: SplitWhitespace<'a>,
}

impl<'a> Words<'a> {
    pub fn new(text: &'a str) -> Words<'a> {
        Words {
            table: Table::new(Global).expect("memory"),
            words: text.split_whitespace(),
        }
    }

    /// What a reader makes of a text, which it is to read to its end.
    pub fn all<T>(text: &'a str, read: impl FnOnce(&mut Words<'a>) -> T) -> T {
        let mut words = Words::new(text);
        let made = read(&mut words);
        assert!(words.is_done(), "{text} has more words than are read");
        made
    }

    /// Whether no word is left.
    pub fn is_done(&self) -> bool {
        self.words.clone().next().is_none()
    }

    /// The next word.
    pub fn word(&mut self) -> &'a str {
        self.words.next().expect("a word")
    }

    /// What a reader makes of what is left, piece by piece.
    pub fn rest<T>(&mut self, read: impl Fn(&mut Words<'a>) -> T) -> Vec<T> {
        let mut made = Vec::new();
        while !self.is_done() {
            made.push(read(self));
        }
        made
    }

    fn enter(&mut self, formula: &Formula) -> usize {
        enter_formula(&mut self.table, formula).expect("memory")
    }

    fn fields(&mut self, count: &str) -> Row<FieldTerm> {
        let count: usize = count.parse().expect("a number of fields");
        row((0..count).map(|_| self.field()))
    }

    fn node(&mut self) -> usize {
        let word = self.word();
        let made = match (word, word.split_once(':')) {
            (_, Some(("reach", count))) => {
                let (fields, from, to) = (self.fields(count), self.object(), self.object());
                Some(self.enter(&Formula::Reach(fields, from, to)))
            }
            (_, Some(("tree", count))) => {
                let fields = self.fields(count);
                Some(self.enter(&Formula::Tree(fields)))
            }
            ("mark", _) => {
                let part = self.node_of(Sort::Bool);
                Some(
                    labelled(&mut self.table, &mark(MarkKind::Post, row([])), part)
                        .expect("memory"),
                )
            }
            _ => match operation(word) {
                Some(operation) => {
                    let parts: Vec<usize> =
                        (0..operation.own().count()).map(|_| self.node()).collect();
                    made(&mut self.table, operation, &parts)
                }
                None => leaf(&mut self.table, word),
            },
        };
        made.unwrap_or_else(|| panic!("{word} isn't read, or its parts are of other sorts"))
    }

    fn node_of(&mut self, sort: Sort) -> usize {
        let node = self.node();
        assert!(self.table.sort(node) == sort, "a part is of another sort");
        node
    }

    pub fn formula(&mut self) -> Formula {
        let node = self.node_of(Sort::Bool);
        boxed_formula(&self.table, node).expect("memory")
    }

    pub fn object(&mut self) -> Term {
        let node = self.node_of(Sort::Obj);
        boxed_term(&self.table, node).expect("memory")
    }

    pub fn number(&mut self) -> IntTerm {
        let node = self.node_of(Sort::Int);
        boxed_int(&self.table, node).expect("memory")
    }

    pub fn set(&mut self) -> SetTerm {
        let node = self.node_of(Sort::Set);
        boxed_set(&self.table, node).expect("memory")
    }

    pub fn field(&mut self) -> FieldTerm {
        let node = self.node_of(Sort::Field);
        boxed_field(&self.table, node).expect("memory")
    }

    /// What is of any sort.
    pub fn operand(&mut self) -> Value {
        let node = self.node();
        value(&self.table, node).expect("memory")
    }
}

/// The formula that a text is.
pub fn formula(text: &str) -> Formula {
    Words::all(text, Words::formula)
}

/// The sequent of hypotheses and a goal. Where there are names, only the facts that bear them are to be used.
pub fn sequent(from: Row<Name>, hyps: Row<Hyp>, goal: Formula) -> Sequent {
    let method = MethodId {
        class: 0,
        method: 0,
    };
    Sequent {
        method,
        mark: mark(MarkKind::Assert, from),
        hyps,
        goal,
    }
}

/// The sequent of lines: `fact FORMULA` and `named NAME FORMULA` for a hypothesis, `from NAMES` for the facts that
/// alone are to be used, and `goal FORMULA`.
pub fn sequent_of(text: &str) -> Sequent {
    let (mut from, mut hyps, mut goal) = (Vec::new(), Vec::new(), None);
    for line in text.lines() {
        let (first, rest) = line.split_once(' ').expect("a word and more");
        match first {
            "fact" => hyps.push(Hyp {
                name: None,
                fact: formula(rest),
            }),
            "named" => {
                let (word, fact) = rest.split_once(' ').expect("a name and a formula");
                hyps.push(Hyp {
                    name: Some(named(word)),
                    fact: formula(fact),
                });
            }
            "from" => from = rest.split_whitespace().map(named).collect(),
            "goal" => goal = Some(formula(rest)),
            _ => panic!("{line} isn't read"),
        }
    }
    sequent(row(from), row(hyps), goal.expect("a goal"))
}
