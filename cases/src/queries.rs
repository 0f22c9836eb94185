//! Queries as text, each operator before its operands.
//!
//! Sets are `var 0`, `empty`, `all`, `one 0`, `union`, `inter`, `diff`, `compl`; numbers `const 2`, `num 0`, `card`
//! of a set, `add`, `minus`, `neg`, `scale 2`; conditions `true`, `false`, `flag 0`, `same 0 1`, `in 0` a set,
//! `equal`, `within`, `is`, `less`, `divides 2` a number, `not`, `and`, `or`, `implies`, `iff`.

use crate::row;
use jh_query::queries::{Cond, Num, Query, SetExpr};
use rattle_std::alloc::Global;
use rattle_std::boxed::Box;
use std::str::{FromStr, SplitWhitespace};

fn boxed<T>(value: T) -> Box<T> {
    Box::new(Global, value).expect("memory")
}

/// Words that are read one after another.
struct Words<'a>(SplitWhitespace<'a>);

impl<'a> Words<'a> {
    fn word(&mut self) -> &'a str {
        self.0.next().expect("a word")
    }

    /// The next word as a number.
    fn number<T: FromStr>(&mut self) -> T {
        let word = self.word();
        word.parse()
            .unwrap_or_else(|_| panic!("{word} is no number that fits"))
    }

    fn set(&mut self) -> SetExpr {
        match self.word() {
            "var" => SetExpr::Var(self.number()),
            "empty" => SetExpr::Empty,
            "all" => SetExpr::All,
            "one" => SetExpr::One(self.number()),
            "compl" => SetExpr::Compl(boxed(self.set())),
            "union" => SetExpr::Union(boxed(self.set()), boxed(self.set())),
            "inter" => SetExpr::Inter(boxed(self.set()), boxed(self.set())),
            "diff" => SetExpr::Diff(boxed(self.set()), boxed(self.set())),
            word => panic!("{word} is no set"),
        }
    }

    fn num(&mut self) -> Num {
        match self.word() {
            "const" => Num::Const(self.number()),
            "num" => Num::Var(self.number()),
            "card" => Num::Card(boxed(self.set())),
            "neg" => Num::Neg(boxed(self.num())),
            "scale" => Num::Scale(self.number(), boxed(self.num())),
            "add" => Num::Add(boxed(self.num()), boxed(self.num())),
            "minus" => Num::Sub(boxed(self.num()), boxed(self.num())),
            word => panic!("{word} is no number"),
        }
    }

    fn cond(&mut self) -> Cond {
        match self.word() {
            "true" => Cond::True,
            "false" => Cond::False,
            "flag" => Cond::Flag(self.number()),
            "same" => Cond::SameElement(self.number(), self.number()),
            "in" => Cond::In(self.number(), self.set()),
            "equal" => Cond::EqualSet(self.set(), self.set()),
            "within" => Cond::Within(self.set(), self.set()),
            "is" => Cond::EqualNum(self.num(), self.num()),
            "less" => Cond::LessNum(self.num(), self.num()),
            "divides" => Cond::Divides(self.number(), self.num()),
            "not" => Cond::Not(boxed(self.cond())),
            "and" => Cond::And(boxed(self.cond()), boxed(self.cond())),
            "or" => Cond::Or(boxed(self.cond()), boxed(self.cond())),
            "implies" => Cond::Implies(boxed(self.cond()), boxed(self.cond())),
            "iff" => Cond::Iff(boxed(self.cond()), boxed(self.cond())),
            word => panic!("{word} is no condition"),
        }
    }
}

/// The query of a text: how many sets, elements, numbers, flags and hypotheses there are, the hypotheses, and the goal.
pub fn query_of(text: &str) -> Query {
    let mut words = Words(text.split_whitespace());
    let (sets, elements, numbers, flags) = (
        words.number(),
        words.number(),
        words.number(),
        words.number(),
    );
    let count: usize = words.number();
    let hyps = row((0..count).map(|_| words.cond()));
    Query {
        sets,
        elements,
        numbers,
        flags,
        hyps,
        goal: words.cond(),
    }
}

fn set_text(shown: &SetExpr) -> String {
    let pair = |word, a, b| format!("{word} {} {}", set_text(a), set_text(b));
    match shown {
        SetExpr::Var(set) => format!("var {set}"),
        SetExpr::Empty => "empty".to_string(),
        SetExpr::All => "all".to_string(),
        SetExpr::One(element) => format!("one {element}"),
        SetExpr::Union(a, b) => pair("union", a, b),
        SetExpr::Inter(a, b) => pair("inter", a, b),
        SetExpr::Diff(a, b) => pair("diff", a, b),
        SetExpr::Compl(a) => format!("compl {}", set_text(a)),
    }
}

fn num_text(shown: &Num) -> String {
    match shown {
        Num::Const(constant) => format!("const {constant}"),
        Num::Var(number) => format!("num {number}"),
        Num::Add(a, b) => format!("add {} {}", num_text(a), num_text(b)),
        Num::Sub(a, b) => format!("minus {} {}", num_text(a), num_text(b)),
        Num::Neg(a) => format!("neg {}", num_text(a)),
        Num::Scale(factor, a) => format!("scale {factor} {}", num_text(a)),
        Num::Card(set) => format!("card {}", set_text(set)),
    }
}

/// The text of a condition.
pub fn cond_text(shown: &Cond) -> String {
    let pair = |word, a, b| format!("{word} {} {}", cond_text(a), cond_text(b));
    let sets = |word, a, b| format!("{word} {} {}", set_text(a), set_text(b));
    let numbers = |word, a, b| format!("{word} {} {}", num_text(a), num_text(b));
    match shown {
        Cond::True => "true".to_string(),
        Cond::False => "false".to_string(),
        Cond::Flag(flag) => format!("flag {flag}"),
        Cond::SameElement(a, b) => format!("same {a} {b}"),
        Cond::In(element, set) => format!("in {element} {}", set_text(set)),
        Cond::EqualSet(a, b) => sets("equal", a, b),
        Cond::Within(a, b) => sets("within", a, b),
        Cond::EqualNum(a, b) => numbers("is", a, b),
        Cond::LessNum(a, b) => numbers("less", a, b),
        Cond::Divides(factor, number) => format!("divides {factor} {}", num_text(number)),
        Cond::Not(a) => format!("not {}", cond_text(a)),
        Cond::And(a, b) => pair("and", a, b),
        Cond::Or(a, b) => pair("or", a, b),
        Cond::Implies(a, b) => pair("implies", a, b),
        Cond::Iff(a, b) => pair("iff", a, b),
    }
}
