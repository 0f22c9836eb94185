//! Formulas and what specifications hold, as texts. A formula of the file has the place of its
//! quote and its number.

use jh_ast::{Labelled, Spec, SpecBody, SpecOp, SpecTree, SpecVar, Stmt, StmtBody, VarDef, Word};
use jh_name::Kind;
use jh_spec::parser::{SpecItem, SpecPart};

fn sign(operator: SpecOp) -> &'static str {
    match operator {
        SpecOp::Implies => "-->",
        SpecOp::Or => "|",
        SpecOp::And => "&",
        SpecOp::Equal => "=",
        SpecOp::NotEqual => "~=",
        SpecOp::Elem => ":",
        SpecOp::NotElem => "~:",
        SpecOp::Less => "<",
        SpecOp::LessEq => "<=",
        SpecOp::Greater => ">",
        SpecOp::GreaterEq => ">=",
        SpecOp::Union => "Un",
        SpecOp::Inter => "Int",
        SpecOp::Add => "+",
        SpecOp::Sub => "-",
        SpecOp::Mul => "*",
    }
}

/// Words, each behind a blank.
fn words(words: &[Word]) -> String {
    words
        .iter()
        .map(|word| format!(" {}", word.text.text()))
        .collect()
}

/// A formula, with a bracket round each part that has parts of its own.
pub fn form(tree: &SpecTree) -> String {
    match &tree.body {
        SpecBody::Null => "null".into(),
        SpecBody::True => "True".into(),
        SpecBody::False => "False".into(),
        SpecBody::Univ => "UNIV".into(),
        SpecBody::Number(number) => number.to_string(),
        SpecBody::Name(word) => word.text.text().into(),
        SpecBody::Member(of, word) => format!("{}..{}", form(of), word.text.text()),
        SpecBody::Not(operand) => format!("(~ {})", form(operand)),
        SpecBody::Minus(operand) => format!("(- {})", form(operand)),
        SpecBody::Old(operand) => format!("(old {})", form(operand)),
        SpecBody::Card(operand) => format!("(card {})", form(operand)),
        SpecBody::Binary(operator, left, right) => {
            format!("({} {} {})", form(left), sign(*operator), form(right))
        }
        SpecBody::Dvd(number, operand) => format!("({number} dvd {})", form(operand)),
        SpecBody::All(names, body) => format!("(ALL{}. {})", words(names.items()), form(body)),
        SpecBody::Ex(names, body) => format!("(EX{}. {})", words(names.items()), form(body)),
        SpecBody::Tree(fields) => format!("(tree{})", words(fields.items())),
        SpecBody::Rtrancl(first, second, step, from, to) => {
            let names = format!("{} {}", first.text.text(), second.text.text());
            format!("(path {names} {} {} {})", form(step), form(from), form(to))
        }
        SpecBody::Braces(members) => {
            let members = members.items().iter().map(|member| form(member) + ",");
            format!("{{{}}}", members.collect::<String>())
        }
        SpecBody::Compr(name, body) => format!("{{{}. {}}}", name.text.text(), form(body)),
    }
}

fn formula(spec: &Spec) -> String {
    let place = spec.place;
    format!(
        " #{} {}:{} {}",
        spec.number,
        place.line,
        place.column,
        form(&spec.body)
    )
}

/// A formula behind a word, where there is one.
fn maybe(word: &str, spec: &Option<Spec>) -> String {
    spec.as_ref()
        .map_or(String::new(), |spec| format!("{word}{}", formula(spec)))
}

/// A formula behind a word, with its label and the facts that it follows from.
pub fn labelled(word: &str, labelled: &Labelled) -> String {
    let name = labelled.name.as_ref();
    let label = name.map_or(String::new(), |word| format!(" {}:", word.text.text()));
    let from = labelled.from.items();
    let behind = if from.is_empty() { "" } else { " from" };
    format!(
        "{word}{label}{}{behind}{};",
        formula(&labelled.body),
        words(from)
    )
}

pub fn variable(variable: &SpecVar) -> String {
    let fixed = if variable.fixed { "static " } else { "" };
    let ghost = if variable.is_ghost { "ghost " } else { "" };
    let kind = match variable.kind {
        Kind::Obj => "obj",
        Kind::Int => "int",
        Kind::Bool => "bool",
        Kind::Set => "set",
    };
    format!(
        "{fixed}{ghost}{kind} {}{};",
        variable.name.text.text(),
        maybe(" =", &variable.init)
    )
}

pub fn definition(definition: &VarDef) -> String {
    format!(
        "{} =={};",
        definition.name.text.text(),
        formula(&definition.body)
    )
}

/// What a specification says as a statement.
pub fn spoken(body: &StmtBody) -> String {
    match body {
        StmtBody::Assert(it) => labelled("assert", it),
        StmtBody::Note(it) => labelled("note", it),
        StmtBody::Ghost(variable, value) => {
            format!("set{} :={};", formula(variable), formula(value))
        }
        _ => "no statement of a specification;".into(),
    }
}

pub fn contract(pre: &Option<Spec>, modifies: &[Word], post: &Option<Spec>) -> String {
    let word = if modifies.is_empty() { "" } else { " modifies" };
    let (pre, post) = (maybe(" requires", pre), maybe(" ensures", post));
    format!("contract{pre}{word}{}{post}", words(modifies))
}

fn item(item: &SpecItem) -> String {
    match item {
        SpecItem::Var(it) => variable(it),
        SpecItem::Def(it) => definition(it),
        SpecItem::Invariant(it) => labelled("invariant", it),
    }
}

fn statement(statement: &Stmt) -> String {
    let place = statement.place;
    format!(
        "{}:{} {}",
        place.line,
        place.column,
        spoken(&statement.body)
    )
}

/// What a specification holds.
pub fn part(part: &SpecPart) -> String {
    match part {
        SpecPart::Claimed(word) => format!("claimed by {}", word.text.text()),
        SpecPart::Items(items) => format!(
            "items {}",
            items.items().iter().map(item).collect::<String>()
        ),
        SpecPart::Contract {
            pre,
            modifies,
            post,
        } => contract(pre, modifies.items(), post),
        SpecPart::Loop(invariants) => {
            let invariants = invariants.items().iter().map(|it| labelled("inv", it));
            format!("loop {}", invariants.collect::<String>())
        }
        SpecPart::Statements(statements) => {
            let statements = statements.items().iter().map(statement);
            format!("statements {}", statements.collect::<String>())
        }
    }
}
