//! Expressions, statements and classes as texts, with a bracket round each part that has parts of
//! its own, and round each statement with its place.

use crate::parts::{contract, definition, labelled, spoken, variable};
use jh_ast::{Call, Class, Expr, ExprBody, Field, JType, Method, Op, Param, Rhs, Stmt, StmtBody};

fn sign(operator: Op) -> &'static str {
    match operator {
        Op::Or => "||",
        Op::And => "&&",
        Op::Equal => "==",
        Op::NotEqual => "!=",
        Op::Less => "<",
        Op::LessEq => "<=",
        Op::Greater => ">",
        Op::GreaterEq => ">=",
        Op::Add => "+",
        Op::Sub => "-",
        Op::Mul => "*",
    }
}

fn expression(it: &Expr) -> String {
    match &it.body {
        ExprBody::Null => "null".into(),
        ExprBody::True => "true".into(),
        ExprBody::False => "false".into(),
        ExprBody::Number(number) => number.to_string(),
        ExprBody::This => "this".into(),
        ExprBody::Name(word) => word.text.text().into(),
        ExprBody::Member(of, word) => format!("{}.{}", expression(of), word.text.text()),
        ExprBody::Not(operand) => format!("(! {})", expression(operand)),
        ExprBody::Minus(operand) => format!("(- {})", expression(operand)),
        ExprBody::Binary(operator, left, right) => {
            format!(
                "({} {} {})",
                expression(left),
                sign(*operator),
                expression(right)
            )
        }
    }
}

/// A call, with a comma behind each argument.
fn call(it: &Call) -> String {
    let receiver = it
        .receiver
        .as_ref()
        .map_or(String::new(), |receiver| expression(receiver) + ".");
    let args: String = it
        .args
        .items()
        .iter()
        .map(|arg| expression(arg) + ",")
        .collect();
    format!("{receiver}{}({args})", it.method.text.text())
}

/// What is assigned.
fn assigned(it: &Rhs) -> String {
    match it {
        Rhs::Value(value) => expression(value),
        Rhs::Call(it) => call(it),
        Rhs::New(class) => format!("new {}()", class.text.text()),
    }
}

fn type_text(it: &JType) -> &str {
    match it {
        JType::Int => "int",
        JType::Boolean => "boolean",
        JType::Void => "void",
        JType::Class(word) => word.text.text(),
    }
}

fn parameter(it: &Param) -> String {
    format!("{} {}", type_text(&it.jtype), it.name.text.text())
}

/// What stands behind a mark, where it does.
fn maybe<T>(mark: &str, it: &Option<T>, text: impl Fn(&T) -> String) -> String {
    it.as_ref()
        .map_or(String::new(), |it| format!("{mark}{}", text(it)))
}

/// Statements one after another.
pub fn statements(all: &[Stmt]) -> String {
    all.iter().map(statement).collect()
}

/// A statement with its place.
fn statement(it: &Stmt) -> String {
    let text = match &it.body {
        StmtBody::Empty => ";".into(),
        StmtBody::Block(all) => format!("{{{}}}", statements(all.items())),
        StmtBody::Local(local, value) => {
            format!("{}{};", parameter(local), maybe(" = ", value, assigned))
        }
        StmtBody::Assign(target, value) => format!("{} = {};", expression(target), assigned(value)),
        StmtBody::Call(it) => format!("{};", call(it)),
        StmtBody::If(condition, then, other) => {
            let other = maybe(" else ", other, |other| statement(other));
            format!("if {} {}{other}", expression(condition), statement(then))
        }
        StmtBody::While(invariants, condition, repeated) => {
            let invariants = invariants
                .items()
                .iter()
                .map(|it| labelled("inv", it) + " ");
            let invariants: String = invariants.collect();
            format!(
                "while {invariants}{} {}",
                expression(condition),
                statement(repeated)
            )
        }
        StmtBody::Return(value) => format!("return{};", maybe(" ", value, expression)),
        StmtBody::Assert(_) | StmtBody::Note(_) | StmtBody::Ghost(..) => spoken(&it.body),
    };
    format!("({}:{} {text})", it.place.line, it.place.column)
}

fn field(it: &Field) -> String {
    let fixed = if it.fixed { "static " } else { "" };
    let value = maybe(" = ", &it.init, expression);
    format!(
        "{fixed}{} {}{value};",
        type_text(&it.jtype),
        it.name.text.text()
    )
}

/// A method, with a comma behind each parameter, and the place of its closing brace.
fn method(it: &Method) -> String {
    let public = if it.public { "public " } else { "" };
    let fixed = if it.fixed { "static " } else { "" };
    let params: String = it
        .params
        .items()
        .iter()
        .map(|it| parameter(it) + ",")
        .collect();
    let head = format!(
        "{public}{fixed}{} {}({params})",
        type_text(&it.result),
        it.name.text.text()
    );
    let contract = contract(&it.pre, it.modifies.items(), &it.post);
    let body = statements(it.body.items());
    format!(
        "{head} {contract}{{{body}}}{}:{}",
        it.end.line, it.end.column
    )
}

/// A class: its fields, its methods, and what its specifications declare.
pub fn class_text(it: &Class) -> String {
    let fields: String = it.fields.items().iter().map(field).collect();
    let methods: String = it.methods.items().iter().map(method).collect();
    let variables: String = it.vars.items().iter().map(variable).collect();
    let definitions: String = it.defs.items().iter().map(definition).collect();
    let invariants = it
        .invariants
        .items()
        .iter()
        .map(|it| labelled("invariant", it));
    let declared = variables + &definitions + &invariants.collect::<String>();
    format!(
        "class {} {{{fields}{methods}{declared}}}",
        it.name.text.text()
    )
}
