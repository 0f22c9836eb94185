//! Names, kinds of labels and the nodes of a table as text.

use jh_arena::table::{Shape, Table};
use jh_form::MarkKind;
use jh_name::Name;

/// The word for a kind of label.
pub fn kind_word(kind: MarkKind) -> &'static str {
    match kind {
        MarkKind::Null => "Null",
        MarkKind::Pre => "Pre",
        MarkKind::Post => "Post",
        MarkKind::Inv => "Inv",
        MarkKind::LoopEntry => "LoopEntry",
        MarkKind::LoopKept => "LoopKept",
        MarkKind::Frame => "Frame",
        MarkKind::Assert => "Assert",
        MarkKind::Note => "Note",
        MarkKind::Fact => "Fact",
    }
}

/// A name, with its turn where it has one.
pub fn name_text(name: &Name) -> String {
    match name.turn() {
        0 => name.text().to_string(),
        turn => format!("{}@{turn}", name.text()),
    }
}

/// The texts of some items with a mark between them.
pub fn joined<T>(items: &[T], mark: &str, text: impl Fn(&T) -> String) -> String {
    items.iter().map(text).collect::<Vec<_>>().join(mark)
}

/// A node of a table, without the labels in it. A bound variable is a number, as in `#0`.
pub fn node_text(table: &Table, node: usize) -> String {
    let text = |node| node_text(table, node);
    let infix = |left, sign: &str, right| format!("{} {sign} {}", text(left), text(right));
    let fields = |list| joined(table.list_at(list), ", ", |field| text(*field));
    match table.shape(node) {
        Shape::Bound(number) => format!("#{number}"),
        Shape::Null => "null".into(),
        Shape::Const(number) => number.to_string(),
        Shape::Empty => "{}".into(),
        Shape::Univ => "UNIV".into(),
        Shape::True => "True".into(),
        Shape::False => "False".into(),
        Shape::FreeObject(name)
        | Shape::FreeNumber(name)
        | Shape::FreeSet(name)
        | Shape::FreeField(name)
        | Shape::FreeTruth(name) => name_text(table.name_at(name)),
        Shape::ReadObject(field, object)
        | Shape::ReadNumber(field, object)
        | Shape::ReadSet(field, object)
        | Shape::ReadTruth(field, object) => format!("{}..{}", text(object), text(field)),
        Shape::Update(field, object, value) => {
            format!("{}[{} := {}]", text(field), text(object), text(value))
        }
        Shape::Add(left, right) => format!("({})", infix(left, "+", right)),
        Shape::Sub(left, right) | Shape::Diff(left, right) => {
            format!("({})", infix(left, "-", right))
        }
        Shape::Neg(part) | Shape::Compl(part) => format!("-{}", text(part)),
        Shape::Scale(factor, part) => format!("({factor} * {})", text(part)),
        Shape::Card(set) => format!("card {}", text(set)),
        Shape::Single(part) => format!("{{{}}}", text(part)),
        Shape::Union(left, right) => format!("({})", infix(left, "Un", right)),
        Shape::Inter(left, right) => format!("({})", infix(left, "Int", right)),
        Shape::Compr(body) => format!("{{. {}}}", text(body)),
        Shape::Negation(part) => format!("~{}", text(part)),
        Shape::And(left, right) => format!("({})", infix(left, "&", right)),
        Shape::Or(left, right) => format!("({})", infix(left, "|", right)),
        Shape::Implies(left, right) => format!("({})", infix(left, "-->", right)),
        Shape::Iff(left, right) => format!("({})", infix(left, "<->", right)),
        Shape::All(body) => format!("(ALL. {})", text(body)),
        Shape::Ex(body) => format!("(EX. {})", text(body)),
        Shape::EqObject(left, right) | Shape::EqNumber(left, right) | Shape::EqSet(left, right) => {
            infix(left, "=", right)
        }
        Shape::Less(left, right) => infix(left, "<", right),
        Shape::LessEqual(left, right) | Shape::Subset(left, right) => infix(left, "<=", right),
        Shape::Divides(factor, part) => format!("{factor} dvd {}", text(part)),
        Shape::Member(object, set) => infix(object, ":", set),
        Shape::Reach(list, from, to) => {
            format!("reach [{}] {} {}", fields(list), text(from), text(to))
        }
        Shape::Tree(list) => format!("tree [{}]", fields(list)),
        Shape::Mark(_, part) => text(part),
    }
}
