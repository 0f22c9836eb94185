//! What is made of a source, as text.

use cases::source::{unfolded, Refusal};
use cases::text::{joined, kind_word, name_text, node_text};
use jh_arena::table::Table;
use jh_ast::Program;
use jh_boxed_commands::commands::{Command, MethodCommand};
use jh_boxed_commands::conditions::{count, split, wp};
use jh_boxed_commands::methods::{method_name, of_method};
use jh_effects::modified_state::modified;
use jh_effects::written_state::{written, MethodPlaces};
use jh_form::{Formula, Mark};
use jh_name::MethodId;
use jh_obligations::program_sequents::{obligations, LogicError};
use jh_spec::parser::ParseError;
use jh_splitting::{NodeHyp, Sequents};
use jh_type::checker::TypeError;
use jh_unfolding::unfolder::{Unfolded, VarsError};
use jh_vars::state_names::state_list;
use rattle_std::alloc::Global;

/// What is written of a source, or why it is refused.
pub fn shown(source: &str, write: impl Fn(Unfolded) -> String) -> String {
    match unfolded(source) {
        Ok(unfolded) => write(unfolded),
        Err(Refusal::Syntax(ParseError::Syntax(place))) => {
            format!("refused 6 at {}:{}\n", place.line, place.column)
        }
        Err(Refusal::Syntax(ParseError::TooDeep(place))) => {
            format!("refused 7 at {}:{}\n", place.line, place.column)
        }
        Err(Refusal::Types(TypeError::TypeFault { rule, place })) => {
            format!("rule {rule} at {}:{}\n", place.line, place.column)
        }
        Err(Refusal::Definitions(VarsError::CyclicDef(name))) => {
            format!("refused 8 {}\n", name.text())
        }
        Err(Refusal::Tokens(_)) => "no tokens\n".into(),
        Err(_) => panic!("no memory"),
    }
}

/// For each formula, in the order of their numbers, the first that has its value.
pub fn values(unfolded: Unfolded) -> String {
    let nodes: Vec<usize> = (0..).map_while(|number| unfolded.node(number)).collect();
    let first = |node: &usize| {
        nodes
            .iter()
            .position(|other| other == node)
            .unwrap()
            .to_string()
    };
    joined(&nodes, " ", first) + "\n"
}

/// What each method may write and what it names.
pub fn state(unfolded: Unfolded) -> String {
    let typed = unfolded.typed();
    let states = state_list(Global, typed.program()).unwrap();
    let writes = written(Global, typed.program()).unwrap();
    let names = modified(Global, typed).unwrap();
    let texts = |places: &MethodPlaces, class: usize, method: &str| -> String {
        let places = places.places(class, method).iter();
        places
            .map(|place| format!(" {}", states[*place].name.text()))
            .collect()
    };
    let mut methods = Vec::new();
    for (number, class) in typed.program().classes.items().iter().enumerate() {
        for method in class.methods.items() {
            let name = method.name.text.text();
            let (written, named) = (texts(&writes, number, name), texts(&names, number, name));
            methods.push(format!("{name} writes{written} names{named}"));
        }
    }
    methods.join(", ") + "\n"
}

/// The names of a method and its class.
fn method_text(program: &Program, id: MethodId) -> String {
    let class = &program.classes.items()[id.class as usize];
    let method = &class.methods.items()[id.method as usize];
    format!("{}.{}", class.name.text.text(), method.name.text.text())
}

/// The label of a sequent.
fn label(table: &Table, mark: Option<usize>) -> String {
    let Some(number) = mark else {
        return "Assert 0:0 None []".into();
    };
    let Mark {
        kind,
        place,
        name,
        from,
    } = table.mark_at(number);
    let name = name
        .as_ref()
        .map_or("None".into(), |name| format!("Some({})", name_text(name)));
    let from = joined(from.items(), ", ", name_text);
    format!(
        "{} {}:{} {name} [{from}]",
        kind_word(*kind),
        place.line,
        place.column
    )
}

/// The name of a hypothesis, or a dash where it has none, and what it says.
fn hypothesis(table: &Table, hyp: &NodeHyp) -> String {
    let name = hyp.mark.and_then(|mark| table.mark_at(mark).name.as_ref());
    format!(
        "  {} {}\n",
        name.map_or("-".into(), name_text),
        node_text(table, hyp.fact)
    )
}

/// The sequents of a method, from the one with a number on, each with all of its hypotheses or with
/// those that the one before doesn't begin with.
fn method_sequents(
    table: &Table,
    program: &Program,
    made: &Sequents,
    first: usize,
    is_short: bool,
) -> String {
    let mut out = String::new();
    let mut before: Vec<NodeHyp> = Vec::new();
    let method = method_text(program, made.method);
    for (number, sequent) in (first..).zip(&made.sequents) {
        let hyps: Vec<NodeHyp> = made
            .hyps(Global, sequent.hyps)
            .unwrap()
            .into_iter()
            .collect();
        let both = before.iter().zip(&hyps);
        let shared =
            both.take_while(|(left, right)| left.mark == right.mark && left.fact == right.fact);
        let known = if is_short { shared.count() } else { 0 };
        out += &format!("{number} {method} {}\n", label(table, sequent.mark));
        if known != 0 {
            out += &format!("  {known} as before\n");
        }
        out.extend(hyps[known..].iter().map(|hyp| hypothesis(table, hyp)));
        out += &format!("  |- {}\n", node_text(table, sequent.goal));
        before = hyps;
    }
    out
}

/// The sequents of all methods.
pub fn sequents(unfolded: Unfolded, is_short: bool) -> String {
    let mut parts = unfolded.into_parts(Global).unwrap();
    let made = obligations(Global, &parts.typed, &mut parts.table, &parts.formulas);
    let program = parts.typed.program();
    match made {
        Ok(made) => {
            let mut out = String::new();
            let mut first = 0;
            for made in &made {
                out += &method_sequents(&parts.table, program, made, first, is_short);
                first += made.sequents.len();
            }
            out
        }
        Err(LogicError::TooManySequents { method, n }) => {
            format!("refused 12 {} {n}\n", method_text(program, method))
        }
        Err(LogicError::Memory) => panic!("no memory"),
    }
}

/// A formula by what is known of it without its parts: the label under which it stands.
fn labelled(word: &str, formula: &Formula) -> String {
    let Formula::Mark(mark, _) = formula else {
        return format!("{word}\n");
    };
    let name = mark
        .name
        .as_ref()
        .map_or(String::new(), |name| format!(" {}", name_text(name)));
    format!("{word} {}{name}\n", kind_word(mark.kind))
}

/// A command, a line for each that isn't made of others.
fn command_text(command: &Command) -> String {
    match command {
        Command::Assume(fact) => labelled("assume", fact),
        Command::Assert(fact) => labelled("assert", fact),
        Command::Assign(name, _) => format!("assign {}\n", name_text(name)),
        Command::Havoc(name, with) => format!("havoc {} by {}\n", name_text(name), name_text(with)),
        Command::Leave => "leave\n".into(),
        Command::Stop => "stop\n".into(),
        Command::Seq(steps) => joined(steps.items(), "", command_text),
        Command::Choice(left, right) => {
            format!(
                "either\n{}or\n{}so\n",
                command_text(left),
                command_text(right)
            )
        }
    }
}

/// How many sequents the weakest precondition of a command has, as they are counted, and as they
/// are made.
fn counts(id: MethodId, made: &MethodCommand) -> String {
    let counted = count(Global, &made.body, &made.returned, &made.returned).unwrap();
    let formula = wp(Global, &made.body, &made.returned, &made.returned).unwrap();
    let made = split(Global, id, &formula).unwrap().len();
    format!("sequents {counted}, made {made}\n")
}

/// The commands of the methods of all classes, and how many sequents each comes to.
pub fn commands(unfolded: Unfolded) -> String {
    let mut parts = unfolded.into_parts(Global).unwrap();
    let mut out = String::new();
    let classes = parts.typed.program().classes.items().len();
    for class in 0..classes as u32 {
        for id in (0..).map(|method| MethodId { class, method }) {
            let Some(name) = method_name(parts.typed.program(), id) else {
                break;
            };
            let made =
                of_method(Global, &parts.typed, &mut parts.table, &parts.formulas, id).unwrap();
            out += &format!("{name}\n{}{}", command_text(&made.body), counts(id, &made));
        }
    }
    out
}
