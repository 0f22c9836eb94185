//! The commands of a call of a static method, `y = m(z)`. The method has a parameter `x`, may write
//! the static `C.n`, requires that `x` is less than it and ensures that its result is what it was.

use cases::row;
use cases::text::name_text;
use cases::values::name;
use jh_arena::makers::{free_number, labelled, truth};
use jh_arena::table::{Shape, Table};
use jh_call_commands::calls::{push_call, Called, Surroundings};
use jh_command_statements::checks::bare_mark;
use jh_command_terms::command::Command;
use jh_form::{Mark, MarkKind};
use jh_name::{Place, Sort, Text};
use jh_rules::Ty;
use jh_semantics::typed_code::{AnyCode, CallCode, Claim, Local, MethodCode, NumberCode, Target};
use jh_state_facts::changes::SortedName;
use rattle_std::alloc::Global;
use rattle_std::prelude as rattle;

/// The place of everything.
const HERE: Place = Place { line: 1, column: 1 };

/// The node of the number of a name.
fn number(table: &mut Table, text: &str, turn: u32) -> usize {
    free_number(table, &name(text, turn)).unwrap()
}

/// The node of what the method requires.
fn required(table: &mut Table, x_turn: u32, n_turn: u32) -> usize {
    let x = number(table, "x", x_turn);
    let n = number(table, "C.n", n_turn);
    table.make(Shape::Less(x, n)).unwrap()
}

/// The node of what the method ensures.
fn ensured(table: &mut Table, result_turn: u32, n_turn: u32) -> usize {
    let result = number(table, "result", result_turn);
    let n = number(table, "C.n", n_turn);
    table.make(Shape::EqNumber(result, n)).unwrap()
}

/// The method that is called; what it requires is formula 0, what it ensures formula 1.
fn method() -> MethodCode {
    let claim = |number| Claim {
        label: None,
        place: HERE,
        from: row([]),
        number,
    };
    MethodCode {
        place: HERE,
        is_public: false,
        this: None,
        params: row([Local {
            name: name("x", 0),
            ty: Ty::Int,
        }]),
        result: Ty::Int,
        pre: Some(claim(0)),
        post: Some(claim(1)),
        body: row([]),
    }
}

fn call() -> CallCode {
    CallCode {
        place: HERE,
        target: Target::Name(name("y", 0)),
        receiver: None,
        receiver_place: HERE,
        class: 0,
        method: Text::of(rattle::String::from_str(Global, "m").unwrap()),
        args: row([AnyCode::Number(NumberCode::Name(name("z", 0)))]),
    }
}

/// Adds the commands of the call from turn 2 on, and answers the turn that is free behind it.
fn push(table: &mut Table, commands: &mut rattle::Vec<Command>) -> u32 {
    let formulas = [Some(required(table, 0, 0)), Some(ensured(table, 0, 1))];
    let around = Surroundings {
        classes: &[],
        members: &[],
        invariants: &[],
        formulas: &formulas,
    };
    let written = [SortedName {
        text: "C.n",
        sort: Sort::Int,
    }];
    let called = Called {
        method: &method(),
        written: &written,
        sets: &[],
        framed: &[],
    };
    let well_formed = truth(table).unwrap();
    push_call(table, commands, &around, &call(), &called, well_formed, 2).unwrap()
}

#[test]
fn a_call_has_these_commands() {
    let mut table = Table::new(Global).unwrap();
    let node = required(&mut table, 2, 0);
    let required = labelled(&mut table, &bare_mark(Global, MarkKind::Pre, HERE), node).unwrap();
    let node = ensured(&mut table, 5, 3);
    let post = Mark {
        kind: MarkKind::Fact,
        place: HERE,
        name: Some(name("post", 0)),
        from: row([]),
    };
    let ensured = labelled(&mut table, &post, node).unwrap();
    let mut commands = rattle::Vec::new(Global);
    let next = push(&mut table, &mut commands);
    let formula = |node: &usize| match *node {
        node if node == required => "what is required",
        node if node == ensured => "what is ensured",
        _ => "another",
    };
    let shown = commands.iter().map(|command| match command {
        Command::Assume(node) => format!("assume {}", formula(node)),
        Command::Assert(node) => format!("assert {}", formula(node)),
        Command::Assign(name, _) => format!("assign {}", name_text(name)),
        Command::Havoc(name, _) => format!("havoc {}", name_text(name)),
        Command::Leave | Command::Stop | Command::Seq(_) | Command::Choice(..) => "another".into(),
    });
    let wanted = [
        "assign x@2",
        "assert what is required",
        "assign C.n@3",
        "havoc C.n",
        "assume another",
        "assume what is ensured",
        "assign y",
    ];
    assert_eq!(shown.collect::<Vec<_>>(), wanted);
    assert_eq!(next, 6, "the turn that is free behind the call");
}
