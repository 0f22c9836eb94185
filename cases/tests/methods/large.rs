//! Large programs, checked and unfolded, and what their methods may write and name: of many classes
//! with a field of another class each, of one method with many parameters, of methods in a chain of
//! calls of which the last assigns a static, and of variables of which each is defined by the one
//! before it, each once more at twice the size.

use cases::source::program;
use cases::with_large_stack;
use jh_ast::Program;
use jh_effects::modified_state::modified;
use jh_effects::written_state::{written, MethodPlaces};
use jh_type::checker::check;
use jh_unfolding::unfolder::unfold;
use rattle_std::alloc::Global;
use std::time::Instant;

/// The texts of the numbers below a count, one after another.
fn each(count: u32, text: impl Fn(u32) -> String) -> String {
    (0..count).map(text).collect()
}

/// Classes, each with a field of another class.
fn classes(count: u32) -> String {
    each(count, |number| {
        format!("class C{number} {{ C{} f{number}; }}\n", count - number - 1)
    })
}

/// A class with a static and methods.
fn one_class(methods: &str) -> String {
    format!("class C0 {{ static int s0;\n{methods}}}")
}

/// One method of many parameters.
fn parameters(count: u32) -> String {
    let more = each(count - 1, |number| format!(",\nint p{}", number + 1));
    one_class(&format!("public void m0(int p0{more}) {{ }}\n"))
}

/// Methods of which each calls the next, and the last assigns the static.
fn chain(count: u32) -> String {
    let calls = each(count - 1, |number| {
        format!("public void m{number}() {{ m{}(); }}\n", number + 1)
    });
    one_class(&format!(
        "{calls}public void m{}() {{ s0 = 1; }}\n",
        count - 1
    ))
}

/// A ghost variable, so many variables of which the first is defined by it and each other negates
/// the one before it, and a method that names the last.
fn definitions(count: u32) -> String {
    let variables = each(count, |number| {
        format!("static specvar d{number} :: bool;\n")
    });
    let more = each(count - 1, |number| {
        format!("vardefs \"d{} == ~d{number}\";\n", number + 1)
    });
    let last = count - 1;
    format!(
        "class C0 {{ /*: static ghost specvar g0 :: bool;\n{variables}vardefs \"d0 == g0\";\n{more}*/
        public void m0() /*: modifies d{last} */ {{ }} }}"
    )
}

/// How many places the methods of a program have in all.
fn count(places: &MethodPlaces, program: &Program) -> usize {
    let classes = program.classes.items().iter().enumerate();
    let methods = classes.flat_map(|(number, class)| {
        class
            .methods
            .items()
            .iter()
            .map(move |method| (number, method.name.text.text()))
    });
    methods
        .map(|(class, method)| places.places(class, method).len())
        .sum()
}

/// What comes of a step on a large program, with a print of how long it took.
fn timed<T>(what: &str, step: &str, run: impl FnOnce() -> T) -> T {
    let start = Instant::now();
    let made = run();
    println!(
        "{what}: {step} in {} microseconds",
        start.elapsed().as_micros()
    );
    made
}

/// Tries a source: no step refuses it, and so many pieces of state may be written and are named in
/// all.
fn go(what: &str, source: &str, all_written: usize, all_named: usize) {
    let program = program(source.as_bytes()).ok().expect("a program");
    let typed = timed(what, "accepted", || {
        check(Global, program).ok().expect("no type fault")
    });
    let unfolded = timed(what, "unfolded", || {
        unfold(Global, typed).ok().expect("no cycle")
    });
    let typed = unfolded.typed();
    let places = timed(what, "what is written found", || {
        written(Global, typed.program()).unwrap()
    });
    assert_eq!(
        count(&places, typed.program()),
        all_written,
        "{what}: written"
    );
    let places = timed(what, "what is named found", || {
        modified(Global, typed).unwrap()
    });
    assert_eq!(count(&places, typed.program()), all_named, "{what}: named");
}

#[test]
fn large_programs_are_unfolded() {
    with_large_stack(|| {
        for size in [22_000, 44_000] {
            go(&format!("{size} classes"), &classes(size), 0, 0);
            go(&format!("{size} methods"), &chain(size), size as usize, 0);
        }
        for size in [80_000, 160_000] {
            go(&format!("{size} parameters"), &parameters(size), 0, 0);
        }
        for size in [12_000, 24_000] {
            go(&format!("{size} definitions"), &definitions(size), 0, 1);
        }
    });
}
