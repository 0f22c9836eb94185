//! What is read of a source, in one line with a bracket round each part.
//!
//! A line `SOURCE => TEXT` of `data/reading` is a source and the tree that is to be read of it: a
//! program where it begins with `class` or `final`, the statements of a body where it begins with a
//! brace, a formula where it begins with a quote, else a specification. A program or a body is the
//! whole source; any other stands between `/*:` and `*/`, so its first column is 4. Other lines are
//! remarks.

use crate::parts::{form, part};
use crate::statements::{class_text, statements};
use jh_lex::lexer::{tokens, LexError, Token};
use jh_operators::lookahead::{is_end, ReadError};
use jh_parse::programs::program;
use jh_parse::statements::body;
use jh_spec::parser::{formula, spec, ParseError};
use rattle_std::alloc::Global;

/// Why nothing is read.
fn refusal(error: ParseError) -> String {
    match error {
        ParseError::Syntax(place) => format!("refused 6 at {}:{}", place.line, place.column),
        ParseError::TooDeep(place) => format!("refused 7 at {}:{}", place.line, place.column),
        ParseError::Memory => panic!("no memory"),
    }
}

/// The formula or the specification that stands in a comment.
fn in_comment(source: &str, tokens: &[Token]) -> String {
    if source.starts_with('"') {
        formula(Global, tokens, 2).map_or_else(refusal, |(tree, _next)| form(&tree))
    } else {
        spec(Global, tokens, 1).map_or_else(refusal, |(read, _next)| part(&read))
    }
}

/// The statements of a body, which are all of the tokens. Which token a refusal names isn't asked
/// for, as no contract says it.
fn whole_body(tokens: &[Token]) -> String {
    match body(Global, tokens, 0, 0) {
        Ok((read, close, _number)) if is_end(tokens, close + 1) => statements(&read),
        Ok(_) | Err(ReadError::Refused(_)) => "refused".into(),
        Err(ReadError::Memory) => panic!("no memory"),
    }
}

/// The program that all of the tokens are. Which token a refusal names isn't asked for, as no
/// contract says it.
fn whole_program(tokens: &[Token]) -> String {
    match program(Global, tokens) {
        Ok(program) => program.classes.items().iter().map(class_text).collect(),
        Err(ParseError::Syntax(_)) => "refused".into(),
        Err(error) => refusal(error),
    }
}

/// What is read of a source, in one line.
fn read(source: &str) -> String {
    let is_program = source.starts_with("class") || source.starts_with("final");
    let is_body = source.starts_with('{');
    let text = if is_program || is_body {
        source.into()
    } else {
        format!("/*:{source}*/")
    };
    match tokens(Global, text.as_bytes()) {
        Err(LexError::Memory) => panic!("no memory"),
        Err(error) => error.to_string(),
        Ok(tokens) if is_program => whole_program(&tokens),
        Ok(tokens) if is_body => whole_body(&tokens),
        Ok(tokens) => in_comment(source, &tokens),
    }
}

#[test]
fn sources_are_read_as_these_trees() {
    let files = [
        include_str!("../../data/reading/formulas.cases"),
        include_str!("../../data/reading/parts.cases"),
        include_str!("../../data/reading/statements.cases"),
        include_str!("../../data/reading/programs.cases"),
    ];
    let lines = files.iter().flat_map(|text| text.lines());
    let (mut count, mut differing) = (0, 0);
    for (source, wanted) in lines.filter_map(|line| line.split_once(" => ")) {
        count += 1;
        let read = read(source);
        if read != wanted {
            println!("{source}\nis read as\n{read}\ninstead of\n{wanted}");
            differing += 1;
        }
    }
    println!("{count} cases, {differing} of them differ");
    assert!(count > 0);
    assert_eq!(differing, 0);
}
