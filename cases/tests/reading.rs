//! What is read of sources: their tokens, their trees, and what comes of large and of damaged ones.
//! What is wanted was worked by hand from the grammar.

#[path = "reading/damage.rs"]
mod damage;
#[path = "reading/large.rs"]
mod large;
#[path = "reading/parts.rs"]
mod parts;
#[path = "reading/statements.rs"]
mod statements;
#[path = "reading/tokens.rs"]
mod tokens;
#[path = "reading/trees.rs"]
mod trees;

use cases::source::{program, Refusal};
use jh_lex::lexer::LexError;
use jh_name::Place;
use jh_spec::parser::ParseError;

/// The number of the fault for which a source is refused, and its place; none where it is read.
fn fault(source: &[u8]) -> Option<(u8, Place)> {
    program(source).err().map(|refusal| match refusal {
        Refusal::Tokens(LexError::NotUtf8(place)) => (1, place),
        Refusal::Tokens(LexError::BadChar(place)) => (2, place),
        Refusal::Tokens(LexError::OpenComment(place)) => (3, place),
        Refusal::Tokens(LexError::OpenQuote(place)) => (4, place),
        Refusal::Tokens(LexError::TooWide(place)) => (5, place),
        Refusal::Syntax(ParseError::Syntax(place)) => (6, place),
        Refusal::Syntax(ParseError::TooDeep(place)) => (7, place),
        _ => panic!("no memory"),
    })
}
