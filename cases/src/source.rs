//! A source, read as far as is asked.

use jh_ast::Program;
use jh_lex::lexer::LexError;
use jh_spec::parser::ParseError;
use jh_type::checker::{TypeError, Typed};
use jh_unfolding::unfolder::{Unfolded, VarsError};
use rattle_std::alloc::Global;

/// Why a source is refused.
pub enum Refusal {
    Tokens(LexError),
    Syntax(ParseError),
    Types(TypeError),
    Definitions(VarsError),
}

/// The program that a source spells.
pub fn program(source: &[u8]) -> Result<Program, Refusal> {
    let tokens = jh_lex::lexer::tokens(Global, source).map_err(Refusal::Tokens)?;
    jh_parse::programs::program(Global, &tokens).map_err(Refusal::Syntax)
}

/// The program of a source that breaks no type rule.
pub fn typed(source: &str) -> Result<Typed, Refusal> {
    jh_type::checker::check(Global, program(source.as_bytes())?)
        .map_err(|refused| Refusal::Types(refused.fault))
}

/// The program of a source, with its formulas in a table.
pub fn unfolded(source: &str) -> Result<Unfolded, Refusal> {
    jh_unfolding::unfolder::unfold(Global, typed(source)?)
        .map_err(|refused| Refusal::Definitions(refused.fault))
}
