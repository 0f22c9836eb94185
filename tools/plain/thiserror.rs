//! What the sources use of `thiserror`, the derive `Error` of an enum whose variants have one field at most: for builds
//! without proofs.

use proc_macro::{Delimiter, TokenStream, TokenTree};

/// Writes the text that `#[error(..)]` gives each variant, in which `.0` is its field.
#[proc_macro_derive(Error, attributes(error))]
pub fn error(declared: TokenStream) -> TokenStream {
    let mut tokens = declared.into_iter();
    tokens.find(|it| it.to_string() == "enum").expect("an enum");
    let name = tokens.next().expect("its name").to_string();
    let arms = match tokens.next() {
        Some(TokenTree::Group(body)) => arms(&name, body.stream()),
        _ => panic!("an enum without parameters is wanted"),
    };
    format!(
        "impl ::core::fmt::Display for {name} {{
            fn fmt(&self, f: &mut ::core::fmt::Formatter<'_>) -> ::core::fmt::Result {{
                match self {{ {arms} }}
            }}
        }}
        impl ::core::error::Error for {name} {{}}"
    )
    .parse()
    .expect("two impls")
}

/// The arm of each variant.
fn arms(name: &str, variants: TokenStream) -> String {
    let mut arms = String::new();
    let mut text = String::new();
    let mut tokens = variants.into_iter().peekable();
    while let Some(token) = tokens.next() {
        match token {
            TokenTree::Group(attribute) if attribute.delimiter() == Delimiter::Bracket => {
                if let Some(found) = text_in(attribute.stream()) {
                    text = found;
                }
            }
            TokenTree::Ident(variant) => {
                let has_field = matches!(tokens.peek(), Some(TokenTree::Group(_)));
                let field = if has_field { "(field)" } else { "" };
                arms += &format!("{name}::{variant}{field} => write!(f, {text}),");
            }
            _ => {}
        }
    }
    arms
}

/// What stands between the brackets of an attribute `error(..)`, with the field for each `.0` that begins an argument.
fn text_in(attribute: TokenStream) -> Option<String> {
    let mut tokens = attribute.into_iter();
    if tokens.next()?.to_string() != "error" {
        return None;
    }
    let TokenTree::Group(inside) = tokens.next()? else {
        return None;
    };
    let mut text = String::new();
    let mut before = String::new();
    for token in inside.stream() {
        let token = token.to_string();
        match (before.as_str(), token.as_str()) {
            (",", ".") => {}
            (".", "0") => text += "field",
            _ => text += &token,
        }
        before = token;
    }
    Some(text)
}
