//! The tokens of sources, or their faults, and some tokens of whole programs.

use jh_lex::lexer::{tokens, Token, TokenKind};
use rattle_std::alloc::Global;

/// Sources, each with its tokens and their places, and two blanks between them.
const READ: &[(&[u8], &str)] = &[
    (b"", "1:1 end"),
    (b"x.y", "1:1 word x  1:2 .  1:3 word y  1:4 end"),
    (
        b"//:x.y",
        "1:1 specification  1:4 qualified x.y  1:7 end of specification  1:7 end",
    ),
    (
        b"//: x : y :: z := \"a.b.c\"\n;",
        "1:1 specification  1:5 word x  1:7 :  1:9 word y  1:11 ::  1:14 word z  1:16 :=  \
         1:19 quote  1:20 qualified a.b  1:23 .  1:24 word c  1:25 unquote  \
         1:26 end of specification  2:1 ;  2:2 end",
    ),
    (
        b"/*:\"x..f-->y~=z~:w::v\"*/",
        "1:1 specification  1:4 quote  1:5 word x  1:6 ..  1:8 word f  1:9 -->  1:12 word y  \
         1:13 ~=  1:15 word z  1:16 ~:  1:18 word w  1:19 ::  1:21 word v  1:22 unquote  \
         1:23 end of specification  1:25 end",
    ),
    (b"/*/ a */b//c\nd", "1:9 word b  2:1 word d  2:2 end"),
    (
        b"/*:*/<=<",
        "1:1 specification  1:4 end of specification  1:6 <=  1:8 <  1:9 end",
    ),
    (
        b"ensures /*: class */",
        "1:1 word ensures  1:9 specification  1:13 class  1:19 end of specification  1:21 end",
    ),
    (
        b"classes 9223372036854775807",
        "1:1 word classes  1:9 number 9223372036854775807  1:28 end",
    ),
    (
        b"\xc3\xa9t\xc3\xa9 \xd0\xb1\xd1\x83\xd0\xba\xd0\xb2\xd0\xb0\t\xe6\xbc\xa2\xe5\xad\x97",
        "1:1 word été  1:7 word буква  1:18 word 漢字  1:24 end",
    ),
];

/// Sources that are refused, and their first faults.
const REFUSED: &[(&[u8], &str)] = &[
    (b"class A { \xff", "not UTF-8 at 1:11"),
    (b"class A { # }", "no token begins at 1:11"),
    (b"class A { /*: invariant", "the comment at 1:11 has no end"),
    (
        b"class A { /*: invariant \"x */ }",
        "the quote at 1:25 has no end",
    ),
    (
        b"class A { int f = 9223372036854775808; }",
        "the number at 1:19 is too great",
    ),
    (b"#\n\xc3\xa9\xc3", "not UTF-8 at 2:3"),
    (b"\n //: x/y", "no token begins at 2:7"),
    (b"/*/", "the comment at 1:1 has no end"),
    (b"/*: # \" */", "no token begins at 1:5"),
];

/// Whole programs, and some of their tokens.
const PROGRAMS: &[(&str, &str)] = &[
    (
        include_str!("../../data/reading/swap.j"),
        "2:3 static  6:3 specification  6:7 modifies  6:16 word a  6:17 ,  7:15 quote  \
         7:20 old  7:26 &  7:37 unquote  7:39 end of specification  8:3 {",
    ),
    (
        include_str!("../../data/reading/push.j"),
        "4:37 ::  5:7 vardefs  4:29 word content  5:24 ==  5:28 word x  5:29 .  5:33 ~=  \
         5:43 rtrancl_pt  5:55 %  5:62 word u  5:63 ..  5:65 qualified Node.next  \
         6:17 word shape  6:22 :  6:30 [  7:37 |  7:40 ALL  9:31 ~:  12:5 word n  12:6 .  \
         12:7 word next  11:38 Un",
    ),
    (
        include_str!("../../data/reading/list_of_objects.j"),
        "2:1 class  19:9 specification  19:13 note  19:24 quote  19:66 unquote  19:67 ;  \
         19:68 end of specification  20:9 return  20:22 ==  46:5 public  27:9 word Node  \
         28:9 word n  45:12 claimedby  45:22 word List  37:9 while  37:15 specification  \
         37:19 inv  37:41 EX",
    ),
];

/// A token with its place.
fn line(token: &Token) -> String {
    let text = match &token.kind {
        TokenKind::Word(name) => format!("word {}", name.text()),
        TokenKind::Qualified(name) => format!("qualified {}", name.text()),
        TokenKind::Number(number) => format!("number {number}"),
        TokenKind::Symbol(symbol) => symbol.text().into(),
        TokenKind::SpecOpen => "specification".into(),
        TokenKind::SpecClose => "end of specification".into(),
        TokenKind::QuoteOpen => "quote".into(),
        TokenKind::QuoteClose => "unquote".into(),
        TokenKind::End => "end".into(),
    };
    format!("{}:{} {text}", token.place.line, token.place.column)
}

/// The tokens of a source, or the fault.
fn read(source: &[u8]) -> Vec<String> {
    match tokens(Global, source) {
        Ok(all) => all.iter().map(line).collect(),
        Err(error) => vec![error.to_string()],
    }
}

#[test]
fn sources_have_these_tokens_or_faults() {
    for (source, wanted) in READ.iter().chain(REFUSED) {
        assert_eq!(
            read(source).join("  "),
            *wanted,
            "{:?}",
            String::from_utf8_lossy(source)
        );
    }
    println!("{} sources", READ.len() + REFUSED.len());
}

#[test]
fn programs_have_these_tokens_among_theirs() {
    for (source, wanted) in PROGRAMS {
        let read = read(source.as_bytes());
        for line in wanted.split("  ") {
            assert!(
                read.iter().any(|there| there == line),
                "{line:?} is missing in\n{source}"
            );
        }
    }
    println!("{} programs", PROGRAMS.len());
}
