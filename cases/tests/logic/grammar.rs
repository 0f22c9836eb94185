//! Random texts of a grammar.

use cases::random::Random;

/// How many steps a text grows freely, and how many there are at most.
const GROWING: usize = 160;
const MOST_STEPS: usize = 4096;

/// What a method gives back.
#[derive(Clone, Copy, PartialEq)]
pub enum Gives {
    Nothing,
    Number,
    Node,
    Truth,
}

/// A rule of a grammar: a name, where the rule is taken, and the text that the name stands for.
pub struct Rule<'a> {
    name: &'a str,
    only: &'a str,
    text: &'a str,
}

/// Where a text is to stand.
#[derive(Clone, Copy)]
pub struct Spot {
    pub is_static: bool,
    pub has_locals: bool,
    pub has_old: bool,
    pub gives: Gives,
}

/// The rules of the lines of a text that are no remarks.
pub fn rules_of(text: &str) -> Vec<Rule<'_>> {
    let lines = text.lines().filter(|line| !line.starts_with('#'));
    lines
        .filter_map(|line| {
            let (left, right) = line.split_once(" =")?;
            let (name, only) = left.split_once(' ').unwrap_or((left, ""));
            let text = right.strip_prefix(' ').unwrap_or(right);
            Some(Rule { name, only, text })
        })
        .collect()
}

impl Spot {
    /// Whether a rule may be taken here.
    fn allows(&self, rule: &Rule<'_>) -> bool {
        match rule.only {
            "" => true,
            "this" => !self.is_static,
            "local" => self.has_locals,
            "old" => self.has_old,
            "void" => self.gives == Gives::Nothing,
            "int" => self.gives == Gives::Number,
            "node" => self.gives == Gives::Node,
            "boolean" => self.gives == Gives::Truth,
            other => panic!("no place has the name {other}"),
        }
    }
}

/// A random text of what a name between dollar signs stands for: that of any of its rules, or of
/// the first one where the text has grown long.
pub fn expand(rules: &[Rule<'_>], spot: Spot, random: &mut Random, name: &str) -> String {
    let mut text = String::new();
    let mut pieces = vec![name];
    for step in 0..MOST_STEPS {
        let Some(piece) = pieces.pop() else { break };
        let mut parts = piece.splitn(3, '$');
        text += parts.next().unwrap();
        if let Some(name) = parts.next() {
            let taken = rules
                .iter()
                .filter(|rule| rule.name == name && spot.allows(rule));
            let texts: Vec<&str> = taken.map(|rule| rule.text).collect();
            let place = if step > GROWING {
                0
            } else {
                random.below(texts.len())
            };
            pieces.push(parts.next().unwrap());
            pieces.push(texts[place]);
        }
    }
    text
}
