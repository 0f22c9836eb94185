//! Random sources: a class with one method `go` of random text, and two more methods that say by a
//! run what holds of it. The method `before` asserts what `go` asks at entry, and `twin` does what
//! `go` does and asserts where it returns what `go` promises.

use crate::grammar::{expand, Gives, Rule, Spot};
use crate::world::World;
use cases::random::Random;
use std::fmt;

/// What stands in the class before its methods.
const MEMBERS: &str = "class Node {
  Node next; Leaf leaf; int value; boolean flag;
  static Node head; static Object any; static int size; static boolean on;
  /*: ghost specvar near :: objset; static ghost specvar content :: objset; static ghost specvar total :: int; */
";

/// What stands behind them.
const END: &str = "}
class Leaf { int weight; }
";

/// The members that may be modified.
const MODIFIED: &str = "next leaf value flag near head any size on content total weight";

/// A source with a heap, and parts of the source. The list `modifies` may be empty.
pub struct Case {
    pub world: World,
    pub is_static: bool,
    pub modifies: Vec<&'static str>,
    pub body: String,
    pub source: String,
    pub heap: String,
}

impl fmt::Display for Case {
    fn fmt(&self, f: &mut fmt::Formatter<'_>) -> fmt::Result {
        write!(f, "{}on\n{}", self.source, self.heap)
    }
}

/// The parts of a source; the formulas are empty where they are absent.
struct Parts {
    is_static: bool,
    is_public: bool,
    gives: Gives,
    modifies: Vec<&'static str>,
    asked: String,
    promised: String,
    invariant: String,
    body: String,
}

/// A line with a formula, where there is one, and with a word where the result stands.
fn line(before: &str, formula: &str, given: &str, behind: &str) -> String {
    if formula.is_empty() {
        return String::new();
    }
    format!("{before}\"{}\"{behind}\n", formula.replace('@', given))
}

/// A random text of a name, where it is there.
fn some(rules: &[Rule<'_>], spot: Spot, is_there: bool, random: &mut Random, name: &str) -> String {
    if is_there {
        expand(rules, spot, random, name)
    } else {
        String::new()
    }
}

impl Parts {
    /// Random parts: mostly all members are modified, and each condition is left out now and then.
    fn random(rules: &[Rule<'_>], random: &mut Random) -> Parts {
        let gives = match random.below(6) {
            0 => Gives::Number,
            1 => Gives::Node,
            2 => Gives::Truth,
            _ => Gives::Nothing,
        };
        let (is_static, is_public) = (random.truth(), random.below(4) != 0);
        let all = random.below(4) != 0;
        let members = MODIFIED.split(' ');
        let modifies = members.filter(|_| all || random.below(3) != 0).collect();
        let mut spot = Spot {
            is_static,
            has_locals: false,
            has_old: false,
            gives,
        };
        let asked = some(rules, spot, random.below(4) != 0, random, "$requires$");
        spot.has_old = true;
        let promised = some(rules, spot, random.below(5) != 0, random, "$ensures$");
        (spot.has_old, spot.is_static) = (false, true);
        let invariant = some(rules, spot, random.below(2) == 0, random, "$invariant$");
        (spot.has_old, spot.is_static, spot.has_locals) = (true, is_static, true);
        let body = expand(rules, spot, random, "$body$");
        Parts {
            is_static,
            is_public,
            gives,
            modifies,
            asked,
            promised,
            invariant,
            body,
        }
    }

    /// The word for the result.
    fn result(&self) -> &'static str {
        match self.gives {
            Gives::Nothing => "void",
            Gives::Number => "int",
            Gives::Node => "Node",
            Gives::Truth => "boolean",
        }
    }

    fn head(&self, result: &str, name: &str) -> String {
        let word = if self.is_static { "static " } else { "" };
        format!("  {word}{result} {name}(Node p, int n, boolean b)\n")
    }

    /// The method itself.
    fn go(&self) -> String {
        let public = if self.is_public { "  public\n" } else { "" };
        let mut out = format!("{public}{}  /*:\n", self.head(self.result(), "go"));
        out += &line("    requires ", &self.asked, "result", "");
        if !self.modifies.is_empty() {
            out += &format!("    modifies {}\n", self.modifies.join(", "));
        }
        out += &line("    ensures ", &self.promised, "result", "");
        out += "  */\n  {\n";
        for line in self.body.split('^') {
            out += &format!("    {line}\n");
        }
        out + "  }\n"
    }

    /// Assertions of a condition and of the invariant, where it is owed, each in a line of its own.
    fn assertions(&self, label: &str, condition: &str, given: &str) -> String {
        let kept = if self.is_public { &self.invariant } else { "" };
        let label = format!("      /*: assert {label}: ");
        line(&label, condition, given, "; */")
            + &line("      /*: assert kept: ", kept, given, "; */")
    }

    /// The method that asserts what is asked at entry.
    fn before(&self) -> String {
        format!(
            "{}  {{\n{}  }}\n",
            self.head("void", "before"),
            self.assertions("asked", &self.asked, "")
        )
    }

    /// A return of what stands behind the word, with what was promised asserted before it.
    fn asserted_return(&self, value: &str) -> String {
        let promised = self.assertions("promised", &self.promised, "r");
        if self.gives == Gives::Nothing {
            format!("    {{\n{promised}      return;\n    }}\n")
        } else {
            format!(
                "    {{ {} r ={value}\n{promised}      return r; }}\n",
                self.result()
            )
        }
    }

    /// The method that asserts what is promised where it returns.
    fn twin(&self) -> String {
        let mut out = self.head(self.result(), "twin") + "  {\n";
        for line in self.body.split('^') {
            out += &match line.strip_prefix("return") {
                Some(value) => self.asserted_return(value),
                None => format!("    {line}\n"),
            };
        }
        if self.gives == Gives::Nothing {
            out += &self.asserted_return("");
        }
        out + "  }\n"
    }

    fn source(&self) -> String {
        let invariant = line("  /*: invariant kept: ", &self.invariant, "@", "; */");
        format!(
            "{MEMBERS}{invariant}{}{}{}{END}",
            self.go(),
            self.before(),
            self.twin()
        )
    }
}

impl Case {
    /// The random case of a seed.
    pub fn random(rules: &[Rule<'_>], seed: u64) -> Case {
        let mut random = Random::new(seed);
        let world = World::random(&mut random);
        let parts = Parts::random(rules, &mut random);
        Case {
            source: parts.source(),
            heap: world.text(parts.is_static),
            world,
            is_static: parts.is_static,
            modifies: parts.modifies,
            body: parts.body,
        }
    }

    /// Gives the case another random heap.
    pub fn renew(&mut self, random: &mut Random) {
        self.world = World::random(random);
        self.heap = self.world.text(self.is_static);
    }
}
