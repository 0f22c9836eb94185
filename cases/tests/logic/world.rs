//! Random heaps of the classes of the random sources, with the arguments of their methods, as texts
//! and as interpretations.

use cases::random::Random;
use cases::row;
use cases::text;
use cases::values::name;
use jh_boxed_calls::interpretations::FieldValue::{self, Bool, Int, Obj, Set};
use jh_boxed_calls::interpretations::Interp;
use jh_name::{Name, Row};
use std::fmt::Write;

/// What an object is.
#[derive(Clone, Copy, Default, PartialEq)]
pub enum Kind {
    #[default]
    Free,
    Node,
    Leaf,
    Plain,
}

/// The members of a set, among the objects 0 to 3.
type Members = [bool; 4];

/// An object, with the values of its fields.
#[derive(Clone, Copy, Default)]
pub struct Object {
    kind: Kind,
    next: u32,
    leaf: u32,
    value: i64,
    flag: bool,
    near: Members,
    weight: i64,
}

/// A heap of the objects 0 to `greatest`, with `this` and the arguments.
pub struct World {
    pub greatest: u32,
    objects: [Object; 4],
    head: u32,
    any: u32,
    size: i64,
    on: bool,
    content: Members,
    total: i64,
    this: u32,
    p: u32,
    n: i64,
    b: bool,
}

/// The objects that constants stand for, whose first has a turn.
#[derive(Clone, Copy)]
pub struct Constants<'a> {
    pub first: u32,
    pub objects: &'a [u32],
}

fn small(random: &mut Random) -> i64 {
    random.below(7) as i64 - 2
}

/// The kinds of the objects of a universe; the first is a node.
fn kinds_of(random: &mut Random, greatest: usize) -> [Kind; 4] {
    let mut kinds = [Kind::Free, Kind::Node, Kind::Free, Kind::Free];
    for kind in &mut kinds[2..=greatest.max(1)] {
        *kind = match random.below(9) {
            0 | 1 => Kind::Leaf,
            2 => Kind::Plain,
            3..=5 => Kind::Node,
            _ => Kind::Free,
        };
    }
    kinds
}

/// An object that passes, or null.
fn one_of(random: &mut Random, kinds: &[Kind; 4], passes: impl Fn(Kind) -> bool) -> u32 {
    let object = random.below(4);
    if passes(kinds[object]) {
        object as u32
    } else {
        0
    }
}

/// A node, or now and then null.
fn node(random: &mut Random, kinds: &[Kind; 4]) -> u32 {
    let first = one_of(random, kinds, |kind| kind == Kind::Node);
    if first != 0 || random.below(3) == 0 {
        first
    } else {
        1
    }
}

/// Some of the objects of a universe, mostly without null.
fn members(random: &mut Random, greatest: usize) -> Members {
    let all = random.below(3) == 0;
    let mut set = [false; 4];
    for (object, is_member) in set.iter_mut().enumerate().take(greatest + 1) {
        *is_member = (object > 0 || all) && random.truth();
    }
    set
}

/// An object of a kind, with random fields.
fn object(random: &mut Random, kinds: &[Kind; 4], kind: Kind, greatest: usize) -> Object {
    match kind {
        Kind::Node => Object {
            kind,
            next: node(random, kinds),
            leaf: one_of(random, kinds, |kind| kind == Kind::Leaf),
            value: small(random),
            flag: random.truth(),
            near: members(random, greatest),
            weight: 0,
        },
        Kind::Leaf => Object {
            kind,
            weight: small(random),
            ..Object::default()
        },
        _ => Object {
            kind,
            ..Object::default()
        },
    }
}

/// The objects of a set.
fn listed(set: &Members) -> impl Iterator<Item = u32> + '_ {
    (0..4).filter(|object| set[*object as usize])
}

fn joined(objects: Vec<u32>) -> String {
    text::joined(&objects, " ", u32::to_string)
}

fn set_text(set: &Members) -> String {
    format!("{{{}}}", joined(listed(set).collect()))
}

/// Adds a line that says of a part of the heap its value, where that isn't the value of all that
/// isn't said.
fn add_line(out: &mut String, part: &str, value: String) {
    if !["0", "false", "{}"].contains(&value.as_str()) {
        writeln!(out, "{part} {value}").unwrap();
    }
}

impl World {
    /// A random heap that is well formed; mostly it has three objects.
    pub fn random(random: &mut Random) -> World {
        let is_large = random.truth();
        let greatest = if is_large { 3 } else { 1 + random.below(3) };
        let kinds = kinds_of(random, greatest);
        let mut objects = [Object::default(); 4];
        for (place, kind) in kinds.iter().enumerate().skip(1) {
            objects[place] = object(random, &kinds, *kind, greatest);
        }
        let other = one_of(random, &kinds, |kind| kind == Kind::Node);
        World {
            greatest: greatest as u32,
            objects,
            head: node(random, &kinds),
            any: one_of(random, &kinds, |kind| kind != Kind::Free),
            size: small(random),
            on: random.truth(),
            content: members(random, greatest),
            total: small(random),
            this: other.max(1),
            p: node(random, &kinds),
            n: small(random),
            b: random.truth(),
        }
    }

    /// The objects whose kinds pass, ascending.
    fn objects_of(&self, passes: impl Fn(Kind) -> bool) -> Vec<u32> {
        let objects = 1..=self.greatest;
        objects
            .filter(|object| passes(self.objects[*object as usize].kind))
            .collect()
    }

    /// The free objects, ascending.
    pub fn free(&self) -> Vec<u32> {
        self.objects_of(|kind| kind == Kind::Free)
    }

    /// Whether there is such an object.
    pub fn has(&self, object: u32) -> bool {
        self.objects[object as usize].kind != Kind::Free
    }

    /// The text of the heap with the arguments, in the one form of heaps.
    pub fn text(&self, is_static: bool) -> String {
        let mut out = format!("universe {}\n", self.greatest);
        let classes = [Kind::Node, Kind::Leaf, Kind::Plain];
        for (class, wanted) in ["Node", "Leaf", "Object"].iter().zip(classes) {
            let objects = self.objects_of(|kind| kind == wanted);
            if !objects.is_empty() {
                writeln!(out, "class {class} {}", joined(objects)).unwrap();
            }
        }
        add_line(&mut out, "static Node.head", self.head.to_string());
        add_line(&mut out, "static Node.any", self.any.to_string());
        add_line(&mut out, "static Node.size", self.size.to_string());
        add_line(&mut out, "static Node.on", self.on.to_string());
        add_line(&mut out, "static Node.content", set_text(&self.content));
        add_line(&mut out, "static Node.total", self.total.to_string());
        self.add_fields(&mut out);
        if !is_static {
            writeln!(out, "this {}", self.this).unwrap();
        }
        writeln!(out, "arg p {}\narg n {}\narg b {}", self.p, self.n, self.b).unwrap();
        out
    }

    fn add_fields(&self, out: &mut String) {
        let fields: [(&str, fn(&Object) -> String); 6] = [
            ("Node.next", |object| object.next.to_string()),
            ("Node.leaf", |object| object.leaf.to_string()),
            ("Node.value", |object| object.value.to_string()),
            ("Node.flag", |object| object.flag.to_string()),
            ("Node.near", |object| set_text(&object.near)),
            ("Leaf.weight", |object| object.weight.to_string()),
        ];
        for (field, value_at) in fields {
            for (number, object) in self.objects.iter().enumerate() {
                add_line(out, &format!("field {field} {number}"), value_at(object));
            }
        }
    }

    /// The interpretation that the heap is, where a run takes these objects and constants stand for
    /// those. The commands of a method have fresh names from turn 2 on, and each `new` has two, of
    /// which the second is free.
    pub fn interp(&self, taken: &[u32], constants: Constants<'_>) -> Interp {
        let plain = |text| name(text, 0);
        let statics = [
            (plain("Node.head"), self.head),
            (plain("Node.any"), self.any),
            (plain("this"), self.this),
            (plain("p"), self.p),
        ];
        let taken = (3..).step_by(2).zip(taken);
        let taken = taken.map(|(turn, object)| (name("new", turn), *object));
        let constants = (constants.first..).zip(constants.objects);
        let constants = constants.map(|(turn, object)| (name("c", turn), *object));
        Interp {
            greatest: self.greatest,
            objects: row(statics.into_iter().chain(taken).chain(constants)),
            ints: row([
                (plain("Node.size"), self.size.into()),
                (plain("Node.total"), self.total.into()),
                (plain("n"), self.n.into()),
            ]),
            truths: row([(plain("Node.on"), self.on), (plain("b"), self.b)]),
            sets: self.sets(),
            fields: self.fields(),
        }
    }

    fn sets(&self) -> Row<(Name, Row<u32>)> {
        let sets = [
            ("alloc", self.objects_of(|kind| kind != Kind::Free)),
            ("Node", self.objects_of(|kind| kind == Kind::Node)),
            ("Leaf", self.objects_of(|kind| kind == Kind::Leaf)),
            ("Object", self.objects_of(|kind| kind == Kind::Plain)),
            ("Node.content", listed(&self.content).collect()),
        ];
        row(sets.map(|(text, set)| (name(text, 0), row(set))))
    }

    /// The values of a field at the objects from null on.
    fn values<T>(&self, value: impl Fn(&Object) -> T) -> Row<T> {
        row(self.objects.iter().map(value))
    }

    fn fields(&self) -> Row<(Name, FieldValue)> {
        let fields = [
            ("Node.next", Obj(self.values(|it| it.next))),
            ("Node.leaf", Obj(self.values(|it| it.leaf))),
            ("Node.value", Int(self.values(|it| it.value.into()))),
            ("Node.flag", Bool(self.values(|it| it.flag))),
            ("Node.near", Set(self.values(|it| row(listed(&it.near))))),
            ("Leaf.weight", Int(self.values(|it| it.weight.into()))),
        ];
        row(fields.map(|(text, values)| (name(text, 0), values)))
    }
}
