//! Classes of nodes by a plain fixed point over all pairs of them, and what is compared with it.

use jh_arena::table::Shape;
use jh_cong::classes::Said;

/// A node: its operation and its parts.
pub struct Term<T> {
    pub operation: T,
    pub parts: Vec<usize>,
}

/// Classes of nodes: for each node the label of its class.
pub struct Labels(Vec<usize>);

/// Whether two operations are constants that differ in every structure.
fn are_apart(left: Shape, right: Shape) -> bool {
    match (left, right) {
        (Shape::Const(left), Shape::Const(right)) => left != right,
        (Shape::True, Shape::False) | (Shape::False, Shape::True) => true,
        _ => false,
    }
}

/// All pairs of so many nodes.
pub fn pairs(count: usize) -> impl Iterator<Item = (usize, usize)> {
    (0..count).flat_map(|left| (0..left).map(move |right| (left, right)))
}

impl Labels {
    /// The classes of nodes where the literals that are equations hold.
    pub fn new<T: PartialEq>(terms: &[Term<T>], said: &[Said]) -> Labels {
        let mut labels = Labels((0..terms.len()).collect());
        for one in said.iter().filter(|it| it.holds) {
            labels.join(one.left, one.right);
        }
        while labels.join_alike(terms) {}
        labels
    }

    /// Whether two nodes are in one class.
    pub fn same(&self, left: usize, right: usize) -> bool {
        self.0[left] == self.0[right]
    }

    /// Makes two classes one.
    fn join(&mut self, left: usize, right: usize) {
        let (old, new) = (self.0[left], self.0[right]);
        for label in self.0.iter_mut().filter(|label| **label == old) {
            *label = new;
        }
    }

    /// Whether two nodes have one operation and their parts are in one class each.
    fn are_alike<T: PartialEq>(&self, left: &Term<T>, right: &Term<T>) -> bool {
        let mut parts = left.parts.iter().zip(&right.parts);
        left.operation == right.operation
            && left.parts.len() == right.parts.len()
            && parts.all(|(left, right)| self.same(*left, *right))
    }

    /// Joins all pairs of nodes that are alike. Whether some were in two classes.
    fn join_alike<T: PartialEq>(&mut self, terms: &[Term<T>]) -> bool {
        let mut has_changed = false;
        for (left, right) in pairs(terms.len()) {
            if !self.same(left, right) && self.are_alike(&terms[left], &terms[right]) {
                self.join(left, right);
                has_changed = true;
            }
        }
        has_changed
    }
}

/// Whether no structure meets literals.
pub fn is_conflict(terms: &[Term<Shape>], said: &[Said]) -> bool {
    let labels = Labels::new(terms, said);
    let is_denied = said
        .iter()
        .any(|one| !one.holds && labels.same(one.left, one.right));
    let is_clash = |(left, right): (usize, usize)| {
        are_apart(terms[left].operation, terms[right].operation) && labels.same(left, right)
    };
    is_denied || pairs(terms.len()).any(is_clash)
}

/// What was compared, and how much of it differed.
#[derive(Default)]
pub struct Tally {
    pub asserted: usize,
    pub conflicts: usize,
    pub pairs: usize,
    pub equal: usize,
    pub explained: usize,
    pub differ: usize,
}

impl Tally {
    /// Counts what differs where something isn't so.
    pub fn expect(&mut self, is_so: bool) {
        self.differ += usize::from(!is_so);
    }

    /// Counts a pair, which is said to be equal or not.
    pub fn count_pair(&mut self, labels: &Labels, left: usize, right: usize, is_equal: bool) {
        self.pairs += 1;
        self.equal += usize::from(is_equal);
        self.expect(is_equal == labels.same(left, right));
    }

    /// Counts the explanation of a pair, where there is one: the pair has to be equal by the listed literals alone.
    /// Where there is none, it isn't equal.
    pub fn count_explanation<T: PartialEq>(
        &mut self,
        terms: &[Term<T>],
        said: &[Said],
        (left, right): (usize, usize),
        listed: Option<&[usize]>,
    ) {
        match listed {
            None => self.expect(!Labels::new(terms, said).same(left, right)),
            Some(listed) => {
                self.explained += 1;
                self.expect(Labels::new(terms, &picked(said, listed)).same(left, right));
            }
        }
    }
}

/// The listed ones of literals.
pub fn picked(said: &[Said], listed: &[usize]) -> Vec<Said> {
    listed.iter().map(|number| said[*number]).collect()
}

/// The texts of a case: its nodes, its steps and a pair, with bars between them.
pub fn parts_of(text: &str) -> (&str, &str, &str) {
    let mut parts = text.split('|');
    let mut part = || parts.next().expect("nodes, steps and a pair");
    (part(), part(), part())
}

/// A word as a number.
pub fn number(word: &str) -> usize {
    word.trim().parse().expect("a number")
}

/// Numbers in their order, each behind a space.
pub fn sorted(listed: &[usize]) -> String {
    let mut listed = listed.to_vec();
    listed.sort();
    listed.iter().map(|number| format!(" {number}")).collect()
}
