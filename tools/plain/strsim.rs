//! What the kit's `clap` uses of `strsim`: for builds without proofs.

use rattle_std::alloc::{AllocError, Global};

/// How alike two texts are, from 0 to 1, by the characters that they share within half of the longer one's
/// length, and how many of these stand in another order (Jaro, 1989).
pub fn jaro(_alloc: Global, left: &str, right: &str) -> Result<f64, AllocError> {
    let (left, right): (Vec<char>, Vec<char>) = (left.chars().collect(), right.chars().collect());
    if left.is_empty() || right.is_empty() {
        return Ok(if left.len() == right.len() { 1.0 } else { 0.0 });
    }
    let (lefts, rights) = shared(&left, &right);
    let count = lefts.len();
    if count == 0 {
        return Ok(0.0);
    }
    let moved = lefts
        .iter()
        .zip(&rights)
        .filter(|(one, other)| one != other)
        .count()
        / 2;
    let part = |some: usize, all: usize| some as f64 / all as f64;
    Ok((part(count, left.len()) + part(count, right.len()) + part(count - moved, count)) / 3.0)
}

/// The characters that two texts share, in the order of each.
fn shared(left: &[char], right: &[char]) -> (Vec<char>, Vec<char>) {
    let range = (left.len().max(right.len()) / 2).saturating_sub(1);
    let mut taken = vec![false; right.len()];
    let mut lefts = Vec::new();
    for (place, character) in left.iter().enumerate() {
        let near = place.saturating_sub(range)..right.len().min(place + range + 1);
        if let Some(found) = near
            .into_iter()
            .find(|it| !taken[*it] && right[*it] == *character)
        {
            taken[found] = true;
            lefts.push(*character);
        }
    }
    let rights = right
        .iter()
        .zip(taken)
        .filter(|(_, taken)| *taken)
        .map(|(it, _)| *it)
        .collect();
    (lefts, rights)
}
