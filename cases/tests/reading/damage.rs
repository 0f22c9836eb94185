//! Sources that are damaged at each byte in 15 ways: the byte is exchanged for one of 13, left out,
//! or the source ends in front of it. Each is read, or refused at a place of it.

use crate::fault;
use jh_name::Place;

/// What a byte is exchanged for.
const BYTES: &[u8; 13] = b"\"/*{); \n.:a0\xff";

/// Whether a place is one of a source, or the place behind its last byte.
fn stands_in(source: &[u8], place: Place) -> bool {
    let lines: Vec<&[u8]> = source.split(|byte| *byte == b'\n').collect();
    let line = (place.line as usize)
        .checked_sub(1)
        .and_then(|line| lines.get(line));
    line.is_some_and(|line| (1..=line.len() + 1).contains(&(place.column as usize)))
}

/// Whether a source is read, or refused at a place of it.
fn is_answered(source: &[u8]) -> bool {
    fault(source).map_or(true, |(_, place)| stands_in(source, place))
}

/// A source that is damaged at a byte in each way.
fn damaged(source: &[u8], at: usize) -> Vec<Vec<u8>> {
    let (front, behind) = (&source[..at], &source[at + 1..]);
    let exchanged = BYTES.iter().map(|byte| [front, &[*byte], behind].concat());
    exchanged
        .chain([[front, behind].concat(), front.to_vec()])
        .collect()
}

#[test]
fn damaged_sources_are_read_or_refused_at_a_place_of_theirs() {
    let sources = [
        include_bytes!("../../data/reading/list.j").as_slice(),
        include_bytes!("../../data/reading/swap.j"),
    ];
    let (mut tried, mut wrong, mut first) = (0, 0, None);
    for source in sources {
        assert_eq!(fault(source), None, "a whole source is read");
        for made in (0..source.len()).flat_map(|at| damaged(source, at)) {
            tried += 1;
            if !is_answered(&made) {
                wrong += 1;
                first.get_or_insert(made);
            }
        }
    }
    println!(
        "{tried} damaged sources, {wrong} of them neither read nor refused at a place of theirs"
    );
    let first = first.as_deref().map(String::from_utf8_lossy);
    assert_eq!(wrong, 0, "the first of them is {first:?}");
}
