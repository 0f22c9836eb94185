//! The nodes of systems and what `solve` finds for them: of small ones as it was worked by hand, and near the limit,
//! with how long it takes.

use cases::row;
use jh_digits::solver::{holds, nodes, solve, Digits, Solved, System};
use rattle_std::alloc::Global;
use std::time::Instant;

/// One row with these factors and this right side, and needs of so many columns each, the first from the first column
/// on, the next from the second on.
fn wide(entries: &[i64], right: i64, needs: u32, width: u32) -> System {
    System {
        rows: 1,
        columns: entries.len() as u32,
        entries: row(entries.iter().copied()),
        right: row([right]),
        needs: row((0..needs).map(|first| row(first..first + width))),
    }
}

/// One row with these factors and this right side, and a need on each of the first columns.
fn one_row(entries: &[i64], right: i64, needs: u32) -> System {
    wide(entries, right, needs, 1)
}

/// A column's number modulo 2 to the power of 64.
fn number(digits: &Digits, column: usize) -> u64 {
    let add = |sum: u64, bit| sum.wrapping_mul(2).wrapping_add(u64::from(bit));
    digits
        .layers
        .items()
        .iter()
        .rev()
        .map(|layer| layer.items()[column])
        .fold(0, add)
}

/// How many nodes a system has, and what is found for it. The numbers of a solution stand there only where it holds.
fn found(system: &System) -> String {
    let found = match solve(Global, system) {
        Solved::Solution(digits) if holds(system, &digits) => {
            let numbers =
                (0..system.columns).map(|column| format!(" {}", number(&digits, column as usize)));
            format!("solution{}", numbers.collect::<String>())
        }
        Solved::Solution(_) => "wrong".to_string(),
        Solved::NoSolution => "no solution".to_string(),
        Solved::TooLarge(count) => format!("too large with {count}"),
        Solved::Memory => panic!("memory"),
    };
    format!("{} nodes: {found}", nodes(system))
}

#[test]
fn small_systems() {
    let no_row = System {
        rows: 0,
        columns: 1,
        entries: row([]),
        right: row([]),
        needs: row([row([0])]),
    };
    let systems = [
        (one_row(&[2], 1, 0), "12 nodes: no solution"),
        (one_row(&[3, 5], 8, 0), "75 nodes: solution 1 1"),
        (one_row(&[3, 5], 7, 0), "72 nodes: no solution"),
        (one_row(&[1], 300, 0), "606 nodes: solution 300"),
        (
            one_row(&[1], 40_000_000, 0),
            "80000006 nodes: too large with 80000006",
        ),
        (no_row, "4 nodes: solution 1"),
    ];
    for (system, wanted) in &systems {
        assert_eq!(found(system), *wanted);
    }
    println!("{} small systems, as wanted", systems.len());
}

/// Of the numbers below 14 these are no sums of threes and fives: 1, 2, 4 and 7. So of 0 to 999, modulo 14, 71 times
/// 10 are such sums, and 0, 3 and 5 of the last six.
#[test]
fn thousand_systems() {
    let start = Instant::now();
    let is_solved = |right: &i64| {
        matches!(
            solve(Global, &one_row(&[3, 5], right % 14, 0)),
            Solved::Solution(_)
        )
    };
    let solved = (0..1000).filter(is_solved).count();
    println!(
        "1000 systems of at most 100 nodes: {solved} solved, {} ms",
        start.elapsed().as_millis()
    );
    assert_eq!(solved, 713);
}

/// Systems near the limit, and whether they have a solution. Fives and sixes have no sum 19.
#[test]
fn large_systems() {
    let fives: Vec<i64> = (1..=10).map(|number| 5 * number).collect();
    let fives_and_sixes = [5, 6].repeat(32);
    let systems = [
        (one_row(&[15_000_149], 1, 0), false),
        (one_row(&[1], 33_000_000, 0), true),
        (one_row(&fives, 4_472, 10), false),
        (one_row(&[6_007, -10_009, 8_009], 1, 0), true),
        (one_row(&[2_500_001, -2_500_033, 2_499_999], 1, 0), true),
        (one_row(&[1_250_001, -1_250_033, 1_249_999], 1, 1), true),
        (
            one_row(&[1_001, -1_003, 997, -1_009, 991, -1_013], 123_457, 6),
            true,
        ),
        (wide(&fives_and_sixes, 19, 10, 32), false),
        (wide(&[1; 64], 6, 6, 32), true),
    ];
    for (system, has_solution) in &systems {
        let start = Instant::now();
        let found = found(system);
        println!("{found}, {} ms", start.elapsed().as_millis());
        let wanted = if *has_solution {
            "nodes: solution"
        } else {
            "nodes: no solution"
        };
        assert!(found.contains(wanted));
    }
}
