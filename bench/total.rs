// The program of crates/total_bench, written by hand in Rust.
// total ROUNDS [LANES] writes the line that total_bench writes: rounds, microseconds, checksum.
// costs, marks and limits are for searches
#[allow(dead_code)]
mod factoring;

use factoring::{total, Lane, Mark, Network, Refusal, Scale, Semiring, Share, SCRATCH_PLACES};
use std::time::Instant;

const LANES: usize = 18;
const NETWORKS: usize = 8;

// A ring of ten depots, and eight chords.
#[rustfmt::skip]
const ENDS: [[u8; 2]; LANES] = [
    [0, 1], [1, 2], [2, 3], [3, 4], [4, 5], [5, 6], [6, 7], [7, 8], [8, 9], [9, 0],
    [0, 5], [1, 4], [2, 7], [3, 8], [4, 9], [6, 0], [7, 5], [8, 1],
];

fn build(number: usize) -> Network {
    let lanes = ENDS.iter().enumerate().map(|(i, ends)| Lane {
        left: ends[0],
        right: ends[1],
        chance: 1 + ((i * 7 + number * 5) % 9) as u16,
        cost: 10,
        mark: Mark::Standing,
    });
    Network { scale: Scale { parts: 10, most: 18 }, depots: 10, lanes: lanes.collect() }
}

fn sum_up(networks: &[Network], rounds: usize, set: u32, scratch: &mut [Share]) -> Result<u64, Refusal> {
    let mut checksum = 0u64;
    for round in 0..rounds {
        let share = total(&networks[round % NETWORKS], set, scratch)?;
        checksum = checksum.wrapping_mul(31).wrapping_add(share.parts);
    }
    Ok(checksum)
}

fn main() -> Result<(), Refusal> {
    let mut words = std::env::args().skip(1).map(|word| word.parse().expect("a number"));
    let Some(rounds) = words.next() else {
        return Ok(());
    };
    let count = words.next().unwrap_or(LANES);
    assert!(count <= LANES, "at most 18 lanes");
    let set = (1 << count) - 1;
    let networks: Vec<Network> = (0..NETWORKS).map(build).collect();
    let mut scratch = [Share::zero(); SCRATCH_PLACES];
    let start = Instant::now();
    let checksum = sum_up(&networks, rounds, set, &mut scratch)?;
    let micros = start.elapsed().as_micros();
    println!("{rounds} {micros} {checksum}");
    Ok(())
}
