//! The yardstick of decide.py: the same decision by hash sets, in plain Rust.

use std::collections::HashSet;
use std::time::Instant;

fn hashes(count: u64) -> Vec<u64> {
    (0..count).map(|place| place.wrapping_mul(0x9E37_79B9_7F4A_7C15)).collect()
}

// Steps that share no factor with the counts.
fn scrambled(count: u64) -> Vec<u64> {
    (0..count).map(|place| (place * 7_919 % count).wrapping_mul(0x9E37_79B9_7F4A_7C15)).collect()
}

fn is_listed(listed: &[u64], firing: &[u64]) -> bool {
    let listed: HashSet<u64> = listed.iter().copied().collect();
    firing.iter().all(|hash| listed.contains(hash))
}

fn main() {
    for count in [100, 1_000, 10_000] {
        let listed = hashes(count);
        let mut reversed = listed.clone();
        reversed.reverse();
        let scrambled = scrambled(count);
        for (order, firing) in [("same", &listed), ("reversed", &reversed), ("scrambled", &scrambled)] {
            let begin = Instant::now();
            let skipped = std::hint::black_box(is_listed(&listed, firing));
            println!("{order} {count} {} {}", begin.elapsed().as_nanos(), if skipped { "Skip" } else { "NewFiring" });
        }
    }
}
