//! Speeds: the proved library against the same algorithm in plain Rust, on the same records, in one run.
//! Opening an order is recording; closing it is the finder and recording in turn.

mod bridge;
mod random;
mod record;
mod same;

use random::Random;
use std::hint::black_box;
use std::time::{Duration, Instant};

/// The time that `f` takes over all records, the best of several rounds.
fn best(records: &[Vec<u8>], f: impl Fn(&[u8], u8) -> u32) -> Duration {
    let mut best = Duration::MAX;
    for _ in 0..7 {
        let start = Instant::now();
        for record in records {
            for code in 1..=3 {
                black_box(f(black_box(record), code));
            }
        }
        best = best.min(start.elapsed());
    }
    best
}

fn compare(name: &str, n: usize, records: &[Vec<u8>], ours: fn(&[u8], u8) -> u32, plain: fn(&[u8], u8) -> u32) {
    for record in records {
        for code in 1..=3 {
            assert_eq!(ours(record, code), plain(record, code), "{name} differs on {record:02X?} under {code}");
        }
    }
    let calls = (3 * records.len()) as f64;
    let proved = best(records, ours).as_nanos() as f64 / calls;
    let simple = best(records, plain).as_nanos() as f64 / calls;
    println!("{name}, {n} operations: proved {proved:.0} ns, plain Rust {simple:.0} ns, ratio {:.2}", proved / simple);
}

fn main() {
    let mut random = Random(1);
    for n in [4, 8, 16, 32] {
        let records: Vec<Vec<u8>> =
            (0..200).map(|_| record::write(&random.execution(n, 4, 3.min(n)))).collect();
        compare("opening", n, &records, bridge::opening_pairs, same::opening_pairs);
        compare("least order", n, &records, bridge::least_pairs, same::least_pairs);
    }
}
