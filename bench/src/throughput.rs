//! Thousands of typical sheets through the library from C in one process (bench/throughput.c), with one thread and with
//! two: sheets a second. Whoever calls it has the threads; the library has no state.

use crate::inputs::typical;
use crate::timing::median;
use reference::generate::Random;

const SHEETS: usize = 4_096;
const ROUNDS: usize = 4;
const SEEDS: u64 = 6;
const THREADS: [usize; 2] = [1, 2];
/// Each number of threads this often for a seed, by turns; the best counts.
const TURNS: usize = 5;

extern "C" {
    fn bench_throughput(
        sheets: *const *const u8,
        lengths: *const usize,
        count: usize,
        rounds: usize,
        threads: usize,
        sum: *mut u64,
    ) -> f64;
}

pub fn print(seed: u64) {
    let seeds: Vec<[f64; THREADS.len()]> = (0..SEEDS)
        .map(|number| rates(&mut Random::new(seed + number)))
        .collect();
    println!("| Typical sheets, from C | Threads | Sheets a second, median of {SEEDS} seeds | Lowest | Highest | Of one thread |");
    println!("|---|---|---|---|---|---|");
    let middle = |way: usize| median(seeds.iter().map(|rates| rates[way]));
    for (way, threads) in THREADS.iter().enumerate() {
        let of_way = || seeds.iter().map(|rates| rates[way]);
        let lowest = of_way().fold(f64::INFINITY, f64::min);
        let highest = of_way().fold(0.0, f64::max);
        let share = middle(way) / middle(0);
        println!(
            "| {SHEETS} different ones, {ROUNDS} times | {threads} | {:.0} | {lowest:.0} | {highest:.0} | {share:.2} |",
            middle(way)
        );
    }
    println!();
}

/// Sheets a second for each number of threads. All answers are the same whoever made them.
fn rates(random: &mut Random) -> [f64; THREADS.len()] {
    let sheets: Vec<Vec<u8>> = (0..SHEETS).map(|_| typical(random)).collect();
    let starts: Vec<*const u8> = sheets.iter().map(|sheet| sheet.as_ptr()).collect();
    let lengths: Vec<usize> = sheets.iter().map(Vec::len).collect();
    let mut best = [0.0_f64; THREADS.len()];
    let mut first = None;
    for _ in 0..TURNS {
        for (way, threads) in THREADS.iter().enumerate() {
            let mut sum = 0;
            // SAFETY: both arrays have SHEETS places, and each start has its sheet's length of bytes behind it.
            let seconds = unsafe {
                bench_throughput(
                    starts.as_ptr(),
                    lengths.as_ptr(),
                    SHEETS,
                    ROUNDS,
                    *threads,
                    &mut sum,
                )
            };
            assert!(seconds > 0.0, "{threads} threads can be started");
            assert_eq!(
                sum,
                *first.get_or_insert(sum),
                "the answers do not depend on the number of threads"
            );
            best[way] = best[way].max((SHEETS * ROUNDS) as f64 / seconds);
        }
    }
    best
}
