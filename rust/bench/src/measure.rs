//! Medians of two implementations, run by turns.

use std::fmt::Debug;
use std::hint::black_box;

use crate::clock::nanoseconds;

/// Runs of each side. The median is that of an odd number.
pub const RUNS: usize = 201;

/// How many calls one run makes: each of some buffers, some times over. And how many runs
/// there are.
#[derive(Clone, Copy)]
pub struct Batch {
    pub buffers: usize,
    pub times: usize,
    pub runs: usize,
}

/// A batch for a call that may be repeated on the same buffers, by about how
/// many octets it goes through.
pub fn repeated(octets: usize) -> Batch {
    Batch {
        buffers: 1,
        times: (8000 / octets).clamp(1, 200),
        runs: RUNS,
    }
}

/// A batch for an edit, which needs buffers of its own for each call.
pub fn once_each(octets: usize) -> Batch {
    Batch {
        buffers: (8000 / octets).clamp(1, 100),
        times: 1,
        runs: RUNS,
    }
}

pub struct Row {
    pub name: String,
    pub rattle: f64,
    pub plain: f64,
}

/// Measures two calls on buffers that are put back before each run. What both
/// answer and leave in the buffers must be the same.
pub fn compare<B, A>(
    name: &str,
    batch: Batch,
    buffers: &B,
    rattle: impl Fn(&mut B) -> A,
    plain: impl Fn(&mut B) -> A,
) -> Row
where
    B: Clone + PartialEq,
    A: PartialEq + Debug,
{
    let (mut rattle_times, mut plain_times) = (Vec::new(), Vec::new());
    for run in 0..batch.runs {
        let (one, two);
        // Neither side always comes first.
        if run % 2 == 0 {
            one = timed(batch, buffers, &rattle);
            two = timed(batch, buffers, &plain);
        } else {
            two = timed(batch, buffers, &plain);
            one = timed(batch, buffers, &rattle);
        }
        assert_eq!(one.answer, two.answer, "{name}: the answers differ");
        assert!(one.buffers == two.buffers, "{name}: the buffers differ");
        rattle_times.push(one.nanoseconds);
        plain_times.push(two.nanoseconds);
    }
    Row {
        name: name.to_string(),
        rattle: median(rattle_times),
        plain: median(plain_times),
    }
}

struct Timed<B, A> {
    nanoseconds: f64,
    answer: Option<A>,
    buffers: Vec<B>,
}

fn timed<B: Clone, A>(batch: Batch, buffers: &B, call: impl Fn(&mut B) -> A) -> Timed<B, A> {
    // Fresh copies, not timed. They also bring the memory into the cache.
    let mut buffers = vec![buffers.clone(); batch.buffers];
    let mut answer = None;
    let began = nanoseconds();
    for _ in 0..batch.times {
        for buffer in &mut buffers {
            answer = Some(black_box(call(black_box(buffer))));
        }
    }
    let whole = (nanoseconds() - began) as f64;
    Timed {
        nanoseconds: whole / (batch.times * batch.buffers) as f64,
        answer,
        buffers,
    }
}

fn median(mut times: Vec<f64>) -> f64 {
    times.sort_by(f64::total_cmp);
    times[times.len() / 2]
}

/// Prints the rows as a table.
pub fn print(rows: &[Row]) {
    println!("Median of {RUNS} runs, nanoseconds of processor time a call.");
    println!("The worst inputs have fewer runs.");
    println!();
    println!("| Case | Rattle ns | Plain Rust ns | Ratio |");
    println!("|---|--:|--:|--:|");
    for row in rows {
        let ratio = row.rattle / row.plain;
        println!(
            "| {} | {:.0} | {:.0} | {ratio:.2} |",
            row.name, row.rattle, row.plain
        );
    }
}
