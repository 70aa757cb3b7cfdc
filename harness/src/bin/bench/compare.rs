//! How long a call takes on either side: the product's and the harness's, in turns.

use std::time::{Duration, Instant};

/// How long one call takes on either side, and the ratio between them: medians over rounds.
#[derive(Clone, Copy)]
pub struct Comparison {
    pub product: f64,
    pub harness: f64,
    pub ratio: f64,
}

/// Lets the two take turns, in batches long enough to be timed.
pub fn compare(mut product: impl FnMut(), mut harness: impl FnMut()) -> Comparison {
    const ROUNDS: usize = 25;
    const BATCH: Duration = Duration::from_millis(2);
    const IN_ALL: Duration = Duration::from_secs(2);
    let calls = |once: Duration| {
        let calls = BATCH.as_nanos() / once.as_nanos().max(1);
        calls.clamp(1, 10_000) as usize
    };
    // The first calls warm up, the second ones tell how many make a batch.
    batch(1, &mut product);
    batch(1, &mut harness);
    let once = batch(1, &mut product);
    let product_calls = calls(once);
    let harness_calls = calls(batch(1, &mut harness));
    let mut rounds = Vec::new();
    let start = Instant::now();
    while rounds.len() < 3 || (rounds.len() < ROUNDS && start.elapsed() < IN_ALL) {
        let product = batch(product_calls, &mut product).as_secs_f64() / product_calls as f64;
        let harness = batch(harness_calls, &mut harness).as_secs_f64() / harness_calls as f64;
        rounds.push((product, harness));
    }
    Comparison {
        product: median(rounds.iter().map(|(product, _)| *product)),
        harness: median(rounds.iter().map(|(_, harness)| *harness)),
        ratio: median(rounds.iter().map(|(product, harness)| product / harness)),
    }
}

fn batch(calls: usize, call: &mut impl FnMut()) -> Duration {
    let start = Instant::now();
    for _ in 0..calls {
        call();
    }
    start.elapsed()
}

fn median(values: impl Iterator<Item = f64>) -> f64 {
    let mut values: Vec<f64> = values.collect();
    values.sort_by(f64::total_cmp);
    values[values.len() / 2]
}

impl Comparison {
    pub fn print(&self, name: &str) {
        println!("{}", self.line(name));
    }

    pub fn line(&self, name: &str) -> String {
        let Comparison {
            product,
            harness,
            ratio,
        } = self;
        let (product, harness) = (time(*product), time(*harness));
        format!("  {name:<36} product {product}  harness {harness}  ratio {ratio:7.2}")
    }
}

pub fn time(seconds: f64) -> String {
    match seconds < 1e-3 {
        true => format!("{:8.2} us", seconds * 1e6),
        false => format!("{:8.2} ms", seconds * 1e3),
    }
}
