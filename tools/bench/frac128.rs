// The measured loop of `ipsens_bench fractions` with the same algorithms in plain Rust: `frac128 whole|small|long ROUNDS`.
mod fractions;

use fractions::{Frac, Wide, frac, mul, sub};
use std::env;

struct Source(u64);

impl Source {
    fn next(&mut self) -> i128 {
        self.0 = self.0.wrapping_mul(6364136223846793005).wrapping_add(1442695040888963407);
        i128::from(self.0 >> 33)
    }

    fn signed(&mut self) -> i128 {
        self.next() - (1 << 30)
    }

    fn up_to(&mut self, most: i128) -> i128 {
        self.next() % most + 1
    }

    fn long(&mut self) -> i128 {
        let high = self.next() << 31;
        let high = high + self.next();
        (high << 38) + (self.next() << 7) + 1
    }
}

fn sample(kind: &str, source: &mut Source) -> (Frac, Frac, Frac) {
    match kind {
        "small" => (
            frac(source.signed(), source.up_to(999)),
            frac(source.signed(), source.up_to(999)),
            frac(source.signed(), source.up_to(999)),
        ),
        "long" => (
            frac(source.long(), source.up_to(1_000_000)),
            frac(source.up_to(1_000_000), source.long()),
            frac(source.long(), source.up_to(1_000_000)),
        ),
        _ => (frac(source.signed(), 1), frac(source.signed(), 1), frac(source.signed(), 1)),
    }
}

fn main() {
    let words: Vec<String> = env::args().collect();
    let kind = words.get(1).map_or("whole", String::as_str);
    let rounds: u64 = words.get(2).map_or(0, |word| word.parse().unwrap_or(0));
    let mut source = Source(2026);
    let samples: Vec<_> = (0..64).map(|_| sample(kind, &mut source)).collect();
    let mut sum = 0u64;
    for round in 0..rounds {
        let left = samples[(round % 64) as usize].0;
        let place = (round / 64 % 64) as usize;
        let answer = if round % 2 == 0 { mul(left, samples[place].1) } else { sub(left, samples[place].2) };
        sum = match answer {
            Ok(value) => sum.wrapping_mul(31).wrapping_add(value.num.unsigned_abs() as u64 ^ value.den as u64),
            Err(Wide) => sum.wrapping_add(1),
        };
    }
    println!("{sum}");
}
