// The pivots of `ipsens_bench tableau` with the same algorithms in plain Rust: `tableau ROUNDS`.
mod fractions;

use fractions::{Frac, Wide, div, frac, mul, sub};
use std::{env, mem};

const COLUMNS: usize = 201;
const ROWS: usize = 133;

#[derive(Clone, Copy, PartialEq)]
enum Rest {
    Basic,
    Low,
}

struct Tableau {
    rows: Vec<Vec<Frac>>,
    spare: Vec<Vec<Frac>>,
    quotients: Vec<Frac>,
    basics: Vec<u32>,
    rests: Vec<Rest>,
}

fn lessened(x: Frac, f: Frac, g: Frac) -> Result<Frac, Wide> {
    if f.num == 0 || g.num == 0 {
        return Ok(x);
    }
    sub(x, mul(f, g)?)
}

impl Tableau {
    fn start() -> Tableau {
        let zeros = vec![frac(0, 1); COLUMNS + ROWS];
        let mut rows = vec![zeros.clone(); ROWS];
        for (i, row) in rows.iter_mut().enumerate() {
            for j in 0..COLUMNS {
                let number = if i == j { 1 } else { ((i * 31 + j * 17) % 7) as i128 - 3 };
                row[j] = frac(-number, 1);
            }
            row[COLUMNS + i] = frac(1, 1);
        }
        Tableau {
            rows,
            spare: vec![zeros.clone(); ROWS],
            quotients: zeros,
            basics: (0..ROWS).map(|k| (COLUMNS + k) as u32).collect(),
            rests: (0..COLUMNS + ROWS).map(|v| if v < COLUMNS { Rest::Low } else { Rest::Basic }).collect(),
        }
    }

    fn pivot(&mut self, row: usize, var: usize, leaving: Rest) -> Result<(), Wide> {
        let pivot = self.rows[row][var];
        for (into, x) in self.quotients.iter_mut().zip(&self.rows[row]) {
            *into = div(*x, pivot)?;
        }
        for (i, line) in self.rows.iter().enumerate() {
            let factor = line[var];
            if i != row && factor.num != 0 {
                for ((into, x), g) in self.spare[i].iter_mut().zip(line).zip(&self.quotients) {
                    *into = lessened(*x, factor, *g)?;
                }
            }
        }
        for i in 0..ROWS {
            if i != row && self.rows[i][var].num != 0 {
                mem::swap(&mut self.rows[i], &mut self.spare[i]);
            }
        }
        mem::swap(&mut self.rows[row], &mut self.quotients);
        self.rests[self.basics[row] as usize] = leaving;
        self.rests[var] = Rest::Basic;
        self.basics[row] = var as u32;
        Ok(())
    }
}

fn main() {
    let rounds: usize = env::args().last().and_then(|word| word.parse().ok()).unwrap_or(1);
    let mut tableau = Tableau::start();
    for round in 0..rounds {
        let row = round / 2 % ROWS;
        let var = if round % 2 == 0 { row } else { COLUMNS + row };
        let fits = tableau.rests[var] != Rest::Basic && tableau.rows[row][var].num != 0;
        if !fits || tableau.pivot(row, var, Rest::Low).is_err() {
            println!("a pivot cannot be made");
            return;
        }
    }
    let mut sum = 0u64;
    for row in &tableau.rows {
        for entry in row {
            sum = sum.wrapping_mul(31).wrapping_add((entry.num & 0xffff_ffff) as u64);
        }
    }
    println!("{sum}");
}
