//! The bound of one certificate, computed as often as the argument says: the model and the loops of `ipsens_bench certificates` in
//! plain Rust.

use std::hint::black_box;

const COLUMNS: u32 = 1000;
const ROWS: u32 = 200;
const ENTRIES: u32 = 50;
const BLOCK: u32 = 20;

struct Column {
    #[allow(dead_code)]
    name: String,
    cost: i64,
    lo: i64,
    hi: i64,
}

struct Row {
    #[allow(dead_code)]
    name: String,
    coefs: Vec<(u32, i64)>,
    low: Option<i64>,
    high: Option<i64>,
}

struct Parts {
    constant: i64,
    columns: Vec<Column>,
    rows: Vec<Row>,
}

struct Cert {
    q: i64,
    y: Vec<(u32, i64)>,
}

#[allow(dead_code)]
#[derive(Clone, Copy, Debug)]
enum Bound {
    At(i128),
    Infinite,
}

fn model() -> Parts {
    let columns = (0..COLUMNS)
        .map(|j| Column {
            name: String::new(),
            cost: i64::from(j * 37 % 101) - 50,
            lo: 0,
            hi: i64::from(j % 10),
        })
        .collect();
    let rows = (0..ROWS)
        .map(|i| Row {
            name: String::new(),
            coefs: (0..ENTRIES)
                .map(|k| {
                    let column = k * BLOCK + (i * 7 + k * 3) % BLOCK;
                    (column, i64::from((i * 31 + k * 17) % 99) + 1)
                })
                .collect(),
            low: Some(i64::from(i * 13 % 1000)),
            high: Some(i64::from(i * 29 % 1000) + 1000),
        })
        .collect();
    Parts {
        constant: 7,
        columns,
        rows,
    }
}

fn cert() -> Cert {
    let multiplier = |i| {
        let size = i64::from(i % 7) + 1;
        if i % 2 == 0 { size } else { -size }
    };
    Cert {
        q: 3,
        y: (0..ROWS).map(|i| (i, multiplier(i))).collect(),
    }
}

fn paid(parts: &Parts, y: &[(u32, i64)]) -> Option<i128> {
    let mut total = 0i128;
    for &(row, multiplier) in y {
        let row = &parts.rows[row as usize];
        let side = if multiplier > 0 { row.low? } else { row.high? };
        total += i128::from(multiplier) * i128::from(side);
    }
    Some(total)
}

fn column_sum(parts: &Parts, q: i64, taken: &[i128], area: &[(i64, i64)]) -> i128 {
    let mut total = 0i128;
    for (j, side) in area.iter().enumerate() {
        let reduced = i128::from(q) * i128::from(parts.columns[j].cost) - taken[j];
        total += (reduced * i128::from(side.0)).min(reduced * i128::from(side.1));
    }
    total
}

fn box_sum(parts: &Parts, taken: &mut [i128], area: &[(i64, i64)]) -> i128 {
    taken.fill(0);
    i128::from(parts.constant) + column_sum(parts, 1, taken, area)
}

fn dual_value(parts: &Parts, cert: &Cert, taken: &mut [i128], area: &[(i64, i64)]) -> Option<i128> {
    let paid = paid(parts, &cert.y)?;
    taken.fill(0);
    for &(row, multiplier) in &cert.y {
        for &(column, coefficient) in &parts.rows[row as usize].coefs {
            taken[column as usize] += i128::from(multiplier) * i128::from(coefficient);
        }
    }
    let whole = i128::from(cert.q) * i128::from(parts.constant);
    Some(paid + whole + column_sum(parts, cert.q, taken, area))
}

#[inline(never)]
fn leaf_bound(parts: &Parts, cert: &Cert, area: &[(i64, i64)], taken: &mut [i128]) -> Bound {
    if area.iter().any(|side| side.1 < side.0) {
        return Bound::Infinite;
    }
    match dual_value(parts, cert, taken, area) {
        Some(value) if cert.q > 0 => {
            let q = i128::from(cert.q);
            Bound::At(if value > 0 { (value - 1) / q + 1 } else { value / q })
        }
        Some(value) if value > 0 => Bound::Infinite,
        _ => Bound::At(box_sum(parts, taken, area)),
    }
}

fn main() {
    let rounds = std::env::args().nth(1).and_then(|word| word.parse().ok()).unwrap_or(1u32);
    let parts = model();
    let cert = cert();
    let area: Vec<(i64, i64)> = parts.columns.iter().map(|column| (column.lo, column.hi)).collect();
    let mut taken = vec![0i128; parts.columns.len()];
    let mut bound = Bound::Infinite;
    for _ in 0..rounds {
        bound = leaf_bound(black_box(&parts), black_box(&cert), black_box(&area), &mut taken);
    }
    println!("{bound:?}");
}
