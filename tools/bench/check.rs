//! The check of a large tree file: a model of 100 rows and 100 columns, a tree of 99,999 nodes with a certificate at each leaf, and the
//! sums of the check in plain Rust.
//!
//!     check make FOLDER    writes FOLDER/model.mps and FOLDER/tree, and FOLDER/odd.mps, which takes 97,239 nodes to solve
//!     check long FOLDER N  writes FOLDER/long, a tree file for that model of about N MiB
//!     check judge FOLDER   reads FOLDER/tree in pieces and prints what `ipsens check` prints of it

use std::fs::File;
use std::io::{BufWriter, Read, Write};

const COLUMNS: usize = 100;
const ROWS: usize = 100;
const LEAVES: usize = 50_000;
const MULTIPLIERS: usize = 20;

fn coefficient(i: usize, j: usize) -> i64 {
    ((i * 31 + j * 17 + i * j) % 19) as i64 - 9
}

fn cost(j: usize) -> i64 {
    (j * 13 % 41) as i64 - 20
}

fn side(i: usize) -> i64 {
    (i * 29 % 500) as i64 + 50
}

const HIGH: i64 = 1000;

fn write_model(path: &str) -> std::io::Result<()> {
    let mut out = BufWriter::new(File::create(path)?);
    writeln!(out, "NAME large\nROWS\n N cost")?;
    for i in 0..ROWS {
        writeln!(out, " L r{i}")?;
    }
    writeln!(out, "COLUMNS\n M 'MARKER' 'INTORG'")?;
    for j in 0..COLUMNS {
        writeln!(out, " x{j} cost {}", cost(j))?;
        for i in 0..ROWS {
            if coefficient(i, j) != 0 {
                writeln!(out, " x{j} r{i} {}", coefficient(i, j))?;
            }
        }
    }
    writeln!(out, " M 'MARKER' 'INTEND'\nRHS")?;
    for i in 0..ROWS {
        writeln!(out, " RHS r{i} {}", side(i))?;
    }
    writeln!(out, "BOUNDS")?;
    for j in 0..COLUMNS {
        writeln!(out, " UP BND x{j} {HIGH}")?;
    }
    writeln!(out, "ENDATA")
}

/// Twice the sum of 17 columns from 0 to 1 is to be 17: a search has to fix nine of them on each path.
fn write_odd(path: &str) -> std::io::Result<()> {
    let mut out = BufWriter::new(File::create(path)?);
    writeln!(out, "NAME odd\nROWS\n N cost\n E twice\nCOLUMNS\n M 'MARKER' 'INTORG'")?;
    for j in 0..17 {
        writeln!(out, " x{j} twice 2")?;
    }
    writeln!(out, " M 'MARKER' 'INTEND'\nRHS\n RHS twice 17\nBOUNDS")?;
    for j in 0..17 {
        writeln!(out, " BV BND x{j}")?;
    }
    writeln!(out, "ENDATA")
}

fn push_number(out: &mut Vec<u8>, mut n: u64) {
    while n >= 128 {
        out.push((n % 128) as u8 | 128);
        n /= 128;
    }
    out.push(n as u8);
}

fn push_signed(out: &mut Vec<u8>, v: i64) {
    push_number(out, if v >= 0 { 2 * v as u64 } else { 2 * v.unsigned_abs() - 1 });
}

/// A tree of some leaves: each split halves a column's side.
fn push_tree(out: &mut Vec<u8>, leaves: usize, depth: usize, box_: &mut [(i64, i64)], state: &mut u64) {
    if leaves == 1 {
        out.push(b'L');
        push_number(out, *state % 64 + 1);
        push_number(out, MULTIPLIERS as u64);
        for k in 0..MULTIPLIERS {
            *state = (*state * 6_364_136_223_846_793_005 + 1_442_695_040_888_963_407) % (1 << 62);
            push_number(out, (k * ROWS / MULTIPLIERS) as u64 + (*state >> 40) % (ROWS / MULTIPLIERS) as u64);
            push_signed(out, -((*state >> 20) as i64 % 5_000) - 1);
        }
        return;
    }
    let col = depth * 37 % COLUMNS;
    let (low, high) = box_[col];
    let at = (low + high) / 2;
    out.push(b'S');
    push_number(out, col as u64);
    push_signed(out, at);
    box_[col] = (low, at);
    push_tree(out, leaves / 2, depth + 1, box_, state);
    box_[col] = (at + 1, high);
    push_tree(out, leaves - leaves / 2, depth + 1, box_, state);
    box_[col] = (low, high);
}

fn opening() -> Vec<u8> {
    let mut out = b"IPST\x01B".to_vec();
    push_number(&mut out, COLUMNS as u64);
    out.extend([0; COLUMNS]);
    out
}

fn make(folder: &str) -> std::io::Result<()> {
    write_model(&format!("{folder}/model.mps"))?;
    write_odd(&format!("{folder}/odd.mps"))?;
    let mut out = opening();
    push_tree(&mut out, LEAVES, 0, &mut [(0, HIGH); COLUMNS], &mut 1);
    File::create(format!("{folder}/tree"))?.write_all(&out)
}

/// A tree file of about so many MiB within the limits: a multiplier of seven bytes for each row at each leaf.
fn long(folder: &str, mebibytes: usize) -> std::io::Result<()> {
    let mut out = BufWriter::new(File::create(format!("{folder}/long"))?);
    out.write_all(&opening())?;
    long_tree(&mut out, &mut Vec::new(), mebibytes * (1 << 20) / (7 * ROWS + 8), 0)
}

fn long_tree(out: &mut impl Write, bytes: &mut Vec<u8>, leaves: usize, depth: usize) -> std::io::Result<()> {
    bytes.clear();
    if leaves == 1 {
        bytes.extend([b'L', 1]);
        push_number(bytes, ROWS as u64);
        for row in 0..ROWS {
            push_number(bytes, row as u64);
            push_signed(bytes, -(1 << 35) - row as i64);
        }
        return out.write_all(bytes);
    }
    bytes.push(b'S');
    push_number(bytes, depth as u64);
    push_signed(bytes, HIGH / 2);
    out.write_all(bytes)?;
    long_tree(out, bytes, leaves / 2, depth + 1)?;
    long_tree(out, bytes, leaves - leaves / 2, depth + 1)
}

// ---- the check

struct Model {
    costs: Vec<i64>,
    rows: Vec<(Vec<(u32, i64)>, i64)>,
}

fn model() -> Model {
    let row = |i| {
        let coefs = (0..COLUMNS)
            .filter(|j| coefficient(i, *j) != 0)
            .map(|j| (j as u32, coefficient(i, j)));
        (coefs.collect(), side(i))
    };
    Model {
        costs: (0..COLUMNS).map(cost).collect(),
        rows: (0..ROWS).map(row).collect(),
    }
}

/// The bytes of a file, piece by piece.
struct Bytes {
    file: File,
    piece: Vec<u8>,
    at: usize,
    end: usize,
}

impl Bytes {
    fn next(&mut self) -> u8 {
        if self.at == self.end {
            self.end = self.file.read(&mut self.piece).unwrap();
            self.at = 0;
            assert!(self.end > 0);
        }
        self.at += 1;
        self.piece[self.at - 1]
    }

    fn number(&mut self) -> u64 {
        let mut n = 0;
        for k in 0..6 {
            let byte = self.next();
            n += u64::from(byte % 128) << (7 * k);
            if byte < 128 {
                assert!(k == 0 || byte > 0);
                return n;
            }
        }
        panic!("a number is too long")
    }

    fn signed(&mut self) -> i64 {
        let n = self.number();
        if n % 2 == 0 { (n / 2) as i64 } else { -((n / 2) as i64) - 1 }
    }
}

/// The bound of a leaf.
fn bound(model: &Model, box_: &[(i64, i64)], q: i64, y: &[(u32, i64)], reduced: &mut [i128]) -> i128 {
    for (d, cost) in reduced.iter_mut().zip(&model.costs) {
        *d = i128::from(q) * i128::from(*cost);
    }
    let mut sum = 0;
    for (row, multiplier) in y {
        let (coefs, high) = &model.rows[*row as usize];
        sum += i128::from(*multiplier) * i128::from(*high);
        for (column, coefficient) in coefs {
            reduced[*column as usize] -= i128::from(*multiplier) * i128::from(*coefficient);
        }
    }
    for (d, (low, high)) in reduced.iter().zip(box_) {
        sum += (d * i128::from(*low)).min(d * i128::from(*high));
    }
    let q = i128::from(q);
    sum.div_euclid(q) + i128::from(sum.rem_euclid(q) > 0)
}

fn judge(folder: &str) -> std::io::Result<()> {
    let model = model();
    let mut bytes = Bytes {
        file: File::open(format!("{folder}/tree"))?,
        piece: vec![0; 16_384],
        at: 0,
        end: 0,
    };
    for byte in b"IPST\x01B" {
        assert_eq!(bytes.next(), *byte);
    }
    let mut point = Vec::new();
    for _ in 0..bytes.number() {
        point.push(bytes.signed());
    }
    let mut box_ = vec![(0, HIGH); COLUMNS];
    // the splits whose right side is still to come: a column, its side, and where it is cut
    let mut open: Vec<(usize, (i64, i64), i64, bool)> = Vec::new();
    let mut reduced = vec![0; COLUMNS];
    let mut y = Vec::new();
    let mut least = i128::MAX;
    loop {
        match bytes.next() {
            b'S' => {
                let col = bytes.number() as usize;
                let at = bytes.signed();
                open.push((col, box_[col], at, false));
                box_[col].1 = box_[col].1.min(at);
            }
            b'L' => {
                let q = bytes.number() as i64;
                y.clear();
                for _ in 0..bytes.number() {
                    y.push((bytes.number() as u32, bytes.signed()));
                }
                if box_.iter().all(|(low, high)| low <= high) {
                    least = least.min(bound(&model, &box_, q, &y, &mut reduced));
                }
                while let Some((col, side, at, right)) = open.pop() {
                    box_[col] = side;
                    if !right {
                        open.push((col, side, at, true));
                        box_[col].0 = side.0.max(at + 1);
                        break;
                    }
                }
                if open.is_empty() {
                    break;
                }
            }
            _ => panic!("no node"),
        }
    }
    let cost: i64 = point.iter().zip(&model.costs).map(|(x, c)| x * c).sum();
    if least >= i128::from(cost) {
        println!("proved {cost}");
    } else {
        println!("not proved short {least} {cost}");
    }
    Ok(())
}

fn main() -> std::io::Result<()> {
    let words: Vec<String> = std::env::args().skip(1).collect();
    match words.iter().map(String::as_str).collect::<Vec<_>>()[..] {
        ["make", folder] => make(folder),
        ["long", folder, mebibytes] => long(folder, mebibytes.parse().unwrap()),
        ["judge", folder] => judge(folder),
        _ => panic!("make FOLDER, long FOLDER MEBIBYTES or judge FOLDER"),
    }
}
