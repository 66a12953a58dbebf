// Which column of a point is split, by pseudo-costs.
use crate::fractions::Frac;
use crate::models::Model;

const UNIT: u64 = 1 << 16;

#[derive(Clone, Copy, Default)]
struct Gain {
    sum: u64,
    count: u64,
}

#[derive(Clone, Copy)]
struct Birth {
    column: usize,
    is_upper: bool,
    distance: u64,
    cost: i128,
}

/// What the splits of each column have gained in its lower and upper halves, and how each node was made.
pub struct Chooser {
    columns: Vec<[Gain; 2]>,
    all: [Gain; 2],
    births: Vec<Option<Birth>>,
    current: Option<Birth>,
}

fn parts_of(number: Frac) -> (i128, u64) {
    let den = number.den.unsigned_abs();
    let rest = number.num.rem_euclid(number.den).unsigned_abs();
    let shift = 96_u32.saturating_sub(den.leading_zeros());
    let whole = ((den >> shift) as u64).max(1);
    let part = (rest >> shift) as u64;
    (number.num.div_euclid(number.den), part.wrapping_mul(UNIT) / whole)
}

fn cost_of(model: &Model, point: &[Frac]) -> i128 {
    let mut total: i128 = 0;
    for (cost, number) in model.costs.iter().zip(point) {
        if *cost != 0 {
            let (whole, fraction) = parts_of(*number);
            total += cost * (whole * i128::from(UNIT) + i128::from(fraction));
        }
    }
    total
}

impl Gain {
    fn add(&mut self, gain: u64) {
        self.sum = self.sum.saturating_add(gain);
        self.count += 1;
    }

    fn average(&self) -> Option<u64> {
        self.sum.checked_div(self.count)
    }

    fn expected(&self, all: &Gain, distance: u64) -> u128 {
        let average = self.average().or(all.average()).unwrap_or(UNIT);
        (u128::from(average) * u128::from(distance) >> 16).max(1)
    }
}

impl Chooser {
    pub fn new(columns: usize) -> Chooser {
        Chooser { columns: vec![Default::default(); columns], all: Default::default(), births: vec![None], current: None }
    }

    pub fn enter(&mut self, key: usize) {
        self.current = self.births[key];
    }

    fn observe(&mut self, column: usize, is_upper: bool, risen: u64, distance: u64) {
        let gain = u128::from(risen) * u128::from(UNIT) / u128::from(distance.max(1));
        let gain = u64::try_from(gain).unwrap_or(u64::MAX).min(1 << 40);
        self.all[usize::from(is_upper)].add(gain);
        self.columns[column][usize::from(is_upper)].add(gain);
    }

    fn learn(&mut self, cost: i128) {
        let Some(birth) = self.current.take() else {
            return;
        };
        let risen = u64::try_from((cost - birth.cost).max(0)).unwrap_or(u64::MAX);
        self.observe(birth.column, birth.is_upper, risen, birth.distance);
    }

    fn score(&self, column: usize, fraction: u64) -> (u128, u64) {
        let (gains, rest) = (&self.columns[column], UNIT - fraction);
        let lower = gains[0].expected(&self.all[0], fraction);
        let upper = gains[1].expected(&self.all[1], rest);
        (lower.saturating_mul(upper), fraction.min(rest))
    }

    fn fractions(point: &[Frac]) -> impl Iterator<Item = (usize, u64)> + '_ {
        point.iter().enumerate().filter(|(_, number)| number.den != 1).map(|(j, number)| (j, parts_of(*number).1))
    }

    /// The column of a point that looks best; `probe` gives for a column and a half by how much its first steps raise the cost.
    pub fn choose<P>(&mut self, model: &Model, point: &[Frac], probes: usize, mut probe: P) -> Option<usize>
    where
        P: FnMut(usize, bool) -> Option<u64>,
    {
        self.learn(cost_of(model, point));
        if probes > 0 {
            let is_new = |pair: &(usize, u64)| self.columns[pair.0].iter().any(|gain| gain.count == 0);
            let mut unseen: Vec<_> = Chooser::fractions(point).filter(is_new).collect();
            unseen.sort_by_key(|pair| std::cmp::Reverse(self.score(pair.0, pair.1)));
            for (j, fraction) in unseen.into_iter().take(probes) {
                for (is_upper, distance) in [(false, fraction), (true, UNIT - fraction)] {
                    if let Some(risen) = probe(j, is_upper).filter(|_| self.columns[j][usize::from(is_upper)].count == 0) {
                        self.observe(j, is_upper, risen.saturating_mul(UNIT), distance);
                    }
                }
            }
        }
        let mut best = None;
        let mut most = (0, 0);
        for (j, fraction) in Chooser::fractions(point) {
            let score = self.score(j, fraction);
            if best.is_none() || score > most {
                (most, best) = (score, Some(j));
            }
        }
        best
    }

    /// A node is split at a column of its point: its halves have the next keys.
    pub fn split(&mut self, model: &Model, point: &[Frac], column: usize) {
        let (fraction, cost) = (parts_of(point[column]).1, cost_of(model, point));
        self.births.push(Some(Birth { column, is_upper: false, distance: fraction, cost }));
        self.births.push(Some(Birth { column, is_upper: true, distance: UNIT - fraction, cost }));
    }

    /// A node is split without a point.
    pub fn halve(&mut self) {
        self.births.extend([None, None]);
    }
}
