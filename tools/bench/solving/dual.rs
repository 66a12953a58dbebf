// The living dual tableau that proposes the answers of boxes, over words of 64 or of 128 bits.
use crate::certificates::{Cert, Proposal};
use crate::fractions::gcd;
use crate::models::Model;

const FLAT_STEPS: u32 = 30;
const MANY_FLAT_STEPS: u32 = 1000;
const SEED: u64 = 0x9e37_79b9_7f4a_7c15;

/// What is proposed for a box.
pub enum Proposed {
    Best(Proposal),
    Cut(Cert),
    Empty(Cert),
    GaveUp,
}

#[derive(Clone, Copy)]
pub struct Range {
    low: Option<i64>,
    high: Option<i64>,
}

impl Range {
    fn side(&self, at_high: bool) -> i64 {
        if at_high { self.high } else { self.low }.unwrap_or(0)
    }

    fn is_fixed(&self) -> bool {
        self.low.is_some() && self.low == self.high
    }
}

#[derive(Clone, Copy)]
pub struct Nonbasic {
    variable: usize,
    at_high: bool,
}

#[derive(Clone, Copy)]
struct Leaving {
    index: usize,
    variable: usize,
    rises: bool,
    distance: u128,
    weight: u128,
}

#[derive(Clone, Copy)]
struct Candidate {
    place: usize,
    variable: usize,
    reduced_cost: u128,
    number: u128,
    perturbation: u128,
}

enum End {
    Best,
    Cut,
    Empty(Leaving),
    OutOfSteps,
    TooWide,
}

enum Choice {
    Leaves(Leaving),
    AllWithin,
    TooWide,
}

fn excess_bits(number: u128, limit: u128) -> u32 {
    limit.leading_zeros().saturating_sub(number.leading_zeros())
}

fn is_less(a: u128, b: u128, c: u128, d: u128) -> bool {
    if a.max(b).max(c).max(d) <= u128::from(u64::MAX) {
        return a * d < c * b;
    }
    let (mut a, mut b, mut c, mut d) = (a, b, c, d);
    while b != 0 && d != 0 {
        if a / b != c / d {
            return a / b < c / d;
        }
        let (rest, other) = (a % b, c % d);
        if other == 0 {
            return false;
        }
        if rest == 0 {
            return true;
        }
        (a, b, c, d) = (d, other, b, rest);
    }
    false
}

fn is_roughly_greater(a: u128, b: u128, c: u128, d: u128) -> bool {
    let zeros = a.max(b).max(c).max(d).leading_zeros();
    let shift = 64_u32.saturating_sub(zeros);
    (a >> shift).wrapping_mul(d >> shift) > (c >> shift).wrapping_mul(b >> shift)
}

impl Candidate {
    fn is_before(&self, other: &Candidate, by_least_number: bool) -> bool {
        let (number, others) = (self.number, other.number);
        if is_less(self.reduced_cost, number, other.reduced_cost, others) {
            return true;
        }
        if is_less(other.reduced_cost, others, self.reduced_cost, number) {
            return false;
        }
        if by_least_number {
            return self.variable < other.variable;
        }
        if is_less(self.perturbation, number, other.perturbation, others) {
            return true;
        }
        if is_less(other.perturbation, others, self.perturbation, number) {
            return false;
        }
        number > others || number == others && self.variable < other.variable
    }
}

fn lowest(numerator: i128, denominator: i128) -> (i128, i128) {
    let shared = gcd(numerator.unsigned_abs(), denominator.unsigned_abs()).max(1) as i128;
    (numerator / shared, denominator / shared)
}

fn scattered(variable: usize) -> u64 {
    let mut bits = (variable as u64 + 1).wrapping_mul(SEED);
    bits = (bits ^ (bits >> 30)).wrapping_mul(0xbf58_476d_1ce4_e5b9);
    bits = (bits ^ (bits >> 27)).wrapping_mul(0x94d0_49bb_1331_11eb);
    bits ^= bits >> 31;
    (bits >> 44) | (1 << 20)
}

fn certificate_of(divisor: i128, multipliers: &[i128], may_round: bool) -> Option<Cert> {
    const GREATEST: u128 = (1 << 36) - 1;
    let mut shared = divisor.unsigned_abs();
    for multiplier in multipliers {
        if shared != 1 {
            shared = gcd(shared, multiplier.unsigned_abs());
        }
    }
    let shared = shared.max(1) as i128;
    let most = multipliers.iter().map(|number| number.unsigned_abs()).max().unwrap_or(0).max(divisor.unsigned_abs());
    let shift = excess_bits(most / shared.unsigned_abs(), GREATEST);
    let shortened = |number: i128| {
        let quotient = number / shared;
        let short = i64::try_from(quotient.unsigned_abs() >> shift).ok()?;
        Some(if quotient < 0 { -short } else { short })
    };
    let q = shortened(divisor)?;
    if shift > 0 && !may_round || q == 0 && divisor != 0 {
        return None;
    }
    let mut y = Vec::new();
    for (k, multiplier) in multipliers.iter().enumerate() {
        let multiplier = shortened(*multiplier)?;
        if multiplier != 0 {
            y.push((k, multiplier));
        }
    }
    Some(Cert { q, y })
}

// One tableau for each width: GREATEST bounds the numbers of a row, LARGE is a denominator above which a row is divided first, MOST the
// greatest denominator, TIE_BITS those that the row of the perturbation takes of a pivot row.
macro_rules! tableau {
    ($module:ident, $word:ty, $unsigned:ty, $greatest:expr, $large:expr, $most:expr, $tie_bits:expr) => {
        pub mod $module {
            use super::*;

            const GREATEST: $unsigned = $greatest;
            const LARGE: $unsigned = $large;
            const MOST: $unsigned = $most;

            #[derive(Clone)]
            struct Row {
                numbers: Vec<$word>,
                value: $word,
                denominator: $word,
                sum: $unsigned,
                scale: $word,
                multiple: $word,
            }

            impl Row {
                fn zeros(places: usize) -> Row {
                    Row { numbers: vec![0; places], value: 0, denominator: 1, sum: 0, scale: 1, multiple: 0 }
                }

                fn clear(&mut self) {
                    self.numbers.fill(0);
                    (self.value, self.denominator, self.sum, self.scale, self.multiple) = (0, 1, 0, 1, 0);
                }

                fn count(&mut self) {
                    self.sum = self.numbers.iter().map(|number| number.unsigned_abs()).sum();
                }

                fn divide(&mut self) {
                    let mut divisor = gcd(self.denominator.unsigned_abs().into(), self.value.unsigned_abs().into());
                    for number in &self.numbers {
                        if divisor == 1 {
                            return;
                        }
                        divisor = gcd(divisor, number.unsigned_abs().into());
                    }
                    if divisor > 1 {
                        let divisor = divisor as $word;
                        self.numbers.iter_mut().for_each(|number| *number /= divisor);
                        self.value /= divisor;
                        self.denominator /= divisor;
                        self.count();
                    }
                }

                fn fits(&self, scale: $unsigned, multiple: $unsigned, pivot_row: &Row, most: $unsigned) -> bool {
                    let total = |row: &Row, times: $unsigned| row.sum.checked_add(row.value.unsigned_abs())?.checked_mul(times);
                    let sum = total(self, scale).and_then(|own| own.checked_add(total(pivot_row, multiple)?));
                    let denominator = self.denominator.unsigned_abs().checked_mul(scale);
                    sum.is_some_and(|sum| sum <= GREATEST) && denominator.is_some_and(|product| product <= most)
                }

                fn choose(&mut self, pivot_row: &Row, pivot: $word, place: usize, most: $unsigned) -> bool {
                    let number = self.numbers[place];
                    let shared = gcd(pivot.unsigned_abs().into(), number.unsigned_abs().into()).max(1) as $unsigned;
                    let (scale, multiple) = (pivot.unsigned_abs() / shared, number.unsigned_abs() / shared);
                    if !self.fits(scale, multiple, pivot_row, most) {
                        return false;
                    }
                    self.scale = scale as $word;
                    self.multiple = if (number < 0) != (pivot < 0) { -(multiple as $word) } else { multiple as $word };
                    true
                }

                fn prepare(&mut self, pivot_row: &Row, pivot: $word, place: usize) -> bool {
                    if self.numbers[place] == 0 {
                        (self.scale, self.multiple) = (1, 0);
                        return true;
                    }
                    if self.choose(pivot_row, pivot, place, LARGE) {
                        return true;
                    }
                    self.divide();
                    self.choose(pivot_row, pivot, place, MOST)
                }

                fn eliminate(&mut self, pivot_row: &Row, place: usize) {
                    let (scale, multiple) = (self.scale, self.multiple);
                    if multiple == 0 {
                        return;
                    }
                    self.numbers[place] = 0;
                    let mut sum: $unsigned = 0;
                    if scale == 1 {
                        for (number, other) in self.numbers.iter_mut().zip(&pivot_row.numbers) {
                            if *other != 0 {
                                *number -= multiple * *other;
                            }
                            sum += number.unsigned_abs();
                        }
                    } else {
                        for (number, other) in self.numbers.iter_mut().zip(&pivot_row.numbers) {
                            *number = scale * *number - multiple * *other;
                            sum += number.unsigned_abs();
                        }
                    }
                    self.sum = sum;
                    self.value = scale * self.value - multiple * pivot_row.value;
                    self.denominator *= scale;
                }

                fn copy_from(&mut self, other: &Row) {
                    self.numbers.copy_from_slice(&other.numbers);
                    (self.value, self.denominator, self.sum) = (other.value, other.denominator, other.sum);
                }

                fn shift(&mut self, place: usize, distance: $word) -> bool {
                    let number = self.numbers[place];
                    if number == 0 {
                        return true;
                    }
                    match number.checked_mul(distance).and_then(|change| self.value.checked_add(change)) {
                        Some(value) => {
                            self.value = value;
                            true
                        }
                        None => false,
                    }
                }
            }

            #[derive(Clone)]
            struct Ties {
                numbers: Vec<$word>,
                is_on: bool,
            }

            impl Ties {
                fn turn_on(&mut self, nonbasic: &[Nonbasic]) {
                    if !self.is_on {
                        for (number, variable) in self.numbers.iter_mut().zip(nonbasic) {
                            let cost = scattered(variable.variable) as $word;
                            *number = if variable.at_high { -cost } else { cost };
                        }
                        self.is_on = true;
                    }
                }

                fn eliminate(&mut self, pivot_row: &Row, pivot: $word, place: usize) {
                    if !self.is_on {
                        return;
                    }
                    let factor = if pivot < 0 { -self.numbers[place] } else { self.numbers[place] };
                    self.numbers[place] = 0;
                    let greatest = |numbers: &[$word]| numbers.iter().map(|number| number.unsigned_abs()).max().unwrap_or(0);
                    let most = greatest(&pivot_row.numbers).max(pivot.unsigned_abs());
                    let shift = excess_bits(most.into(), 1 << $tie_bits);
                    let scale = pivot.abs() >> shift;
                    for (number, other) in self.numbers.iter_mut().zip(&pivot_row.numbers) {
                        *number = scale.wrapping_mul(*number).wrapping_sub(factor.wrapping_mul(*other >> shift));
                    }
                    let shift = excess_bits(greatest(&self.numbers).into(), 1 << (100 - $tie_bits).min(40));
                    self.numbers.iter_mut().for_each(|number| *number >>= shift);
                }
            }

            /// A living dual tableau of a model.
            #[derive(Clone)]
            pub struct Tableau {
                columns: usize,
                constant: i128,
                ranges: Vec<Range>,
                nonbasic: Vec<Nonbasic>,
                variables: Vec<usize>,
                rows: Vec<Row>,
                costs: Row,
                ties: Ties,
                pivot_row: Row,
                is_spent: bool,
            }

            impl Tableau {
                pub fn start(model: &Model) -> Tableau {
                    let columns = model.costs.len();
                    let sides = |low: i128, high: i128| Range { low: Some(low as i64), high: Some(high as i64) };
                    let mut ranges: Vec<_> = model.area.iter().map(|side| sides(side.0, side.1)).collect();
                    ranges.extend(model.rows.iter().map(|row| Range { low: row.low.map(|s| s as i64), high: row.high.map(|s| s as i64) }));
                    Tableau {
                        columns,
                        constant: model.constant,
                        ranges,
                        nonbasic: vec![Nonbasic { variable: 0, at_high: false }; columns],
                        variables: vec![0; model.rows.len()],
                        rows: vec![Row::zeros(columns); model.rows.len()],
                        costs: Row::zeros(columns),
                        ties: Ties { numbers: vec![0; columns], is_on: false },
                        pivot_row: Row::zeros(columns),
                        is_spent: true,
                    }
                }

                fn begin(&mut self, model: &Model) -> bool {
                    for (j, cost) in model.costs.iter().enumerate() {
                        self.nonbasic[j] = Nonbasic { variable: j, at_high: *cost < 0 };
                    }
                    let value = |j: usize| self.ranges[j].side(self.nonbasic[j].at_high) as $word;
                    let fill = |row: &mut Row, terms: &mut dyn Iterator<Item = (usize, i128)>| {
                        row.clear();
                        for (j, number) in terms {
                            if number.unsigned_abs() > u128::from(GREATEST) {
                                return false;
                            }
                            let number = number as $word;
                            row.numbers[j] = number;
                            match number.checked_mul(value(j)).and_then(|product| row.value.checked_add(product)) {
                                Some(value) => row.value = value,
                                None => return false,
                            }
                        }
                        row.count();
                        true
                    };
                    if !fill(&mut self.costs, &mut model.costs.iter().copied().enumerate()) {
                        return false;
                    }
                    for (k, row) in model.rows.iter().enumerate() {
                        self.variables[k] = self.columns + k;
                        if !fill(&mut self.rows[k], &mut row.coefs.iter().copied()) {
                            return false;
                        }
                    }
                    self.is_spent = false;
                    true
                }

                fn move_columns(&mut self, area: &[(i128, i128)]) -> bool {
                    for place in 0..self.columns {
                        let reduced_cost = self.costs.numbers[place];
                        let nonbasic = &mut self.nonbasic[place];
                        let Some(side) = area.get(nonbasic.variable) else {
                            continue;
                        };
                        let before = self.ranges[nonbasic.variable].side(nonbasic.at_high);
                        if reduced_cost != 0 {
                            nonbasic.at_high = reduced_cost < 0;
                        }
                        let after = if nonbasic.at_high { side.1 } else { side.0 };
                        let distance = (after - i128::from(before)) as $word;
                        if distance != 0 {
                            let rows = self.rows.iter_mut().chain(std::iter::once(&mut self.costs));
                            for row in rows {
                                if !row.shift(place, distance) {
                                    return false;
                                }
                            }
                        }
                    }
                    true
                }

                /// Brings the tableau to a box; false where a number does not fit there.
                pub fn move_to(&mut self, model: &Model, area: &[(i128, i128)]) -> bool {
                    let moved = !self.is_spent && self.move_columns(area);
                    for (range, side) in self.ranges.iter_mut().zip(area) {
                        *range = Range { low: Some(side.0 as i64), high: Some(side.1 as i64) };
                    }
                    moved || self.begin(model)
                }

                fn leaving(&self, by_least_number: bool) -> Choice {
                    let mut found: Option<Leaving> = None;
                    for (index, (row, variable)) in self.rows.iter().zip(&self.variables).enumerate() {
                        let range = self.ranges[*variable];
                        let scaled = |side: Option<i64>| side.map(|side| (side as $word).checked_mul(row.denominator));
                        let below = match scaled(range.low) {
                            Some(side) => side.and_then(|side| side.checked_sub(row.value)),
                            None => Some(-1),
                        };
                        let above = match scaled(range.high) {
                            Some(side) => side.and_then(|side| row.value.checked_sub(side)),
                            None => Some(-1),
                        };
                        let (Some(below), Some(above)) = (below, above) else {
                            return Choice::TooWide;
                        };
                        let distance = below.max(above);
                        if distance > 0 {
                            let one = Leaving {
                                index,
                                variable: *variable,
                                rises: below > 0,
                                distance: distance.unsigned_abs().into(),
                                weight: row.sum.wrapping_add(row.denominator.unsigned_abs()).into(),
                            };
                            let is_farther = found.is_none_or(|other| {
                                if by_least_number {
                                    one.variable < other.variable
                                } else {
                                    is_roughly_greater(one.distance, one.weight, other.distance, other.weight)
                                }
                            });
                            if is_farther {
                                found = Some(one);
                            }
                        }
                    }
                    found.map_or(Choice::AllWithin, Choice::Leaves)
                }

                fn entering(&self, leaving: &Leaving, by_least_number: bool) -> Option<Candidate> {
                    let mut found: Option<Candidate> = None;
                    for (place, number) in self.rows[leaving.index].numbers.iter().enumerate() {
                        if *number == 0 {
                            continue;
                        }
                        let nonbasic = self.nonbasic[place];
                        if (*number > 0) != (leaving.rises != nonbasic.at_high) || self.ranges[nonbasic.variable].is_fixed() {
                            continue;
                        }
                        let one = Candidate {
                            place,
                            variable: nonbasic.variable,
                            reduced_cost: self.costs.numbers[place].unsigned_abs().into(),
                            number: number.unsigned_abs().into(),
                            perturbation: if self.ties.is_on { self.ties.numbers[place].unsigned_abs().into() } else { 0 },
                        };
                        if found.is_none_or(|other| one.is_before(&other, by_least_number)) {
                            found = Some(one);
                        }
                    }
                    found
                }

                fn exchange(&mut self, leaving: &Leaving, entering: &Candidate) -> bool {
                    let (index, place, at_high) = (leaving.index, entering.place, !leaving.rises);
                    self.rows[index].divide();
                    self.pivot_row.copy_from(&self.rows[index]);
                    let side = self.ranges[leaving.variable].side(at_high) as $word;
                    let product = side.checked_mul(self.pivot_row.denominator);
                    match product.and_then(|product| self.pivot_row.value.checked_sub(product)) {
                        Some(distance) => self.pivot_row.value = distance,
                        None => return false,
                    }
                    let pivot = self.pivot_row.numbers[place];
                    self.pivot_row.numbers[place] = -self.pivot_row.denominator;
                    self.pivot_row.count();
                    if pivot.unsigned_abs() > MOST {
                        return false;
                    }
                    for (i, row) in self.rows.iter_mut().enumerate() {
                        if i != index && !row.prepare(&self.pivot_row, pivot, place) {
                            return false;
                        }
                    }
                    if !self.costs.prepare(&self.pivot_row, pivot, place) {
                        return false;
                    }
                    for (i, row) in self.rows.iter_mut().enumerate() {
                        if i != index {
                            row.eliminate(&self.pivot_row, place);
                        }
                    }
                    self.costs.eliminate(&self.pivot_row, place);
                    self.ties.eliminate(&self.pivot_row, pivot, place);
                    let nonbasic = self.nonbasic[place];
                    let from = self.ranges[nonbasic.variable].side(nonbasic.at_high) as $word;
                    if pivot > 0 {
                        self.pivot_row.numbers.iter_mut().for_each(|number| *number = -*number);
                        self.pivot_row.value = -self.pivot_row.value;
                    }
                    let denominator = pivot.abs();
                    let Some(value) = from.checked_mul(denominator).and_then(|value| value.checked_add(self.pivot_row.value)) else {
                        self.is_spent = true;
                        return false;
                    };
                    self.pivot_row.value = value;
                    self.pivot_row.denominator = denominator;
                    self.rows[index].copy_from(&self.pivot_row);
                    self.variables[index] = entering.variable;
                    self.nonbasic[place] = Nonbasic { variable: leaving.variable, at_high };
                    true
                }

                fn is_cut(&self, cut_at: Option<i128>) -> bool {
                    cut_at.is_some_and(|cost| {
                        let product = (cost - self.constant - 1).checked_mul(self.costs.denominator as i128);
                        product.is_some_and(|product| self.costs.value as i128 > product)
                    })
                }

                fn run(&mut self, limit: u32, cut_at: Option<i128>, steps: &mut u64) -> End {
                    let many = MANY_FLAT_STEPS + 2 * self.rows.len() as u32;
                    let (mut flat, mut taken) = (0, 0);
                    loop {
                        if self.is_cut(cut_at) {
                            return End::Cut;
                        }
                        let leaving = match self.leaving(flat > many) {
                            Choice::AllWithin => return End::Best,
                            Choice::TooWide => return End::TooWide,
                            Choice::Leaves(leaving) => leaving,
                        };
                        let Some(entering) = self.entering(&leaving, flat > many) else {
                            return End::Empty(leaving);
                        };
                        if taken == limit {
                            return End::OutOfSteps;
                        }
                        if !self.exchange(&leaving, &entering) {
                            return End::TooWide;
                        }
                        taken += 1;
                        *steps += 1;
                        flat = if entering.reduced_cost != 0 { 0 } else { flat + 1 };
                        if flat > FLAT_STEPS {
                            self.ties.turn_on(&self.nonbasic);
                        }
                    }
                }

                fn slack_numbers(&self, row: &Row, turned: bool) -> Vec<i128> {
                    let mut multipliers = vec![0; self.rows.len()];
                    for (number, nonbasic) in row.numbers.iter().zip(&self.nonbasic) {
                        if nonbasic.variable >= self.columns {
                            multipliers[nonbasic.variable - self.columns] = if turned { -(*number as i128) } else { *number as i128 };
                        }
                    }
                    multipliers
                }

                fn bound_certificate(&self, may_round: bool) -> Option<Cert> {
                    certificate_of(self.costs.denominator as i128, &self.slack_numbers(&self.costs, false), may_round)
                }

                fn ray(&self, leaving: &Leaving) -> Option<Cert> {
                    let row = &self.rows[leaving.index];
                    let mut multipliers = self.slack_numbers(row, leaving.rises);
                    if leaving.variable >= self.columns {
                        let own = row.denominator as i128;
                        multipliers[leaving.variable - self.columns] = if leaving.rises { own } else { -own };
                    }
                    certificate_of(0, &multipliers, true)
                }

                fn point(&self) -> Option<(Vec<i128>, i128)> {
                    let mut denominator: i128 = 1;
                    let mut values = vec![(0, 1); self.columns];
                    for nonbasic in self.nonbasic.iter().filter(|nonbasic| nonbasic.variable < self.columns) {
                        values[nonbasic.variable] = (i128::from(self.ranges[nonbasic.variable].side(nonbasic.at_high)), 1);
                    }
                    for (row, variable) in self.rows.iter().zip(&self.variables).filter(|pair| *pair.1 < self.columns) {
                        let (numerator, own) = lowest(row.value as i128, row.denominator as i128);
                        values[*variable] = (numerator, own);
                        let shared = gcd(denominator.unsigned_abs(), own.unsigned_abs()) as i128;
                        denominator = (denominator / shared).checked_mul(own).filter(|multiple| *multiple <= 1 << 50)?;
                    }
                    Some((values.iter().map(|(numerator, own)| numerator * (denominator / own)).collect(), denominator))
                }

                /// What is proposed for a box, and whether a number did not fit.
                pub fn propose(
                    &mut self,
                    model: &Model,
                    area: &[(i128, i128)],
                    limit: u32,
                    cut_at: Option<i128>,
                    steps: &mut u64,
                ) -> (Proposed, bool) {
                    if !self.move_to(model, area) {
                        self.is_spent = true;
                        return (Proposed::GaveUp, true);
                    }
                    let end = self.run(limit, cut_at, steps);
                    self.ties.is_on = false;
                    let proposed = match &end {
                        End::Best => self.point().zip(self.bound_certificate(false)).map(|((numerators, denominator), cert)| {
                            Proposed::Best(Proposal { numerators, denominator, cert })
                        }),
                        End::Cut => self.bound_certificate(true).map(Proposed::Cut),
                        End::Empty(leaving) => self.ray(leaving).map(Proposed::Empty),
                        End::OutOfSteps | End::TooWide => None,
                    };
                    let is_wide = matches!(end, End::TooWide);
                    self.is_spent |= is_wide;
                    (proposed.unwrap_or(Proposed::GaveUp), is_wide)
                }

                #[allow(dead_code)]
                /// By how much some steps on a copy raise the cost of a box.
                pub fn probe(&self, model: &Model, area: &[(i128, i128)], limit: u32, steps: &mut u64) -> Option<u64> {
                    let mut copy = self.clone();
                    let cost = |tableau: &Tableau| tableau.costs.value as i128 / tableau.costs.denominator as i128;
                    let before = cost(self);
                    if !copy.move_to(model, area) {
                        return None;
                    }
                    match copy.run(limit, None, steps) {
                        End::TooWide => None,
                        End::Empty(_) => Some(1 << 30),
                        _ => u64::try_from((cost(&copy) - before).max(0)).ok(),
                    }
                }
            }
        }
    };
}

tableau!(wide, i128, u128, 1 << 126, 1 << 62, 1 << 100, 60);
tableau!(narrow, i64, u64, 1 << 62, 1 << 31, 1 << 50, 20);
