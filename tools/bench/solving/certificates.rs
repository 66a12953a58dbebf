// Certificates, their bounds over boxes, and the check of a proposed point.
use crate::fractions::{Frac, div, gcd};
use crate::models::{Model, Row};

pub const LARGEST: u64 = 1 << 36;

/// A divisor, and the multipliers of rows that are not 0, by number.
pub struct Cert {
    pub q: i64,
    pub y: Vec<(usize, i64)>,
}

impl Cert {
    /// The certificate whose bound is the sum of the box.
    pub fn plain() -> Cert {
        Cert { q: 1, y: Vec::new() }
    }

    pub fn is_within_limits(&self) -> bool {
        self.q >= 0 && self.q.unsigned_abs() <= LARGEST && self.y.iter().all(|pair| pair.1.unsigned_abs() <= LARGEST)
    }
}

/// What is proposed for a box: a point over a denominator, with a certificate of just its cost.
pub struct Proposal {
    pub numerators: Vec<i128>,
    pub denominator: i128,
    pub cert: Cert,
}

fn side_of(multiplier: i64, row: &Row) -> Option<i128> {
    if multiplier > 0 { row.low } else { row.high }
}

fn take_rows(model: &Model, cert: &Cert, taken: &mut [i128]) {
    taken.fill(0);
    for (k, multiplier) in &cert.y {
        for (j, coefficient) in &model.rows[*k].coefs {
            taken[*j] += i128::from(*multiplier) * coefficient;
        }
    }
}

fn column_sum(model: &Model, q: i64, area: &[(i128, i128)], taken: &[i128]) -> i128 {
    let mut total = 0;
    for ((side, cost), taken) in area.iter().zip(&model.costs).zip(taken) {
        let reduced = i128::from(q) * cost - taken;
        total += (reduced * side.0).min(reduced * side.1);
    }
    total
}

fn paid(model: &Model, cert: &Cert) -> Option<i128> {
    cert.y.iter().map(|(k, multiplier)| Some(i128::from(*multiplier) * side_of(*multiplier, &model.rows[*k])?)).sum()
}

/// The bound of a box by a certificate; none where it is infinite.
pub fn leaf_bound(model: &Model, cert: &Cert, area: &[(i128, i128)], taken: &mut [i128]) -> Option<i128> {
    if area.iter().any(|side| side.1 < side.0) {
        return None;
    }
    if let Some(paid) = paid(model, cert) {
        take_rows(model, cert, taken);
        let value = paid + i128::from(cert.q) * model.constant + column_sum(model, cert.q, area, taken);
        if cert.q > 0 {
            return Some(-(-value).div_euclid(i128::from(cert.q)));
        }
        if value > 0 {
            return None;
        }
    }
    taken.fill(0);
    Some(model.constant + column_sum(model, 1, area, taken))
}

/// Whether a proposed point lies in the relaxation of a box and costs just what the certificate bounds by: complementary slackness.
pub fn is_right(model: &Model, area: &[(i128, i128)], proposal: &Proposal, taken: &mut [i128]) -> bool {
    let (denominator, cert) = (proposal.denominator, &proposal.cert);
    if denominator <= 0 || denominator > 1 << 50 || !cert.is_within_limits() || cert.q <= 0 {
        return false;
    }
    take_rows(model, cert, taken);
    for (j, side) in area.iter().enumerate() {
        let (least, number, greatest) = (denominator * side.0, proposal.numerators[j], denominator * side.1);
        let reduced = i128::from(cert.q) * model.costs[j] - taken[j];
        let is_paid = if reduced > 0 { number == least } else { reduced == 0 || number == greatest };
        if number < least || greatest < number || !is_paid {
            return false;
        }
    }
    let value_of = |row: &Row| row.coefs.iter().map(|(j, coefficient)| coefficient * proposal.numerators[*j]).sum::<i128>();
    let is_within = |row: &Row| {
        let value = value_of(row);
        row.low.is_none_or(|low| low * denominator <= value) && row.high.is_none_or(|high| value <= high * denominator)
    };
    let stands = |pair: &(usize, i64)| {
        let row = &model.rows[pair.0];
        side_of(pair.1, row).is_some_and(|side| side * denominator == value_of(row))
    };
    model.rows.iter().all(is_within) && cert.y.iter().all(stands)
}

fn certificate(prices: &[Frac]) -> Option<Cert> {
    let mut q: u128 = 1;
    for price in prices {
        let own = price.den.unsigned_abs();
        if own > u128::from(LARGEST) {
            return None;
        }
        q = own * (q / gcd(own, q));
        if q > u128::from(LARGEST) {
            return None;
        }
    }
    let mut y = Vec::new();
    for (k, price) in prices.iter().enumerate() {
        let multiple = price.num.checked_mul((q / price.den.unsigned_abs()) as i128)?;
        if multiple.unsigned_abs() > u128::from(LARGEST) {
            return None;
        }
        if multiple != 0 {
            y.push((k, multiple as i64));
        }
    }
    Some(Cert { q: q as i64, y })
}

/// The certificate of dual prices, where its numbers are within their limit.
pub fn cert_of_prices(prices: &[Frac]) -> Option<Cert> {
    certificate(prices)
}

/// The certificate of a ray.
pub fn cert_of_ray(ray: &[Frac]) -> Option<Cert> {
    let Some(first) = ray.iter().find(|number| number.num != 0) else {
        return Some(Cert { q: 0, y: Vec::new() });
    };
    let first = Frac { num: first.num.abs(), den: first.den };
    let numbers = ray.iter().map(|number| div(*number, first).ok()).collect::<Option<Vec<_>>>()?;
    Some(Cert { q: 0, y: certificate(&numbers)?.y })
}
