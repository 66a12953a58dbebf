// The simplex by which linear programs are defined: an exact tableau of fractions, by the least-number rule.
use crate::fractions::{Frac, Wide, div, frac, mul, sub};
use crate::models::Model;

#[derive(Clone, Copy, PartialEq)]
enum Rest {
    Basic,
    Low,
    High,
    Zero,
}

#[derive(Clone, Copy)]
struct Variable {
    low: Option<i128>,
    high: Option<i128>,
    cost: i128,
}

pub fn whole(number: i128) -> Frac {
    Frac { num: number, den: 1 }
}

fn is_below(a: Frac, c: Frac) -> bool {
    match (a.num.checked_mul(c.den), c.num.checked_mul(a.den)) {
        (Some(left), Some(right)) => left < right,
        _ => {
            let (x, y) = (a.num.div_euclid(a.den), c.num.div_euclid(c.den));
            let (rest, other) = (a.num.rem_euclid(a.den), c.num.rem_euclid(c.den));
            x < y || x == y && rest != other && (rest == 0 || other != 0 && is_below(frac(c.den, other), frac(a.den, rest)))
        }
    }
}

struct Tableau {
    rows: Vec<Vec<Frac>>,
    basics: Vec<usize>,
    rests: Vec<Rest>,
    variables: Vec<Variable>,
}

enum Next {
    Pivot(usize, usize, Rest),
    Flip(usize),
    Row(usize, bool),
    Point,
}

/// The answer of a linear program: a least point with dual prices, a ray, that the steps did not end, or that a number was too wide.
pub enum Answer {
    Best(Vec<Frac>, Vec<Frac>),
    Empty(Vec<Frac>),
    Stopped,
    Wide,
}

impl Tableau {
    fn start(model: &Model, area: &[(i128, i128)]) -> Tableau {
        let (columns, count) = (area.len(), model.rows.len());
        let mut rows = vec![vec![whole(0); columns + count]; count];
        for (k, row) in model.rows.iter().enumerate() {
            for (j, coefficient) in &row.coefs {
                rows[k][*j] = whole(-coefficient);
            }
            rows[k][columns + k] = whole(1);
        }
        let sides = area.iter().zip(&model.costs).map(|(s, c)| Variable { low: Some(s.0), high: Some(s.1), cost: *c });
        let slacks = model.rows.iter().map(|row| Variable { low: row.low, high: row.high, cost: 0 });
        Tableau {
            rows,
            basics: (columns..columns + count).collect(),
            rests: (0..columns + count).map(|v| if v < columns { Rest::Low } else { Rest::Basic }).collect(),
            variables: sides.chain(slacks).collect(),
        }
    }

    fn resting(&self, v: usize) -> i128 {
        match self.rests[v] {
            Rest::Low => self.variables[v].low.unwrap_or(0),
            Rest::High => self.variables[v].high.unwrap_or(0),
            Rest::Basic | Rest::Zero => 0,
        }
    }

    fn value(&self, i: usize) -> Result<Frac, Wide> {
        let mut value = whole(0);
        for v in 0..self.rests.len() {
            if self.rests[v] != Rest::Basic {
                value = sub(value, mul(self.rows[i][v], whole(self.resting(v)))?)?;
            }
        }
        Ok(value)
    }

    fn price(&self, v: usize) -> Result<Frac, Wide> {
        let mut price = whole(self.variables[v].cost);
        for i in 0..self.rows.len() {
            price = sub(price, mul(self.rows[i][v], whole(self.variables[self.basics[i]].cost))?)?;
        }
        Ok(price)
    }

    fn can_go(&self, v: usize, up: bool) -> bool {
        let side = if up { Rest::Low } else { Rest::High };
        let rests = self.rests[v] == side || self.rests[v] == Rest::Zero;
        let fixed = self.variables[v].low.is_some() && self.variables[v].low == self.variables[v].high;
        rests && !fixed
    }

    fn way(&self, sign: i128, v: usize) -> Option<bool> {
        if sign < 0 && self.can_go(v, true) {
            Some(true)
        } else if sign > 0 && self.can_go(v, false) {
            Some(false)
        } else {
            None
        }
    }

    fn next(&self, values: &mut [Frac]) -> Result<Next, Wide> {
        let mut places = vec![None; self.rests.len()];
        for (i, v) in self.basics.iter().enumerate() {
            places[*v] = Some(i);
        }
        for v in 0..self.rests.len() {
            let Some(i) = places[v] else {
                values[v] = whole(self.resting(v));
                continue;
            };
            values[v] = self.value(i)?;
            let sides = self.variables[v];
            let up = if sides.low.is_some_and(|low| is_below(values[v], whole(low))) {
                true
            } else if sides.high.is_some_and(|high| is_below(whole(high), values[v])) {
                false
            } else {
                continue;
            };
            let turn = if up { 1 } else { -1 };
            let mender = (0..self.rests.len()).find(|w| self.way(turn * self.rows[i][*w].num.signum(), *w).is_some());
            let leaving = if up { Rest::Low } else { Rest::High };
            return Ok(mender.map_or(Next::Row(i, up), |w| Next::Pivot(i, w, leaving)));
        }
        for v in 0..self.rests.len() {
            if self.can_go(v, true) || self.can_go(v, false) {
                if let Some(up) = self.way(self.price(v)?.num, v) {
                    return self.go(&places, values, v, up);
                }
            }
        }
        Ok(Next::Point)
    }

    fn go(&self, places: &[Option<usize>], values: &[Frac], v: usize, up: bool) -> Result<Next, Wide> {
        let mut best: Option<(Frac, Next)> = None;
        for w in 0..self.rests.len() {
            let stop = if w == v {
                match (self.variables[v].low, self.variables[v].high) {
                    (Some(low), Some(high)) => Some((whole(high - low), Next::Flip(v))),
                    _ => None,
                }
            } else if let Some(i) = places[w].filter(|i| self.rows[*i][v].num != 0) {
                let rises = (self.rows[i][v].num < 0) == up;
                let side = if rises { self.variables[w].high } else { self.variables[w].low };
                let leaving = if rises { Rest::High } else { Rest::Low };
                match side {
                    Some(side) => {
                        let far = div(sub(values[w], whole(side))?, self.rows[i][v])?;
                        Some((Frac { num: far.num.abs(), den: far.den }, Next::Pivot(i, v, leaving)))
                    }
                    None => None,
                }
            } else {
                None
            };
            if let Some(stop) = stop {
                if best.as_ref().is_none_or(|found| is_below(stop.0, found.0)) {
                    best = Some(stop);
                }
            }
        }
        Ok(best.map_or(Next::Point, |found| found.1))
    }

    fn pivot(&mut self, r: usize, v: usize, leaving: Rest) -> Result<(), Wide> {
        let pivot = self.rows[r][v];
        let mut quotients = self.rows[r].clone();
        for number in &mut quotients {
            if number.num != 0 {
                *number = div(*number, pivot)?;
            }
        }
        for i in 0..self.rows.len() {
            let factor = self.rows[i][v];
            if i != r && factor.num != 0 {
                for w in 0..quotients.len() {
                    if quotients[w].num != 0 {
                        self.rows[i][w] = sub(self.rows[i][w], mul(factor, quotients[w])?)?;
                    }
                }
            }
        }
        self.rows[r] = quotients;
        self.rests[self.basics[r]] = leaving;
        self.rests[v] = Rest::Basic;
        self.basics[r] = v;
        Ok(())
    }
}

fn negated(number: Frac) -> Frac {
    Frac { num: -number.num, den: number.den }
}

fn solve(model: &Model, area: &[(i128, i128)], pivots: u32, steps: &mut u64) -> Result<Answer, Wide> {
    let mut tableau = Tableau::start(model, area);
    let mut values = vec![whole(0); tableau.rests.len()];
    let slacks = area.len()..tableau.rests.len();
    let mut taken = 0;
    loop {
        match tableau.next(&mut values)? {
            Next::Point => {
                let prices = slacks.map(|v| tableau.price(v)).collect::<Result<_, _>>()?;
                values.truncate(area.len());
                return Ok(Answer::Best(values, prices));
            }
            Next::Row(i, up) => {
                let turned = |number| if up { number } else { negated(number) };
                return Ok(Answer::Empty(slacks.map(|v| turned(tableau.rows[i][v])).collect()));
            }
            _ if taken == pivots => return Ok(Answer::Stopped),
            Next::Pivot(r, v, leaving) => {
                *steps += 1;
                tableau.pivot(r, v, leaving)?;
            }
            Next::Flip(v) => {
                *steps += 1;
                tableau.rests[v] = if tableau.rests[v] == Rest::Low { Rest::High } else { Rest::Low };
            }
        }
        taken += 1;
    }
}

/// The linear program of a box, in at most so many pivots and flips, which are counted.
pub fn solve_lp(model: &Model, area: &[(i128, i128)], pivots: u32, steps: &mut u64) -> Answer {
    solve(model, area, pivots, steps).unwrap_or(Answer::Wide)
}
