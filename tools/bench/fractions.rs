// The fractions of `frac128` with the same algorithms in plain Rust.

#[derive(Clone, Copy)]
pub struct Frac {
    pub num: i128,
    pub den: i128,
}

pub struct Wide;

const LIMIT: i128 = i64::MAX as i128;

fn in_range(number: i128) -> Option<i128> {
    if number == i128::MIN { None } else { Some(number) }
}

fn times(a: i128, b: i128) -> Option<i128> {
    if let (Ok(a), Ok(b)) = (i64::try_from(a), i64::try_from(b)) {
        return Some(i128::from(a) * i128::from(b));
    }
    a.checked_mul(b).and_then(in_range)
}

fn plus(a: i128, b: i128) -> Option<i128> {
    a.checked_add(b).and_then(in_range)
}

fn over(a: i128, b: i128) -> i128 {
    if b == 1 { a } else { a / b }
}

const WORD: u128 = u64::MAX as u128;

pub fn gcd(a: u128, b: u128) -> u128 {
    if a == 0 {
        return b;
    }
    if b == 0 {
        return a;
    }
    if b <= WORD {
        return u128::from(word_gcd(b as u64, (a % b) as u64));
    }
    if a <= WORD {
        return u128::from(word_gcd(a as u64, (b % a) as u64));
    }
    let (twos, other_twos) = (a.trailing_zeros(), b.trailing_zeros());
    odd_long_gcd(a >> twos, b >> other_twos) << twos.min(other_twos)
}

fn odd_long_gcd(mut x: u128, mut y: u128) -> u128 {
    while x != y {
        if x <= WORD && y <= WORD {
            return u128::from(odd_gcd(x as u64, y as u64));
        }
        let gap = x.abs_diff(y);
        y = x.min(y);
        x = gap >> gap.trailing_zeros();
    }
    x
}

fn shared(a: i128, b: i128) -> i128 {
    gcd(a.unsigned_abs(), b.unsigned_abs()) as i128
}

fn odd_gcd(mut x: u64, mut y: u64) -> u64 {
    while x != y {
        let gap = x.abs_diff(y);
        y = x.min(y);
        x = gap >> gap.trailing_zeros();
    }
    x
}

fn word_gcd(a: u64, b: u64) -> u64 {
    if a == 0 {
        return b;
    }
    if b == 0 {
        return a;
    }
    let (twos, other_twos) = (a.trailing_zeros(), b.trailing_zeros());
    odd_gcd(a >> twos, b >> other_twos) << twos.min(other_twos)
}

fn word_shared(a: i64, b: i64) -> i64 {
    if b == 1 { 1 } else { word_gcd(a.unsigned_abs(), b.unsigned_abs()) as i64 }
}

fn word_over(a: i64, b: i64) -> i64 {
    if b == 1 { a } else { a / b }
}

fn word_product(a: i64, b: i64) -> i128 {
    i128::from(a) * i128::from(b)
}

fn over_word(a: i128, b: i64) -> i128 {
    if b == 1 {
        return a;
    }
    match i64::try_from(a) {
        Ok(word) => i128::from(word / b),
        Err(_) => a / i128::from(b),
    }
}

fn rest_by_word(a: i128, b: i64) -> i64 {
    match i64::try_from(a) {
        Ok(word) => word % b,
        Err(_) => (a % i128::from(b)) as i64,
    }
}

pub fn frac(num: i128, den: i128) -> Frac {
    let factor = shared(num, den);
    Frac { num: over(num, factor), den: over(den, factor) }
}

fn is_small(a: Frac) -> bool {
    -LIMIT <= a.num && a.num <= LIMIT && a.den <= LIMIT
}

pub fn mul(a: Frac, c: Frac) -> Result<Frac, Wide> {
    if a.den == 1 && c.den == 1 {
        return times(a.num, c.num).map(|num| Frac { num, den: 1 }).ok_or(Wide);
    }
    if a.num == 0 || c.num == 0 {
        return Ok(Frac { num: 0, den: 1 });
    }
    if is_small(a) && is_small(c) {
        return Ok(small_product(a, c));
    }
    general_product(a, c)
}

fn small_product(a: Frac, c: Frac) -> Frac {
    let (num, den, other_num, other_den) = (a.num as i64, a.den as i64, c.num as i64, c.den as i64);
    let first = word_shared(num, other_den);
    let second = word_shared(other_num, den);
    Frac {
        num: word_product(word_over(num, first), word_over(other_num, second)),
        den: word_product(word_over(den, second), word_over(other_den, first)),
    }
}

fn general_product(a: Frac, c: Frac) -> Result<Frac, Wide> {
    let first = shared(a.num, c.den);
    let second = shared(c.num, a.den);
    let num = times(over(a.num, first), over(c.num, second)).ok_or(Wide)?;
    let den = times(over(a.den, second), over(c.den, first)).ok_or(Wide)?;
    Ok(Frac { num, den })
}

pub fn sub(a: Frac, c: Frac) -> Result<Frac, Wide> {
    let c = Frac { num: -c.num, den: c.den };
    if a.den == 1 && c.den == 1 {
        return plus(a.num, c.num).map(|num| Frac { num, den: 1 }).ok_or(Wide);
    }
    if a.num == 0 {
        return Ok(c);
    }
    if c.num == 0 {
        return Ok(a);
    }
    if is_small(a) && is_small(c) {
        return Ok(small_sum(a, c));
    }
    general_sum(a, c)
}

fn small_sum(a: Frac, c: Frac) -> Frac {
    let (num, den, other_num, other_den) = (a.num as i64, a.den as i64, c.num as i64, c.den as i64);
    let common = if den == other_den { den } else { word_shared(den, other_den) };
    let (left_factor, right_factor) = (word_over(other_den, common), word_over(den, common));
    let sum = word_product(num, left_factor) + word_product(other_num, right_factor);
    let under = word_product(right_factor, other_den);
    let factor = if common == 1 { 1 } else { word_shared(rest_by_word(sum, common), common) };
    Frac { num: over_word(sum, factor), den: over_word(under, factor) }
}

fn general_sum(a: Frac, c: Frac) -> Result<Frac, Wide> {
    let common = shared(a.den, c.den);
    let left_factor = over(c.den, common);
    let right_factor = over(a.den, common);
    let left = times(a.num, left_factor).ok_or(Wide)?;
    let right = times(c.num, right_factor).ok_or(Wide)?;
    let den = times(right_factor, c.den).ok_or(Wide)?;
    let num = plus(left, right).ok_or(Wide)?;
    let factor = shared(num, common);
    Ok(Frac { num: over(num, factor), den: over(den, factor) })
}

#[allow(dead_code)]
pub fn div(a: Frac, c: Frac) -> Result<Frac, Wide> {
    let c = if c.num < 0 { Frac { num: -c.den, den: -c.num } } else { Frac { num: c.den, den: c.num } };
    mul(a, c)
}
