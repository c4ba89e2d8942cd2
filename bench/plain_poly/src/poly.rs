//! Polynomials as lists of terms that fall by their monomials, combined by halves with early sums.
use crate::monomial::Monomial;
use std::cmp::Ordering;
use std::collections::VecDeque;

/// A monomial with its coefficient.
pub struct Term<M> {
    pub monomial: M,
    pub coeff: i128,
}

/// A sum of contributions to one monomial, with that of their absolute values. A weight above the limit stands for all those.
pub struct Share<M> {
    monomial: M,
    sum: i128,
    weight: u128,
}

impl<M> Share<M> {
    /// The term of this share, unless its sum is zero.
    #[inline]
    pub fn term(self) -> Result<Option<Term<M>>, Fault> {
        if self.weight > i128::MAX as u128 {
            return Err(Fault);
        }
        Ok((self.sum != 0).then_some(Term { monomial: self.monomial, coeff: self.sum }))
    }
}

/// Why a sum or a product is not made: an exponent is above 65,535, or the absolute values of the contributions to a monomial add up to more than 2^127 - 1.
pub struct Fault;

/// The product of two coefficients with its sign, or the least number where it is out of range.
#[inline]
pub fn kept(x: i128, y: i128, minus: bool) -> i128 {
    let product = x.checked_mul(y).unwrap_or(i128::MIN);
    if minus { product.checked_neg().unwrap_or(i128::MIN) } else { product }
}

/// The share of one contribution.
#[inline]
pub fn share<M>(monomial: M, x: i128, y: i128, minus: bool) -> Share<M> {
    let sum = kept(x, y, minus);
    Share { monomial, sum, weight: sum.unsigned_abs() }
}

#[inline]
pub fn joined<M>(x: Share<M>, y: Share<M>) -> Share<M> {
    let weight = x.weight.saturating_add(y.weight);
    if weight > i128::MAX as u128 {
        return Share { monomial: x.monomial, sum: 0, weight: u128::MAX };
    }
    Share { monomial: x.monomial, sum: x.sum + y.sum, weight }
}

/// Two falling lists as one.
fn merge<M: Monomial>(first: Vec<Share<M>>, second: Vec<Share<M>>) -> Vec<Share<M>> {
    let mut shares = Vec::with_capacity(first.len() + second.len());
    let mut first = first.into_iter();
    let mut second = second.into_iter();
    while let (Some(x), Some(y)) = (first.as_slice().first(), second.as_slice().first()) {
        match x.monomial.order(&y.monomial) {
            Ordering::Less => shares.extend(second.next()),
            Ordering::Greater => shares.extend(first.next()),
            Ordering::Equal => {
                if let (Some(x), Some(y)) = (first.next(), second.next()) {
                    shares.push(joined(x, y));
                }
            }
        }
    }
    shares.extend(first);
    shares.extend(second);
    shares
}

/// The contributions of one term.
fn row<M: Monomial>(t: &Term<M>, us: &[Term<M>], minus: bool) -> Result<Vec<Share<M>>, Fault> {
    let mut row = Vec::with_capacity(us.len());
    for u in us {
        row.push(share(t.monomial.times(&u.monomial).ok_or(Fault)?, t.coeff, u.coeff, minus));
    }
    Ok(row)
}

/// The contributions of two terms, merged as they are made.
fn pair<M: Monomial>(t: &Term<M>, s: &Term<M>, us: &[Term<M>], minus: bool) -> Result<Vec<Share<M>>, Fault> {
    let made = |t: &Term<M>, u: Option<&Term<M>>| match u {
        Some(u) => Ok(Some(share(t.monomial.times(&u.monomial).ok_or(Fault)?, t.coeff, u.coeff, minus))),
        None => Ok(None),
    };
    let mut shares = Vec::with_capacity(2 * us.len());
    let (mut first, mut second) = (us.iter(), us.iter());
    let (mut x, mut y) = (made(t, first.next())?, made(s, second.next())?);
    loop {
        match (x, y) {
            (Some(a), Some(b)) => match a.monomial.order(&b.monomial) {
                Ordering::Less => {
                    shares.push(b);
                    (x, y) = (Some(a), made(s, second.next())?);
                }
                Ordering::Greater => {
                    shares.push(a);
                    (x, y) = (made(t, first.next())?, Some(b));
                }
                Ordering::Equal => {
                    shares.push(joined(a, b));
                    (x, y) = (made(t, first.next())?, made(s, second.next())?);
                }
            },
            (Some(a), None) => {
                shares.push(a);
                (x, y) = (made(t, first.next())?, None);
            }
            (None, Some(b)) => {
                shares.push(b);
                (x, y) = (None, made(s, second.next())?);
            }
            (None, None) => return Ok(shares),
        }
    }
}

/// The contributions to a product, by halves of the first factor.
fn part<M: Monomial>(ts: &[Term<M>], us: &[Term<M>], minus: bool) -> Result<Vec<Share<M>>, Fault> {
    match ts {
        [] => Ok(Vec::new()),
        [t] => row(t, us, minus),
        [t, s] => pair(t, s, us, minus),
        _ => {
            let (front, back) = ts.split_at(ts.len() / 2);
            Ok(merge(part(front, us, minus)?, part(back, us, minus)?))
        }
    }
}

/// The polynomial of two falling lists: their last merge makes the terms.
fn squeeze<M: Monomial>(first: Vec<Share<M>>, second: Vec<Share<M>>) -> Result<Vec<Term<M>>, Fault> {
    let mut terms = Vec::with_capacity(first.len() + second.len());
    let mut first = first.into_iter();
    let mut second = second.into_iter();
    loop {
        let share = match (first.as_slice().first(), second.as_slice().first()) {
            (Some(x), Some(y)) => match x.monomial.order(&y.monomial) {
                Ordering::Less => second.next(),
                Ordering::Greater => first.next(),
                Ordering::Equal => first.next().zip(second.next()).map(|(x, y)| joined(x, y)),
            },
            (Some(_), None) => first.next(),
            (None, _) => second.next(),
        };
        let Some(share) = share else {
            return Ok(terms);
        };
        terms.extend(share.term()?);
    }
}

fn sorted<M: Monomial>(mut shares: Vec<Share<M>>) -> Vec<Share<M>> {
    if shares.len() < 2 {
        return shares;
    }
    let back = shares.split_off(shares.len() / 2);
    merge(sorted(shares), sorted(back))
}

/// The polynomial that contributions in any order add up to.
pub fn from_shares<M: Monomial>(shares: Vec<Share<M>>) -> Result<Vec<Term<M>>, Fault> {
    squeeze(sorted(shares), Vec::new())
}

/// The combination `l*q - a*p`.
pub fn combine<M: Monomial>(l: &[Term<M>], q: &[Term<M>], a: &[Term<M>], p: &[Term<M>]) -> Result<Vec<Term<M>>, Fault> {
    squeeze(part(l, q, false)?, part(a, p, true)?)
}

/// The product `l*q`.
pub fn times<M: Monomial>(l: &[Term<M>], q: &[Term<M>]) -> Result<Vec<Term<M>>, Fault> {
    let (front, back) = l.split_at(l.len() / 2);
    squeeze(part(front, q, false)?, part(back, q, false)?)
}

/// The greatest common divisor of two numbers.
fn gcd(mut x: u128, mut y: u128) -> u128 {
    while y != 0 {
        (x, y) = match (u64::try_from(x), u64::try_from(y)) {
            (Ok(a), Ok(b)) => (y, u128::from(a % b)),
            _ => (y, x % y),
        };
    }
    x
}

/// The greatest common divisor of the coefficients, with the sign of the first.
fn content<M>(terms: &[Term<M>]) -> i128 {
    let mut divisor = 0;
    for term in terms {
        divisor = gcd(divisor, term.coeff.unsigned_abs());
        if divisor == 1 {
            break;
        }
    }
    let negative = terms.first().is_some_and(|term| term.coeff < 0);
    if negative { -(divisor as i128) } else { divisor as i128 }
}

/// The primitive part without the variables that are units, as often as each divides.
pub fn strip<M: Monomial>(terms: &[Term<M>], units: &[u32]) -> Result<Vec<Term<M>>, Fault> {
    let content = content(terms);
    let mut unit = M::one();
    for var in units {
        let least = terms.iter().map(|term| term.monomial.exponent(*var)).min().unwrap_or(0);
        if least > 0 {
            unit = unit.times(&M::power((*var, least))).ok_or(Fault)?;
        }
    }
    let coeff = |coeff: i128| if content == 1 { coeff } else { coeff / content };
    Ok(terms.iter().map(|term| Term { monomial: term.monomial.over(&unit), coeff: coeff(term.coeff) }).collect())
}

/// The term whose product with the divisor is a term, where there is one.
fn term_over<M: Monomial>(term: &Term<M>, divisor: &Term<M>) -> Option<Term<M>> {
    let coeff = match (i64::try_from(term.coeff), i64::try_from(divisor.coeff)) {
        (Ok(x), Ok(y)) => (x % y == 0).then(|| i128::from(x / y)),
        _ => (term.coeff % divisor.coeff == 0).then(|| term.coeff / divisor.coeff),
    }?;
    divisor.monomial.divides(&term.monomial).then(|| Term { monomial: term.monomial.over(&divisor.monomial), coeff })
}

/// What is left of a polynomial once the products of a term and others are taken off, where no coefficient is out of range.
fn less<M: Monomial>(mut rest: VecDeque<Term<M>>, term: &Term<M>, others: &[Term<M>]) -> Option<VecDeque<Term<M>>> {
    let mut made = Vec::new();
    for other in others {
        let monomial = term.monomial.times(&other.monomial)?;
        let coeff = term.coeff.checked_mul(other.coeff)?;
        while let Some(x) = rest.pop_front_if(|x| x.monomial.order(&monomial) == Ordering::Greater) {
            made.push(x);
        }
        match rest.pop_front_if(|x| x.monomial.order(&monomial) == Ordering::Equal) {
            Some(x) => match x.coeff.checked_sub(coeff)? {
                0 => {}
                coeff => made.push(Term { monomial, coeff }),
            },
            None => made.push(Term { monomial, coeff: -coeff }),
        }
    }
    while let Some(x) = made.pop() {
        rest.push_front(x);
    }
    Some(rest)
}

/// The quotient by a polynomial that divides, where the product is light.
pub fn quotient<M: Monomial>(terms: &[Term<M>], divisor: &[Term<M>], is_light: impl Fn(&[Term<M>], &[Term<M>]) -> bool) -> Option<Vec<Term<M>>> {
    let (leading, others) = divisor.split_first()?;
    if let (Some(last), Some(lowest)) = (terms.last(), divisor.last()) {
        term_over(last, lowest)?;
    }
    let same = |term: &Term<M>| Term { monomial: term.monomial.over(&M::one()), coeff: term.coeff };
    let mut rest: VecDeque<Term<M>> = terms.iter().map(same).collect();
    let mut made = Vec::new();
    while let Some(term) = rest.pop_front() {
        let next = term_over(&term, leading)?;
        rest = less(rest, &next, others)?;
        made.push(next);
    }
    is_light(&made, divisor).then_some(made)
}
