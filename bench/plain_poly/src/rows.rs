//! Products by factors of at most two terms: their contributions are merged as they are made, and no list of them is stored.
use crate::monomial::Monomial;
use crate::poly::{self, joined, share, Fault, Share, Term};
use std::cmp::Ordering;

/// Shares that are read from the greatest monomial down.
trait Falling<M> {
    /// How many shares are left, if no two have one monomial.
    fn count(&self) -> usize;

    /// The greatest monomial.
    fn front(&self) -> Option<M>;

    /// Takes the share of the greatest monomial.
    fn next(&mut self) -> Result<Option<Share<M>>, Fault>;
}

/// The contributions of one term. The monomial of the next one is made already.
struct Row<'a, M> {
    monomial: M,
    coeff: i128,
    others: &'a [Term<M>],
    minus: bool,
    front: Option<M>,
}

impl<'a, M: Monomial + Copy> Row<'a, M> {
    #[inline]
    fn new(term: Option<&Term<M>>, others: &'a [Term<M>], minus: bool) -> Result<Row<'a, M>, Fault> {
        let Some(term) = term else {
            return Ok(Row { monomial: M::one(), coeff: 0, others: &[], minus, front: None });
        };
        let front = made(term.monomial, others)?;
        Ok(Row { monomial: term.monomial, coeff: term.coeff, others, minus, front })
    }
}

#[inline]
fn made<M: Monomial>(monomial: M, others: &[Term<M>]) -> Result<Option<M>, Fault> {
    match others.first() {
        Some(other) => monomial.times(&other.monomial).ok_or(Fault).map(Some),
        None => Ok(None),
    }
}

impl<M: Monomial + Copy> Falling<M> for Row<'_, M> {
    #[inline]
    fn count(&self) -> usize {
        self.others.len()
    }

    #[inline]
    fn front(&self) -> Option<M> {
        self.front
    }

    #[inline]
    fn next(&mut self) -> Result<Option<Share<M>>, Fault> {
        let (Some(monomial), Some((other, others))) = (self.front, self.others.split_first()) else {
            return Ok(None);
        };
        self.others = others;
        self.front = made(self.monomial, others)?;
        Ok(Some(share(monomial, self.coeff, other.coeff, self.minus)))
    }
}

struct Merged<A, B> {
    first: A,
    second: B,
}

impl<M: Monomial + Copy, A: Falling<M>, B: Falling<M>> Falling<M> for Merged<A, B> {
    #[inline]
    fn count(&self) -> usize {
        self.first.count() + self.second.count()
    }

    #[inline]
    fn front(&self) -> Option<M> {
        match (self.first.front(), self.second.front()) {
            (Some(x), Some(y)) => Some(if x.order(&y) == Ordering::Less { y } else { x }),
            (x, y) => x.or(y),
        }
    }

    #[inline]
    fn next(&mut self) -> Result<Option<Share<M>>, Fault> {
        let Some(x) = self.first.front() else {
            return self.second.next();
        };
        let Some(y) = self.second.front() else {
            return self.first.next();
        };
        match x.order(&y) {
            Ordering::Less => self.second.next(),
            Ordering::Greater => self.first.next(),
            Ordering::Equal => Ok(self.first.next()?.zip(self.second.next()?).map(|(x, y)| joined(x, y))),
        }
    }
}

#[inline]
fn pair<'a, M: Monomial + Copy>(ts: &[Term<M>], us: &'a [Term<M>], minus: bool) -> Result<Merged<Row<'a, M>, Row<'a, M>>, Fault> {
    Ok(Merged { first: Row::new(ts.first(), us, minus)?, second: Row::new(ts.get(1), us, minus)? })
}

fn squeeze<M, S: Falling<M>>(mut shares: S) -> Result<Vec<Term<M>>, Fault> {
    let mut terms = Vec::with_capacity(shares.count());
    while let Some(share) = shares.next()? {
        terms.extend(share.term()?);
    }
    Ok(terms)
}

/// The combination `l*q - a*p`.
pub fn combine<M: Monomial + Copy>(l: &[Term<M>], q: &[Term<M>], a: &[Term<M>], p: &[Term<M>]) -> Result<Vec<Term<M>>, Fault> {
    if l.len() > 2 || a.len() > 2 {
        return poly::combine(l, q, a, p);
    }
    squeeze(Merged { first: pair(l, q, false)?, second: pair(a, p, true)? })
}

/// The product `l*q`.
pub fn times<M: Monomial + Copy>(l: &[Term<M>], q: &[Term<M>]) -> Result<Vec<Term<M>>, Fault> {
    if l.len() > 2 {
        return poly::times(l, q);
    }
    squeeze(pair(l, q, false)?)
}
