//! Operations on polynomials in few variables, done on words of eight exponents.
//!
//! Monomials are kept as `Keyed`. Where at most eight variables occur in all factors of an operation, no exponent is above 32,767, and there
//! are enough contributions, each monomial becomes one word, and the result's words become monomials again.
use crate::monomial::{Keyed, Monomial};
use crate::poly::{self, Fault, Term};

/// From so many contributions for each term of the factors on, words are worth while.
const MANY: usize = 3;

const VARIABLES: usize = 8;
const HIGHEST: u16 = 32_767;

/// The variables of an operation, from the greatest down. The first has the highest sixteen bits of a word.
struct Layout {
    variables: [u32; VARIABLES],
    count: usize,
}

#[inline]
fn shift(place: usize) -> usize {
    16 * (VARIABLES - 1 - place)
}

impl Layout {
    /// The layout of some polynomials, or nothing where they have too many variables or too high exponents.
    fn of(polys: &[&[Term<Keyed>]]) -> Option<Layout> {
        let mut layout = Layout { variables: [0; VARIABLES], count: 0 };
        for poly in polys {
            for term in *poly {
                if !layout.note(&term.monomial) {
                    return None;
                }
            }
        }
        Some(layout)
    }

    /// Adds the variables of a monomial, and answers whether it has a word.
    fn note(&mut self, monomial: &Keyed) -> bool {
        let mut fits = true;
        let mut place = 0;
        monomial.each_power(|(var, exp)| {
            while place < self.count && self.variables[place] > var {
                place += 1;
            }
            if exp > HIGHEST || (place == self.count && self.count == VARIABLES) {
                fits = false;
            } else if place == self.count || self.variables[place] != var {
                fits &= self.insert(place, var);
            }
        });
        fits
    }

    fn insert(&mut self, place: usize, var: u32) -> bool {
        if self.count == VARIABLES {
            return false;
        }
        self.variables.copy_within(place..self.count, place + 1);
        self.variables[place] = var;
        self.count += 1;
        true
    }

    #[inline]
    fn word(&self, monomial: &Keyed) -> u128 {
        let mut word = 0;
        let mut place = 0;
        monomial.each_power(|(var, exp)| {
            while self.variables[place & 7] != var {
                place += 1;
            }
            word |= u128::from(exp) << shift(place);
        });
        word
    }

    #[inline]
    fn monomial(&self, word: u128) -> Keyed {
        let variables = self.variables[..self.count].iter().enumerate();
        Keyed::of(variables.map(|(place, var)| (*var, (word >> shift(place)) as u16)).filter(|power| power.1 > 0))
    }

    fn words(&self, terms: &[Term<Keyed>]) -> Vec<WordTerm> {
        terms.iter().map(|term| WordTerm { word: self.word(&term.monomial), coeff: term.coeff }).collect()
    }

    /// The polynomial of two falling lists: their last merge makes the terms.
    fn squeeze(&self, first: &[Share], second: &[Share]) -> Result<Vec<Term<Keyed>>, Fault> {
        let mut terms = Vec::with_capacity(first.len() + second.len());
        let (mut i, mut j) = (0, 0);
        while i < first.len() || j < second.len() {
            let share = match (first.get(i), second.get(j)) {
                (Some(x), Some(y)) if x.word == y.word => joined(*x, *y),
                (Some(x), Some(y)) if x.word > y.word => *x,
                (Some(x), None) => *x,
                (_, Some(y)) => *y,
                (None, None) => break,
            };
            i += usize::from(first.get(i).is_some_and(|x| x.word == share.word));
            j += usize::from(second.get(j).is_some_and(|y| y.word == share.word));
            if share.weight > i128::MAX as u128 {
                return Err(Fault);
            }
            if share.sum != 0 {
                terms.push(Term { monomial: self.monomial(share.word), coeff: share.sum });
            }
        }
        Ok(terms)
    }
}

#[derive(Clone, Copy)]
struct WordTerm {
    word: u128,
    coeff: i128,
}

#[derive(Clone, Copy)]
struct Share {
    word: u128,
    sum: i128,
    weight: u128,
}

#[inline]
fn joined(x: Share, y: Share) -> Share {
    let weight = x.weight.saturating_add(y.weight);
    if weight > i128::MAX as u128 {
        return Share { word: x.word, sum: 0, weight: u128::MAX };
    }
    Share { word: x.word, sum: x.sum + y.sum, weight }
}

/// Two falling lists as one.
fn merge(first: &[Share], second: &[Share]) -> Vec<Share> {
    let mut shares = Vec::with_capacity(first.len() + second.len());
    let (mut i, mut j) = (0, 0);
    while i < first.len() && j < second.len() {
        let (x, y) = (first[i], second[j]);
        if x.word > y.word {
            shares.push(x);
            i += 1;
        } else if x.word < y.word {
            shares.push(y);
            j += 1;
        } else {
            shares.push(joined(x, y));
            i += 1;
            j += 1;
        }
    }
    shares.extend_from_slice(&first[i..]);
    shares.extend_from_slice(&second[j..]);
    shares
}

/// The contributions of two terms, merged as they are made.
fn pair(t: &WordTerm, s: &WordTerm, us: &[WordTerm], minus: bool) -> Vec<Share> {
    let mut shares = Vec::with_capacity(2 * us.len());
    let (mut i, mut j) = (0, 0);
    while i < us.len() && j < us.len() {
        let (x, y) = (t.word + us[i].word, s.word + us[j].word);
        if x > y {
            shares.push(share(t, &us[i], minus));
            i += 1;
        } else if x < y {
            shares.push(share(s, &us[j], minus));
            j += 1;
        } else {
            shares.push(joined(share(t, &us[i], minus), share(s, &us[j], minus)));
            i += 1;
            j += 1;
        }
    }
    shares.extend(us[i..].iter().map(|u| share(t, u, minus)));
    shares.extend(us[j..].iter().map(|u| share(s, u, minus)));
    shares
}

/// The contributions to a product, by halves of the first factor.
fn part(ts: &[WordTerm], us: &[WordTerm], minus: bool) -> Vec<Share> {
    match ts {
        [] => Vec::new(),
        [t] => us.iter().map(|u| share(t, u, minus)).collect(),
        [t, s] => pair(t, s, us, minus),
        _ => {
            let (front, back) = ts.split_at(ts.len() / 2);
            merge(&part(front, us, minus), &part(back, us, minus))
        }
    }
}

#[inline]
fn share(t: &WordTerm, u: &WordTerm, minus: bool) -> Share {
    let sum = poly::kept(t.coeff, u.coeff, minus);
    Share { word: t.word + u.word, sum, weight: sum.unsigned_abs() }
}

/// The combination `l*q - a*p`.
pub fn combine(l: &[Term<Keyed>], q: &[Term<Keyed>], a: &[Term<Keyed>], p: &[Term<Keyed>]) -> Result<Vec<Term<Keyed>>, Fault> {
    if l.len() * q.len() + a.len() * p.len() < MANY * (l.len() + q.len() + a.len() + p.len()) {
        return poly::combine(l, q, a, p);
    }
    let Some(layout) = Layout::of(&[l, a, q, p]) else {
        return poly::combine(l, q, a, p);
    };
    let first = part(&layout.words(l), &layout.words(q), false);
    let second = part(&layout.words(a), &layout.words(p), true);
    layout.squeeze(&first, &second)
}

/// The product `l*q`.
pub fn times(l: &[Term<Keyed>], q: &[Term<Keyed>]) -> Result<Vec<Term<Keyed>>, Fault> {
    if l.len() * q.len() < MANY * (l.len() + q.len()) {
        return poly::times(l, q);
    }
    let Some(layout) = Layout::of(&[l, q]) else {
        return poly::times(l, q);
    };
    let (l, q) = (layout.words(l), layout.words(q));
    let (front, back) = l.split_at(l.len() / 2);
    layout.squeeze(&part(front, &q, false), &part(back, &q, false))
}
