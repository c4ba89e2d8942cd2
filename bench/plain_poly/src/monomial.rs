//! Products of powers of variables, in the order of the greatest variable, in three forms.
use std::cmp::Ordering;

/// A power: a variable and its exponent.
pub type Power = (u32, u16);

/// What the polynomials ask of a monomial.
pub trait Monomial: Sized {
    /// The monomial one.
    fn one() -> Self;

    /// The power of a variable.
    fn power(power: Power) -> Self;

    /// The product, or nothing where an exponent is above 65,535.
    fn times(&self, other: &Self) -> Option<Self>;

    /// The exponent of a variable.
    fn exponent(&self, var: u32) -> u16;

    /// The quotient by a monomial that divides this one.
    fn over(&self, divisor: &Self) -> Self;

    /// Whether no exponent is above that of another monomial.
    fn divides(&self, other: &Self) -> bool {
        let mut divides = true;
        self.each_power(|(var, exp)| divides &= exp <= other.exponent(var));
        divides
    }

    /// The order by the exponent of the greatest variable in which two monomials differ.
    fn order(&self, other: &Self) -> Ordering;

    /// Gives each power, from the greatest variable down.
    fn each_power(&self, f: impl FnMut(Power));
}

const INLINE: usize = 6;

/// Powers from the greatest variable down, in the value where they are few.
pub enum Listed {
    Few(u8, [Power; INLINE]),
    Many(Vec<Power>),
}

impl Listed {
    #[inline]
    fn powers(&self) -> &[Power] {
        match self {
            Listed::Few(n, powers) => &powers[..(*n as usize).min(INLINE)],
            Listed::Many(powers) => powers,
        }
    }

    #[inline]
    fn push(&mut self, power: Power) {
        match self {
            Listed::Few(n, powers) if (*n as usize) < INLINE => {
                powers[*n as usize] = power;
                *n += 1;
            }
            _ => self.push_many(power),
        }
    }

    #[cold]
    fn push_many(&mut self, power: Power) {
        match self {
            Listed::Few(_, powers) => {
                let mut many = Vec::with_capacity(2 * INLINE);
                many.extend_from_slice(powers);
                many.push(power);
                *self = Listed::Many(many);
            }
            Listed::Many(powers) => powers.push(power),
        }
    }
}

impl Monomial for Listed {
    fn one() -> Listed {
        Listed::Few(0, [(0, 0); INLINE])
    }

    fn power(power: Power) -> Listed {
        let mut one = Listed::one();
        one.push(power);
        one
    }

    #[inline]
    fn times(&self, other: &Listed) -> Option<Listed> {
        let (mut first, mut second) = (self.powers(), other.powers());
        let mut product = Listed::one();
        while let ([x, xs @ ..], [y, ys @ ..]) = (first, second) {
            if x.0 < y.0 {
                product.push(*y);
                second = ys;
            } else if x.0 > y.0 {
                product.push(*x);
                first = xs;
            } else {
                product.push((x.0, x.1.checked_add(y.1)?));
                first = xs;
                second = ys;
            }
        }
        for x in first {
            product.push(*x);
        }
        for y in second {
            product.push(*y);
        }
        Some(product)
    }

    fn exponent(&self, var: u32) -> u16 {
        self.powers().iter().find(|power| power.0 == var).map_or(0, |power| power.1)
    }

    fn over(&self, divisor: &Listed) -> Listed {
        let mut quotient = Listed::one();
        for (var, exp) in self.powers() {
            let less = divisor.exponent(*var);
            if less < *exp {
                quotient.push((*var, exp - less));
            }
        }
        quotient
    }

    #[inline]
    fn order(&self, other: &Listed) -> Ordering {
        for (x, y) in self.powers().iter().zip(other.powers()) {
            let (x, y) = (u64::from(x.0) << 16 | u64::from(x.1), u64::from(y.0) << 16 | u64::from(y.1));
            if x != y {
                return x.cmp(&y);
            }
        }
        self.powers().len().cmp(&other.powers().len())
    }

    fn each_power(&self, mut f: impl FnMut(Power)) {
        for power in self.powers() {
            f(*power);
        }
    }
}

/// The exponents of the variables 0 to 7 in one word, sixteen bits each, the greatest variable highest.
#[derive(Clone, Copy)]
pub struct Packed(u128);

/// How many variables a packed monomial has.
pub const PACKED: u32 = 8;

const HIGH_BITS: u128 = 0x8000_8000_8000_8000_8000_8000_8000_8000;

impl Monomial for Packed {
    fn one() -> Packed {
        Packed(0)
    }

    fn power((var, exp): Power) -> Packed {
        Packed(u128::from(exp) << (16 * var))
    }

    #[inline]
    fn times(&self, other: &Packed) -> Option<Packed> {
        let (x, y) = (self.0, other.0);
        // Where no exponent has its highest bit set, no sum carries into the next one.
        if (x | y) & HIGH_BITS == 0 {
            return Some(Packed(x + y));
        }
        let mut sum = 0;
        for var in 0..PACKED {
            let exp = ((x >> (16 * var)) as u16).checked_add((y >> (16 * var)) as u16)?;
            sum |= u128::from(exp) << (16 * var);
        }
        Some(Packed(sum))
    }

    #[inline]
    fn exponent(&self, var: u32) -> u16 {
        (self.0 >> (16 * var)) as u16
    }

    #[inline]
    fn over(&self, divisor: &Packed) -> Packed {
        Packed(self.0 - divisor.0)
    }

    #[inline]
    fn divides(&self, other: &Packed) -> bool {
        if (self.0 | other.0) & HIGH_BITS == 0 {
            return ((other.0 | HIGH_BITS) - self.0) & HIGH_BITS == HIGH_BITS;
        }
        (0..PACKED).all(|var| self.exponent(var) <= other.exponent(var))
    }

    #[inline]
    fn order(&self, other: &Packed) -> Ordering {
        self.0.cmp(&other.0)
    }

    fn each_power(&self, mut f: impl FnMut(Power)) {
        for var in (0..PACKED).rev() {
            let exp = (self.0 >> (16 * var)) as u16;
            if exp > 0 {
                f((var, exp));
            }
        }
    }
}

const KEYS: usize = 8;

/// Powers from the greatest variable down. Up to eight powers of variables below 65,536 are kept as keys of sixteen bits of the variable and sixteen of
/// the exponent, and zeros after them. Other monomials are kept in a list of their own, and then the keys are not used.
pub struct Keyed {
    keys: [u32; KEYS],
    listed: Option<Box<[Power]>>,
}

impl Keyed {
    /// The monomial of at most eight powers, from the greatest variable down.
    #[inline]
    pub fn of(powers: impl Iterator<Item = Power> + Clone) -> Keyed {
        let mut keys = [0; KEYS];
        for (key, (var, exp)) in keys.iter_mut().zip(powers.clone()) {
            if var > 65535 {
                return Keyed { keys, listed: Some(powers.collect()) };
            }
            *key = var << 16 | u32::from(exp);
        }
        Keyed { keys, listed: None }
    }

    #[inline]
    fn power_at(&self, i: usize) -> Option<Power> {
        if let Some(powers) = &self.listed {
            return powers.get(i).copied();
        }
        match self.keys.get(i) {
            None | Some(0) => None,
            Some(key) => Some((key >> 16, (key & 0xffff) as u16)),
        }
    }

    #[inline(never)]
    fn times_listed(&self, other: &Keyed) -> Option<Keyed> {
        let mut product = Vec::with_capacity(2 * KEYS);
        let (mut i, mut j) = (0, 0);
        loop {
            let (x, y) = (self.power_at(i), other.power_at(j));
            match (x, y) {
                (None, None) => break,
                (Some(x), Some(y)) if x.0 == y.0 => product.push((x.0, x.1.checked_add(y.1)?)),
                _ => product.extend(x.max(y)),
            }
            let last = product.last().map(|power| power.0);
            i += usize::from(x.map(|power| power.0) == last);
            j += usize::from(y.map(|power| power.0) == last);
        }
        Some(Keyed { keys: [0; KEYS], listed: Some(product.into_boxed_slice()) })
    }

    #[inline(never)]
    fn order_listed(&self, other: &Keyed) -> Ordering {
        for i in 0.. {
            let (x, y) = (self.power_at(i), other.power_at(i));
            if x != y || x.is_none() {
                return x.cmp(&y);
            }
        }
        Ordering::Equal
    }
}

impl Monomial for Keyed {
    fn one() -> Keyed {
        Keyed { keys: [0; KEYS], listed: None }
    }

    fn power((var, exp): Power) -> Keyed {
        let mut keys = [0; KEYS];
        if var > 65535 {
            return Keyed { keys, listed: Some(Box::new([(var, exp)])) };
        }
        keys[0] = var << 16 | u32::from(exp);
        Keyed { keys, listed: None }
    }

    #[inline]
    fn times(&self, other: &Keyed) -> Option<Keyed> {
        if self.listed.is_some() || other.listed.is_some() {
            return self.times_listed(other);
        }
        let mut keys = [0; KEYS];
        let (mut i, mut j, mut n) = (0, 0, 0);
        loop {
            let x = if i < KEYS { self.keys[i] } else { 0 };
            let y = if j < KEYS { other.keys[j] } else { 0 };
            if x | y == 0 {
                return Some(Keyed { keys, listed: None });
            }
            if n == KEYS {
                return self.times_listed(other);
            }
            if (x ^ y) >> 16 == 0 {
                if (x & 0xffff) + (y & 0xffff) > 65535 {
                    return None;
                }
                keys[n] = x + (y & 0xffff);
                i += 1;
                j += 1;
            } else if x > y {
                keys[n] = x;
                i += 1;
            } else {
                keys[n] = y;
                j += 1;
            }
            n += 1;
        }
    }

    #[inline]
    fn exponent(&self, var: u32) -> u16 {
        if let Some(powers) = &self.listed {
            return powers.iter().find(|power| power.0 == var).map_or(0, |power| power.1);
        }
        self.keys.iter().find(|key| **key != 0 && **key >> 16 == var).map_or(0, |key| *key as u16)
    }

    #[inline]
    fn over(&self, divisor: &Keyed) -> Keyed {
        if self.listed.is_some() {
            let mut left = Vec::new();
            self.each_power(|(var, exp)| left.push((var, exp - divisor.exponent(var))));
            left.retain(|power| power.1 > 0);
            return Keyed { keys: [0; KEYS], listed: Some(left.into_boxed_slice()) };
        }
        let mut keys = [0; KEYS];
        let mut n = 0;
        for key in self.keys.iter().take_while(|key| **key != 0) {
            let less = u32::from(divisor.exponent(key >> 16));
            if less < key & 0xffff {
                keys[n & 7] = key - less;
                n += 1;
            }
        }
        Keyed { keys, listed: None }
    }

    #[inline]
    fn order(&self, other: &Keyed) -> Ordering {
        if self.listed.is_some() || other.listed.is_some() {
            return self.order_listed(other);
        }
        for (x, y) in self.keys.iter().zip(&other.keys) {
            if x != y {
                return x.cmp(y);
            }
        }
        Ordering::Equal
    }

    fn each_power(&self, mut f: impl FnMut(Power)) {
        if let Some(powers) = &self.listed {
            for power in powers.iter() {
                f(*power);
            }
        }
        for key in self.keys.iter().take_while(|key| **key != 0) {
            f((key >> 16, (key & 0xffff) as u16));
        }
    }
}
