//! The work of the crate `poly_bench` in plain Rust: the same polynomials, combinations and checksum, with early sums.
//!
//! The arguments are those of `poly_bench`: ROUNDS TERMS SHORT VARIABLES POWERS [product | strip | reading | quotient | refused]. A last word says how monomials
//! are stored: `listed` (as without it), up to six powers in the value; `keyed`, up to eight powers of 32 bits in the value; `mixed`, as `keyed`, and operations in at most eight variables are done on words of eight exponents; `packed`, for at most eight
//! variables, all exponents in one word throughout.
mod monomial;
mod poly;
mod rows;
mod words;

use monomial::{Keyed, Listed, Monomial, Packed, PACKED};
use poly::{combine, from_shares, quotient, share, strip, times, Fault, Term};
use std::process::ExitCode;

/// The xorshift generator with the shifts 13, 7 and 17, begun at a fixed number.
struct Numbers {
    state: u64,
}

impl Numbers {
    fn next(&mut self) -> u64 {
        self.state ^= self.state << 13;
        self.state ^= self.state >> 7;
        self.state ^= self.state << 17;
        self.state
    }
}

/// How monomials are stored.
enum Form {
    Packed,
    Mixed,
    Keyed,
    Listed,
}

struct Plan {
    rounds: u32,
    terms: u32,
    short: u32,
    variables: u32,
    powers: u32,
    operation: Operation,
    form: Form,
}

fn random_monomial<M: Monomial>(numbers: &mut Numbers, plan: &Plan) -> Result<M, Fault> {
    let mut product = M::one();
    for _ in 0..plan.powers {
        let var = (numbers.next() % u64::from(plan.variables)) as u32;
        let exp = if numbers.next() % 2 == 0 { 1 } else { 2 };
        product = product.times(&M::power((var, exp))).ok_or(Fault)?;
    }
    Ok(product)
}

fn random_poly<M: Monomial>(numbers: &mut Numbers, plan: &Plan, terms: u32) -> Result<Vec<Term<M>>, Fault> {
    let mut shares = Vec::new();
    for _ in 0..terms {
        let monomial = random_monomial(numbers, plan)?;
        shares.push(share(monomial, 1 + i128::from(numbers.next() % 9), 1, false));
    }
    from_shares(shares)
}

fn checksum<M: Monomial>(terms: &[Term<M>]) -> u64 {
    let mut sum = 0u64;
    for term in terms {
        let mut hash = 1u64;
        term.monomial.each_power(|(var, exp)| {
            hash = hash.wrapping_mul(31).wrapping_add(u64::from(var));
            hash = hash.wrapping_mul(31).wrapping_add(u64::from(exp));
        });
        let size = (term.coeff.unsigned_abs() % 1_000_000_007) as u64;
        sum = sum.wrapping_add(hash.wrapping_mul(size));
    }
    sum
}

/// What each round makes.
enum Operation {
    Combination,
    Product,
    Strip,
    Reading,
    Quotient,
    Refused,
}

/// The polynomial that an operation on `l`, `q`, `a` and `p` makes.
type Made<M> = fn(&[Term<M>], &[Term<M>], &[Term<M>], &[Term<M>]) -> Result<Vec<Term<M>>, Fault>;

fn run<M: Monomial>(plan: &Plan, combine: Made<M>, times: Made<M>) -> Result<u64, Fault> {
    let mut numbers = Numbers { state: 88_172_645_463_325_252 };
    let q = random_poly::<M>(&mut numbers, plan, plan.terms)?;
    let p = random_poly::<M>(&mut numbers, plan, plan.terms)?;
    let l = random_poly::<M>(&mut numbers, plan, plan.short)?;
    let a = random_poly::<M>(&mut numbers, plan, plan.short)?;
    let unit = M::power((1, 1)).times(&M::power((0, 2))).ok_or(Fault)?;
    let whole = times(&[Term { monomial: unit, coeff: 6 }], &q, &[], &[])?;
    let product = times(&l, &q, &a, &p)?;
    let mut changed = times(&l, &q, &a, &p)?;
    let middle = changed.len() / 2;
    if let Some(term) = changed.get_mut(middle) {
        term.coeff *= 2;
    }
    let quotient_or_one = |p: &[Term<M>]| quotient(p, &l, |g, n| times(g, n, &[], &[]).is_ok()).unwrap_or_else(|| vec![Term { monomial: M::one(), coeff: 1 }]);
    let mut sum = 0u64;
    for round in 0..plan.rounds {
        let made = match plan.operation {
            Operation::Combination => combine(&l, &q, &a, &p)?,
            Operation::Product => times(&l, &q, &a, &p)?,
            Operation::Strip => strip(&whole, &[0, 1])?,
            Operation::Quotient => quotient_or_one(&product),
            Operation::Refused => quotient_or_one(&changed),
            Operation::Reading => {
                sum = sum.wrapping_add(checksum(&q));
                continue;
            }
        };
        let told = if round + 1 == plan.rounds { checksum(&made) } else { made.len() as u64 };
        sum = sum.wrapping_add(told);
    }
    Ok(sum)
}

fn plan(mut words: Vec<String>) -> Option<Plan> {
    let form = match words.last().map(String::as_str) {
        Some("packed") => Form::Packed,
        Some("mixed") => Form::Mixed,
        Some("keyed") => Form::Keyed,
        _ => Form::Listed,
    };
    words.pop_if(|word| ["packed", "mixed", "keyed", "listed"].contains(&word.as_str()));
    let operation = match words.last().map(String::as_str) {
        Some("product") => Operation::Product,
        Some("strip") => Operation::Strip,
        Some("reading") => Operation::Reading,
        Some("quotient") => Operation::Quotient,
        Some("refused") => Operation::Refused,
        _ => Operation::Combination,
    };
    words.pop_if(|word| ["product", "strip", "reading", "quotient", "refused"].contains(&word.as_str()));
    let [rounds, terms, short, variables, powers] = words.as_slice() else {
        return None;
    };
    let plan = Plan {
        rounds: rounds.parse().ok()?,
        terms: terms.parse().ok()?,
        short: short.parse().ok()?,
        variables: variables.parse().ok()?,
        powers: powers.parse().ok()?,
        operation,
        form,
    };
    let few = plan.variables <= PACKED || !matches!(plan.form, Form::Packed);
    (plan.variables > 0 && few).then_some(plan)
}

fn main() -> ExitCode {
    let Some(plan) = plan(std::env::args().skip(1).collect()) else {
        eprintln!("plain_poly: wanted: ROUNDS TERMS SHORT VARIABLES POWERS [product | strip | reading | quotient | refused] [packed | mixed | keyed | listed], of which VARIABLES is at least 1, and at most 8 where packed");
        return ExitCode::from(2);
    };
    let answer = match plan.form {
        Form::Packed => run::<Packed>(&plan, rows::combine, |l, q, _, _| rows::times(l, q)),
        Form::Mixed => run::<Keyed>(&plan, words::combine, |l, q, _, _| words::times(l, q)),
        Form::Keyed => run::<Keyed>(&plan, combine, |l, q, _, _| times(l, q)),
        Form::Listed => run::<Listed>(&plan, combine, |l, q, _, _| times(l, q)),
    };
    match answer {
        Ok(sum) => {
            println!("{sum}");
            ExitCode::SUCCESS
        }
        Err(Fault) => {
            eprintln!("plain_poly: an exponent or a coefficient is out of range");
            ExitCode::from(2)
        }
    }
}
