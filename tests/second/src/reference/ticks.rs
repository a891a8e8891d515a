//! Ticks: which of them a partition covers, and whether two partitions ever cover one together. Korst's condition
//! and Euclid's rule are used nowhere here.

/// One partition's executions: they cover the ticks from start + m * period up to but not including
/// start + m * period + budget, for every m from 0 on.
#[derive(Clone, Copy, Debug, PartialEq, Eq)]
pub struct Run {
    pub start: u64,
    pub period: u64,
    pub budget: u64,
}

impl Run {
    pub fn covers(&self, tick: u64) -> bool {
        tick >= self.start && (tick - self.start) % self.period < self.budget
    }
}

/// The prime powers of a number, by trial division: pairs of prime and exponent.
fn prime_powers(mut number: u64) -> Vec<(u64, u32)> {
    let mut powers = vec![];
    let mut prime = 2;
    while prime * prime <= number {
        let mut exponent = 0;
        while number % prime == 0 {
            number /= prime;
            exponent += 1;
        }
        if exponent > 0 {
            powers.push((prime, exponent));
        }
        prime += 1;
    }
    if number > 1 {
        powers.push((number, 1));
    }
    powers
}

/// The least common multiple, by the largest power of each prime; none when it is above `most`. 1 for no numbers.
pub fn least_common_multiple(numbers: &[u64], most: u64) -> Option<u64> {
    let mut largest: Vec<(u64, u32)> = vec![];
    for number in numbers {
        for (prime, exponent) in prime_powers(*number) {
            match largest.iter_mut().find(|entry| entry.0 == prime) {
                Some(entry) => entry.1 = entry.1.max(exponent),
                None => largest.push((prime, exponent)),
            }
        }
    }
    let mut product: u128 = 1;
    for (prime, exponent) in largest {
        for _ in 0..exponent {
            product *= prime as u128;
            if product > most as u128 {
                return None;
            }
        }
    }
    Some(product as u64)
}

/// The greatest common divisor without a division: halving and subtracting.
pub fn greatest_common_divisor(mut a: u64, mut b: u64) -> u64 {
    let mut twos = 0;
    while a % 2 == 0 && b % 2 == 0 {
        a /= 2;
        b /= 2;
        twos += 1;
    }
    while a != b {
        if a % 2 == 0 {
            a /= 2;
        } else if b % 2 == 0 {
            b /= 2;
        } else if a > b {
            a -= b;
        } else {
            b -= a;
        }
    }
    a << twos
}

/// The first tick that both cover, walked over one whole common period (`together`) from the later start on; after
/// that everything comes back.
pub fn first_meeting(a: Run, b: Run, together: u64) -> Option<u64> {
    let from = a.start.max(b.start);
    (from..from + together).find(|tick| a.covers(*tick) && b.covers(*tick))
}

/// Whether no tick is covered by both, over residues: what both cover, taken by the divisor g of both periods, are two
/// sets of remainders. Two executions far enough on meet exactly when a remainder is in both sets (Chinese remainders).
pub fn apart_by_residues(a: Run, b: Run) -> bool {
    let g = greatest_common_divisor(a.period, b.period);
    let mut covered = vec![false; g as usize];
    for tick in a.start..a.start + a.budget.min(g) {
        covered[(tick % g) as usize] = true;
    }
    (b.start..b.start + b.budget.min(g)).all(|tick| !covered[(tick % g) as usize])
}

/// Whether no tick is covered by both: walked where the common period is short, by residues where it is long.
pub fn apart(a: Run, b: Run) -> bool {
    if a.period * b.period <= 64 {
        first_meeting(a, b, a.period * b.period).is_none()
    } else {
        apart_by_residues(a, b)
    }
}
