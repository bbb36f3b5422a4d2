//! The two kinds of number: scalars modulo q, and elements of the group of
//! order q modulo P. Written from documents 01 and 02 alone.

use std::ops::{Add, Mul, Sub};

/// The order of the group, a prime.
pub const Q: u32 = 500_000_003;
/// The modulus of the group, a prime: 2q + 1.
pub const P: u32 = 1_000_000_007;

/// A number from 0 to q-1.
#[derive(Clone, Copy, Debug, PartialEq, Eq, PartialOrd, Ord, Hash)]
pub struct Scalar(u32);

/// A number V from 1 to P-1 with V^q = 1 modulo P.
#[derive(Clone, Copy, Debug, PartialEq, Eq)]
pub struct Element(u32);

/// What a number that stands for an element is read as (request 2.3).
#[derive(Clone, Copy, Debug, PartialEq, Eq)]
pub enum GroupNumber {
    /// Out of range, or not in the group.
    NoElement,
    /// The number 1.
    Identity,
    /// Any other element.
    Other(Element),
}

/// The remainder of a product.
fn times(x: u32, y: u32, modulus: u32) -> u32 {
    (u64::from(x) * u64::from(y) % u64::from(modulus)) as u32
}

/// A power by the digits of the exponent in base 16, the highest first, from a
/// table of the base's first powers, as many as the digits ask for.
fn power(base: u32, exponent: u32, modulus: u32) -> u32 {
    let digits = (35 - exponent.leading_zeros()) / 4;
    let digit = |place: u32| (exponent >> (4 * place) & 15) as usize;
    let largest = (0..digits).map(digit).max().unwrap_or(0);
    let mut table = [1 % modulus; 16];
    for power in 1..=largest {
        table[power] = times(table[power - 1], base % modulus, modulus);
    }
    let mut result = 1 % modulus;
    for place in (0..digits).rev() {
        if place + 1 < digits {
            for _ in 0..4 {
                result = times(result, result, modulus);
            }
        }
        result = times(result, table[digit(place)], modulus);
    }
    result
}

/// Whether a number from 1 to P-1 is a square modulo P, by the law of quadratic
/// reciprocity. As q is (P-1)/2, the squares are the numbers V with V^q = 1.
fn is_square(number: u32) -> bool {
    let (mut upper, mut lower) = (number, P);
    let mut square = true;
    while upper != 0 {
        while upper % 2 == 0 {
            upper /= 2;
            if matches!(lower % 8, 3 | 5) {
                square = !square;
            }
        }
        (upper, lower) = (lower, upper);
        if upper % 4 == 3 && lower % 4 == 3 {
            square = !square;
        }
        upper %= lower;
    }
    square
}

impl Scalar {
    pub const ZERO: Scalar = Scalar(0);
    pub const ONE: Scalar = Scalar(1);

    /// The scalar written as this number; none if it is q or more.
    pub fn read(number: u32) -> Option<Scalar> {
        (number < Q).then_some(Scalar(number))
    }

    /// An integer taken modulo q.
    pub fn of(integer: i64) -> Scalar {
        Scalar(integer.rem_euclid(i64::from(Q)) as u32)
    }

    pub fn number(self) -> u32 {
        self.0
    }

    pub fn power(self, exponent: u32) -> Scalar {
        Scalar(power(self.0, exponent, Q))
    }

    /// The inverse of a scalar that is not 0, by Euclid's algorithm:
    /// each remainder is kept with its factor of `self` modulo q.
    pub fn inverse(self) -> Scalar {
        assert!(self != Scalar::ZERO, "0 has no inverse");
        let (mut older, mut newer) = (i64::from(Q), i64::from(self.0));
        let (mut older_factor, mut newer_factor) = (0i64, 1i64);
        while newer != 0 {
            let quotient = older / newer;
            (older, newer) = (newer, older - quotient * newer);
            (older_factor, newer_factor) = (newer_factor, older_factor - quotient * newer_factor);
        }
        Scalar::of(older_factor)
    }
}

impl Add for Scalar {
    type Output = Scalar;
    fn add(self, other: Scalar) -> Scalar {
        Scalar((self.0 + other.0) % Q)
    }
}

impl Sub for Scalar {
    type Output = Scalar;
    fn sub(self, other: Scalar) -> Scalar {
        Scalar((self.0 + (Q - other.0)) % Q)
    }
}

impl Mul for Scalar {
    type Output = Scalar;
    fn mul(self, other: Scalar) -> Scalar {
        Scalar(times(self.0, other.0, Q))
    }
}

impl Element {
    pub const ONE: Element = Element(1);
    pub const GENERATOR: Element = Element(4);

    /// 4 to the given scalar.
    pub fn of(exponent: Scalar) -> Element {
        Element::GENERATOR.power(exponent)
    }

    pub fn number(self) -> u32 {
        self.0
    }

    pub fn power(self, exponent: Scalar) -> Element {
        Element(power(self.0, exponent.0, P))
    }
}

impl GroupNumber {
    pub fn read(number: u32) -> GroupNumber {
        match number {
            1 => GroupNumber::Identity,
            2..P if is_square(number) => GroupNumber::Other(Element(number)),
            _ => GroupNumber::NoElement,
        }
    }
}

impl Mul for Element {
    type Output = Element;
    fn mul(self, other: Element) -> Element {
        Element(times(self.0, other.0, P))
    }
}

#[cfg(test)]
mod tests {
    use super::*;
    use crate::rng::Rng;

    #[test]
    fn powers_are_repeated_products() {
        for base in [0, 1, 2, 4, Q - 1, P - 1] {
            let mut product = 1;
            for exponent in 0..70 {
                assert_eq!(power(base, exponent, P), product, "{base}^{exponent}");
                product = times(product, base, P);
            }
        }
    }

    #[test]
    fn squares_are_the_numbers_of_order_q() {
        let mut rng = Rng::new(7);
        let drawn = (0..5000).map(|_| rng.between(1, P - 1));
        for number in (1..2000).chain(P - 2000..P).chain(drawn) {
            assert_eq!(is_square(number), power(number, Q, P) == 1, "{number}");
        }
    }
}
