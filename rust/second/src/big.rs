//! Whole numbers of any length, with as much arithmetic as an exact pixel size takes.

use std::cmp::Ordering;

const DIGIT_BITS: usize = 32;

/// Digits of 32 bits, the lowest first. The highest is not 0, so that 0 has no digits.
#[derive(Clone, Debug, Default, PartialEq, Eq)]
pub struct Big {
    digits: Vec<u32>,
}

impl Big {
    pub fn new(number: u64) -> Big {
        let digits = vec![number as u32, (number >> DIGIT_BITS) as u32];
        Big { digits }.trimmed()
    }

    /// The number, if it is below 2^64.
    pub fn to_u64(&self) -> Option<u64> {
        let digit = |i: usize| self.digits.get(i).copied().unwrap_or(0) as u64;
        (self.digits.len() <= 2).then(|| digit(1) << DIGIT_BITS | digit(0))
    }

    pub fn is_even(&self) -> bool {
        !self.bit(0)
    }

    /// The product with a small number: digit by digit, and what each hands on to the next.
    pub fn times(&self, factor: u32) -> Big {
        let mut digits = Vec::with_capacity(self.digits.len() + 1);
        let mut handed = 0;
        for &digit in &self.digits {
            let product = digit as u64 * factor as u64 + handed;
            digits.push(product as u32);
            handed = product >> DIGIT_BITS;
        }
        digits.push(handed as u32);
        Big { digits }.trimmed()
    }

    /// The product with 2^power.
    pub fn times_two_to(&self, power: usize) -> Big {
        let mut digits = vec![0; power / DIGIT_BITS];
        digits.extend(&self.times(1 << (power % DIGIT_BITS)).digits);
        Big { digits }.trimmed()
    }

    /// Quotient and remainder, by long division with binary digits.
    ///
    /// # Panics
    ///
    /// Where the divisor is 0.
    pub fn divided(&self, by: &Big) -> (Big, Big) {
        assert!(!by.digits.is_empty(), "a division by 0");
        let mut quotient = Big::default();
        let mut left = Big::default();
        for i in (0..DIGIT_BITS * self.digits.len()).rev() {
            left.append(self.bit(i));
            let fits = left >= *by;
            if fits {
                left.subtract(by);
            }
            quotient.append(fits);
        }
        (quotient, left)
    }

    /// The next number.
    pub fn next(&self) -> Big {
        let mut digits = self.digits.clone();
        digits.push(0);
        for digit in &mut digits {
            *digit = digit.wrapping_add(1);
            if *digit != 0 {
                break;
            }
        }
        Big { digits }.trimmed()
    }

    /// Binary digit i, counted from the lowest.
    fn bit(&self, i: usize) -> bool {
        let digit = self.digits.get(i / DIGIT_BITS);
        digit.is_some_and(|digit| digit >> (i % DIGIT_BITS) & 1 == 1)
    }

    /// Puts one binary digit behind the others.
    fn append(&mut self, bit: bool) {
        let mut handed = bit as u32;
        for digit in &mut self.digits {
            let high = *digit >> (DIGIT_BITS - 1);
            *digit = *digit << 1 | handed;
            handed = high;
        }
        if handed != 0 {
            self.digits.push(handed);
        }
    }

    /// Takes away a number that is not larger.
    fn subtract(&mut self, other: &Big) {
        let mut borrowed = false;
        for (i, digit) in self.digits.iter_mut().enumerate() {
            let taken = other.digits.get(i).copied().unwrap_or(0);
            let (once, first) = digit.overflowing_sub(taken);
            let (twice, second) = once.overflowing_sub(borrowed as u32);
            *digit = twice;
            borrowed = first || second;
        }
        self.trim();
    }

    fn trim(&mut self) {
        while self.digits.last() == Some(&0) {
            self.digits.pop();
        }
    }

    fn trimmed(mut self) -> Big {
        self.trim();
        self
    }
}

impl Ord for Big {
    /// By their lengths, then by the highest digit in which they differ.
    fn cmp(&self, other: &Big) -> Ordering {
        let lengths = self.digits.len().cmp(&other.digits.len());
        let digits = self.digits.iter().rev().cmp(other.digits.iter().rev());
        lengths.then(digits)
    }
}

impl PartialOrd for Big {
    fn partial_cmp(&self, other: &Big) -> Option<Ordering> {
        Some(self.cmp(other))
    }
}

#[cfg(test)]
mod tests {
    use super::*;

    const MOST: u64 = u64::MAX;

    #[test]
    fn numbers_come_back() {
        for number in [0, 1, 7, 1 << 31, 1 << 32, (1 << 32) - 1, 1 << 63, MOST] {
            assert_eq!(Big::new(number).to_u64(), Some(number));
        }
        assert_eq!(Big::new(MOST).next().to_u64(), None);
        assert_eq!(Big::new(1).times_two_to(64).to_u64(), None);
        assert_eq!(Big::new(1).times_two_to(63).to_u64(), Some(1 << 63));
    }

    #[test]
    fn what_is_handed_on() {
        assert_eq!(Big::new(u32::MAX as u64).next().to_u64(), Some(1 << 32));
        let product = Big::new(MOST).times(u32::MAX);
        assert_eq!(product.digits, [1, u32::MAX, u32::MAX - 1]);
        assert_eq!(Big::new(0).times(5), Big::default());
        assert_eq!(Big::new(3).times_two_to(95).digits, [0, 0, 1 << 31, 1]);
    }

    #[test]
    fn order() {
        let long = Big::new(1).times_two_to(64);
        assert!(Big::new(MOST) < long && Big::new(0) < Big::new(1));
        assert!(Big::new(1 << 32) > Big::new(u32::MAX as u64));
        assert!(Big::new(2 << 32) > Big::new((1 << 32) + 5));
    }

    #[test]
    fn divisions() {
        let long = Big::new(1).times_two_to(1100);
        let (quotient, left) = long.next().divided(&Big::new(1).times_two_to(1090));
        assert_eq!((quotient.to_u64(), left), (Some(1024), Big::new(1)));
        let (quotient, left) = long.divided(&Big::new(1));
        assert_eq!((quotient, left), (long.clone(), Big::default()));
        let (quotient, left) = Big::new(5).divided(&long);
        assert_eq!((quotient, left), (Big::default(), Big::new(5)));
        let (quotient, left) = Big::new(MOST).divided(&Big::new(1_000_000));
        assert_eq!(quotient.to_u64(), Some(18_446_744_073_709));
        assert_eq!(left.to_u64(), Some(551_615));
    }

    #[test]
    fn divisions_of_two_digits_are_those_of_u64() {
        let numbers = [1, 2, 3, 10, 1 << 31, (1 << 32) - 1, 1 << 32, 1 << 40, MOST];
        for a in numbers {
            for b in numbers {
                let (quotient, left) = Big::new(a).divided(&Big::new(b));
                assert_eq!((quotient, left), (Big::new(a / b), Big::new(a % b)));
            }
        }
    }
}
