//! Signed whole numbers of any size.

use std::cmp::Ordering;
use std::fmt;

/// A whole number: its sign and its magnitude in 32-bit digits, lowest first,
/// without leading zeros. Zero has no digits and is not negative.
#[derive(Clone, Debug, PartialEq, Eq, Hash, Default)]
pub struct BigInt {
    negative: bool,
    digits: Vec<u32>,
}

impl BigInt {
    #[must_use]
    pub fn zero() -> BigInt {
        BigInt::default()
    }

    fn new(negative: bool, mut digits: Vec<u32>) -> BigInt {
        while digits.last() == Some(&0) {
            digits.pop();
        }
        BigInt { negative: negative && !digits.is_empty(), digits }
    }

    #[must_use]
    pub fn is_zero(&self) -> bool {
        self.digits.is_empty()
    }

    #[must_use]
    pub fn is_negative(&self) -> bool {
        self.negative
    }

    /// The number of bits of the magnitude; 0 for zero.
    #[must_use]
    pub fn bits(&self) -> u64 {
        match self.digits.last() {
            None => 0,
            Some(top) => 32 * self.digits.len() as u64 - u64::from(top.leading_zeros()),
        }
    }

    /// The number as an `i128` if it fits.
    #[must_use]
    pub fn to_i128(&self) -> Option<i128> {
        if self.digits.len() > 4 {
            return None;
        }
        let magnitude = self.digits.iter().rev().fold(0u128, |sum, &d| sum << 32 | u128::from(d));
        if self.negative {
            (magnitude <= 1 << 127).then(|| (magnitude as i128).wrapping_neg())
        } else {
            i128::try_from(magnitude).ok()
        }
    }

    #[must_use]
    pub fn negate(mut self) -> BigInt {
        self.negative = !self.negative && !self.digits.is_empty();
        self
    }

    #[must_use]
    pub fn add(&self, other: &BigInt) -> BigInt {
        self.add_signed(other, other.negative)
    }

    #[must_use]
    pub fn subtract(&self, other: &BigInt) -> BigInt {
        self.add_signed(other, !other.negative)
    }

    fn add_signed(&self, other: &BigInt, other_negative: bool) -> BigInt {
        if self.negative == other_negative {
            return BigInt::new(self.negative, add(&self.digits, &other.digits));
        }
        match compare(&self.digits, &other.digits) {
            Ordering::Less => BigInt::new(other_negative, subtract(&other.digits, &self.digits)),
            _ => BigInt::new(self.negative, subtract(&self.digits, &other.digits)),
        }
    }

    #[must_use]
    pub fn multiply(&self, other: &BigInt) -> BigInt {
        BigInt::new(self.negative != other.negative, multiply(&self.digits, &other.digits))
    }

    /// The quotient with its fraction dropped toward zero; nothing for a zero divisor.
    #[must_use]
    pub fn divide(&self, other: &BigInt) -> Option<BigInt> {
        if other.is_zero() {
            return None;
        }
        let quotient = divide(&self.digits, &other.digits);
        Some(BigInt::new(self.negative != other.negative, quotient))
    }
}

impl From<i128> for BigInt {
    fn from(number: i128) -> BigInt {
        let mut rest = number.unsigned_abs();
        let mut digits = Vec::new();
        while rest != 0 {
            digits.push(rest as u32);
            rest >>= 32;
        }
        BigInt { negative: number < 0, digits }
    }
}

impl Ord for BigInt {
    fn cmp(&self, other: &BigInt) -> Ordering {
        match (self.negative, other.negative) {
            (false, true) => Ordering::Greater,
            (true, false) => Ordering::Less,
            (false, false) => compare(&self.digits, &other.digits),
            (true, true) => compare(&other.digits, &self.digits),
        }
    }
}

impl PartialOrd for BigInt {
    fn partial_cmp(&self, other: &BigInt) -> Option<Ordering> {
        Some(self.cmp(other))
    }
}

/// The number in decimal.
impl fmt::Display for BigInt {
    fn fmt(&self, f: &mut fmt::Formatter) -> fmt::Result {
        let mut rest = self.digits.clone();
        let mut groups = Vec::new();
        while !rest.is_empty() {
            groups.push(divide_small(&mut rest, 1_000_000_000));
        }
        let mut text = groups.pop().unwrap_or(0).to_string();
        text.extend(groups.iter().rev().map(|group| format!("{group:09}")));
        f.pad_integral(!self.negative, "", &text)
    }
}

fn compare(left: &[u32], right: &[u32]) -> Ordering {
    left.len().cmp(&right.len()).then_with(|| left.iter().rev().cmp(right.iter().rev()))
}

fn add(left: &[u32], right: &[u32]) -> Vec<u32> {
    let (long, short) = if left.len() < right.len() { (right, left) } else { (left, right) };
    let mut sum = Vec::with_capacity(long.len() + 1);
    let mut carry = 0u64;
    for (i, &digit) in long.iter().enumerate() {
        carry += u64::from(digit) + u64::from(short.get(i).copied().unwrap_or(0));
        sum.push(carry as u32);
        carry >>= 32;
    }
    sum.push(carry as u32);
    sum
}

/// The difference of magnitudes; the left one is not the smaller.
fn subtract(left: &[u32], right: &[u32]) -> Vec<u32> {
    let mut difference = Vec::with_capacity(left.len());
    let mut borrow = 0i64;
    for (i, &digit) in left.iter().enumerate() {
        let part = i64::from(digit) - i64::from(right.get(i).copied().unwrap_or(0)) - borrow;
        difference.push(part as u32);
        borrow = i64::from(part < 0);
    }
    difference
}

fn multiply(left: &[u32], right: &[u32]) -> Vec<u32> {
    let mut product = vec![0u32; left.len() + right.len()];
    for (i, &l) in left.iter().enumerate() {
        let mut carry = 0u64;
        for (j, &r) in right.iter().enumerate() {
            carry += u64::from(l) * u64::from(r) + u64::from(product[i + j]);
            product[i + j] = carry as u32;
            carry >>= 32;
        }
        product[i + right.len()] = carry as u32;
    }
    product
}

/// Divides a magnitude by one digit in place and gives the remainder.
fn divide_small(digits: &mut Vec<u32>, divisor: u32) -> u32 {
    let mut remainder = 0u64;
    for digit in digits.iter_mut().rev() {
        let part = remainder << 32 | u64::from(*digit);
        *digit = (part / u64::from(divisor)) as u32;
        remainder = part % u64::from(divisor);
    }
    while digits.last() == Some(&0) {
        digits.pop();
    }
    remainder as u32
}

/// The quotient of magnitudes, by long division with trial digits.
fn divide(left: &[u32], right: &[u32]) -> Vec<u32> {
    if compare(left, right) == Ordering::Less {
        return Vec::new();
    }
    if right.len() == 1 {
        let mut quotient = left.to_vec();
        divide_small(&mut quotient, right[0]);
        return quotient;
    }
    // Shift both so that the divisor's top bit is set.
    let shift = right[right.len() - 1].leading_zeros();
    let divisor = shift_left(right, shift);
    let n = right.len();
    let (top, second) = (u64::from(divisor[n - 1]), u64::from(divisor[n - 2]));
    let mut rest = shift_left(left, shift);
    let mut quotient = vec![0u32; left.len() - n + 1];
    for j in (0..quotient.len()).rev() {
        let head = u64::from(rest[j + n]) << 32 | u64::from(rest[j + n - 1]);
        let mut trial = head / top;
        let mut over = head % top;
        while trial >> 32 != 0 || trial * second > (over << 32 | u64::from(rest[j + n - 2])) {
            trial -= 1;
            over += top;
            if over >> 32 != 0 {
                break;
            }
        }
        let mut borrow = 0i64;
        let mut carry = 0u64;
        for i in 0..n {
            carry += trial * u64::from(divisor[i]);
            let part = i64::from(rest[i + j]) - i64::from(carry as u32) - borrow;
            rest[i + j] = part as u32;
            borrow = i64::from(part < 0);
            carry >>= 32;
        }
        let part = i64::from(rest[j + n]) - carry as i64 - borrow;
        rest[j + n] = part as u32;
        if part < 0 {
            // The trial digit was one too high: put the divisor back once.
            trial -= 1;
            let mut carry = 0u64;
            for i in 0..n {
                carry += u64::from(rest[i + j]) + u64::from(divisor[i]);
                rest[i + j] = carry as u32;
                carry >>= 32;
            }
            rest[j + n] = rest[j + n].wrapping_add(carry as u32);
        }
        quotient[j] = trial as u32;
    }
    quotient
}

/// A magnitude shifted left by under 32 bits, one digit longer.
fn shift_left(digits: &[u32], shift: u32) -> Vec<u32> {
    let mut shifted = Vec::with_capacity(digits.len() + 1);
    let mut carry = 0u64;
    for &digit in digits {
        carry |= u64::from(digit) << shift;
        shifted.push(carry as u32);
        carry >>= 32;
    }
    shifted.push(carry as u32);
    shifted
}

#[cfg(test)]
mod tests {
    use super::*;

    fn random(state: &mut u64) -> u64 {
        *state = state.wrapping_add(0x9e37_79b9_7f4a_7c15);
        let mut z = *state;
        z = (z ^ (z >> 30)).wrapping_mul(0xbf58_476d_1ce4_e5b9);
        z = (z ^ (z >> 27)).wrapping_mul(0x94d0_49bb_1331_11eb);
        z ^ (z >> 31)
    }

    /// A number of up to 126 bits with runs of ones and zeros at times.
    fn number(state: &mut u64) -> i128 {
        let mut n = i128::from(random(state)) << 62 ^ i128::from(random(state));
        if random(state).is_multiple_of(3) {
            n |= 0xffff_ffff << (random(state) % 64);
        }
        if random(state).is_multiple_of(3) {
            n &= !(0xffff_ffff << (random(state) % 64));
        }
        n >>= random(state) % 120;
        if random(state).is_multiple_of(2) {
            -n
        } else {
            n
        }
    }

    #[test]
    fn agrees_with_i128() {
        let mut state = 1;
        for _ in 0..200_000 {
            let (a, b) = (number(&mut state), number(&mut state));
            let (x, y) = (BigInt::from(a), BigInt::from(b));
            assert_eq!(x.to_i128(), Some(a));
            assert_eq!(x.to_string(), a.to_string());
            assert_eq!(x.cmp(&y), a.cmp(&b));
            assert_eq!(x.add(&y), BigInt::from(a + b));
            assert_eq!(x.subtract(&y), BigInt::from(a - b));
            if let Some(product) = a.checked_mul(b) {
                assert_eq!(x.multiply(&y), BigInt::from(product));
            }
            match a.checked_div(b) {
                Some(quotient) => assert_eq!(x.divide(&y), Some(BigInt::from(quotient))),
                None => assert_eq!(x.divide(&y), None),
            }
        }
    }

    #[test]
    fn long_division_undoes_multiplication() {
        let mut state = 2;
        for round in 0..20_000 {
            let long = |state: &mut u64, n: u64| {
                (0..n).fold(BigInt::from(number(state)), |x, _| {
                    x.multiply(&BigInt::from(1 << 64)).add(&BigInt::from(number(state)))
                })
            };
            let a = long(&mut state, round % 7);
            let b = long(&mut state, round % 5);
            let Some(q) = a.divide(&b) else { continue };
            let r = a.subtract(&q.multiply(&b));
            let size = |x: &BigInt| if x.is_negative() { x.clone().negate() } else { x.clone() };
            assert!(size(&r) < size(&b));
            assert!(r.is_zero() || r.is_negative() == a.is_negative());
        }
    }

    #[test]
    fn decimal_of_a_large_power() {
        let mut x = BigInt::from(-10);
        for _ in 0..5 {
            x = x.multiply(&x);
        }
        assert_eq!(x.to_string(), format!("1{}", "0".repeat(32)));
        assert_eq!(BigInt::zero().to_string(), "0");
        assert_eq!(x.negate().bits(), 107);
    }
}
