//! Quotients without the machine's division of whole numbers, which works one word at a time.
//!
//! In doubles (x + 1/2) / y - 1/2 lies at least 1 / 2y from every odd half, and where x and y are below 2^50
//! three roundings move it by less. So the nearest whole number is the quotient without its fraction.

/// Words below this, with or without a minus, have their quotients worked in doubles.
pub const LIMIT: u64 = 1 << 50;

/// 2^52 and 2^51 more: doubles from here on have the whole numbers near by as their last bits.
const UNIT: f64 = 4_503_599_627_370_496.0;
const MIDDLE: f64 = 6_755_399_441_055_744.0;

/// A word without a minus as a double.
fn plain(x: u64) -> f64 {
    f64::from_bits(x | UNIT.to_bits()) - UNIT
}

/// A word in two's complement as a double.
fn signed(x: u64) -> f64 {
    f64::from_bits(x.wrapping_add(MIDDLE.to_bits())) - MIDDLE
}

/// The whole number nearest to a double, in two's complement.
fn nearest(x: f64) -> u64 {
    (x + MIDDLE).to_bits().wrapping_sub(MIDDLE.to_bits())
}

/// The quotient of words without a minus.
pub fn quotient(x: u64, y: u64) -> u64 {
    nearest((plain(x) + 0.5) / plain(y) - 0.5)
}

/// The same for a divisor that stays the same in a loop.
pub fn by_reciprocal(x: u64, y: u64) -> u64 {
    let one = 1.0 / plain(y);
    nearest(plain(x) * one - (0.5 - 0.5 * one))
}

/// The quotient of words in two's complement.
pub fn signed_quotient(x: u64, y: u64) -> u64 {
    let x = signed(x);
    let ratio = (x + 0.5f64.copysign(x)) / signed(y);
    nearest(ratio - 0.5f64.copysign(ratio))
}

/// The same for a divisor that stays the same in a loop.
pub fn signed_by_reciprocal(x: u64, y: u64) -> u64 {
    let one = 1.0 / signed(y);
    let ratio = signed(x) * one;
    nearest(ratio - (0.5 - 0.5 * one.abs()).copysign(ratio))
}

/// A divisor of any words without a minus, as a factor of 65 bits, whose first one is left out, and shifts
/// (Granlund and Montgomery).
pub struct Divisor {
    factor: u64,
    first: u32,
    second: u32,
}

impl Divisor {
    /// The divisor is not 0.
    pub fn new(divisor: u64) -> Divisor {
        let length = 64 - (divisor - 1).leading_zeros();
        let divisor = u128::from(divisor);
        let factor = (((1 << length) - divisor) << 64) / divisor + 1;
        Divisor { factor: factor as u64, first: length.min(1), second: length.saturating_sub(1) }
    }

    pub fn divide(&self, x: u64) -> u64 {
        let high = ((u128::from(self.factor) * u128::from(x)) >> 64) as u64;
        (high + ((x - high) >> self.first)) >> self.second
    }
}

#[cfg(test)]
mod tests {
    use super::*;
    use crate::generate::Rng;

    /// Dividends next to multiples of the divisor, of all sizes.
    #[test]
    fn quotients() {
        let rng = &mut Rng::new(1);
        let spare = LIMIT.leading_zeros() as usize + 1;
        for _ in 0..1_000_000 {
            let y = (rng.draw() >> rng.between(spare, 63)).max(1);
            let x = (rng.draw() >> rng.between(spare, 63)) / y * y + rng.below(3) as u64;
            let x = x.saturating_sub(1).min(LIMIT - 1);
            assert_eq!((quotient(x, y), by_reciprocal(x, y)), (x / y, x / y), "{x} by {y}");
            for (x, y) in [(x, y), (!x, y), (x, !(y - 1)), (!x, !(y - 1))] {
                let z = (x as i64 / y as i64) as u64;
                assert_eq!((signed_quotient(x, y), signed_by_reciprocal(x, y)), (z, z), "{x} by {y}");
            }
            let x = rng.draw() >> rng.below(64);
            let y = 1 + (rng.draw() >> rng.between(1, 63));
            assert_eq!(Divisor::new(y).divide(x), x / y, "{x} by {y}");
            assert_eq!(Divisor::new(y).divide(x / y * y), x / y, "{x} by {y}");
        }
        assert_eq!(Divisor::new(u64::MAX).divide(u64::MAX), 1);
    }
}
