//! The double nearest to the exact root of the sum of two squares, ties to the even significand, by wide whole numbers; and, under
//! the feature `exact-hypot`, the symbol `hypot` that `f64::hypot` calls.

use std::cell::Cell;
use std::cmp::Ordering;

thread_local! {
    static CALLS: Cell<u64> = const { Cell::new(0) };
}

/// How often this thread has called the exported `hypot`, which shows that `f64::hypot` really comes here.
pub fn calls() -> u64 {
    CALLS.get()
}

/// `f64::hypot` is a call of the C function of this name, so the copied files come here without a changed line.
#[cfg(feature = "exact-hypot")]
#[unsafe(no_mangle)]
pub extern "C" fn hypot(x: f64, y: f64) -> f64 {
    CALLS.set(CALLS.get() + 1);
    rounded(x, y)
}

/// Document 01's range: zero, or a magnitude from 2^-64 to 2^15. Outside it the answer is refusal 13.
pub fn in_range(x: f64) -> bool {
    const LEAST: f64 = f64::from_bits((1023 - 64) << 52);
    const MOST: f64 = f64::from_bits((1023 + 15) << 52);
    x == 0.0 || (LEAST <= x.abs() && x.abs() <= MOST)
}

/// Total over doubles: an infinite argument gives infinity, else one that is not a number gives that.
pub fn rounded(x: f64, y: f64) -> f64 {
    if x.is_infinite() || y.is_infinite() {
        return f64::INFINITY;
    }
    if x.is_nan() || y.is_nan() {
        return f64::NAN;
    }
    let (x, y) = (x.abs(), y.abs());
    let (larger, smaller) = if x >= y { (x, y) } else { (y, x) };
    if smaller == 0.0 {
        return larger;
    }
    let (larger_digits, larger_exponent) = parts(larger);
    let (smaller_digits, smaller_exponent) = parts(smaller);
    let gap = larger_exponent - smaller_exponent;
    // Past this gap the smaller adds less than 2^-75 of the larger's last place, and the larger is normal.
    if gap > 64 {
        return larger;
    }

    // The sum of the squares in units of 4^exponent, with 112 binary places below the smaller's last so that the root
    // always has digits to be rounded away.
    let exponent = smaller_exponent - 56;
    let sum =
        Wide::from(square(larger_digits)).shifted_left(2 * gap as u32).plus(Wide::from(square(smaller_digits))).shifted_left(112);
    let root_length = sum.length().div_ceil(2) as i32;
    let last_place = (root_length + exponent - 53).max(-1074);
    let dropped = (last_place - exponent) as u32;

    let below = floor_root(sum.shifted_right(2 * dropped));
    // Between `below` and its successor: the half-way point's square, in the units of `sum`.
    let half_way = Wide::from(square(2 * below + 1)).shifted_left(2 * (dropped - 1));
    let digits = match sum.cmp(&half_way) {
        Ordering::Less => below,
        Ordering::Equal => below + below % 2,
        Ordering::Greater => below + 1,
    };
    assembled(digits, last_place)
}

/// A positive finite double as digits times 2^exponent.
fn parts(x: f64) -> (u64, i32) {
    let fraction = x.to_bits() & ((1 << 52) - 1);
    match (x.to_bits() >> 52) as i32 {
        0 => (fraction, -1074),
        field => (fraction | 1 << 52, field - 1075),
    }
}

/// At most 2^53 times 2^last_place, where below 2^52 the place is the least there is.
fn assembled(digits: u64, last_place: i32) -> f64 {
    let (digits, last_place) = if digits == 1 << 53 { (1 << 52, last_place + 1) } else { (digits, last_place) };
    if digits < 1 << 52 {
        assert_eq!(last_place, -1074);
        return f64::from_bits(digits);
    }
    let field = (last_place + 1075) as u64;
    if field >= 2047 {
        return f64::INFINITY;
    }
    f64::from_bits(field << 52 | (digits - (1 << 52)))
}

fn square(x: u64) -> u128 {
    u128::from(x) * u128::from(x)
}

fn floor_root(x: u128) -> u64 {
    let root = u64::try_from(x.isqrt()).expect("the root of 128 bits has 64");
    assert!(square(root) <= x && x - square(root) <= 2 * u128::from(root));
    root
}

/// A whole number of 384 bits, least limb first. The greatest sum above has fewer than 350.
#[derive(Clone, Copy, PartialEq, Eq)]
struct Wide([u64; 6]);

impl From<u128> for Wide {
    fn from(x: u128) -> Self {
        Self([x as u64, (x >> 64) as u64, 0, 0, 0, 0])
    }
}

impl Wide {
    fn length(self) -> u32 {
        let top = self.0.iter().rposition(|limb| *limb != 0).expect("a positive number");
        64 * top as u32 + 64 - self.0[top].leading_zeros()
    }

    fn shifted_left(self, count: u32) -> Self {
        let (limbs, bits) = ((count / 64) as usize, count % 64);
        let mut result = [0; 6];
        for (index, limb) in self.0.into_iter().enumerate() {
            if limb == 0 {
                continue;
            }
            result[index + limbs] |= limb << bits;
            if bits > 0 && limb >> (64 - bits) != 0 {
                result[index + limbs + 1] |= limb >> (64 - bits);
            }
        }
        Self(result)
    }

    /// The caller knows that the result has 128 bits at most.
    fn shifted_right(self, count: u32) -> u128 {
        let (limbs, bits) = ((count / 64) as usize, count % 64);
        let limb = |index: usize| self.0.get(index + limbs).copied().unwrap_or(0);
        let part = |index: usize| {
            let low = limb(index) >> bits;
            if bits == 0 { low } else { low | limb(index + 1) << (64 - bits) }
        };
        assert_eq!(part(2), 0);
        u128::from(part(0)) | u128::from(part(1)) << 64
    }

    fn plus(self, other: Self) -> Self {
        let mut result = self.0;
        let mut carry = false;
        for (limb, addend) in result.iter_mut().zip(other.0) {
            let (sum, first) = limb.overflowing_add(addend);
            let (sum, second) = sum.overflowing_add(u64::from(carry));
            *limb = sum;
            carry = first || second;
        }
        assert!(!carry);
        Self(result)
    }
}

impl Ord for Wide {
    fn cmp(&self, other: &Self) -> Ordering {
        self.0.iter().rev().cmp(other.0.iter().rev())
    }
}

impl PartialOrd for Wide {
    fn partial_cmp(&self, other: &Self) -> Option<Ordering> {
        Some(self.cmp(other))
    }
}
