//! The rounded hypotenuse against a check by schoolbook numbers that shares nothing with it, and the proof by running that
//! `f64::hypot`, and with it the copied files, call it.

use oracle::hypotenuse::{calls, in_range, rounded};
use oracle::sheet::Map;
use oracle::topology::harness::{Answer, Room, run};
use std::ffi::{c_char, c_int, c_void};
use std::hint::black_box;

/// xorshift64*, seeded: every run sees the same numbers.
struct Random(u64);

impl Random {
    fn next(&mut self) -> u64 {
        self.0 ^= self.0 >> 12;
        self.0 ^= self.0 << 25;
        self.0 ^= self.0 >> 27;
        self.0.wrapping_mul(0x2545_f491_4f6c_dd1d)
    }

    fn below(&mut self, bound: u64) -> u64 {
        self.next() % bound
    }

    fn with_exponent(&mut self, exponent: i64) -> f64 {
        f64::from_bits(((exponent + 1023) as u64) << 52 | self.next() >> 12)
    }
}

/// Whole numbers of any length, least limb first.
mod whole {
    pub fn shifted(x: u64, count: usize) -> Vec<u32> {
        let mut limbs = vec![0; count / 32];
        let wide = u128::from(x) << (count % 32);
        limbs.extend((0..4).map(|index| (wide >> (32 * index)) as u32));
        limbs
    }

    pub fn square(x: &[u32]) -> Vec<u32> {
        let mut result = vec![0u32; 2 * x.len()];
        for (low, &a) in x.iter().enumerate() {
            let mut carry = 0u64;
            for (high, &b) in x.iter().enumerate() {
                let sum = u64::from(a) * u64::from(b) + u64::from(result[low + high]) + carry;
                result[low + high] = sum as u32;
                carry = sum >> 32;
            }
            result[low + x.len()] = carry as u32;
        }
        result
    }

    pub fn sum(x: &[u32], y: &[u32]) -> Vec<u32> {
        let mut carry = 0u64;
        let mut result = Vec::new();
        for index in 0..=x.len().max(y.len()) {
            let limb = |list: &[u32]| u64::from(list.get(index).copied().unwrap_or(0));
            carry += limb(x) + limb(y);
            result.push(carry as u32);
            carry >>= 32;
        }
        result
    }

    pub fn compare(x: &[u32], y: &[u32]) -> std::cmp::Ordering {
        let limb = |list: &[u32], index: usize| list.get(index).copied().unwrap_or(0);
        (0..x.len().max(y.len()))
            .rev()
            .map(|index| limb(x, index).cmp(&limb(y, index)))
            .find(|order| order.is_ne())
            .unwrap_or(std::cmp::Ordering::Equal)
    }

    /// A double of either sign as a whole number of units of 2^-1075, half the least place of any double.
    pub fn units(x: f64) -> Vec<u32> {
        let fraction = x.to_bits() & ((1 << 52) - 1);
        match (x.to_bits() >> 52 & 0x7ff) as usize {
            0 => shifted(fraction, 1),
            field => shifted(fraction | 1 << 52, field),
        }
    }

    /// Half way between two doubles, in the same units.
    pub fn half_way(x: f64, y: f64) -> Vec<u32> {
        let both = sum(&units(x), &units(y));
        assert_eq!(both[0] & 1, 0);
        (0..both.len()).map(|index| both[index] >> 1 | both.get(index + 1).copied().unwrap_or(0) << 31).collect()
    }
}

/// Whether a finite double is the nearest to the root, ties to even, by comparing squares with both half-way points.
fn is_nearest(x: f64, y: f64, answer: f64) -> bool {
    use std::cmp::Ordering::{Equal, Greater, Less};
    let squares = whole::sum(&whole::square(&whole::units(x)), &whole::square(&whole::units(y)));
    let even = answer.to_bits() & 1 == 0;
    let above = match whole::compare(&squares, &whole::square(&whole::half_way(answer, answer.next_up()))) {
        Less => true,
        Equal => even,
        Greater => false,
    };
    let below = answer == 0.0
        || match whole::compare(&squares, &whole::square(&whole::half_way(answer.next_down(), answer))) {
            Greater => true,
            Equal => even,
            Less => false,
        };
    !answer.is_sign_negative() && above && below
}

fn check(x: f64, y: f64) {
    let answer = rounded(x, y);
    assert!(is_nearest(x, y, answer), "{x:e} {y:e} {answer:e}");
    assert_eq!(rounded(y, x).to_bits(), answer.to_bits());
    assert_eq!(rounded(-x, y).to_bits(), answer.to_bits());
}

#[test]
fn cases_of_document_01() {
    assert_eq!(rounded(3.0, 4.0), 5.0);
    assert_eq!(rounded(0.0, 0.0).to_bits(), 0);
    assert_eq!(rounded(-0.0, -0.0).to_bits(), 0);
    assert_eq!(rounded(1.0, 1.0).to_bits(), 0x3ff6_a09e_667f_3bcd);
    let (least, most) = (2.0_f64.powi(-64), 2.0_f64.powi(15));
    assert!([0.0, -0.0, least, -least, most, -most].into_iter().all(in_range));
    let outside = [least.next_down(), most.next_up(), -most.next_up(), f64::INFINITY, f64::NAN, f64::MIN_POSITIVE];
    assert!(!outside.into_iter().any(in_range));
}

#[test]
fn every_gap_of_exponents_in_range() {
    let mut random = Random(1);
    for low in -64..=14 {
        for high in low..=14 {
            for _ in 0..8 {
                check(random.with_exponent(high), random.with_exponent(low));
            }
            let (high, low) = (2.0_f64.powi(high as i32), 2.0_f64.powi(low as i32));
            for x in [high, high.next_up(), (2.0 * high).next_down()] {
                for y in [low, low.next_up(), (2.0 * low).next_down()] {
                    check(x, y);
                }
            }
        }
    }
}

#[test]
fn whole_range_of_doubles() {
    let mut random = Random(2);
    for _ in 0..4_000 {
        let exponent = random.below(2_045) as i64 - 1_022;
        let gap = random.below(70) as i64;
        check(random.with_exponent(exponent), random.with_exponent((exponent - gap).max(-1_022)));
    }
    for _ in 0..2_000 {
        let digits = random.below(53);
        let tiny = f64::from_bits(random.below(1 << digits));
        let other = f64::from_bits(random.below(1 << 56));
        check(tiny, other);
        check(tiny, tiny);
    }
    assert_eq!(rounded(f64::MAX, f64::MAX), f64::INFINITY);
    assert_eq!(rounded(f64::MAX, 1.0), f64::MAX);
    assert_eq!(rounded(f64::NEG_INFINITY, f64::NAN), f64::INFINITY);
    assert!(rounded(1.0, f64::NAN).is_nan());
}

/// Whole legs with an odd hypotenuse of 54 digits: exact ties. A sum of two squares of different parity is 1 more than a
/// multiple of 4, which is a tie down; three times it is a tie up.
#[test]
fn ties() {
    let mut random = Random(3);
    let scale = 2.0_f64.powi(-40);
    for (factor, up) in [(1, false), (3, true)] {
        let mut found = 0;
        while found < 1_000 {
            let (m, n) = (random.below(1 << 27), random.below(1 << 27));
            let hypotenuse = factor * (m * m + n * n);
            let legs = [factor * 2 * m * n, factor * (m * m).abs_diff(n * n)];
            let exact = legs.iter().all(|leg| *leg > 0 && leg >> leg.trailing_zeros() < 1 << 53);
            if hypotenuse % 2 == 0 || !(1 << 53..1 << 54).contains(&hypotenuse) || !exact {
                continue;
            }
            let [x, y] = legs.map(|leg| leg as f64 * scale);
            check(x, y);
            let expected = if up { hypotenuse + 1 } else { hypotenuse - 1 };
            assert_eq!(rounded(x, y), expected as f64 * scale);
            found += 1;
        }
    }
}

#[test]
fn f64_hypot_is_the_exported_one() {
    let mut random = Random(4);
    let before = calls();
    for _ in 0..1_000 {
        let (x, y) = (random.with_exponent(3), random.with_exponent(1));
        assert_eq!(black_box(x).hypot(black_box(y)).to_bits(), rounded(x, y).to_bits());
    }
    assert_eq!(calls(), before + 1_000);
    // The GNU C library 2.36 gives the neighbour below here.
    let (x, y) = (f64::from_bits(0x40ce_d644_44f5_e2b7), f64::from_bits(0x40d8_9242_f38e_11df));
    assert_eq!(black_box(x).hypot(black_box(y)).to_bits(), 0x40dd_021e_9b5f_8c8e);
}

#[test]
fn the_copied_files_call_it() {
    let eight = 8.0_f64.to_bits();
    let spans = vec![8, 0, 8, 8, 16, 0, 16, 8];
    let boundaries = vec![8, 0, 8, 8, eight, 0, 0, 0, 0, 16, 0, 16, 8, eight, 1, 0, 0, 0];
    let map = Map { pass: 1, width: 3, height: 1, cells: vec![1; 3], spans, boundaries, anchors: vec![] };
    let before = calls();
    assert!(matches!(run(&map, Room::UNLIMITED), Answer::Done(_)));
    assert!(calls() > before);
}

/// The C library's own function, which the exported symbol hides from everything but a search by handle.
fn c_library() -> Option<extern "C" fn(f64, f64) -> f64> {
    unsafe extern "C" {
        fn dlopen(name: *const c_char, flags: c_int) -> *mut c_void;
        fn dlsym(handle: *mut c_void, name: *const c_char) -> *mut c_void;
    }
    unsafe {
        let library = dlopen(c"libm.so.6".as_ptr(), 2);
        if library.is_null() {
            return None;
        }
        let function = dlsym(library, c"hypot".as_ptr());
        (!function.is_null()).then(|| std::mem::transmute::<*mut c_void, extern "C" fn(f64, f64) -> f64>(function))
    }
}

/// Where the C library rounds otherwise, `f64::hypot` in this program still gives the nearest.
#[test]
fn differs_from_the_c_library() {
    let c_library = c_library().expect("libm.so.6 has hypot");
    let mut random = Random(5);
    let mut different = 0;
    for _ in 0..300_000 {
        let exponents = (random.below(79) as i64 - 64, random.below(79) as i64 - 64);
        let (x, y) = (random.with_exponent(exponents.0), random.with_exponent(exponents.1));
        let exact = rounded(x, y);
        assert_eq!(black_box(x).hypot(black_box(y)).to_bits(), exact.to_bits());
        if c_library(x, y).to_bits() != exact.to_bits() {
            assert!(is_nearest(x, y, exact));
            if different == 0 {
                println!(
                    "first at {:016x} {:016x}: nearest {:016x}, C library {:016x}",
                    x.to_bits(),
                    y.to_bits(),
                    exact.to_bits(),
                    c_library(x, y).to_bits()
                );
            }
            different += 1;
        }
    }
    println!("the C library differs on {different} of 300000 random pairs");
}
