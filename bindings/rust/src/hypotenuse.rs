//! The correctly rounded hypotenuse.

use crate::Refusal;
use crate::exported::{jenwyllt_hypot, jenwyllt_hypotenuse};

/// The double nearest to the root of x² + y², ties to the even significand.
///
/// Refuses 13 where an argument is neither zero nor of a magnitude from 2^-64 to 2^15.
///
/// ```
/// assert_eq!(jenwyllt::hypotenuse(3.0, 4.0), Ok(5.0));
/// assert_eq!(jenwyllt::hypotenuse(1.0, 1.0).unwrap().to_bits(), 0x3ff6_a09e_667f_3bcd);
/// assert_eq!(jenwyllt::hypotenuse(f64::NAN, 1.0).unwrap_err().number, 13);
/// ```
pub fn hypotenuse(x: f64, y: f64) -> Result<f64, Refusal> {
    let outcome = jenwyllt_hypotenuse(x, y);
    match outcome.number {
        0 => Ok(outcome.value),
        number => Err(Refusal { number, place: 0 }),
    }
}

/// The same in place of [`f64::hypot`], for arguments that are known to be in range; 0 where [`hypotenuse`] refuses.
///
/// ```
/// assert_eq!(jenwyllt::hypot(-8.0, 6.0), 10.0);
/// assert_eq!(jenwyllt::hypot(f64::INFINITY, 6.0), 0.0);
/// ```
pub fn hypot(x: f64, y: f64) -> f64 {
    jenwyllt_hypot(x, y)
}
