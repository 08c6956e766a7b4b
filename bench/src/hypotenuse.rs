//! The hypotenuse: the C library's, wide whole numbers (the oracle's), MPFR's at 53 bits where it is installed, and ours.

use crate::maps::Random;
use crate::timing::{time, timed};
use oracle::hypotenuse::rounded;
use std::ffi::{CStr, c_char, c_int, c_long, c_ulong, c_void};
use std::hint::black_box;
use std::time::Duration;

const PAIRS: usize = 16_384;

pub fn run(budget: Duration) {
    println!("\nhypotenuse, nanoseconds a call (least of many rounds over {PAIRS} pairs)\n");
    println!("{:<34} {:>10} {:>10} {:>10} {:>10}", "arguments", "C library", "MPFR 53", "wide", "ours");
    let mpfr = Mpfr::load();
    for (name, pairs) in [("half pixels, as in the passes", pixels()), ("any in range", doubles())] {
        let each = |call: &dyn Fn(f64, f64) -> f64| {
            let sum = || pairs.iter().map(|(x, y)| call(black_box(*x), black_box(*y))).sum::<f64>();
            time(budget, vec![vec![timed(sum)]])[0][0].least() * 1e3 / PAIRS as f64
        };
        let differing = |call: &dyn Fn(f64, f64) -> f64| {
            pairs.iter().filter(|(x, y)| call(*x, *y).to_bits() != rounded(*x, *y).to_bits()).count()
        };
        let c_library = |x: f64, y: f64| x.hypot(y);
        let by_mpfr = mpfr.as_ref().map(|mpfr| |x: f64, y: f64| mpfr.hypot(x, y));
        let shown = |time: Option<f64>| time.map_or("-".into(), |time| format!("{time:.1}"));
        println!(
            "{:<34} {:>10} {:>10} {:>10} {:>10}",
            name,
            shown(Some(each(&c_library))),
            shown(by_mpfr.as_ref().map(|call| each(call))),
            shown(Some(each(&rounded))),
            shown(Some(each(&jenwyllt::hypot))),
        );
        println!(
            "{:<34} {:>10} {:>10} {:>10} {:>10}",
            "  answers unlike wide whole numbers",
            differing(&c_library),
            by_mpfr.as_ref().map_or("-".into(), |call| differing(call).to_string()),
            "",
            differing(&jenwyllt::hypot),
        );
    }
    println!("\nMPFR's time has the conversions from and to doubles.");
}

fn pixels() -> Vec<(f64, f64)> {
    let mut random = Random(11);
    let mut half = || random.below(2 * 8_192 + 1) as f64 / 2.0;
    (0..PAIRS).map(|_| (half(), half())).collect()
}

fn doubles() -> Vec<(f64, f64)> {
    let mut random = Random(12);
    let mut double = || f64::from_bits((1_023 - 64 + random.below(79)) << 52 | random.next() >> 12);
    (0..PAIRS).map(|_| (double(), double())).collect()
}

unsafe extern "C" {
    fn dlopen(name: *const c_char, flags: c_int) -> *mut c_void;
    fn dlsym(handle: *mut c_void, name: *const c_char) -> *mut c_void;
}

/// MPFR's number, as its header lays it out.
#[repr(C)]
struct Number {
    precision: c_long,
    sign: c_int,
    exponent: c_long,
    limbs: *mut c_ulong,
}

type Set = extern "C" fn(*mut Number, f64, c_int) -> c_int;
type Get = extern "C" fn(*const Number, c_int) -> f64;
type Hypot = extern "C" fn(*mut Number, *const Number, *const Number, c_int) -> c_int;

/// The library, loaded while running so that the driver builds without it.
struct Mpfr {
    set: Set,
    get: Get,
    hypot: Hypot,
    numbers: *mut [Number; 3],
}

const TO_NEAREST: c_int = 0;

impl Mpfr {
    fn load() -> Option<Self> {
        let library = [c"libmpfr.so.6", c"libmpfr.so.4"].into_iter().map(open).find(|library| !library.is_null())?;
        // SAFETY: the signatures are those of mpfr.h, and the three numbers live as long as the program.
        unsafe {
            let init: extern "C" fn(*mut Number, c_long) = std::mem::transmute(symbol(library, c"mpfr_init2")?);
            let empty = || Number { precision: 0, sign: 0, exponent: 0, limbs: std::ptr::null_mut() };
            let numbers = Box::leak(Box::new([empty(), empty(), empty()]));
            numbers.iter_mut().for_each(|number| init(number, 53));
            Some(Self {
                set: std::mem::transmute::<*mut c_void, Set>(symbol(library, c"mpfr_set_d")?),
                get: std::mem::transmute::<*mut c_void, Get>(symbol(library, c"mpfr_get_d")?),
                hypot: std::mem::transmute::<*mut c_void, Hypot>(symbol(library, c"mpfr_hypot")?),
                numbers,
            })
        }
    }

    fn hypot(&self, x: f64, y: f64) -> f64 {
        let numbers = self.numbers.cast::<Number>();
        // SAFETY: the pointers are to three initialised numbers, and the driver has one thread.
        unsafe {
            (self.set)(numbers.add(1), x, TO_NEAREST);
            (self.set)(numbers.add(2), y, TO_NEAREST);
            (self.hypot)(numbers, numbers.add(1), numbers.add(2), TO_NEAREST);
            (self.get)(numbers, TO_NEAREST)
        }
    }
}

fn open(name: &CStr) -> *mut c_void {
    const NOW: c_int = 2;
    // SAFETY: a name that ends in zero, and a flag that dlopen knows.
    unsafe { dlopen(name.as_ptr(), NOW) }
}

fn symbol(library: *mut c_void, name: &CStr) -> Option<*mut c_void> {
    // SAFETY: the handle came from dlopen.
    let address = unsafe { dlsym(library, name.as_ptr()) };
    (!address.is_null()).then_some(address)
}
