//! How much stack a call needs: it is run on a thread whose stack is filled with a pattern first, and how far down that is gone afterwards
//! is what was used.

use crate::maps;
use crate::ours::{self, Lent};
use oracle::sheet::Map;
use oracle::topology::harness::Original;
use std::ffi::{c_int, c_void};

const WORDS: usize = 1 << 21;
const PATTERN: u64 = 0xa5a5_5a5a_c3c3_3c3c;

pub fn run() {
    println!("\nstack, bytes, the most of all maps\n");
    let idle = used(|| ());
    let largest = |call: ours::Call, pass: u64| {
        let need = |map: &Map| {
            let partition = Original::new(map).partition();
            let pairs = partition.boundaries().iter().map(|entry| entry.region_pairs.len()).sum();
            let mut lent = Lent::new(map, partition.areas().len(), pairs);
            let map = Map { pass, ..map.clone() };
            used(|| assert!(call(&map, &mut lent).is_ok())) - idle
        };
        maps::all().iter().map(|named| need(&named.map)).max().unwrap_or(0)
    };
    println!("{:<22} {:>12}", "partition", largest(ours::partition, 1));
    for pass in crate::PASSES {
        println!("{:<22} {:>12}", format!("whole call, pass {pass}"), largest(ours::kept_boundaries, pass));
    }
    println!("{:<22} {:>12}", "pass 3, ranked list", largest(ours::ranked_junctions, 3));
    let both = |map: &Map, lent: &mut Lent| crate::desks::two_desks(map, lent, &mut vec![0; 5 * 256]).route;
    println!("{:<22} {:>12}", "two desks", crate::PASSES.map(|pass| largest(both, pass)).into_iter().max().unwrap_or(0));
    println!("{:<22} {:>12}", "running to rest", largest(|map, lent| ours::run_to_rest(map, lent).map(|counts| counts.kept), 1));
    let on_sheets = sheets().into_iter().map(|bytes| used(played(&bytes)) - idle);
    let on_maps = crate::PASSES.map(|pass| largest(ours::runner_and_guard, pass));
    println!("{:<22} {:>12}", "runner and guard", on_sheets.chain(on_maps).max().unwrap_or(0));
    println!(
        "{:<22} {:>12}",
        "report of a run",
        crate::PASSES.map(|pass| largest(ours::report_run, pass)).into_iter().max().unwrap_or(0)
    );
    println!(
        "{:<22} {:>12}",
        "report of a sheet",
        sheets().iter().map(|bytes| used(|| reported(bytes)) - idle).max().unwrap_or(0)
    );
    println!("{:<22} {:>12}", "maps of a day", used(crate::pool::mixed_call()) - idle);
}

/// The sheets of examples/, one or more for each pass.
fn sheets() -> Vec<Vec<u8>> {
    let folder = std::path::Path::new(env!("CARGO_MANIFEST_DIR")).join("../examples");
    let names = ["case_j", "mouths", "interiors", "junctions"];
    names.map(|name| std::fs::read(folder.join(name).with_extension("sheet")).expect("a sheet of examples/")).into()
}

/// Runner and guard on a sheet of few regions.
fn played(bytes: &[u8]) -> impl FnMut() {
    let sheet = jenwyllt::read_sheet(bytes).expect("a sheet of examples/");
    move || assert!(jenwyllt::runner_and_guard(&sheet, 1).is_ok())
}

fn reported(bytes: &[u8]) {
    assert!(jenwyllt::report_sheet(&mut jenwyllt::Report::empty(), bytes).is_ok());
}

unsafe extern "C" {
    fn pthread_attr_init(attributes: *mut Attributes) -> c_int;
    fn pthread_attr_setstack(attributes: *mut Attributes, lowest: *mut c_void, size: usize) -> c_int;
    fn pthread_create(
        thread: *mut usize,
        attributes: *const Attributes,
        start: extern "C" fn(*mut c_void) -> *mut c_void,
        argument: *mut c_void,
    ) -> c_int;
    fn pthread_join(thread: usize, result: *mut *mut c_void) -> c_int;
}

/// `pthread_attr_t` of glibc for x86-64 has 56 bytes.
type Attributes = [u64; 7];

#[repr(C, align(4096))]
struct Page([u64; 512]);

/// Bytes from the top of the stack to the lowest word that was written.
fn used(mut call: impl FnMut()) -> usize {
    let mut stack: Vec<Page> = (0..WORDS / 512).map(|_| Page([PATTERN; 512])).collect();
    let mut call: &mut dyn FnMut() = &mut call;
    let mut attributes = Attributes::default();
    let mut thread = 0;
    // SAFETY: the stack is the thread's alone until it is joined, and so is what it calls.
    let done = unsafe {
        [
            pthread_attr_init(&mut attributes),
            pthread_attr_setstack(&mut attributes, stack.as_mut_ptr().cast(), 8 * WORDS),
            pthread_create(&mut thread, &attributes, start, (&raw mut call).cast()),
            pthread_join(thread, std::ptr::null_mut()),
        ]
    };
    assert_eq!(done, [0; 4]);
    let words = stack.iter().flat_map(|page| page.0);
    8 * (WORDS - words.take_while(|word| *word == PATTERN).count())
}

extern "C" fn start(call: *mut c_void) -> *mut c_void {
    // SAFETY: `used` hands over a pointer to such a reference, which outlives the thread.
    unsafe { (*call.cast::<&mut dyn FnMut()>())() };
    std::ptr::null_mut()
}
