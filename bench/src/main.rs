//! Times the Rust original step by step and our static libraries on the same maps in one process.

mod accession;
mod calls;
mod desks;
mod hypotenuse;
mod maps;
mod ours;
mod pool;
mod ranked;
mod rest;
mod stack;
mod timing;

use calls::{OWN, RUST, with_calls};
use jenwyllt::Refusal;
use maps::Named;
use oracle::sheet::Map;
use oracle::table::check_pass;
use oracle::topology::harness::{self, Answer, Context, Original, Room, row};
use std::io::Write;
use std::time::Duration;
use timing::{Timing, time};

const PASSES: [u64; 3] = [1, 2, 3];
const USAGE: &str = "usage: bench [SECONDS a measurement] [NAME of a map...], or bench alone SECONDS NAME..., or bench ranked SECONDS NAME..., or bench desks SECONDS [NAME...], or bench once MAP rust|ours|none CALL, or bench sheet MAP";

fn main() {
    let arguments: Vec<String> = std::env::args().skip(1).collect();
    if arguments == ["--help"] {
        return println!("{USAGE}");
    }
    if let [word, map, whose, call] = &arguments[..]
        && word == "once"
    {
        return once(map, whose, call);
    }
    if let [word, map] = &arguments[..]
        && word == "sheet"
    {
        return sheet(map);
    }
    if let [word, seconds, names @ ..] = &arguments[..]
        && word == "alone"
    {
        return alone(seconds.parse().unwrap_or_else(|_| usage()), names);
    }
    if let [word, seconds, names @ ..] = &arguments[..]
        && word == "ranked"
    {
        return ranked::run(Duration::from_secs_f64(seconds.parse().unwrap_or_else(|_| usage())), names);
    }
    if let [word, seconds, names @ ..] = &arguments[..]
        && word == "desks"
    {
        return desks::run(Duration::from_secs_f64(seconds.parse().unwrap_or_else(|_| usage())), names);
    }
    let budget = match arguments.first().map(|word| word.parse::<f64>()) {
        None => Duration::from_millis(300),
        Some(Ok(seconds)) if seconds > 0.0 => Duration::from_secs_f64(seconds),
        Some(_) => usage(),
    };
    let wanted = |name: &str| arguments.len() < 2 || arguments[1..].iter().any(|word| word == name);
    println!(
        "microseconds of processor time, least and middle of many runs; ratio: ours to the Rust, least to least, or of differences middle to middle"
    );
    for named in maps::all().iter().filter(|named| wanted(named.name)) {
        passes(named, budget);
    }
    if wanted("hypotenuse") {
        hypotenuse::run(budget);
    }
    if wanted("rest") {
        rest::run(budget, |name| arguments.len() < 3 || wanted(name));
    }
    if wanted("accession") {
        accession::run(budget);
    }
    if wanted("pool") {
        pool::run(budget);
    }
    if arguments.iter().any(|word| word == "accession-worst") {
        accession::worst();
    }
    if wanted("stack") {
        stack::run();
    }
}

fn usage() -> ! {
    eprintln!("{USAGE}");
    std::process::exit(2);
}

/// Makes all that the calls of a map need and runs one of them, or none: count.py counts the instructions of the two.
fn once(map: &str, whose: &str, call: &str) {
    let maps = maps::all();
    let named = maps.iter().find(|named| named.name == map).unwrap_or_else(|| usage());
    with_calls(&named.map, |mut rust, mut own| {
        let place = |names: [&str; 8]| names.iter().position(|name| *name == call).unwrap_or_else(|| usage());
        match whose {
            "rust" => drop(rust[place(RUST)]()),
            "ours" => drop(own[place(OWN)]()),
            "none" => (),
            _ => usage(),
        }
    });
}

/// Writes a map as a sheet of kind 1 to standard output.
fn sheet(map: &str) {
    let maps = maps::all();
    let Map { pass, width, height, cells, spans, boundaries, anchors } = &maps.iter().find(|named| named.name == map).unwrap_or_else(|| usage()).map;
    let lists = [(spans, 4), (boundaries, 9), (anchors, 2)];
    let mut numbers = vec![1, *pass, *width, *height];
    numbers.extend(cells.iter().map(|cell| u64::from(*cell)));
    for (list, size) in lists {
        numbers.push((list.len() / size) as u64);
        numbers.extend(list);
    }
    let mut bytes = vec![];
    for mut number in numbers {
        // Groups of seven bits, least first, the top bit set on all but the last.
        while number > 127 {
            bytes.push((number % 128) as u8 | 128);
            number /= 128;
        }
        bytes.push(number as u8);
    }
    std::io::stdout().write_all(&bytes).expect("standard output");
}

/// Each pass of the maps, with no calls beside those that it is told from: many more rounds in the same time.
fn alone(seconds: f64, names: &[String]) {
    println!("microseconds, the middle of many rounds, and by how much ours may be off");
    for Named { name, map, .. } in maps::all().iter().filter(|named| names.iter().any(|name| name == named.name)) {
        for pass in PASSES {
            let at = |names: [&str; 8], name: &str| names.iter().position(|other| *other == name).expect("a call's name");
            let times = with_calls(map, |mut rust, own| {
                let (pass, call) = (format!("pass-{pass}"), format!("call-{pass}"));
                let wanted = ["bare", "fewer", "plain", &call].map(|name| at(OWN, name));
                let mut calls: Vec<_> =
                    own.into_iter().enumerate().filter(|(place, _)| wanted.contains(place)).map(|(_, call)| call).collect();
                calls.push(rust.swap_remove(at(RUST, &pass)));
                time(Duration::from_secs_f64(seconds / 5.0), vec![calls]).swap_remove(0)
            });
            let [bare, fewer, plain, call, rust] = &times[..] else { panic!("five calls") };
            let ours = call.less(bare).less(&plain.less(fewer));
            println!(
                "{name} pass {pass}: Rust {:.0}, ours {:.0} ± {:.0}, ratio {:.2}",
                rust.middle(),
                ours.middle(),
                ours.error(),
                ours.middle() / rust.middle()
            );
        }
    }
}

fn passes(Named { name, about, map }: &Named, budget: Duration) {
    check_pass(map).expect("the map is accepted");
    let original = Original::new(map);
    let partition = original.partition();
    let context = original.context(&partition);
    let regions = partition.areas().len();
    let pairs: usize = partition.boundaries().iter().map(|entry| entry.region_pairs.len()).sum();
    let count = map.boundaries.len() / 9;
    let kept = PASSES.map(|pass| original.pass(pass, &context).len());
    println!(
        "\n{name}: {about}; {} by {} cells, {regions} regions, {pairs} pair rows, {count} boundaries, kept by pass {} {} {}\n",
        map.width, map.height, kept[0], kept[1], kept[2],
    );
    println!("{:<22} {:>12} {:>12} {:>12} {:>12} {:>7}", "", "Rust least", "middle", "ours least", "middle", "ratio");
    let times = with_calls(map, |rust, own| time(budget, vec![rust, own]));
    compare(map, &mut ours::Lent::new(map, regions, pairs), &original, &context);
    print(&times[0], &times[1]);
}

/// The lines of a map. Ours between the partition and the rows are what calls take more than others (README.md).
fn print(rust: &[Timing], own: &[Timing]) {
    let [partition, context, rust @ ..] = rust else { panic!("RUST has more") };
    let (alone, whole) = rust.split_at(PASSES.len());
    let [cut, refused, bare, fewer, plain, calls @ ..] = own else { panic!("OWN has more") };
    let view = plain.less(fewer);
    line("partition", partition, cut);
    difference("context", context, &bare.less(refused).and(&view));
    for (pass, (rust, call)) in alone.iter().zip(calls).enumerate() {
        difference(&format!("pass {}", pass + 1), rust, &call.less(bare).less(&view));
    }
    for (pass, (rust, call)) in alone.iter().zip(calls).enumerate() {
        difference(&format!("context and pass {}", pass + 1), &context.and(rust), &call.less(refused));
    }
    for (pass, (rust, call)) in whole.iter().zip(calls).enumerate() {
        line(&format!("whole call, pass {}", pass + 1), rust, call);
    }
}

/// Says what of ours is unlike the Rust's.
fn compare(map: &Map, lent: &mut ours::Lent, original: &Original, context: &Context) {
    assert_eq!(ours::refused(map, lent), Err(Refusal { number: 12, place: 0 }));
    let answer = ours::partition(map, lent);
    if !is_like(map, lent, answer) {
        println!("the regions, tallies or pairs are unlike the Rust's");
    }
    for pass in PASSES {
        let rows: Vec<u64> = original.pass(pass, context).iter().flat_map(row).collect();
        let answer = ours::kept_boundaries(&Map { pass, ..map.clone() }, lent);
        if answer != Ok(rows.len() as u64 / 5) || !lent.output.starts_with(&rows) {
            println!("the rows of pass {pass} are unlike the Rust's with the C library's hypot");
        }
    }
    if harness::records(context) != lent.records.iter().map(ours::record).collect::<Vec<_>>() {
        println!("the records are unlike the Rust's");
    }
}

/// Whether our partition is the Rust's: answer, labels, tallies and pairs, with masks and queue zero. The pairs are lent as many rows as there are.
fn is_like(map: &Map, lent: &ours::Lent, answer: Result<u64, Refusal>) -> bool {
    let Answer::Done(rust) = harness::partition(map, Room::UNLIMITED) else {
        return false;
    };
    answer == Ok(rust.regions as u64)
        && lent.labels == rust.labels
        && lent.tallies == rust.tallies.as_flattened()
        && lent.pairs == rust.pairs.as_flattened()
        && lent.masks.iter().all(|mask| *mask == 0)
        && lent.queue.iter().all(|cell| *cell == 0)
}

fn line(step: &str, rust: &Timing, own: &Timing) {
    print_line(step, rust, format!("{:.1}", own.least()), own.middle(), own.least() / rust.least());
}

/// Of differences the least says nothing.
fn difference(step: &str, rust: &Timing, own: &Timing) {
    print_line(step, rust, "-".into(), own.middle(), own.middle() / rust.middle());
}

fn print_line(step: &str, rust: &Timing, least: String, middle: f64, ratio: f64) {
    println!("{step:<22} {:>12.1} {:>12.1} {least:>12} {middle:>12.1} {ratio:>7.2}", rust.least(), rust.middle());
}
