//! The command line; README.md says what each command reads and prints.

use oracle::sheet::{self, Map, ReadLimits, Refusal};
use oracle::topology::harness::{self, Answer, Kept, Partition, Room};
use std::fmt::{Display, Write as _};
use std::io::{self, BufRead, Read, Write};
use std::process::ExitCode;

const USAGE: &str =
    "usage: oracle kept|full|ranked|partition|read|hypot [--many] [--cells N] [--bytes N] [--records N] [--pairs N]";

/// A command that reads sheets: what it prints for one of them.
type Answering = fn(&[u8], &Limits) -> String;

struct Limits {
    read: ReadLimits,
    room: Room,
}

impl Limits {
    /// The lists that `keptlist` lends.
    const KEPTLIST: Self =
        Self { read: ReadLimits { cells: 4_096, bytes: Some(65_536) }, room: Room { records: Some(512), pairs: Some(2_048) } };
    const PLAIN: Self = Self { read: ReadLimits { cells: 1_048_576, bytes: None }, room: Room::UNLIMITED };
}

fn main() -> ExitCode {
    match run(std::env::args().skip(1).collect()) {
        Ok(()) => ExitCode::SUCCESS,
        Err(sentence) => {
            eprintln!("oracle: {sentence}");
            ExitCode::from(2)
        }
    }
}

fn run(arguments: Vec<String>) -> Result<(), String> {
    if arguments == ["--help"] {
        println!("{USAGE}");
        return Ok(());
    }
    let (command, options) = arguments.split_first().ok_or(USAGE)?;
    let (answer, mut limits): (Answering, Limits) = match command.as_str() {
        "kept" => (kept, Limits::KEPTLIST),
        "full" => (full, Limits::PLAIN),
        "ranked" => (ranked, Limits::PLAIN),
        "partition" => (partition, Limits::PLAIN),
        "read" => (read, Limits::PLAIN),
        "hypot" if options.is_empty() => return hypot(),
        _ => return Err(USAGE.into()),
    };
    let mut many = false;
    let mut options = options.iter();
    while let Some(option) = options.next() {
        if option == "--many" {
            many = true;
            continue;
        }
        let value = options.next().ok_or(USAGE)?;
        let value: u64 = value.parse().map_err(|_| format!("{option} takes a whole number, not {value}"))?;
        match option.as_str() {
            "--cells" => limits.read.cells = value,
            "--bytes" => limits.read.bytes = Some(value),
            "--records" => limits.room.records = Some(value as usize),
            "--pairs" => limits.room.pairs = Some(value as usize),
            _ => return Err(USAGE.into()),
        }
    }
    let mut input = io::stdin().lock();
    let mut output = io::stdout().lock();
    let mut respond = |sheet: &[u8]| {
        output
            .write_all(answer(sheet, &limits).as_bytes())
            .and_then(|()| output.flush())
            .map_err(|error| format!("cannot write: {error}"))
    };
    if many {
        while let Some(sheet) = framed(&mut input)? {
            respond(&sheet)?;
        }
        return Ok(());
    }
    let mut sheet = Vec::new();
    input.read_to_end(&mut sheet).map_err(|error| format!("cannot read: {error}"))?;
    respond(&sheet)
}

/// The next sheet behind its length, or none at the end.
fn framed(input: &mut impl BufRead) -> Result<Option<Vec<u8>>, String> {
    let failed = |error| format!("cannot read: {error}");
    if input.fill_buf().map_err(failed)?.is_empty() {
        return Ok(None);
    }
    let mut length = [0; 8];
    input.read_exact(&mut length).map_err(|_| "the input ends inside a length")?;
    let length = u64::from_le_bytes(length);
    let mut sheet = Vec::new();
    input.take(length).read_to_end(&mut sheet).map_err(failed)?;
    if sheet.len() as u64 != length {
        return Err(format!("the input ends {} bytes into a sheet of {length}", sheet.len()));
    }
    Ok(Some(sheet))
}

fn kept(sheet: &[u8], limits: &Limits) -> String {
    let map = match sheet::read(sheet, limits.read) {
        Ok(map) => map,
        Err(refusal) => return refused(refusal),
    };
    match harness::run(&map, limits.room) {
        Answer::Done(Kept { rows, .. }) => {
            let mut text = format!("kept {} of {}\n", rows.len(), map.boundaries.len() / sheet::BOUNDARY_NUMBERS);
            for [number, ax, ay, bx, by] in rows {
                writeln!(text, "{number} {ax} {ay} {bx} {by}").expect("a string takes text");
            }
            text
        }
        Answer::Short(number, _) => refused(Refusal::new(number, 0)),
        Answer::Refused(refusal) => refused(refusal),
    }
}

fn refused(refusal: Refusal) -> String {
    format!("refused {} at {}\n", refusal.number, refusal.place)
}

fn full(sheet: &[u8], limits: &Limits) -> String {
    let answer = match sheet::read(sheet, limits.read) {
        Ok(map) => harness::run(&map, limits.room),
        Err(refusal) => Answer::Refused(refusal),
    };
    match answer {
        Answer::Done(Kept { partition, records, rows }) => {
            let records = records.iter().map(|record| {
                let shape = [record.ramp_cells, u64::from(record.mask)];
                list([record.cells].iter().chain(&record.edges).chain(&shape).chain(&record.counts))
            });
            object(&[
                ("number", "0".into()),
                ("value", rows.len().to_string()),
                ("labels", list(&partition.labels)),
                ("regions", partition.regions.to_string()),
                ("tallies", list(partition.tallies.iter().map(list))),
                ("pairs", list(partition.pairs.iter().map(list))),
                ("records", list(records)),
                ("rows", list(rows.iter().map(list))),
            ])
        }
        Answer::Short(number, Partition { labels, regions, tallies, .. }) => {
            let mut fields = vec![
                ("number", number.to_string()),
                ("value", "0".into()),
                ("labels", list(&labels)),
                ("regions", regions.to_string()),
            ];
            if number == 12 {
                fields.push(("tallies", list(tallies.iter().map(list))));
            }
            object(&fields)
        }
        Answer::Refused(refusal) => bare(refusal),
    }
}

fn ranked(sheet: &[u8], limits: &Limits) -> String {
    let answer = match sheet::read(sheet, limits.read) {
        Ok(map) => harness::ranked(&map, limits.room),
        Err(refusal) => Answer::Refused(refusal),
    };
    match answer {
        Answer::Done((Kept { rows, .. }, list)) => object(&[
            ("number", "0".into()),
            ("value", rows.len().to_string()),
            ("proposals", list.len().to_string()),
            ("ranked", self::list(list.iter().map(self::list))),
            ("rows", self::list(rows.iter().map(self::list))),
        ]),
        Answer::Short(number, _) => bare(Refusal::new(number, 0)),
        Answer::Refused(refusal) => bare(refusal),
    }
}

fn partition(sheet: &[u8], limits: &Limits) -> String {
    let answer = match sheet::read(sheet, limits.read) {
        Ok(map) => harness::partition(&map, limits.room),
        Err(refusal) => Answer::Refused(refusal),
    };
    match answer {
        Answer::Done(Partition { labels, regions, tallies, pairs }) => object(&[
            ("number", "0".into()),
            ("value", regions.to_string()),
            ("labels", list(&labels)),
            ("tallies", list(tallies.iter().map(list))),
            ("pairs", list(pairs.iter().map(list))),
        ]),
        Answer::Short(number, Partition { labels, tallies, .. }) => object(&[
            ("number", number.to_string()),
            ("value", "0".into()),
            ("labels", list(&labels)),
            ("tallies", list(tallies.iter().map(list))),
        ]),
        Answer::Refused(refusal) => bare(refusal),
    }
}

fn read(sheet: &[u8], limits: &Limits) -> String {
    match sheet::read(sheet, limits.read) {
        Ok(Map { pass, width, height, cells, spans, boundaries, anchors }) => object(&[
            ("number", "0".into()),
            ("value", "0".into()),
            ("pass", pass.to_string()),
            ("width", width.to_string()),
            ("height", height.to_string()),
            ("cells", list(&cells)),
            ("spans", list(&spans)),
            ("boundaries", list(&boundaries)),
            ("anchors", list(&anchors)),
        ]),
        Err(refusal) => bare(refusal),
    }
}

fn bare(refusal: Refusal) -> String {
    object(&[("number", refusal.number.to_string()), ("value", refusal.place.to_string())])
}

fn object(fields: &[(&str, String)]) -> String {
    let fields: Vec<_> = fields.iter().map(|(key, value)| format!("\"{key}\":{value}")).collect();
    format!("{{{}}}\n", fields.join(","))
}

fn list<T: Display>(entries: impl IntoIterator<Item = T>) -> String {
    let mut text = String::from("[");
    for (index, entry) in entries.into_iter().enumerate() {
        let comma = if index > 0 { "," } else { "" };
        write!(text, "{comma}{entry}").expect("a string takes text");
    }
    text + "]"
}

fn hypot() -> Result<(), String> {
    let mut output = io::BufWriter::new(io::stdout().lock());
    for (index, line) in io::stdin().lock().lines().enumerate() {
        let line = line.map_err(|error| format!("cannot read: {error}"))?;
        let bits: Option<Vec<u64>> = line.split_whitespace().map(|word| u64::from_str_radix(word, 16).ok()).collect();
        let Some([x, y]) = bits.as_deref() else {
            return Err(format!("line {} is not two numbers of 16 hexadecimal digits", index + 1));
        };
        let (x, y) = (f64::from_bits(*x), f64::from_bits(*y));
        if oracle::hypotenuse::in_range(x) && oracle::hypotenuse::in_range(y) {
            writeln!(output, "{:016x}", oracle::hypotenuse::rounded(x, y).to_bits())
        } else {
            writeln!(output, "refused 13")
        }
        .map_err(|error| format!("cannot write: {error}"))?;
    }
    output.flush().map_err(|error| format!("cannot write: {error}"))
}
