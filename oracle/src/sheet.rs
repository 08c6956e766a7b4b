//! The reader of sheets of kinds 1 and 3, written from document 01 and requests 3 and 12 of document 02.

/// A refusal of document 01's table: its number, and the place returned with it.
#[derive(Debug, Clone, Copy, PartialEq, Eq)]
pub struct Refusal {
    pub number: u64,
    pub place: u64,
}

impl Refusal {
    pub fn new(number: u64, place: usize) -> Self {
        Self { number, place: place as u64 }
    }
}

/// A map as lent: what a sheet says, with nothing checked that reading need not check.
#[derive(Debug, Clone, PartialEq, Eq)]
pub struct Map {
    pub pass: u64,
    pub width: u64,
    pub height: u64,
    pub cells: Vec<u8>,
    /// Four numbers a span.
    pub spans: Vec<u64>,
    /// Nine numbers a boundary.
    pub boundaries: Vec<u64>,
    /// Two numbers an anchor.
    pub anchors: Vec<u64>,
}

pub const MAX_SIDE: u64 = 1_024;
pub const MAX_ENTRIES: u64 = 256;
pub const SPAN_NUMBERS: usize = 4;
pub const BOUNDARY_NUMBERS: usize = 9;
pub const ANCHOR_NUMBERS: usize = 2;

/// What a caller of the reader accepts beyond document 01's limits on a map.
#[derive(Debug, Clone, Copy)]
pub struct ReadLimits {
    pub cells: u64,
    pub bytes: Option<u64>,
}

/// Reads a whole sheet. Gives 14, 1 and 3 only.
pub fn read(sheet: &[u8], limits: ReadLimits) -> Result<Map, Refusal> {
    if let Some(bytes) = limits.bytes
        && sheet.len() as u64 > bytes
    {
        return Err(Refusal { number: 14, place: bytes });
    }
    let mut reader = Reader { sheet, offset: 0 };
    let first = reader.offset;
    let kind = reader.number()?;
    if kind != 1 && kind != 3 {
        return Err(Refusal::new(14, first));
    }
    let pass = reader.number()?;
    let width = reader.number()?;
    let height = reader.number()?;
    let side = 1..=MAX_SIDE;
    if !side.contains(&width) || !side.contains(&height) || width * height > limits.cells {
        return Err(Refusal::new(1, 0));
    }
    let mut cells = Vec::new();
    for _ in 0..width * height {
        let first = reader.offset;
        let cell = reader.number()?;
        cells.push(u8::try_from(cell).map_err(|_| Refusal::new(14, first))?);
    }
    let held = if kind == 1 { Some(reader.entries(SPAN_NUMBERS)?) } else { None };
    let boundaries = reader.entries(BOUNDARY_NUMBERS)?;
    let anchors = reader.entries(ANCHOR_NUMBERS)?;
    if reader.offset < sheet.len() {
        return Err(Refusal::new(14, reader.offset));
    }
    let spans = held.unwrap_or_else(|| endpoints(&boundaries));
    Ok(Map { pass, width, height, cells, spans, boundaries, anchors })
}

/// The boundaries as spans, as written: the spans of a sheet of kind 3.
fn endpoints(boundaries: &[u64]) -> Vec<u64> {
    boundaries.chunks_exact(BOUNDARY_NUMBERS).flat_map(|boundary| boundary[..SPAN_NUMBERS].to_vec()).collect()
}

struct Reader<'a> {
    sheet: &'a [u8],
    offset: usize,
}

impl Reader<'_> {
    /// Groups of seven bits, least first, the top bit set on all but the last. Ten groups at most; the tenth may hold one bit. The shortest form only: a last group
    /// of zero behind others is refused.
    fn number(&mut self) -> Result<u64, Refusal> {
        let first = self.offset;
        let mut value = 0;
        for group in 0..10 {
            let Some(&byte) = self.sheet.get(self.offset) else {
                return Err(Refusal::new(14, self.sheet.len()));
            };
            self.offset += 1;
            // A tenth group above 1 passes 64 bits, and one with the top bit set passes ten groups.
            if group == 9 && byte > 1 {
                return Err(Refusal::new(14, first));
            }
            value |= u64::from(byte & 0x7f) << (7 * group);
            if byte < 0x80 {
                let padded = group > 0 && byte == 0;
                return if padded { Err(Refusal::new(14, first)) } else { Ok(value) };
            }
        }
        unreachable!("a tenth group of 0 or 1 ends the number")
    }

    /// A count, and that many entries.
    fn entries(&mut self, numbers: usize) -> Result<Vec<u64>, Refusal> {
        let count = self.number()?;
        if count > MAX_ENTRIES {
            return Err(Refusal::new(3, 0));
        }
        (0..count as usize * numbers).map(|_| self.number()).collect()
    }
}

/// Writes a sheet, each number in as few groups as it needs.
pub fn write(map: &Map) -> Vec<u8> {
    let mut sheet = Vec::new();
    for number in [1, map.pass, map.width, map.height] {
        put(&mut sheet, number);
    }
    for cell in &map.cells {
        put(&mut sheet, u64::from(*cell));
    }
    for (list, numbers) in [(&map.spans, SPAN_NUMBERS), (&map.boundaries, BOUNDARY_NUMBERS), (&map.anchors, ANCHOR_NUMBERS)] {
        put(&mut sheet, (list.len() / numbers) as u64);
        for number in list {
            put(&mut sheet, *number);
        }
    }
    sheet
}

pub fn put(sheet: &mut Vec<u8>, mut number: u64) {
    while number >= 0x80 {
        sheet.push(number as u8 | 0x80);
        number >>= 7;
    }
    sheet.push(number as u8);
}
