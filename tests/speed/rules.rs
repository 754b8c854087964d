//! What the reader and the packer in plain Rust both know: causes, rows, kinds, the order of datasets, what is kept of a header, and which
//! octets of a text are no part of a line.

use std::arch::x86_64::*;

pub const GREATEST: u64 = (1 << 63) - 1;
const MOST_OCTETS: u64 = 65_536;
const MOST_FIELDS: usize = 512;

/// Why octets are refused: the layer, and the cause's number and name.
pub type Cause = (&'static str, u8, &'static str);

pub const RECORD_ORDER: Cause = ("record", 10, "RecordOrder");
const UNKNOWN_DATASET: Cause = ("record", 11, "UnknownDataset");
const REPEATED: Cause = ("record", 12, "Repeated");
const COUNT_RANGE: Cause = ("record", 13, "CountRange");
pub const MISSING: Cause = ("record", 14, "Missing");
pub const BAD_VALUE: Cause = ("record", 15, "BadValue");
const FILE_FORMAT: Cause = ("record", 16, "FileFormat");
const HEADER_FULL: Cause = ("limits", 50, "HeaderFull");
const TOO_MANY_FIELDS: Cause = ("limits", 51, "TooManyFields");

// --- Rows and kinds ---

#[derive(Clone, Copy)]
pub enum Kind {
    Graphic,
    Spaced,
    SpacedLines,
    Letters,
    Digits,
    Date,
    PartDate,
    Time,
    Octets,
    Mode,
    Size,
    SizeFromOne,
}
use Kind::*;

#[derive(Clone, Copy)]
pub struct Row {
    least: u64,
    most: u64,
    pub kind: Kind,
    repeats: bool,
}

const fn line(least: u64, most: u64, kind: Kind, repeats: bool) -> Option<Row> {
    Some(Row { least, most, kind, repeats })
}

const fn application_row(set: u8) -> Option<Row> {
    match set {
        0 => line(2, 2, Octets, false),
        5 | 7 => line(0, 64, Spaced, false),
        10 => line(1, 1, Digits, false),
        15 | 100 => line(0, 3, Letters, false),
        20 | 80 | 85 | 122 => line(0, 32, Spaced, true),
        22 => line(0, 32, Graphic, false),
        25 => line(0, 64, Spaced, true),
        30 | 37 => line(8, 8, Date, false),
        35 | 38 | 60 => line(11, 11, Time, false),
        40 => line(0, 256, SpacedLines, false),
        55 => line(8, 8, PartDate, false),
        90 | 95 | 103 | 110 | 115 => line(0, 32, Spaced, false),
        101 => line(0, 64, Spaced, false),
        105 => line(0, 256, Spaced, false),
        116 => line(0, 128, Spaced, false),
        120 => line(0, 2000, SpacedLines, false),
        _ => line(0, 8192, Octets, true),
    }
}

const fn row_of(rec: u8, set: u8) -> Option<Row> {
    match (rec, set) {
        (1, 0 | 20 | 22) => line(2, 2, Octets, false),
        (1, 5) => line(0, 1024, Graphic, true),
        (1, 30) => line(0, 10, Graphic, false),
        (1, 40) => line(8, 8, Digits, false),
        (1, 50) => line(0, 32, Graphic, true),
        (1, 60) => line(1, 1, Digits, false),
        (1, 70) => line(8, 8, Date, false),
        (1, 80) => line(11, 11, Time, false),
        (1, 90) => line(0, 32, Octets, false),
        (1, 100) => line(14, 80, Octets, false),
        (1, _) => line(0, 8192, Octets, true),
        (2, _) => application_row(set),
        (7, 10) => line(1, 1, Mode, false),
        (7, 20) => line(1, 8, SizeFromOne, false),
        (7, 90 | 95) | (9, 10) => line(1, 8, Size, false),
        (8, 10) => line(0, GREATEST, Octets, true),
        _ => None,
    }
}

/// A table of the rows of a record.
const fn rows_of(rec: u8) -> [Option<Row>; 256] {
    let mut rows = [None; 256];
    let mut set = 0;
    while set < 256 {
        rows[set] = row_of(rec, set as u8);
        set += 1;
    }
    rows
}

static ROWS: [[Option<Row>; 256]; 10] = {
    let mut rows = [[None; 256]; 10];
    let mut rec = 0;
    while rec < 10 {
        rows[rec] = rows_of(rec as u8);
        rec += 1;
    }
    rows
};

/// What a record must have, and what follows it.
const fn mandatory(rec: u8) -> &'static [u8] {
    match rec {
        1 => &[0, 20, 22, 30, 40, 70],
        2 => &[0],
        7 => &[10, 20],
        _ => &[],
    }
}

const fn next_record(rec: u8) -> u8 {
    match rec {
        0 => 1,
        1 => 2,
        2 => 7,
        7 => 8,
        _ => 9,
    }
}

/// Whether each octet meets a test, sixteen at a time.
#[inline(always)]
fn all(octets: &[u8], test: impl Fn(u8) -> bool + Copy) -> bool {
    let (blocks, rest) = octets.as_chunks::<16>();
    blocks.iter().all(|block| block.iter().fold(true, |good, octet| good & test(*octet)))
        && rest.iter().fold(true, |good, octet| good & test(*octet))
}

fn is_graphic(octet: u8) -> bool {
    octet > 0x20 && octet != 0x7F
}

pub fn is_spaced(octet: u8) -> bool {
    octet >= 0x20 && octet != 0x7F
}

fn digits(octets: &[u8]) -> u32 {
    octets.iter().fold(0, |number, octet| number * 10 + u32::from(*octet - b'0'))
}

fn days_of(year: u32, month: u32) -> u32 {
    match month {
        2 if year % 4 == 0 && (year % 100 != 0 || year % 400 == 0) => 29,
        2 => 28,
        4 | 6 | 9 | 11 => 30,
        _ => 31,
    }
}

fn is_date(octets: &[u8]) -> bool {
    if !all(octets, |octet| octet.is_ascii_digit()) {
        return false;
    }
    let (year, month, day) = (digits(&octets[..4]), digits(&octets[4..6]), digits(&octets[6..]));
    year > 0 && (1..=12).contains(&month) && day > 0 && day <= days_of(year, month)
}

fn is_part_date(octets: &[u8]) -> bool {
    if !all(octets, |octet| octet.is_ascii_digit()) {
        return false;
    }
    let (year, month, day) = (digits(&octets[..4]), digits(&octets[4..6]), digits(&octets[6..]));
    year > 0 && if month == 0 { day <= 31 } else { month <= 12 && day <= days_of(year, month) }
}

fn is_time(octets: &[u8]) -> bool {
    (octets[6] == b'+' || octets[6] == b'-')
        && all(&octets[..6], |octet| octet.is_ascii_digit())
        && all(&octets[7..], |octet| octet.is_ascii_digit())
        && digits(&octets[..2]) <= 23
        && digits(&octets[2..4]) <= 59
        && digits(&octets[4..6]) <= 59
        && digits(&octets[7..9]) <= 23
        && digits(&octets[9..]) <= 59
}

pub fn number(octets: &[u8]) -> u64 {
    octets.iter().fold(0, |number, octet| number << 8 | u64::from(*octet))
}

/// Whether octets, of a length that the row allows, are of its kind.
#[inline(always)]
pub fn is_of(kind: Kind, octets: &[u8]) -> bool {
    match kind {
        Graphic => all(octets, is_graphic),
        Spaced => all(octets, is_spaced),
        SpacedLines => all(octets, |octet| is_spaced(octet) | (octet == b'\n') | (octet == b'\r')),
        Letters => all(octets, |octet| octet.is_ascii_alphabetic()),
        Digits => all(octets, |octet| octet.is_ascii_digit()),
        Date => is_date(octets),
        PartDate => is_part_date(octets),
        Time => is_time(octets),
        Octets => true,
        Mode => octets[0] < 2,
        Size => number(octets) <= GREATEST,
        SizeFromOne => (1..=GREATEST).contains(&number(octets)),
    }
}

// --- A header ---

/// The record that the heads so far have led to, and which of its datasets there are.
pub struct Order {
    pub section: u8,
    seen: [u64; 4],
}

/// The dataset that a refusal names, and the cause.
pub type Fault = ((u8, u8), Cause);

impl Order {
    pub fn new() -> Order {
        Order { section: 0, seen: [0; 4] }
    }

    pub fn has(&self, set: u8) -> bool {
        self.seen[usize::from(set >> 6)] >> (set & 63) & 1 == 1
    }

    /// A complete tag at the record layer: the row.
    #[inline(always)]
    pub fn head(&mut self, rec: u8, set: u8, count: u64) -> Result<Row, Fault> {
        let begins = rec != self.section || rec == 0;
        if begins && rec != next_record(self.section) {
            return Err(((rec, set), RECORD_ORDER));
        }
        let Some(row) = ROWS[usize::from(rec)][usize::from(set)] else {
            return Err(((rec, set), UNKNOWN_DATASET));
        };
        if !begins && !row.repeats && self.has(set) {
            return Err(((rec, set), REPEATED));
        }
        if count < row.least || count > row.most {
            return Err(((rec, set), COUNT_RANGE));
        }
        if begins {
            for each in mandatory(self.section) {
                if !self.has(*each) {
                    return Err(((self.section, *each), MISSING));
                }
            }
            self.section = rec;
            self.seen = [0; 4];
        }
        self.seen[usize::from(set >> 6)] |= 1 << (set & 63);
        Ok(row)
    }
}

/// Where a dataset of record 1 or 2 is kept: its data end here.
pub struct Field {
    pub rec: u8,
    pub set: u8,
    pub end: usize,
}

/// The datasets of records 1 and 2, and their data.
pub struct Kept {
    pub octets: Vec<u8>,
    pub fields: Vec<Field>,
}

impl Kept {
    pub fn new() -> Kept {
        Kept { octets: Vec::with_capacity(MOST_OCTETS as usize), fields: Vec::with_capacity(MOST_FIELDS) }
    }

    /// Why there is no room for a dataset with so many octets, if there is none.
    #[inline(always)]
    pub fn no_room(&self, count: u64) -> Option<Cause> {
        if self.octets.len() as u64 + count > MOST_OCTETS {
            return Some(HEADER_FULL);
        }
        if self.fields.len() == MOST_FIELDS { Some(TOO_MANY_FIELDS) } else { None }
    }

    /// Keeps a dataset, if its data may be those of its kind.
    #[inline(always)]
    pub fn keep(&mut self, rec: u8, set: u8, kind: Kind, data: &[u8]) -> Result<(), Cause> {
        if !is_of(kind, data) {
            return Err(BAD_VALUE);
        }
        if rec == 1 && set == 20 && data != [0, 2] {
            return Err(FILE_FORMAT);
        }
        self.octets.extend_from_slice(data);
        self.fields.push(Field { rec, set, end: self.octets.len() });
        Ok(())
    }
}

// --- Text ---

/// Whether an octet of the text is a mark: 01 to 04, LF or CR.
#[inline(always)]
pub fn is_mark(octet: u8) -> bool {
    (octet.wrapping_sub(1) < 4) | (octet == b'\n') | (octet == b'\r')
}

/// A bit for each of sixteen octets that is a mark.
#[inline(always)]
pub fn marks_of(block: &[u8; 16]) -> u32 {
    // SAFETY: each x86-64 processor has SSE2, and the block has the sixteen octets that are read.
    unsafe {
        let octets = _mm_loadu_si128(block.as_ptr().cast());
        let control = _mm_cmpeq_epi8(
            _mm_min_epu8(_mm_sub_epi8(octets, _mm_set1_epi8(1)), _mm_set1_epi8(3)),
            _mm_sub_epi8(octets, _mm_set1_epi8(1)),
        );
        let feed = _mm_cmpeq_epi8(octets, _mm_set1_epi8(0x0A));
        let turn = _mm_cmpeq_epi8(octets, _mm_set1_epi8(0x0D));
        _mm_movemask_epi8(_mm_or_si128(control, _mm_or_si128(feed, turn))) as u32
    }
}
