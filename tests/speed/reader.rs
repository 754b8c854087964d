//! A reader of envelopes in plain Rust, by the same rules as the command: what its times are compared with.
//!
//! It is written for speed: the whole file is in memory, datasets and headers are taken where they lie, and text is looked
//! through sixteen octets at a time. It does `check` and `story` of the command, and prints what these print.

mod rules;

use rules::{BAD_VALUE, Cause, GREATEST, Kept, Kind, Order, is_mark, is_of, is_spaced, marks_of, number};
use std::fs;
use std::io::{self, BufWriter, Write};
use std::process::ExitCode;

const MOST_SUBFILES: u64 = (1 << 32) - 1;

const MARKER: Cause = ("dataset", 1, "Marker");
const COUNT_FORM: Cause = ("dataset", 2, "CountForm");
const TRUNCATED: Cause = ("dataset", 3, "Truncated");
const MODE_CLASH: Cause = ("object", 20, "ModeClash");
const SIZE_CLASH: Cause = ("object", 21, "SizeClash");
const SUBFILE_TOO_LONG: Cause = ("object", 22, "SubfileTooLong");
const PAST_SIZE: Cause = ("object", 23, "PastSize");
const SHORT: Cause = ("object", 24, "Short");
const CONFIRMED_WRONG: Cause = ("object", 25, "ConfirmedWrong");
const BAD_OCTET: Cause = ("message", 30, "BadOctet");
const UNFINISHED: Cause = ("message", 32, "Unfinished");
const LONE_RETURN: Cause = ("story", 40, "LoneReturn");
const CONTROL_OCTET: Cause = ("story", 41, "ControlOctet");
const TOO_MANY_SUBFILES: Cause = ("limits", 52, "TooManySubfiles");

struct Refusal {
    octet: usize,
    rec: u8,
    set: u8,
    cause: Cause,
}

type Answer<T> = Result<T, Refusal>;

fn refused<T>(octet: usize, (rec, set): (u8, u8), cause: Cause) -> Answer<T> {
    Err(Refusal { octet, rec, set, cause })
}

// --- The message ---

/// What is reported of the text.
trait Sink {
    fn run(&mut self, run: &[u8]);
    fn line_end(&mut self);
}

struct Nothing;

impl Sink for Nothing {
    fn run(&mut self, _run: &[u8]) {}
    fn line_end(&mut self) {}
}

impl<W: Write> Sink for BufWriter<W> {
    fn run(&mut self, run: &[u8]) {
        self.write_all(run).expect("can be written")
    }
    fn line_end(&mut self) {
        self.write_all(b"\n").expect("can be written")
    }
}

#[derive(Clone, Copy, PartialEq)]
enum Part {
    Before,
    Source,
    Number,
    Space,
    Priority,
    Category,
    Words,
    Info,
    Gap,
    Text,
    Tail,
    After,
}

/// A text of the header, which is copied.
#[derive(Clone, Copy)]
struct Short<const N: usize> {
    octets: [u8; N],
    length: usize,
}

impl<const N: usize> Short<N> {
    const EMPTY: Short<N> = Short { octets: [0; N], length: 0 };

    #[inline(always)]
    fn add(&mut self, octet: u8) -> bool {
        if self.length == N {
            return false;
        }
        self.octets[self.length] = octet;
        self.length += 1;
        true
    }
}

struct Message {
    part: Part,
    count: u8,
    feed: bool,
    returns: u8,
    source: Short<8>,
    number: Short<8>,
    priority: Short<1>,
    category: Short<8>,
    words: Short<6>,
    info: Short<64>,
    trailer: Short<64>,
}

fn is_filler(octet: u8) -> bool {
    matches!(octet, 0 | 0x0A | 0x0D | 0x16)
}

impl Message {
    fn new() -> Message {
        Message {
            part: Part::Before,
            count: 0,
            feed: false,
            returns: 0,
            source: Short::EMPTY,
            number: Short::EMPTY,
            priority: Short::EMPTY,
            category: Short::EMPTY,
            words: Short::EMPTY,
            info: Short::EMPTY,
            trailer: Short::EMPTY,
        }
    }

    fn again(&mut self) {
        self.part = Part::Before;
        self.count = 0;
        self.source.length = 0;
        self.number.length = 0;
        self.priority.length = 0;
        self.category.length = 0;
        self.words.length = 0;
        self.info.length = 0;
        self.trailer.length = 0;
    }

    fn fills(&mut self, octet: u8) -> bool {
        self.count += 1;
        is_filler(octet) && self.count <= 32
    }

    fn begin_gap(&mut self, octet: u8) {
        self.part = Part::Gap;
        self.count = 1;
        self.feed = octet == b'\n';
    }

    /// Takes an octet outside of the text, if it is valid there.
    #[inline(always)]
    fn step(&mut self, octet: u8) -> bool {
        match self.part {
            Part::Before if octet == 1 => self.part = Part::Source,
            Part::Before | Part::After => return self.fills(octet),
            Part::Source if octet.is_ascii_digit() && self.source.length > 0 => {
                self.part = Part::Number;
                return self.number.add(octet);
            }
            Part::Source => return octet.is_ascii_alphabetic() && self.source.add(octet),
            Part::Number if octet == b' ' => self.part = Part::Space,
            Part::Number => return octet.is_ascii_digit() && self.number.add(octet),
            Part::Space => {
                self.part = Part::Priority;
                return octet.is_ascii_digit() && self.priority.add(octet);
            }
            Part::Priority => {
                self.part = Part::Category;
                return octet == b' ';
            }
            Part::Category if octet == b' ' && self.category.length > 0 => self.part = Part::Words,
            Part::Category => return octet.is_ascii_alphanumeric() && self.category.add(octet),
            Part::Words if octet == b' ' && self.words.length > 0 => self.part = Part::Info,
            Part::Words if is_filler(octet) && self.words.length > 0 => self.begin_gap(octet),
            Part::Words => return octet.is_ascii_digit() && self.words.add(octet),
            Part::Info if is_filler(octet) => self.begin_gap(octet),
            Part::Info => return is_spaced(octet) && self.info.add(octet),
            Part::Gap if octet == 2 => {
                self.part = Part::Text;
                self.returns = 0;
                return self.feed;
            }
            Part::Gap => {
                self.count += 1;
                self.feed |= octet == b'\n';
                return is_filler(octet) && self.count <= 31 + u8::from(self.feed);
            }
            Part::Tail if octet == 4 => {
                self.part = Part::After;
                self.count = 0;
            }
            Part::Tail => {
                return (is_spaced(octet) || octet == b'\n' || octet == b'\r') && self.trailer.add(octet);
            }
            Part::Text => unreachable!(),
        }
        true
    }

    /// Takes what comes before a mark, from one octet to another.
    #[inline(always)]
    fn run<S: Sink>(&self, octets: &[u8], from: usize, to: usize, sink: &mut S) -> Result<(), (usize, Cause)> {
        if from == to {
            return Ok(());
        }
        if self.returns > 0 {
            return Err((from, LONE_RETURN));
        }
        sink.run(&octets[from..to]);
        Ok(())
    }

    /// Takes a mark, and returns whether the text can continue.
    #[inline(always)]
    fn mark<S: Sink>(&mut self, octets: &[u8], at: usize, sink: &mut S) -> Result<bool, (usize, Cause)> {
        match octets[at] {
            b'\n' => {
                self.returns = 0;
                sink.line_end();
            }
            b'\r' if self.returns < 2 => self.returns += 1,
            _ if self.returns > 0 => return Err((at, LONE_RETURN)),
            3 => {
                self.part = Part::Tail;
                return Ok(false);
            }
            _ => return Err((at, CONTROL_OCTET)),
        }
        Ok(true)
    }

    /// Takes octets of the text up to its end, and returns how many.
    #[inline(always)]
    fn text<S: Sink>(&mut self, octets: &[u8], sink: &mut S) -> Result<usize, (usize, Cause)> {
        let (blocks, rest) = octets.as_chunks::<16>();
        let mut from = 0;
        for (number, block) in blocks.iter().enumerate() {
            let mut marks = marks_of(block);
            while marks != 0 {
                let at = number * 16 + marks.trailing_zeros() as usize;
                marks &= marks - 1;
                self.run(octets, from, at, sink)?;
                from = at + 1;
                if !self.mark(octets, at, sink)? {
                    return Ok(from);
                }
            }
        }
        for at in octets.len() - rest.len()..octets.len() {
            if is_mark(octets[at]) {
                self.run(octets, from, at, sink)?;
                from = at + 1;
                if !self.mark(octets, at, sink)? {
                    return Ok(from);
                }
            }
        }
        self.run(octets, from, octets.len(), sink)?;
        Ok(octets.len())
    }

    /// Takes octets of the object.
    #[inline(always)]
    fn take<S: Sink>(&mut self, octets: &[u8], sink: &mut S) -> Result<(), (usize, Cause)> {
        let mut at = 0;
        while at < octets.len() {
            if self.part == Part::Text {
                at += self.text(&octets[at..], sink).map_err(|(taken, cause)| (at + taken, cause))?;
            } else if self.step(octets[at]) {
                at += 1;
            } else {
                return Err((at, BAD_OCTET));
            }
        }
        Ok(())
    }
}

// --- An envelope ---

/// What is known of an envelope so far.
struct Envelope {
    order: Order,
    kept: Kept,
    mode: u8,
    size: u64,
    announced: Option<u64>,
    most: Option<u64>,
    total: u64,
    subfiles: u64,
    message: Message,
}

impl Envelope {
    fn new() -> Envelope {
        Envelope {
            order: Order::new(),
            kept: Kept::new(),
            mode: 0,
            size: 0,
            announced: None,
            most: None,
            total: 0,
            subfiles: 0,
            message: Message::new(),
        }
    }

    fn again(&mut self) {
        self.order = Order::new();
        self.kept.octets.clear();
        self.kept.fields.clear();
        self.announced = None;
        self.most = None;
        self.total = 0;
        self.subfiles = 0;
        self.message.again();
    }

    #[inline(always)]
    fn field(&mut self, rec: u8, set: u8, kind: Kind, count: u64, input: &[u8], at: usize) -> Answer<()> {
        if let Some(cause) = self.kept.no_room(count) {
            return refused(at - 1, (rec, set), cause);
        }
        let data = self.data((rec, set), count, input, at)?;
        match self.kept.keep(rec, set, kind, data) {
            Ok(()) => Ok(()),
            Err(cause) => refused(at + data.len() - 1, (rec, set), cause),
        }
    }

    /// The data of a dataset, which lie whole in the input.
    #[inline(always)]
    fn data<'a>(&self, names: (u8, u8), count: u64, input: &'a [u8], at: usize) -> Answer<&'a [u8]> {
        if count > (input.len() - at) as u64 {
            return refused(input.len(), names, TRUNCATED);
        }
        Ok(&input[at..at + count as usize])
    }

    fn number(&mut self, set: u8, kind: Kind, count: u64, input: &[u8], at: usize) -> Answer<()> {
        let data = self.data((7, set), count, input, at)?;
        let last = at + data.len() - 1;
        if !is_of(kind, data) {
            return refused(last, (7, set), BAD_VALUE);
        }
        let value = number(data);
        match set {
            10 => self.mode = data[0],
            20 => self.size = value,
            90 => self.announced = Some(value),
            _ => self.most = Some(value),
        }
        if (set == 10 || set == 90) && self.order.has(10) && self.mode == 0 && self.announced.is_some() {
            return refused(last, (7, set), MODE_CLASH);
        }
        if let (90 | 95, Some(announced), Some(most)) = (set, self.announced, self.most) {
            if announced > most {
                return refused(last, (7, set), SIZE_CLASH);
            }
        }
        Ok(())
    }

    #[inline(always)]
    fn subfile<S: Sink>(&mut self, count: u64, input: &[u8], at: usize, sink: &mut S) -> Answer<usize> {
        let names = (8, 10);
        if self.subfiles == MOST_SUBFILES {
            return refused(at - 1, names, TOO_MANY_SUBFILES);
        }
        if self.mode == 1 && self.announced.is_none() {
            return refused(at - 1, names, MODE_CLASH);
        }
        if count > self.size {
            return refused(at - 1, names, SUBFILE_TOO_LONG);
        }
        let bound = self.announced.unwrap_or(GREATEST).min(self.most.unwrap_or(GREATEST));
        if self.total + count > bound {
            return refused(at - 1, names, PAST_SIZE);
        }
        self.subfiles += 1;
        let there = count.min((input.len() - at) as u64) as usize;
        if let Err((taken, cause)) = self.message.take(&input[at..at + there], sink) {
            return refused(at + taken, names, cause);
        }
        if (there as u64) < count {
            return refused(input.len(), names, TRUNCATED);
        }
        self.total += count;
        Ok(at + there)
    }

    fn confirmed(&mut self, count: u64, input: &[u8], at: usize) -> Answer<()> {
        let names = (9, 10);
        if self.total < self.announced.unwrap_or(0) {
            return refused(at - 1, names, SHORT);
        }
        if self.message.part != Part::After {
            return refused(at - 1, names, UNFINISHED);
        }
        let data = self.data(names, count, input, at)?;
        let last = at + data.len() - 1;
        if !is_of(Kind::Size, data) {
            return refused(last, names, BAD_VALUE);
        }
        if number(data) != self.total {
            return refused(last, names, CONFIRMED_WRONG);
        }
        Ok(())
    }

    /// Reads an envelope at the front, and returns how many octets it has.
    fn read<S: Sink>(&mut self, input: &[u8], sink: &mut S) -> Answer<usize> {
        let mut at = 0;
        loop {
            let (rec, set, count, used) = tag_of(input, at)?;
            at += used;
            let row = match self.order.head(rec, set, count) {
                Ok(row) => row,
                Err((names, cause)) => return refused(at - 1, names, cause),
            };
            match rec {
                1 | 2 => self.field(rec, set, row.kind, count, input, at)?,
                7 => self.number(set, row.kind, count, input, at)?,
                8 => {
                    at = self.subfile(count, input, at, sink)?;
                    continue;
                }
                _ => {
                    self.confirmed(count, input, at)?;
                    return Ok(at + count as usize);
                }
            }
            at += count as usize;
        }
    }
}

/// The tag at an octet: record, dataset, count, and its own octets.
#[inline(always)]
fn tag_of(input: &[u8], at: usize) -> Answer<(u8, u8, u64, usize)> {
    if let [0x1C, rec, set, high, low, ..] = input[at..] {
        if high < 0x80 {
            return Ok((rec, set, u64::from(high) << 8 | u64::from(low), 5));
        }
    }
    other_tag(input, at)
}

#[cold]
fn other_tag(input: &[u8], at: usize) -> Answer<(u8, u8, u64, usize)> {
    let rest = &input[at..];
    let named = (rest.get(1).copied().unwrap_or(0), rest.get(2).copied().unwrap_or(0));
    if rest.first().is_some_and(|octet| *octet != 0x1C) {
        return refused(at, (0, 0), MARKER);
    }
    if rest.len() > 3 && rest[3] > 0x80 {
        return refused(at + 3, named, COUNT_FORM);
    }
    if rest.len() < 5 {
        return refused(input.len(), named, TRUNCATED);
    }
    let more = usize::from(rest[4]);
    if !(1..=8).contains(&more) {
        return refused(at + 4, named, COUNT_FORM);
    }
    if rest.len() < 5 + more {
        return refused(input.len(), named, TRUNCATED);
    }
    Ok((named.0, named.1, number(&rest[5..5 + more]), 5 + more))
}

// --- The commands ---

fn list<S: Sink, W: Write>(input: &[u8], sink: &mut S, lines: &mut W) -> io::Result<bool> {
    let mut envelope = Envelope::new();
    let (mut at, mut count) = (0, 0u64);
    while at < input.len() {
        count += 1;
        match envelope.read(&input[at..], sink) {
            Ok(used) => {
                writeln!(lines, "{count} accepted {used} octets")?;
                at += used;
            }
            Err(Refusal { octet, rec, set, cause: (layer, cause, name) }) => {
                writeln!(
                    lines,
                    "{count} refused at octet {octet} by layer {layer} on {rec}:{set:02}, cause {cause} {name}"
                )?;
                return Ok(false);
            }
        }
        std::hint::black_box(&envelope.kept.fields.iter().map(|field| (field.rec, field.set, field.end)).last());
        sink.line_end();
        envelope.again();
    }
    Ok(true)
}

fn main() -> ExitCode {
    let words: Vec<String> = std::env::args().collect();
    let input = fs::read(&words[2]).expect("the file can be read");
    let output = BufWriter::with_capacity(8192, io::stdout().lock());
    let answer = match words[1].as_str() {
        "story" => {
            let mut output = output;
            list(&input, &mut output, &mut BufWriter::new(io::stderr().lock()))
        }
        _ => {
            let mut output = output;
            list(&input, &mut Nothing, &mut output)
        }
    };
    match answer {
        Ok(true) => ExitCode::SUCCESS,
        Ok(false) => ExitCode::from(1),
        Err(_) => ExitCode::from(3),
    }
}
