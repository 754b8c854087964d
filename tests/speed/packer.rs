//! A packer of scripts in plain Rust, by the same rules as the command: what the times of `pack` are compared with.
//!
//!     packer pack FILE [--subfile N]
//!
//! The whole file is in memory, and so is the object; the text is looked through sixteen octets at a time. It writes the octets that
//! the command writes, of known size, and reports the fault of a script that is refused.

mod rules;

use rules::{Cause, GREATEST, Kept, MISSING, Order, RECORD_ORDER, is_mark, is_spaced, marks_of};
use std::fs;
use std::io::{self, BufWriter, Write};
use std::process::ExitCode;

const SCRIPT_LINE: Cause = ("script", 91, "ScriptLine");
const SCRIPT_TOO_LONG: Cause = ("script", 92, "ScriptTooLong");
const BAD_TEXT_OCTET: Cause = ("script", 82, "BadTextOctet");
const BAD_TRAILER: Cause = ("script", 83, "BadTrailer");

const MOST_SCRIPT: usize = 16_777_216;
const MOST_INFO: usize = 64;
const MOST_TRAILER: usize = 64;

/// The number of a line, and what is wrong with it.
type Answer<T> = Result<T, (u64, Cause)>;

/// What is left of a script, after N lines.
#[derive(Clone, Copy)]
struct Rest<'a> {
    octets: &'a [u8],
    lines: u64,
}

impl<'a> Rest<'a> {
    /// The next line, which LF ends, and what is left after it.
    fn next_line(self) -> Option<(&'a [u8], Rest<'a>)> {
        let (line, octets) = cut(self.octets, b'\n')?;
        Some((line.strip_suffix(b"\r").unwrap_or(line), Rest { octets, lines: self.lines + 1 }))
    }

    /// The fault of the next line.
    fn refused<T>(self, cause: Cause) -> Answer<T> {
        Err((self.lines + 1, cause))
    }
}

/// What stands before the first of this octet, and what after it.
fn cut(octets: &[u8], octet: u8) -> Option<(&[u8], &[u8])> {
    let at = octets.iter().position(|each| *each == octet)?;
    Some((&octets[..at], &octets[at + 1..]))
}

// --- Before the story ---

/// The number of 1 to 3 digits.
fn short_number(digits: &[u8]) -> Option<u8> {
    if digits.len() > 3 || !digits.iter().all(u8::is_ascii_digit) {
        return None;
    }
    std::str::from_utf8(digits).ok()?.parse().ok()
}

/// The octets that are shown: escapes are two hexadecimal digits.
fn unshown(mut shown: &[u8]) -> Option<Vec<u8>> {
    let mut octets = Vec::with_capacity(shown.len());
    while let [first, rest @ ..] = shown {
        if *first == b'\\' {
            let [b'x', high, low, after @ ..] = rest else {
                return None;
            };
            let digit = |octet: u8| char::from(octet).to_digit(16);
            octets.push((digit(*high)? * 16 + digit(*low)?) as u8);
            shown = after;
        } else {
            octets.push(*first);
            shown = rest;
        }
    }
    Some(octets)
}

/// What ends a line: nothing, or SP and what is shown, one octet at least.
fn last(end: &[u8]) -> Option<Vec<u8>> {
    match end {
        [] => Some(Vec::new()),
        [b' ', shown @ ..] if !shown.is_empty() => unshown(shown),
        _ => None,
    }
}

/// The record, number and data of a line that encodes a dataset.
fn dataset_of(line: &[u8]) -> Option<(u8, u8, Vec<u8>)> {
    let (rec, after) = cut(line, b':')?;
    let digits = after.iter().take_while(|octet| octet.is_ascii_digit()).count();
    Some((short_number(rec)?, short_number(&after[..digits])?, last(&after[digits..])?))
}

/// Adds a dataset to those before it, if it is valid there.
fn add(order: &mut Order, kept: &mut Kept, line: &[u8]) -> Result<(), Cause> {
    let (rec, set, data) = dataset_of(line).ok_or(SCRIPT_LINE)?;
    if rec != 1 && rec != 2 {
        return Err(RECORD_ORDER);
    }
    let row = order.head(rec, set, data.len() as u64).map_err(|(_, cause)| cause)?;
    match kept.no_room(data.len() as u64) {
        Some(cause) => Err(cause),
        None => kept.keep(rec, set, row.kind, &data),
    }
}

/// Whether octets are N at most, one at least, and each passes.
fn is_part(octets: &[u8], most: usize, test: impl Fn(&u8) -> bool) -> bool {
    (1..=most).contains(&octets.len()) && octets.iter().all(test)
}

/// The front of the object that a line `message ..` encodes, up to STX.
fn front_of(line: &[u8]) -> Option<Vec<u8>> {
    let value = line.strip_prefix(b"message ")?;
    let (source, after) = cut(value, b' ')?;
    let (number, after) = cut(after, b' ')?;
    let (priority, after) = cut(after, b' ')?;
    let (category, after) = cut(after, b' ')?;
    let (words, end) = after.split_at(after.iter().position(|octet| *octet == b' ').unwrap_or(after.len()));
    let info = last(end)?;
    let is_header = is_part(source, 8, u8::is_ascii_alphabetic)
        && is_part(number, 8, u8::is_ascii_digit)
        && is_part(priority, 1, u8::is_ascii_digit)
        && is_part(category, 8, u8::is_ascii_alphanumeric)
        && is_part(words, 6, u8::is_ascii_digit)
        && info.len() <= MOST_INFO
        && info.iter().all(|octet| is_spaced(*octet));
    let mut front = [b"\x01", source, number, b" ", priority, b" ", category, b" ", words].concat();
    if !info.is_empty() {
        front.push(b' ');
        front.extend_from_slice(&info);
    }
    front.extend_from_slice(b"\r\n\x02");
    is_header.then_some(front)
}

/// The trailer of the next line, if it has one.
fn trailer_of(rest: Rest) -> Answer<(Vec<u8>, Rest)> {
    let value = rest.next_line().and_then(|(line, after)| Some((last(line.strip_prefix(b"trailer")?)?, after)));
    let Some((trailer, after)) = value else {
        return Ok((Vec::new(), rest));
    };
    let may_stand = |octet: &u8| is_spaced(*octet) || *octet == b'\n' || *octet == b'\r';
    if trailer.len() > MOST_TRAILER || !trailer.iter().all(may_stand) {
        return rest.refused(BAD_TRAILER);
    }
    Ok((trailer, after))
}

// --- The story ---

/// Adds the lines of a story to the object, with CR LF between two of them.
fn add_story(story: Rest, object: &mut Vec<u8>) -> Answer<()> {
    let octets = story.octets;
    // A line of no octets is the longest by what is added to it.
    object.reserve(2 * octets.len());
    let (blocks, rest) = octets.as_chunks::<16>();
    let mut text = Text { octets, from: 0, lines: story.lines };
    for (number, block) in blocks.iter().enumerate() {
        let mut marks = marks_of(block);
        while marks != 0 {
            text.mark(number * 16 + marks.trailing_zeros() as usize, object)?;
            marks &= marks - 1;
        }
    }
    for at in octets.len() - rest.len()..octets.len() {
        if is_mark(octets[at]) {
            text.mark(at, object)?;
        }
    }
    object.extend_from_slice(&octets[text.from..]);
    Ok(())
}

/// A story whose lines before an octet are taken.
struct Text<'a> {
    octets: &'a [u8],
    from: usize,
    lines: u64,
}

impl Text<'_> {
    /// Takes a mark: the end of a line, with one CR right before LF, or an octet that is invalid in a line.
    #[inline(always)]
    fn mark(&mut self, at: usize, object: &mut Vec<u8>) -> Answer<()> {
        let octets = self.octets;
        match octets[at] {
            b'\n' => {
                let end = if at > self.from && octets[at - 1] == b'\r' { at - 1 } else { at };
                add_line(&octets[self.from..end], at + 1 < octets.len(), object);
                self.from = at + 1;
                self.lines += 1;
                Ok(())
            }
            b'\r' if octets.get(at + 1) == Some(&b'\n') => Ok(()),
            _ => Err((self.lines + 1, BAD_TEXT_OCTET)),
        }
    }
}

/// Adds a line, and its end where another follows.
#[inline(always)]
fn add_line(line: &[u8], is_followed: bool, object: &mut Vec<u8>) {
    if line.len() < 16 {
        for octet in line {
            object.push(*octet);
        }
    } else {
        object.extend_from_slice(line);
    }
    if is_followed {
        object.extend_from_slice(b"\r\n");
    }
}

// --- The envelope ---

/// What a script encodes: the datasets of records 1 and 2, and the object.
struct Told {
    kept: Kept,
    object: Vec<u8>,
}

fn read(script: &[u8]) -> Answer<Told> {
    if script.len() > MOST_SCRIPT {
        return Err((0, SCRIPT_TOO_LONG));
    }
    let mut rest = Rest { octets: script, lines: 0 };
    let (mut order, mut kept) = (Order::new(), Kept::new());
    while let Some((line, after)) = rest.next_line() {
        if !line.first().is_some_and(u8::is_ascii_digit) {
            break;
        }
        if let Err(cause) = add(&mut order, &mut kept, line) {
            return rest.refused(cause);
        }
        rest = after;
    }
    let value = rest.next_line().and_then(|(line, after)| Some((front_of(line)?, after)));
    let Some((mut object, after)) = value else {
        return rest.refused(SCRIPT_LINE);
    };
    let (trailer, rest) = trailer_of(after)?;
    let Some((b"text", story)) = rest.next_line() else {
        return rest.refused(SCRIPT_LINE);
    };
    if order.section != 2 || !order.has(0) {
        return rest.refused(MISSING);
    }
    add_story(story, &mut object)?;
    object.push(3);
    object.extend_from_slice(&trailer);
    object.push(4);
    Ok(Told { kept, object })
}

/// Writes a dataset, with its canonical tag.
#[inline(always)]
fn write_dataset<W: Write>(output: &mut W, rec: u8, set: u8, data: &[u8]) -> io::Result<()> {
    let count = data.len() as u64;
    if count < 0x8000 {
        let [high, low] = (count as u16).to_be_bytes();
        output.write_all(&[0x1C, rec, set, high, low])?;
    } else if count <= u64::from(u32::MAX) {
        output.write_all(&[0x1C, rec, set, 0x80, 4])?;
        output.write_all(&(count as u32).to_be_bytes())?;
    } else {
        output.write_all(&[0x1C, rec, set, 0x80, 8])?;
        output.write_all(&count.to_be_bytes())?;
    }
    output.write_all(data)
}

/// Writes a dataset with a number, of four octets where they hold it.
fn write_number<W: Write>(output: &mut W, rec: u8, set: u8, number: u64) -> io::Result<()> {
    match u32::try_from(number) {
        Ok(short) => write_dataset(output, rec, set, &short.to_be_bytes()),
        Err(_) => write_dataset(output, rec, set, &number.to_be_bytes()),
    }
}

fn write_envelope<W: Write>(value: &Told, subfile: u64, output: &mut W) -> io::Result<()> {
    let mut from = 0;
    for field in &value.kept.fields {
        write_dataset(output, field.rec, field.set, &value.kept.octets[from..field.end])?;
        from = field.end;
    }
    let size = value.object.len() as u64;
    write_dataset(output, 7, 10, &[1])?;
    write_number(output, 7, 20, subfile)?;
    write_number(output, 7, 90, size)?;
    for part in value.object.chunks(subfile.min(size) as usize) {
        write_dataset(output, 8, 10, part)?;
    }
    write_number(output, 9, 10, size)?;
    output.flush()
}

fn main() -> ExitCode {
    let words: Vec<String> = std::env::args().collect();
    let script = fs::read(&words[2]).expect("the file can be read");
    let subfile = words.get(4).map_or(1024, |number| number.parse().expect("N is a number"));
    assert!((1..=GREATEST).contains(&subfile), "a subfile has an octet at least");
    match read(&script) {
        Ok(value) => {
            let mut output = BufWriter::with_capacity(8192, io::stdout().lock());
            write_envelope(&value, subfile, &mut output).expect("can be written");
            ExitCode::SUCCESS
        }
        Err((line, (_, cause, name))) => {
            eprintln!("refused: script line {line} cause {cause} {name}");
            ExitCode::from(1)
        }
    }
}
