//! Prints what `iimwire check` prints for a file and, after each envelope, its headline if it has
//! one.
//!
//! ```sh
//! rustc -O --edition 2021 --crate-type lib --crate-name iim_sys bindings/examples/iim-sys/lib.rs
//! rustc -O --edition 2021 --extern iim_sys=libiim_sys.rlib -L bindings/out bindings/examples/check.rs
//! LD_LIBRARY_PATH=bindings/out ./check FILE
//! ```
use std::io::{self, Write};
use std::process::ExitCode;
use std::{env, fs};

/// The dataset with the headline: its record, and its number there.
const HEADLINE: (u8, u8) = (2, 105);

fn main() -> io::Result<ExitCode> {
    let file = fs::read(env::args_os().nth(1).expect("a file"))?;
    let mut output = io::stdout().lock();
    let (mut rest, mut number) = (&file[..], 1);
    while !rest.is_empty() {
        let envelope = match iim_sys::read(rest) {
            Ok(envelope) => envelope,
            Err(refusal) => {
                writeln!(output, "{number} {refusal}")?;
                return Ok(ExitCode::FAILURE);
            }
        };
        assert_eq!(iim_sys::check(rest), Ok(envelope.octets));
        writeln!(output, "{number} accepted {} octets", envelope.octets)?;
        if let Some(headline) = envelope.first(HEADLINE.0, HEADLINE.1) {
            output.write_all(headline)?;
            writeln!(output)?;
        }
        rest = &rest[envelope.octets..];
        number += 1;
    }
    Ok(ExitCode::SUCCESS)
}
