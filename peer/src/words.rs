//! Little-endian words from a byte input, and the programs' frame.

use std::env;
use std::io::{self, BufRead, BufWriter, ErrorKind, StdinLock, StdoutLock, Write};
use std::process::ExitCode;

/// The words of an input that are not yet read. What cannot be read ends it.
pub struct Words<R> {
    input: R,
}

impl<R: BufRead> Words<R> {
    pub fn new(input: R) -> Words<R> {
        Words { input }
    }

    /// No byte is left.
    pub fn is_empty(&mut self) -> bool {
        loop {
            match self.input.fill_buf() {
                Ok(bytes) => return bytes.is_empty(),
                Err(error) if error.kind() == ErrorKind::Interrupted => {}
                Err(_) => return true,
            }
        }
    }

    /// None where fewer than two bytes are left.
    pub fn next_word(&mut self) -> Option<u16> {
        let mut bytes = [0; 2];
        self.input.read_exact(&mut bytes).ok()?;
        Some(u16::from_le_bytes(bytes))
    }

    /// Fills the slice; None where the input is too short.
    pub fn fill(&mut self, words: &mut [u16]) -> Option<()> {
        for word in words {
            *word = self.next_word()?;
        }
        Some(())
    }
}

type Program = fn(StdinLock<'static>, &mut BufWriter<StdoutLock<'static>>) -> io::Result<()>;

/// Runs a program from standard input to standard output. What cannot be
/// written ends it.
pub fn filter_standard_streams(program: Program) {
    let mut output = BufWriter::new(io::stdout().lock());
    let _ = program(io::stdin().lock(), &mut output).and_then(|()| output.flush());
}

/// Status of a program that does not understand its arguments.
pub const USAGE_STATUS: u8 = 2;

/// Runs a program that its arguments alone decide. None from `make` shows
/// the usage; what cannot be written ends the program.
pub fn write_from_arguments(usage: &str, make: fn(&[&str]) -> Option<Vec<u8>>) -> ExitCode {
    let arguments: Vec<String> = env::args().skip(1).collect();
    let arguments: Vec<&str> = arguments.iter().map(String::as_str).collect();
    match make(&arguments) {
        Some(bytes) => {
            let _ = io::stdout().lock().write_all(&bytes);
            ExitCode::SUCCESS
        }
        None => {
            eprintln!("usage: {usage}");
            ExitCode::from(USAGE_STATUS)
        }
    }
}
