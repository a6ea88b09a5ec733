//! docs/REPLAY.md over the archive: one module, changed where it sits. The
//! archive has no block reader, no frames and no columns; peer's stand in for
//! them.

use std::io::{self, BufRead, Write};

use peer::replay::{FrameCall, SectionCall};
use peer::words::Words;
use peer::{read_block, Block, SAMPLE_WORDS};

use crate::layout::{Answer, Byte, Module, Sample};
use crate::{FileCycle, IDLE};

/// The module, and whether one was powered up.
pub struct Card<'a> {
    pub module: &'a mut Module,
    pub powered: bool,
}

/// A call was read, or the list is cut short or has an unknown opcode.
type Read = Option<io::Result<()>>;

/// Runs a list on a module that stays where it is.
pub fn run_on(module: &mut Module, input: impl BufRead, output: &mut impl Write) -> io::Result<()> {
    let mut words = Words::new(input);
    let mut card = Card {
        module,
        powered: false,
    };
    while !words.is_empty() {
        match card.call(&mut words, output) {
            Some(written) => written?,
            None => return writeln!(output, "bad"),
        }
    }
    Ok(())
}

/// The program: a list from its beginning.
pub fn run(input: impl BufRead, output: &mut impl Write) -> io::Result<()> {
    run_on(&mut Module::default(), input, output)
}

impl Card<'_> {
    fn call(&mut self, words: &mut Words<impl BufRead>, output: &mut impl Write) -> Read {
        match words.next_word()? {
            0 => Some(self.power_up(words.next_word()?, output)),
            1 => Some(self.file(FileCycle::Setup, read_file(words)?, output)),
            2 => Some(self.file(FileCycle::Group, read_file(words)?, output)),
            3 => Some(self.file(FileCycle::Limit, read_file(words)?, output)),
            4 => Some(self.nudge(words.next_word()?, output)),
            5 => Some(self.step(read_sample(words)?, output)),
            6 => block(words, output),
            7 => Some(self.read_byte(words.next_word()?, output)),
            8 => Some(self.write_byte(words.next_word()?, words.next_word()?, output)),
            9 => Some(FrameCall::write(words)?.make(output)),
            10 => Some(FrameCall::read(words)?.make(output)),
            11 => Some(SectionCall::to_columns(words)?.make(output)),
            12 => Some(SectionCall::to_rows(words)?.make(output)),
            _ => None,
        }
    }

    /// A refused power-up leaves the module of before.
    fn power_up(&mut self, number: u16, output: &mut impl Write) -> io::Result<()> {
        let answer = self.module.power_up(number);
        if answer == 0 {
            self.powered = true;
        }
        writeln!(output, "power {answer}")
    }

    fn file(
        &mut self,
        kind: FileCycle,
        mut file: Vec<u16>,
        output: &mut impl Write,
    ) -> io::Result<()> {
        if !self.powered {
            return writeln!(output, "none");
        }
        let (name, words, status) = match kind {
            FileCycle::Setup => ("setup", 120, 100..110),
            FileCycle::Group => ("group", 120, 110..120),
            FileCycle::Limit => ("limit", 650, 630..650),
        };
        let answer = self.module.cycle(kind, &mut file);
        self.write_cycle(name, answer, output)?;
        if file.len() == words {
            write_words(&file[status], output)?;
        }
        writeln!(output)
    }

    fn nudge(&mut self, word: u16, output: &mut impl Write) -> io::Result<()> {
        if !self.powered {
            return writeln!(output, "none");
        }
        let answer = self.module.nudge(word);
        self.write_cycle("nudge", answer, output)?;
        writeln!(output)
    }

    fn step(&mut self, sample: Sample, output: &mut impl Write) -> io::Result<()> {
        if !self.powered {
            return writeln!(output, "none");
        }
        let answer = self.module.step(sample);
        write_step(&answer, self.module.line(), output)
    }

    fn read_byte(&mut self, offset: u16, output: &mut impl Write) -> io::Result<()> {
        if !self.powered {
            return writeln!(output, "none");
        }
        let Byte { number, value } = self.module.read_byte(offset);
        writeln!(output, "read {number} {value:02x}")
    }

    /// Of the word only the low byte is written.
    fn write_byte(&mut self, offset: u16, word: u16, output: &mut impl Write) -> io::Result<()> {
        if !self.powered {
            return writeln!(output, "none");
        }
        let answer = self.module.write_byte(offset, word as u8);
        writeln!(output, "write {answer} {}", u8::from(self.module.line()))
    }

    fn write_cycle(&self, name: &str, answer: u16, output: &mut impl Write) -> io::Result<()> {
        write!(output, "{name} ")?;
        match answer {
            IDLE => write!(output, "idle")?,
            number => write!(output, "{number}")?,
        }
        let g = &self.module.configuration;
        let (a, e) = (&g.acknowledges, &g.errors);
        write!(
            output,
            " {:x} {:02x} {} {}",
            bits(&[a.setup, a.group, a.limit, a.nudge]),
            bits(&[e.setup, e.group, e.limit, e.number, e.setpoint]),
            u8::from(g.fault),
            u8::from(g.ignored)
        )
    }
}

/// The flags as a number, the first as bit 0.
fn bits(flags: &[bool]) -> u8 {
    flags
        .iter()
        .rev()
        .fold(0, |sum, flag| sum * 2 + u8::from(*flag))
}

fn block(words: &mut Words<impl BufRead>, output: &mut impl Write) -> Read {
    let (which, number) = (words.next_word()?, words.next_word()?);
    let (m0, m1) = (read_file(words)?, read_file(words)?);
    let asked = match which {
        0 => Block::Group(number),
        _ => Block::Limit(number),
    };
    let (refusal, part) = read_block(&m0, &m1, asked);
    Some(
        write!(output, "block {refusal}")
            .and_then(|()| write_words(part, output))
            .and_then(|()| writeln!(output)),
    )
}

fn read_file(words: &mut Words<impl BufRead>) -> Option<Vec<u16>> {
    let mut file = vec![0; usize::from(words.next_word()?)];
    words.fill(&mut file)?;
    Some(file)
}

fn read_sample(words: &mut Words<impl BufRead>) -> Option<Sample> {
    let mut sample = [0; SAMPLE_WORDS];
    words.fill(&mut sample)?;
    Some(sample_of(sample))
}

pub fn sample_of(words: [u16; SAMPLE_WORDS]) -> Sample {
    let [raw, currents, virtuals, inputson, inputsoff, realon, realoff, virtualon, virtualoff] =
        words;
    Sample {
        raw,
        currents,
        virtuals,
        inputson,
        inputsoff,
        realon,
        realoff,
        virtualon,
        virtualoff,
    }
}

fn write_words(words: &[u16], output: &mut impl Write) -> io::Result<()> {
    words
        .iter()
        .try_for_each(|word| write!(output, " {word:04x}"))
}

fn write_step(a: &Answer, line: bool, output: &mut impl Write) -> io::Result<()> {
    writeln!(
        output,
        "step {} {} {} {} {} {} {} {:04x} {:04x} {} {} {}",
        if a.refused { 11 } else { 0 },
        a.position,
        a.tenths,
        a.tach,
        u8::from(a.overflow),
        u8::from(a.md1),
        u8::from(a.md2),
        a.real,
        a.virtuals,
        a.changed,
        u8::from(line),
        a.tests
    )
}
