//! A list of calls in, one line for each answer out.

use std::io::{self, BufRead, Write};

use crate::blocks::{read_block, Block};
use crate::columns::{to_columns, to_rows};
use crate::cycles::{Answer, M0_WORDS, M1_WORDS};
use crate::df1::{read_frame, write_frame};
use crate::module::{Module, Refusal};
use crate::step::{StepAnswer, SAMPLE_WORDS};
use crate::words::Words;

/// A cycle over a file: its name, its file's length and status words.
pub(crate) struct FileCycle {
    pub name: &'static str,
    pub cycle: fn(&mut Module, &mut [u16]) -> Answer,
    file_words: usize,
    status_start: usize,
    status_end: usize,
}

static SETUP: FileCycle = FileCycle {
    name: "setup",
    cycle: Module::setup_cycle,
    file_words: M0_WORDS,
    status_start: 100,
    status_end: 110,
};

static GROUP: FileCycle = FileCycle {
    name: "group",
    cycle: Module::group_cycle,
    file_words: M0_WORDS,
    status_start: 110,
    status_end: 120,
};

static LIMIT: FileCycle = FileCycle {
    name: "limit",
    cycle: Module::limit_cycle,
    file_words: M1_WORDS,
    status_start: 630,
    status_end: 650,
};

/// What a byte of a lent buffer is before a call.
const UNTOUCHED: u8 = 0xee;

/// Writes or reads a frame into a lent buffer.
type FrameFunction = fn(&[u8], &mut [u8]) -> Result<usize, Refusal>;

/// A frame to be written or read.
pub struct FrameCall {
    pub(crate) name: &'static str,
    call: FrameFunction,
    pub(crate) capacity: u16,
    pub(crate) words: Vec<u16>,
}

impl FrameCall {
    /// What follows opcode 9; None where it is cut short.
    pub fn write(words: &mut Words<impl BufRead>) -> Option<FrameCall> {
        FrameCall::of("frame", write_frame, words)
    }

    /// What follows opcode 10; None where it is cut short.
    pub fn read(words: &mut Words<impl BufRead>) -> Option<FrameCall> {
        FrameCall::of("data", read_frame, words)
    }

    fn of(
        name: &'static str,
        call: FrameFunction,
        words: &mut Words<impl BufRead>,
    ) -> Option<FrameCall> {
        Some(FrameCall {
            name,
            call,
            capacity: words.next_word()?,
            words: read_file(words)?,
        })
    }

    /// Makes the call and writes its line.
    pub fn make(&self, output: &mut impl Write) -> io::Result<()> {
        let mut buffer = vec![UNTOUCHED; usize::from(self.capacity)];
        let (refusal, length) = match (self.call)(&self.bytes(), &mut buffer) {
            Ok(length) => (0, length),
            Err(refusal) => (refusal.number(), 0),
        };
        write!(output, "{} {refusal} {length}", self.name)?;
        write_bytes(&buffer, output)?;
        writeln!(output)
    }

    /// The low bytes of the words.
    pub(crate) fn bytes(&self) -> Vec<u8> {
        self.words.iter().map(|&word| word as u8).collect()
    }
}

/// What a word of a lent output is before a call.
const UNTOUCHED_WORD: u16 = 0xeeee;

/// Turns a section into a lent output.
type SectionFunction = fn(&[u16], &mut [u16]) -> Result<(), Refusal>;

/// A section to be turned to columns or to rows.
pub struct SectionCall {
    pub(crate) name: &'static str,
    call: SectionFunction,
    pub(crate) out_words: u16,
    pub(crate) words: Vec<u16>,
}

impl SectionCall {
    /// What follows opcode 11; None where it is cut short.
    pub fn to_columns(words: &mut Words<impl BufRead>) -> Option<SectionCall> {
        SectionCall::of("columns", to_columns, words)
    }

    /// What follows opcode 12; None where it is cut short.
    pub fn to_rows(words: &mut Words<impl BufRead>) -> Option<SectionCall> {
        SectionCall::of("rows", to_rows, words)
    }

    fn of(
        name: &'static str,
        call: SectionFunction,
        words: &mut Words<impl BufRead>,
    ) -> Option<SectionCall> {
        Some(SectionCall {
            name,
            call,
            out_words: words.next_word()?,
            words: read_file(words)?,
        })
    }

    /// Makes the call and writes its line.
    pub fn make(&self, output: &mut impl Write) -> io::Result<()> {
        let (answer, out) = self.answer();
        let refusal = answer.map_or_else(Refusal::number, |()| 0);
        write!(output, "{} {refusal}", self.name)?;
        write_words(&out, output)?;
        writeln!(output)
    }

    /// What the call answers, and the output after it.
    pub(crate) fn answer(&self) -> (Result<(), Refusal>, Vec<u16>) {
        let mut out = vec![UNTOUCHED_WORD; usize::from(self.out_words)];
        let answer = (self.call)(&self.words, &mut out);
        (answer, out)
    }
}

/// One call of the list.
pub(crate) enum Call {
    PowerUp(u16),
    File(&'static FileCycle, Vec<u16>),
    Nudge(u16),
    Step([u16; SAMPLE_WORDS]),
    Block(Block, Vec<u16>, Vec<u16>),
    /// The offset.
    ReadByte(u16),
    /// The offset, and a word whose low byte is written.
    WriteByte(u16, u16),
    Frame(FrameCall),
    Section(SectionCall),
}

/// The next call, or None for an unknown opcode or a call cut short.
pub(crate) fn read_call(words: &mut Words<impl BufRead>) -> Option<Call> {
    Some(match words.next_word()? {
        0 => Call::PowerUp(words.next_word()?),
        1 => Call::File(&SETUP, read_file(words)?),
        2 => Call::File(&GROUP, read_file(words)?),
        3 => Call::File(&LIMIT, read_file(words)?),
        4 => Call::Nudge(words.next_word()?),
        5 => {
            let mut sample = [0; SAMPLE_WORDS];
            words.fill(&mut sample)?;
            Call::Step(sample)
        }
        6 => {
            let which = words.next_word()?;
            let number = words.next_word()?;
            let block = match which {
                0 => Block::Group(number),
                _ => Block::Limit(number),
            };
            Call::Block(block, read_file(words)?, read_file(words)?)
        }
        7 => Call::ReadByte(words.next_word()?),
        8 => Call::WriteByte(words.next_word()?, words.next_word()?),
        9 => Call::Frame(FrameCall::write(words)?),
        10 => Call::Frame(FrameCall::read(words)?),
        11 => Call::Section(SectionCall::to_columns(words)?),
        12 => Call::Section(SectionCall::to_rows(words)?),
        _ => return None,
    })
}

/// A count and that many words.
fn read_file(words: &mut Words<impl BufRead>) -> Option<Vec<u16>> {
    let mut file = vec![0; usize::from(words.next_word()?)];
    words.fill(&mut file)?;
    Some(file)
}

/// Makes the calls. An error is one of the output only.
pub fn run(input: impl BufRead, output: &mut impl Write) -> io::Result<()> {
    let mut words = Words::new(input);
    let mut module = None;
    while !words.is_empty() {
        match read_call(&mut words) {
            Some(call) => make_call(call, &mut module, output)?,
            None => return writeln!(output, "bad"),
        }
    }
    Ok(())
}

pub(crate) fn make_call(
    call: Call,
    module: &mut Option<Module>,
    output: &mut impl Write,
) -> io::Result<()> {
    match (call, module) {
        (Call::PowerUp(number), module) => power_up(number, module, output),
        (Call::Block(block, m0, m1), _) => {
            let (refusal, part) = read_block(&m0, &m1, block);
            write!(output, "block {refusal}")?;
            write_words(part, output)?;
            writeln!(output)
        }
        (Call::Frame(frame), _) => frame.make(output),
        (Call::Section(section), _) => section.make(output),
        (_, None) => writeln!(output, "none"),
        (Call::File(kind, mut file), Some(module)) => {
            let answer = (kind.cycle)(module, &mut file);
            write_cycle(kind.name, answer, module, output)?;
            if file.len() == kind.file_words {
                write_words(&file[kind.status_start..kind.status_end], output)?;
            }
            writeln!(output)
        }
        (Call::Nudge(word), Some(module)) => {
            let answer = module.nudge_cycle(word);
            write_cycle("nudge", answer, module, output)?;
            writeln!(output)
        }
        (Call::Step(sample), Some(module)) => {
            let answer = module.step(&sample);
            write_step(&answer, module.line(), output)
        }
        (Call::ReadByte(offset), Some(module)) => read_byte(offset, module, output),
        (Call::WriteByte(offset, word), Some(module)) => write_byte(offset, word, module, output),
    }
}

/// A refused power-up leaves the module of before.
fn power_up(number: u16, module: &mut Option<Module>, output: &mut impl Write) -> io::Result<()> {
    match Module::power_up(number) {
        Ok(fresh) => {
            *module = Some(fresh);
            writeln!(output, "power 0")
        }
        Err(refusal) => writeln!(output, "power {}", refusal.number()),
    }
}

fn read_byte(offset: u16, module: &Module, output: &mut impl Write) -> io::Result<()> {
    let (refusal, value) = match module.read_byte(offset) {
        Ok(value) => (0, value),
        Err(refusal) => (refusal.number(), 0),
    };
    writeln!(output, "read {refusal} {value:02x}")
}

fn write_byte(
    offset: u16,
    word: u16,
    module: &mut Module,
    output: &mut impl Write,
) -> io::Result<()> {
    let answer = module.write_byte(offset, word as u8);
    let refusal = answer.map_or_else(Refusal::number, |()| 0);
    writeln!(output, "write {refusal} {}", u8::from(module.line()))
}

fn write_words(words: &[u16], output: &mut impl Write) -> io::Result<()> {
    words
        .iter()
        .try_for_each(|word| write!(output, " {word:04x}"))
}

/// A space and the bytes in one piece; nothing where there are none.
fn write_bytes(bytes: &[u8], output: &mut impl Write) -> io::Result<()> {
    if !bytes.is_empty() {
        write!(output, " ")?;
    }
    bytes
        .iter()
        .try_for_each(|byte| write!(output, "{byte:02x}"))
}

fn write_cycle(
    name: &str,
    answer: Answer,
    module: &Module,
    output: &mut impl Write,
) -> io::Result<()> {
    write!(output, "{name} ")?;
    match answer {
        Answer::Idle => write!(output, "idle")?,
        Answer::Accepted => write!(output, "0")?,
        Answer::Refused(refusal) => write!(output, "{}", refusal.number())?,
    }
    write!(
        output,
        " {:x} {:02x} {} {}",
        module.acknowledges(),
        module.errors(),
        u8::from(module.fault()),
        u8::from(module.message_ignored())
    )
}

fn write_step(answer: &StepAnswer, line: bool, output: &mut impl Write) -> io::Result<()> {
    let [md1, md2] = answer.detectors.map(u8::from);
    writeln!(
        output,
        "step {} {} {} {} {} {md1} {md2} {:04x} {:04x} {} {} {}",
        answer.refusal.map_or(0, |refusal| refusal.number()),
        answer.machine_position.0,
        answer.tenths,
        answer.tach,
        u8::from(answer.tach_overflow),
        answer.real_outputs,
        answer.virtual_outputs,
        answer.changed,
        u8::from(line),
        answer.tests
    )
}
