//! The four programming cycles. `run` is what they have in common; each
//! kind says where its words stand, how they are checked and installed.

use crate::blocks::{BlockFault, GROUP_BLOCKS_AT, LIMIT_BLOCKS_AT};
use crate::group::{read_groups, Groups, GROUPS, NO_GROUPS};
use crate::limit_block::read_switches;
use crate::module::{Module, Refusal};
use crate::pair::Pair;
use crate::setup::{decode_setup, setup_errors, Setup, SETUP_WORDS};
use crate::switch::{Nudge, NudgeFault, Switches, OUTPUTS};

pub const M0_WORDS: usize = 120;
pub const M1_WORDS: usize = 650;

/// Transmit bit of every command word.
pub(crate) const TRANSMIT: u16 = 1 << 15;
/// ClrErr of every command word but a nudge's.
pub(crate) const CLEAR_ERRORS: u16 = 1 << 0;
/// ClrErr of a nudge word.
pub(crate) const NUDGE_CLEAR_ERRORS: u16 = 1 << 14;
/// MsgIgn in a status word.
const MESSAGE_IGNORED: u16 = 1 << 14;
/// A reserved bit or word of group or limit data.
const RESERVED_ERROR: u16 = 1 << 15;
/// All bits of a group or limit command word but 0 and 15.
const RESERVED_COMMAND_BITS: u16 = 0x7ffe;

pub(crate) const SETUP_STATUS: usize = 100;
pub(crate) const GROUP_COMMAND: usize = 20;
const GROUP_RESERVED_AT: usize = 46;
pub(crate) const GROUP_STATUS: usize = 110;
const LIMIT_RESERVED_AT: usize = 610;
pub(crate) const LIMIT_STATUS: usize = 630;

/// What a cycle call answers.
#[derive(Clone, Copy, Debug, PartialEq, Eq)]
pub enum Answer {
    Idle,
    Accepted,
    Refused(Refusal),
}

/// A refusal with what its status words say.
#[derive(Clone, Copy, Debug)]
struct Finding {
    refusal: Refusal,
    /// Word 100, 110 or 630.
    status: u16,
    /// Word 111 or 631.
    number: u16,
}

impl Finding {
    const IGNORED: Finding = Finding {
        refusal: Refusal::ErrorStands,
        status: MESSAGE_IGNORED,
        number: 0,
    };

    fn new(refusal: Refusal, status: u16) -> Finding {
        Finding {
            refusal,
            status,
            number: 0,
        }
    }

    fn of_block(refusal: Refusal, fault: BlockFault) -> Finding {
        Finding {
            refusal,
            status: fault.errors,
            number: fault.number,
        }
    }
}

/// What differs between the kinds of cycle.
trait Cycle {
    /// Checked data, ready to be installed.
    type Program;
    /// The kind's bit of `Module::acknowledges`.
    const ACKNOWLEDGE: u8;
    const CLEAR_ERRORS: u16 = CLEAR_ERRORS;
    /// Clearing errors is then all that the cycle does.
    const ENDS_AFTER_CLEAR: bool = false;

    fn command(&self) -> u16;

    /// Refused 5 though no error stands.
    fn is_barred(_module: &Module) -> bool {
        false
    }

    fn read(&self, module: &Module) -> Result<Self::Program, Finding>;

    fn install(module: &mut Module, program: Self::Program);

    /// Rewrites the status words, once the module holds its new state.
    fn report(&mut self, module: &Module, status: u16, number: u16);
}

fn run<C: Cycle>(module: &mut Module, mut cycle: C) -> Answer {
    if cycle.command() & TRANSMIT == 0 {
        module.acknowledges &= !C::ACKNOWLEDGE;
        return Answer::Idle;
    }
    if module.acknowledges & C::ACKNOWLEDGE != 0 {
        return Answer::Idle;
    }
    module.acknowledges |= C::ACKNOWLEDGE;
    module.message_ignored = false;
    let finding = match act(module, &cycle) {
        Ok(()) => {
            cycle.report(module, 0, 0);
            return Answer::Accepted;
        }
        Err(finding) => finding,
    };
    module.errors |= finding.refusal.error_bit();
    module.message_ignored = finding.refusal == Refusal::ErrorStands;
    cycle.report(module, finding.status, finding.number);
    Answer::Refused(finding.refusal)
}

fn act<C: Cycle>(module: &mut Module, cycle: &C) -> Result<(), Finding> {
    if cycle.command() & C::CLEAR_ERRORS != 0 {
        module.errors = 0;
        module.fault = false;
        if C::ENDS_AFTER_CLEAR {
            return Ok(());
        }
    }
    if module.errors != 0 || C::is_barred(module) {
        return Err(Finding::IGNORED);
    }
    let program = cycle.read(module)?;
    C::install(module, program);
    Ok(())
}

/// Whether the command word has a reserved bit set or a reserved word is
/// not 0.
fn reserved_used(command: u16, reserved: &[&[u16]]) -> bool {
    command & RESERVED_COMMAND_BITS != 0
        || reserved
            .iter()
            .any(|words| words.iter().any(|&word| word != 0))
}

struct SetupCycle<'a>(&'a mut [u16; M0_WORDS]);

impl Cycle for SetupCycle<'_> {
    type Program = Setup;
    const ACKNOWLEDGE: u8 = 1 << 0;

    fn command(&self) -> u16 {
        self.0[0]
    }

    fn read(&self, module: &Module) -> Result<Setup, Finding> {
        let mut words = [0; SETUP_WORDS];
        words.copy_from_slice(&self.0[..SETUP_WORDS]);
        match setup_errors(&words) {
            0 => Ok(decode_setup(&words, module.last_raw)),
            errors => Err(Finding::new(Refusal::SetupData, errors)),
        }
    }

    fn install(module: &mut Module, setup: Setup) {
        let old = std::mem::replace(&mut module.setup, setup);
        if old.scale != module.setup.scale || old.independent != module.setup.independent {
            module.groups = NO_GROUPS;
            module.switches = Switches::NONE;
        }
        module.module_start();
    }

    fn report(&mut self, module: &Module, status: u16, _number: u16) {
        let words = &mut self.0[SETUP_STATUS..GROUP_STATUS];
        words.fill(0);
        words[0] = status;
        words[1] = module.setup.offset;
    }
}

struct GroupCycle<'a>(&'a mut [u16; M0_WORDS]);

impl Cycle for GroupCycle<'_> {
    type Program = Groups;
    const ACKNOWLEDGE: u8 = 1 << 1;

    fn command(&self) -> u16 {
        self.0[GROUP_COMMAND]
    }

    fn is_barred(module: &Module) -> bool {
        module.setup.independent
    }

    fn read(&self, module: &Module) -> Result<Groups, Finding> {
        let file = &self.0[..];
        let reserved = [
            &file[GROUP_COMMAND + 1..GROUP_BLOCKS_AT],
            &file[GROUP_RESERVED_AT..SETUP_STATUS],
        ];
        if reserved_used(self.command(), &reserved) {
            return Err(Finding::new(Refusal::GroupData, RESERVED_ERROR));
        }
        let (blocks, _) = file[GROUP_BLOCKS_AT..GROUP_RESERVED_AT].as_chunks();
        read_groups(blocks, module.setup.scale, module.real_count())
            .map_err(|fault| Finding::of_block(Refusal::GroupData, fault))
    }

    fn install(module: &mut Module, groups: Groups) {
        module.groups = groups;
        module.switches = Switches::NONE;
        module.group_start();
    }

    fn report(&mut self, module: &Module, status: u16, number: u16) {
        let words = &mut self.0[GROUP_STATUS..];
        words.fill(0);
        words[0] = status;
        words[1] = number;
        words[2..2 + GROUPS].copy_from_slice(&module.group_positions);
    }
}

struct LimitCycle<'a>(&'a mut [u16; M1_WORDS]);

impl Cycle for LimitCycle<'_> {
    type Program = Switches;
    const ACKNOWLEDGE: u8 = 1 << 2;

    fn command(&self) -> u16 {
        self.0[0]
    }

    fn read(&self, module: &Module) -> Result<Switches, Finding> {
        let file = &self.0[..];
        let reserved = [
            &file[1..LIMIT_BLOCKS_AT],
            &file[LIMIT_RESERVED_AT..LIMIT_STATUS],
        ];
        if reserved_used(self.command(), &reserved) {
            return Err(Finding::new(Refusal::LimitData, RESERVED_ERROR));
        }
        let (blocks, _) = file[LIMIT_BLOCKS_AT..LIMIT_RESERVED_AT].as_chunks();
        let scale = module.setup.scale;
        read_switches(blocks, scale, module.present, module.assigned())
            .map_err(|fault| Finding::of_block(Refusal::LimitData, fault))
    }

    fn install(module: &mut Module, switches: Switches) {
        module.switches = switches;
        module.place_switches();
    }

    fn report(&mut self, _module: &Module, status: u16, number: u16) {
        let words = &mut self.0[LIMIT_STATUS..];
        words.fill(0);
        words[0] = status;
        words[1] = number;
    }
}

pub(crate) struct NudgeCycle(u16);

impl NudgeCycle {
    pub(crate) const ON: u16 = 1 << 8;
    pub(crate) const OFF: u16 = 1 << 9;
    pub(crate) const DOWN: u16 = 1 << 10;
    const RESERVED: u16 = 0x3800;

    /// The output, counted from 0.
    fn output(&self) -> usize {
        usize::from(self.0) % OUTPUTS
    }

    fn nudge(&self) -> Nudge {
        Nudge {
            pair: usize::from((self.0 >> 5) & 7),
            on: self.0 & NudgeCycle::ON != 0,
            off: self.0 & NudgeCycle::OFF != 0,
            down: self.0 & NudgeCycle::DOWN != 0,
        }
    }
}

impl Cycle for NudgeCycle {
    /// Output and pair, counted from 0, and the pair's new setpoints.
    type Program = (usize, usize, Pair);
    const ACKNOWLEDGE: u8 = 1 << 3;
    const CLEAR_ERRORS: u16 = NUDGE_CLEAR_ERRORS;
    const ENDS_AFTER_CLEAR: bool = true;

    fn command(&self) -> u16 {
        self.0
    }

    fn read(&self, module: &Module) -> Result<Self::Program, Finding> {
        let (output, nudge) = (self.output(), self.nudge());
        let programmed = module.switches.programmed & (1 << output) != 0;
        let setpoint_chosen = nudge.on || nudge.off;
        if !programmed || !setpoint_chosen || self.0 & NudgeCycle::RESERVED != 0 {
            return Err(Finding::new(Refusal::NudgeNumber, 0));
        }
        let pair = module.switches.programs[output]
            .nudged_pair(nudge, module.setup.scale)
            .map_err(|fault| match fault {
                NudgeFault::PairNumber => Finding::new(Refusal::NudgeNumber, 0),
                NudgeFault::Setpoint => Finding::new(Refusal::NudgeSetpoint, 0),
            })?;
        Ok((output, nudge.pair, pair))
    }

    fn install(module: &mut Module, (output, index, pair): Self::Program) {
        let (c, scale) = (module.motion.c, module.setup.scale);
        let switch = &mut module.switches.programs[output];
        switch.set_pair(index, pair);
        switch.place(c, scale);
    }

    /// A nudge has no status words.
    fn report(&mut self, _module: &Module, _status: u16, _number: u16) {}
}

/// Lengths come first, before any word is read.
fn with_file<const N: usize>(
    words: &mut [u16],
    wrong_length: Refusal,
    cycle: impl FnOnce(&mut [u16; N]) -> Answer,
) -> Answer {
    match words.try_into() {
        Ok(file) => cycle(file),
        Err(_) => Answer::Refused(wrong_length),
    }
}

impl Module {
    /// Setup cycle over M0.
    pub fn setup_cycle(&mut self, m0: &mut [u16]) -> Answer {
        with_file(m0, Refusal::M0Length, |file| run(self, SetupCycle(file)))
    }

    /// Group cycle over M0.
    pub fn group_cycle(&mut self, m0: &mut [u16]) -> Answer {
        with_file(m0, Refusal::M0Length, |file| run(self, GroupCycle(file)))
    }

    /// Limit cycle over M1.
    pub fn limit_cycle(&mut self, m1: &mut [u16]) -> Answer {
        with_file(m1, Refusal::M1Length, |file| run(self, LimitCycle(file)))
    }

    /// Nudge cycle with its word.
    pub fn nudge_cycle(&mut self, word: u16) -> Answer {
        run(self, NudgeCycle(word))
    }
}
