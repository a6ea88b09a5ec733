//! The rack bus: the input table as bytes, the interrupt request with its
//! mask, and the line.

use crate::module::{Module, Refusal};

/// The last byte of the input table, which cannot be written.
const TABLE_END: u16 = 15;
const REQUEST_AT: u16 = 16;
const MASK_AT: u16 = 17;
/// The one bit of request and mask.
const FLAG: u8 = 1 << 0;

/// What byte accesses can change. No start clears it.
#[derive(Clone, Copy, Debug, Default, PartialEq, Eq)]
pub(crate) struct Interrupt {
    pub request: bool,
    pub mask: bool,
}

impl Module {
    /// The byte at an offset; refusal 13 over 17.
    pub fn read_byte(&self, offset: u16) -> Result<u8, Refusal> {
        match offset {
            0..=TABLE_END => {
                let bytes = self.table_word(offset / 2).to_le_bytes();
                Ok(bytes[usize::from(offset % 2)])
            }
            REQUEST_AT => Ok(u8::from(self.interrupt.request)),
            MASK_AT => Ok(u8::from(self.interrupt.mask)),
            _ => Err(Refusal::ByteOffset),
        }
    }

    /// Writes a byte: a 1 drops the request, the mask is set or cleared.
    /// Refusal 13 over 17, refusal 14 below 16.
    pub fn write_byte(&mut self, offset: u16, value: u8) -> Result<(), Refusal> {
        let flag = value & FLAG != 0;
        match offset {
            0..=TABLE_END => return Err(Refusal::ByteReadOnly),
            REQUEST_AT => self.interrupt.request &= !flag,
            MASK_AT => self.interrupt.mask = flag,
            _ => return Err(Refusal::ByteOffset),
        }
        Ok(())
    }

    /// The interrupt line is up.
    pub fn line(&self) -> bool {
        self.interrupt.request && self.interrupt.mask
    }

    /// Words 0 to 7 of figure 5.1.
    fn table_word(&self, number: u16) -> u16 {
        let last = &self.last_answer;
        match number {
            0 => self.status_bits(),
            1 => last.machine_position.0,
            2 => last.tach,
            3 => last.real_outputs,
            4 => last.virtual_outputs,
            5 => self.last_inputs,
            _ => 0,
        }
    }

    /// Word 0: errors, MsgIgn, TrFlt and acknowledges as they stand, the
    /// rest the last step's. ModFlt is left out.
    fn status_bits(&self) -> u16 {
        let last = &self.last_answer;
        let [md1, md2] = last.detectors;
        let bit = |set: bool, number: u16| u16::from(set) << number;
        // I/DAck stands below the three others.
        let nudge = u16::from(self.acknowledges >> 3);
        let others = u16::from(self.acknowledges & 0b111);
        u16::from(self.errors)
            | bit(self.message_ignored, 5)
            | bit(self.fault, 7)
            | bit(md1, 8)
            | bit(md2, 9)
            | bit(last.tach_overflow, 10)
            | nudge << 12
            | others << 13
    }
}
