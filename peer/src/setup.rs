//! Setup words 0 to 19 of M0: what they mean and how they are checked.

use crate::motion::{direction_count, scaled_position};
use crate::pair::distance;

/// Setup words at the start of M0.
pub const SETUP_WORDS: usize = 20;

pub(crate) const PRESET_BIT: u16 = 1 << 1;
pub(crate) const COUNT_DIRECTION: u16 = 1 << 4;
pub(crate) const TACH_RESPONSE: u16 = 1 << 5;
pub(crate) const SLC_INTERRUPT: u16 = 1 << 8;
pub(crate) const MODULE_TYPE: u16 = 1 << 9;
/// All bits of word 0 but 0, 1, 4, 5, 8, 9 and 15.
const RESERVED_COMMAND_BITS: u16 = 0x7ccc;

pub(crate) const LOWEST_SCALE: u16 = 2;
pub const HIGHEST_SCALE: u16 = 1024;
const HIGHEST_SPEED: u16 = 32767;

/// Bits of word 100.
pub const SCALE_ERROR: u16 = 1 << 0;
pub const PRESET_ERROR: u16 = 1 << 1;
pub const OFFSET_ERROR: u16 = 1 << 2;
pub const DETECTOR_1_ERROR: u16 = 1 << 3;
pub const DETECTOR_2_ERROR: u16 = 1 << 4;
pub const TACH_ERROR: u16 = 1 << 5;
pub const RESERVED_ERROR: u16 = 1 << 15;

/// Speed setpoints of a motion detector, in rpm.
#[derive(Clone, Copy, Debug, Default, PartialEq, Eq)]
pub struct Detector {
    pub low: u16,
    pub high: u16,
}

impl Detector {
    fn is_sound(self) -> bool {
        self.low <= HIGHEST_SPEED
            && self.high <= HIGHEST_SPEED
            && (self.low != self.high || self.low == 0)
    }
}

/// Tachometer multiplier, divisor and decimal code.
#[derive(Clone, Copy, Debug, PartialEq, Eq)]
pub struct Scalars {
    pub multiplier: u16,
    pub divisor: u16,
    pub code: u16,
}

impl Scalars {
    fn are_sound(self) -> bool {
        self.multiplier <= 1100 && (1..=63).contains(&self.divisor) && self.code <= 3
    }
}

/// The setup in force.
#[derive(Clone, Debug, PartialEq, Eq)]
pub struct Setup {
    pub scale: u16,
    pub preset: u16,
    pub offset: u16,
    pub counter_clockwise: bool,
    pub fast_response: bool,
    pub interrupt: bool,
    pub independent: bool,
    pub detectors: [Detector; 2],
    pub scalars: Scalars,
    pub active_states: u16,
}

impl Setup {
    pub fn window_ms(&self) -> u32 {
        window_ms(self.fast_response)
    }
}

/// The window W of the speed, in ms.
pub fn window_ms(fast_response: bool) -> u32 {
    if fast_response {
        120
    } else {
        504
    }
}

fn detectors(words: &[u16; SETUP_WORDS]) -> [Detector; 2] {
    [4, 6].map(|at| Detector {
        low: words[at],
        high: words[at + 1],
    })
}

fn scalars(words: &[u16; SETUP_WORDS]) -> Scalars {
    Scalars {
        multiplier: words[8],
        divisor: words[9],
        code: words[10],
    }
}

/// All failing bits of word 100; 0 for sound setup words.
pub fn setup_errors(words: &[u16; SETUP_WORDS]) -> u16 {
    let scale_sound = (LOWEST_SCALE..=HIGHEST_SCALE).contains(&words[1]);
    // Preset and offset are judged against 1024 where SF itself is bad.
    let scale = if scale_sound { words[1] } else { HIGHEST_SCALE };
    let [first, second] = detectors(words);
    let reserved_clear =
        words[0] & RESERVED_COMMAND_BITS == 0 && words[12..].iter().all(|&word| word == 0);
    [
        (scale_sound, SCALE_ERROR),
        (words[2] < scale, PRESET_ERROR),
        (words[3] < scale, OFFSET_ERROR),
        (first.is_sound(), DETECTOR_1_ERROR),
        (second.is_sound(), DETECTOR_2_ERROR),
        (scalars(words).are_sound(), TACH_ERROR),
        (reserved_clear, RESERVED_ERROR),
    ]
    .iter()
    .fold(
        0,
        |bits, &(sound, bit)| if sound { bits } else { bits | bit },
    )
}

/// The setup that sound words ask for. `last_raw` is the raw position at
/// which a preset is to take effect.
pub fn decode_setup(words: &[u16; SETUP_WORDS], last_raw: u16) -> Setup {
    let command = words[0];
    let counter_clockwise = command & COUNT_DIRECTION != 0;
    let (scale, preset) = (words[1], words[2]);
    let offset = if command & PRESET_BIT != 0 {
        let q = direction_count(last_raw, counter_clockwise);
        distance(scaled_position(q, scale), preset, scale)
    } else {
        words[3]
    };
    Setup {
        scale,
        preset,
        offset,
        counter_clockwise,
        fast_response: command & TACH_RESPONSE != 0,
        interrupt: command & SLC_INTERRUPT != 0,
        independent: command & MODULE_TYPE != 0,
        detectors: detectors(words),
        scalars: scalars(words),
        active_states: words[11],
    }
}
