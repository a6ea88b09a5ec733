//! Setpoint pairs on a turn of SF counts.

/// An ON and an OFF setpoint.
#[derive(Clone, Copy, Debug, Default, PartialEq, Eq)]
pub struct Pair {
    pub on: u16,
    pub off: u16,
}

impl Pair {
    /// 0/0 stands for a pair that is not used.
    pub fn is_unused(self) -> bool {
        self.on == 0 && self.off == 0
    }

    /// Both setpoints in 0 to SF − 1, and not equal unless 0/0.
    pub fn is_sound(self, scale: u16) -> bool {
        self.on < scale && self.off < scale && (self.on != self.off || self.on == 0)
    }

    /// (off − on) mod SF.
    pub fn length(self, scale: u16) -> u16 {
        distance(self.on, self.off, scale)
    }
}

/// (to − from) mod SF, for counts below SF.
pub fn distance(from: u16, to: u16, scale: u16) -> u16 {
    let difference = to.wrapping_sub(from);
    if to < from {
        difference.wrapping_add(scale)
    } else {
        difference
    }
}

/// (a + b) mod SF, for counts below SF.
pub fn sum(a: u16, b: u16, scale: u16) -> u16 {
    let sum = u32::from(a) + u32::from(b);
    if sum >= u32::from(scale) {
        (sum - u32::from(scale)) as u16
    } else {
        sum as u16
    }
}

/// A pair (on, off) holds at p where (p − on) mod SF < (off − on) mod SF.
pub fn pair_holds(pair: Pair, position: u16, scale: u16) -> bool {
    distance(pair.on, position, scale) < pair.length(scale)
}
