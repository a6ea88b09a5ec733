//! Pulse trains: Q pulses of K counts spread over a length R.

/// R ≥ Q × K + Q − 1, for Q and K at least 1. Pulses of such a train are at
/// least one count apart, round the turn too.
pub fn pulses_fit(length: u16, quantity: u16, on_count: u16) -> bool {
    let (quantity, on_count) = (u64::from(quantity), u64::from(on_count));
    u64::from(length) + 1 >= quantity * on_count + quantity
}

/// Start of pulse j, counted from the ON setpoint; R is at least K.
pub fn pulse_start(j: u16, length: u16, quantity: u16, on_count: u16) -> u16 {
    match quantity {
        0 | 1 => 0,
        _ => {
            let room = u32::from(length.saturating_sub(on_count));
            (u32::from(j) * room / u32::from(quantity - 1)) as u16
        }
    }
}

/// Whether a train of length R has a pulse `distance` counts after its ON
/// setpoint. Q and K are at least 1 and R is at least K.
pub fn pulse_holds(distance: u16, length: u16, quantity: u16, on_count: u16) -> bool {
    let room = u32::from(length.saturating_sub(on_count));
    let last = u32::from(quantity.saturating_sub(1));
    if distance >= length || quantity == 0 {
        return false;
    }
    // Starts rise with j, so only the last one at or before `distance` is
    // looked at: floor(j × room / last) ≤ d exactly where
    // j × room < (d + 1) × last.
    let j = if room == 0 || last == 0 {
        last
    } else {
        (((u32::from(distance) + 1) * last - 1) / room).min(last)
    };
    distance - pulse_start(j as u16, length, quantity, on_count) < on_count
}
