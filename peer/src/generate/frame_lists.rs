//! Lists of frames written and read: data of every length, buffers of every
//! length, and frames spoilt in every manner. What must come whole, as every
//! length and every change of a frame, goes round with the seed.

use crate::df1::{DLE, ETX, LONGEST_FRAME, MOST_DATA, STX};
use crate::generate::call_list::CallList;
use crate::generate::frame_parts::{between_ends, check_of, doubled, frame_of};
use crate::generate::numbers::Numbers;

/// Every length of data that can be written, and two more.
const LENGTHS: u64 = MOST_DATA as u64 + 3;
/// Lengths about the longest frame's, about others at which a reader or a
/// writer might stop, and the longest.
const LONG_LENGTHS: [u16; 16] = [
    488, 492, 493, 494, 495, 498, 650, 651, 652, 653, 1302, 1303, 1304, 4096, 65534, 65535,
];

/// The list of a seed.
pub fn frame_list(seed: u64) -> CallList {
    let mut link = Link {
        // Other numbers than the lists of cycles and steps have for the seed.
        numbers: Numbers::new(seed.rotate_left(32)),
        list: CallList::default(),
    };
    if link.numbers.one_in(2) {
        link.list.power_up(8513);
    }
    link.any_length((seed % LENGTHS) as usize);
    for _ in 0..link.numbers.between(4, 8) {
        link.other_call();
        link.episode();
    }
    link.cuts(1, 5);
    match seed % 100 {
        0 => link.changes_of_a_short_frame(),
        10 => link.lone_dles(),
        5 | 55 => link.changes_of_a_long_frame(),
        20 | 70 => link.cuts(60, MOST_DATA as u16),
        turn if turn % 5 == 1 => {
            let place = seed as usize / 5 % LONG_LENGTHS.len();
            link.long_inputs(LONG_LENGTHS[place]);
        }
        _ => {}
    }
    if link.numbers.one_in(10) {
        link.break_off();
    }
    link.list
}

/// Data of a length, of a kind that is drawn.
fn draw_data(numbers: &mut Numbers, length: usize) -> Vec<u8> {
    let kind = numbers.below(8);
    let mut data: Vec<u8> = (0..length)
        .map(|place| {
            let any = draw_byte(numbers);
            match kind {
                0 => DLE,
                1 => numbers.pick(&[DLE, DLE, any]),
                2 => numbers.pick(&[DLE, STX, ETX, any]),
                3 => place as u8,
                _ => any,
            }
        })
        .collect();
    match kind {
        4 => set_check(&mut data, DLE),
        5 => set_check(&mut data, 0),
        _ => {}
    }
    data
}

fn draw_byte(numbers: &mut Numbers) -> u8 {
    numbers.word() as u8
}

/// A byte that is not this one.
fn draw_other(numbers: &mut Numbers, byte: u8) -> u8 {
    byte.wrapping_add(numbers.between(1, 255) as u8)
}

/// Changes the last byte so that the check byte is this one.
fn set_check(data: &mut [u8], check: u8) {
    let missing = check_of(data).wrapping_sub(check);
    if let Some(last) = data.last_mut() {
        *last = last.wrapping_add(missing);
    }
}

struct Link {
    numbers: Numbers,
    list: CallList,
}

impl Link {
    /// Words with these low bytes; the high bytes do not count.
    fn words(&mut self, bytes: &[u8]) -> Vec<u16> {
        let high = if self.numbers.one_in(4) { 0xff00 } else { 0 };
        bytes
            .iter()
            .map(|&byte| u16::from(byte) | self.numbers.word() & high)
            .collect()
    }

    fn write(&mut self, capacity: usize, data: &[u8]) {
        let words = self.words(data);
        self.list.write_frame(capacity as u16, &words);
    }

    fn read(&mut self, capacity: usize, input: &[u8]) {
        let words = self.words(input);
        self.list.read_frame(capacity as u16, &words);
    }

    /// Buffers about a needed length: exact, one byte short, longer, shorter
    /// and none.
    fn capacities(&mut self, needed: usize) -> [usize; 5] {
        let shorter = self.numbers.below(needed as u32) as usize;
        let longer = needed + usize::from(self.numbers.between(1, 9));
        [needed, needed.saturating_sub(1), longer, shorter, 0]
    }

    /// One of them; seldom a large one.
    fn draw_capacity(&mut self, needed: usize) -> usize {
        let usual = self.capacities(needed);
        if self.numbers.one_in(40) {
            self.numbers.pick(&[600, 600, 4096])
        } else {
            self.numbers.pick(&usual)
        }
    }

    /// A length between these, mostly a small one.
    fn draw_data_of(&mut self, least: u16, most: u16) -> Vec<u8> {
        let most = self.numbers.pick(&[least + 4, least + 4, least + 20, most]);
        let length = usize::from(self.numbers.between(least, most));
        draw_data(&mut self.numbers, length)
    }

    /// Writes data into buffers of every kind, and reads their frame so.
    fn write_and_read(&mut self, data: &[u8]) {
        let frame = frame_of(data);
        for capacity in self.capacities(frame.len()) {
            self.write(capacity, data);
        }
        for capacity in self.capacities(data.len()) {
            self.read(capacity, &frame);
        }
    }

    /// Reads an input that may be no frame, of about so many data bytes.
    fn read_about(&mut self, length: usize, input: &[u8]) {
        let capacity = self.draw_capacity(length);
        self.read(capacity, input);
        if self.numbers.one_in(3) {
            self.read(length + 2, input);
        }
    }

    fn any_length(&mut self, length: usize) {
        let data = draw_data(&mut self.numbers, length);
        self.write_and_read(&data);
    }

    /// A power-up or a nudge, or nothing.
    fn other_call(&mut self) {
        let word = self.numbers.word();
        match self.numbers.below(24) {
            0 => self.list.power_up(8511 + word % 3),
            1 => self.list.power_up(word),
            2 => self.list.nudge(word),
            _ => {}
        }
    }

    fn episode(&mut self) {
        match self.numbers.below(16) {
            0 | 1 => self.sound(),
            2 => self.all_dle(),
            3 => self.no_data(),
            4 => self.too_long(),
            5 => self.lone_dle(),
            6 => self.lone_dle_at_the_end(),
            7 => self.bytes_beside(),
            8 => self.two_frames(),
            9 => self.doubled_check(),
            10 => self.wrong_check(),
            11 => self.other_ends(),
            12 => self.any_bytes(),
            13 => self.any_body(),
            _ => self.spoilt(),
        }
    }

    fn sound(&mut self) {
        let data = self.draw_data_of(1, MOST_DATA as u16);
        let frame = frame_of(&data);
        let capacity = self.draw_capacity(frame.len());
        self.write(capacity, &data);
        self.read_about(data.len(), &frame);
    }

    fn all_dle(&mut self) {
        let any = self.numbers.between(1, MOST_DATA as u16);
        let length = usize::from(self.numbers.pick(&[any, any, 244, 245]));
        let data = vec![DLE; length];
        self.write_and_read(&data);
        // As many DLEs, but not in pairs.
        let body = vec![DLE; 2 * length - 1];
        self.read_about(length, &between_ends(&body, check_of(&data)));
    }

    fn no_data(&mut self) {
        for input in [&between_ends(&[], 0)[..], &[]] {
            self.read_about(0, input);
        }
        let capacity = self.draw_capacity(5);
        self.write(capacity, &[]);
    }

    /// Correct in all but the number of its data bytes.
    fn too_long(&mut self) {
        let any = self.numbers.between(247, 520);
        let length = self.numbers.pick(&[245, 245, 246, any]);
        let data = draw_data(&mut self.numbers, usize::from(length));
        let frame = frame_of(&data);
        for capacity in [0, 244, data.len(), 600] {
            self.read(capacity, &frame);
        }
        self.write(frame.len(), &data);
        let capacity = self.draw_capacity(frame.len());
        self.write(capacity, &data);
    }

    /// A DLE with another byte behind it, among the data.
    fn lone_dle_with(&mut self, data: &[u8], other: u8) {
        let place = self.numbers.below(data.len() as u32 + 1) as usize;
        let (before, after) = data.split_at(place);
        let body = [&doubled(before), &[DLE, other][..], &doubled(after)].concat();
        // Whether the two were meant as data or only one of them.
        for meant in [&[DLE, other][..], &[other], &[DLE]] {
            let check = check_of(&[data, meant].concat());
            let capacity = self.draw_capacity(data.len() + meant.len());
            self.read(capacity, &between_ends(&body, check));
        }
    }

    fn lone_dle(&mut self) {
        let data = self.draw_data_of(0, 240);
        let any = draw_other(&mut self.numbers, DLE);
        let other = self.numbers.pick(&[any, any, STX, ETX]);
        self.lone_dle_with(&data, other);
    }

    /// Every other byte behind a DLE.
    fn lone_dles(&mut self) {
        let data = self.draw_data_of(0, 4);
        for other in (0..=255).filter(|&other| other != DLE) {
            self.lone_dle_with(&data, other);
        }
    }

    fn lone_dle_at_the_end(&mut self) {
        let data = self.draw_data_of(0, 243);
        let body = [&doubled(&data), &[DLE][..]].concat();
        let with_it = check_of(&[&data[..], &[DLE]].concat());
        for check in [with_it, check_of(&data)] {
            self.read_about(data.len() + 1, &between_ends(&body, check));
        }
    }

    fn bytes_beside(&mut self) {
        let data = self.draw_data_of(1, MOST_DATA as u16);
        let frame = frame_of(&data);
        let beside: Vec<u8> = (0..self.numbers.between(1, 3))
            .map(|_| {
                let any = draw_byte(&mut self.numbers);
                self.numbers
                    .pick(&[any, any, 0, DLE, frame[frame.len() - 1]])
            })
            .collect();
        self.read_about(data.len(), &[&beside[..], &frame].concat());
        self.read_about(data.len(), &[&frame[..], &beside].concat());
        if self.numbers.one_in(2) {
            self.read_about(data.len(), &[&beside[..], &frame, &beside].concat());
        }
    }

    fn two_frames(&mut self) {
        let first = self.draw_data_of(1, MOST_DATA as u16);
        let second = self.draw_data_of(1, MOST_DATA as u16);
        let length = first.len() + second.len();
        self.read_about(length, &[frame_of(&first), frame_of(&second)].concat());
    }

    /// A check byte of DLE is not doubled.
    fn doubled_check(&mut self) {
        let mut data = self.draw_data_of(1, MOST_DATA as u16);
        if !self.numbers.one_in(4) {
            set_check(&mut data, DLE);
        }
        let mut frame = frame_of(&data);
        self.read_about(data.len(), &frame);
        frame.push(frame[frame.len() - 1]);
        self.read_about(data.len(), &frame);
        self.write(frame.len(), &data);
    }

    /// Every DLE counted twice, or another sum than the data's, or no two's
    /// complement.
    fn wrong_check(&mut self) {
        let mut data = self.draw_data_of(1, MOST_DATA as u16);
        let place = self.numbers.below(data.len() as u32) as usize;
        data[place] = DLE;
        let body = doubled(&data);
        let check = check_of(&data);
        for wrong in [
            check_of(&body),
            check_of(&frame_of(&data)[..body.len() + 4]),
            check_of(&[&data[..], &[ETX]].concat()),
            check.wrapping_sub(1),
            check.wrapping_neg(),
        ] {
            self.read_about(data.len(), &between_ends(&body, wrong));
        }
    }

    /// Other control bytes than STX and ETX.
    fn other_ends(&mut self) {
        let data = self.draw_data_of(1, MOST_DATA as u16);
        let mut frame = frame_of(&data);
        let (start, end) = (1, frame.len() - 2);
        // SOH, STX, ETX, EOT, ENQ, ACK, DLE, NAK, ETB
        let controls = [1, 2, 3, 4, 5, 6, DLE, 0x15, 0x17];
        frame[end] = self.numbers.pick(&controls);
        self.read_about(data.len(), &frame);
        frame[start] = self.numbers.pick(&controls);
        self.read_about(data.len(), &frame);
        let symbol = [DLE, self.numbers.pick(&controls)];
        self.read_about(0, &symbol);
    }

    fn any_bytes(&mut self) {
        for _ in 0..3 {
            let length = self.numbers.between(0, 30);
            let input: Vec<u8> = (0..length).map(|_| draw_byte(&mut self.numbers)).collect();
            self.read_about(usize::from(length), &input);
            let input: Vec<u8> = (0..length)
                .map(|_| self.numbers.pick(&[DLE, STX, ETX, 0]))
                .collect();
            self.read_about(usize::from(length), &input);
        }
    }

    /// Bytes of few values between sound ends; some are a frame's.
    fn any_body(&mut self) {
        for _ in 0..4 {
            let body: Vec<u8> = (0..self.numbers.between(0, 8))
                .map(|_| self.numbers.pick(&[DLE, DLE, STX, ETX, 0xf0]))
                .collect();
            let dles = body.iter().filter(|&&byte| byte == DLE).count() as u8;
            // As if all DLEs were in pairs.
            let check = check_of(&body).wrapping_add(dles / 2 * DLE);
            self.read_about(body.len(), &between_ends(&body, check));
        }
    }

    /// A frame with a few bytes changed, dropped, put in or moved.
    fn spoilt(&mut self) {
        let data = self.draw_data_of(1, MOST_DATA as u16);
        let mut input = frame_of(&data);
        for _ in 0..self.numbers.between(1, 3) {
            let place = self.numbers.below(input.len() as u32) as usize;
            let any = draw_byte(&mut self.numbers);
            let byte = self.numbers.pick(&[any, any, DLE, STX, ETX]);
            match self.numbers.below(4) {
                0 => input[place] = byte,
                1 => input.insert(place, byte),
                2 => {
                    input.remove(place);
                }
                _ => {
                    let other = self.numbers.below(input.len() as u32) as usize;
                    input.swap(place, other);
                }
            }
        }
        self.read_about(data.len(), &input);
    }

    /// Every beginning of a frame with between so many data bytes, and the
    /// frame; some ends too.
    fn cuts(&mut self, least: u16, most: u16) {
        let length = usize::from(self.numbers.between(least, most));
        let data = draw_data(&mut self.numbers, length);
        let frame = frame_of(&data);
        for length in 0..=frame.len() {
            let capacity = self.draw_small_capacity(data.len());
            self.read(capacity, &frame[..length]);
        }
        for start in 1..frame.len().min(8) {
            self.read_about(data.len(), &frame[start..]);
        }
    }

    /// Mostly small, so that the answers are short.
    fn draw_small_capacity(&mut self, needed: usize) -> usize {
        self.numbers.pick(&[0, 1, needed.min(8), needed])
    }

    /// Every other byte at every place.
    fn changes_of_a_short_frame(&mut self) {
        let length = usize::from(self.numbers.between(1, 3));
        let data = draw_data(&mut self.numbers, length);
        let frame = frame_of(&data);
        self.read(length, &frame);
        for place in 0..frame.len() {
            for difference in 1..=255 {
                let mut input = frame.clone();
                input[place] = frame[place].wrapping_add(difference);
                let capacity = self.draw_small_capacity(length);
                self.read(capacity, &input);
            }
        }
    }

    /// Some other bytes at every place.
    fn changes_of_a_long_frame(&mut self) {
        let length = usize::from(self.numbers.between(60, 244));
        let data = draw_data(&mut self.numbers, length);
        let frame = frame_of(&data);
        self.read(length, &frame);
        for place in 0..frame.len() {
            let any = draw_other(&mut self.numbers, frame[place]);
            let special = self.numbers.pick(&[DLE, STX, ETX]);
            for byte in [any, special] {
                if byte != frame[place] {
                    let mut input = frame.clone();
                    input[place] = byte;
                    let capacity = self.draw_small_capacity(length);
                    self.read(capacity, &input);
                }
            }
        }
    }

    /// Inputs and data of a length over 487, and the largest buffers.
    fn long_inputs(&mut self, length: u16) {
        for _ in 0..3 {
            let input = self.draw_long(usize::from(length));
            let capacity = self.numbers.pick(&[0, 244, 493, 600, length]);
            self.read(usize::from(capacity), &input);
        }
        let data = draw_data(&mut self.numbers, usize::from(length));
        let capacity = self.numbers.pick(&[0, 493, 600, length]);
        self.write(usize::from(capacity), &data);

        let data = self.draw_data_of(1, MOST_DATA as u16);
        let capacity = self.numbers.pick(&[600, 65534, 65535, 65535]);
        if self.numbers.one_in(2) {
            self.write(capacity, &data);
        } else {
            self.read(capacity, &frame_of(&data));
        }
    }

    /// A frame with too many data bytes, the longest frame with bytes behind
    /// or before it, or any bytes.
    fn draw_long(&mut self, length: usize) -> Vec<u8> {
        let longest = frame_of(&[DLE; MOST_DATA]);
        let beside = vec![draw_byte(&mut self.numbers); length.saturating_sub(LONGEST_FRAME)];
        match self.numbers.below(6) {
            0 => [&longest[..], &beside].concat(),
            1 => [&beside[..], &longest].concat(),
            2 => (0..length).map(|_| draw_byte(&mut self.numbers)).collect(),
            // All DLEs, in pairs where the length is odd.
            3 => between_ends(
                &vec![DLE; length - 5],
                check_of(&vec![DLE; (length - 5) / 2]),
            ),
            // No DLEs, so that the length is the wanted one.
            _ => frame_of(&vec![self.numbers.pick(&[0, 1, 0xff]); length - 5]),
        }
    }

    /// A frame call cut anywhere.
    fn break_off(&mut self) {
        let data = self.draw_data_of(0, 9);
        let mut call = CallList::default();
        let capacity = self.numbers.between(0, 20);
        let words = self.words(&frame_of(&data));
        if self.numbers.one_in(2) {
            call.write_frame(capacity, &words);
        } else {
            call.read_frame(capacity, &words);
        }
        let mut bytes = call.bytes();
        bytes.truncate(1 + self.numbers.below(bytes.len() as u32 - 1) as usize);
        self.list.break_off(bytes);
    }
}
