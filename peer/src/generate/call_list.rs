//! A list of calls as the replay program reads it.

use crate::step::SAMPLE_WORDS;

#[derive(Clone, Debug, Default, PartialEq, Eq)]
pub struct CallList {
    words: Vec<u16>,
    calls: usize,
    steps: usize,
    /// An unknown opcode or a call cut short, after the last whole call.
    tail: Vec<u8>,
}

impl CallList {
    fn call(&mut self, words: &[u16]) {
        self.words.extend(words);
        self.calls += 1;
    }

    pub fn power_up(&mut self, number: u16) {
        self.call(&[0, number]);
    }

    /// A cycle over a file; opcode 1 setup, 2 group, 3 limit.
    pub fn file(&mut self, opcode: u16, file: &[u16]) {
        self.call(&[opcode]);
        self.counted(file);
    }

    pub fn nudge(&mut self, word: u16) {
        self.call(&[4, word]);
    }

    pub fn step(&mut self, sample: &[u16; SAMPLE_WORDS]) {
        self.call(&[5]);
        self.words.extend(sample);
        self.steps += 1;
    }

    /// A block reader call; `which` is 0 for a group block.
    pub fn block(&mut self, which: u16, number: u16, m0: &[u16], m1: &[u16]) {
        self.call(&[6, which, number]);
        self.counted(m0);
        self.counted(m1);
    }

    pub fn read_byte(&mut self, offset: u16) {
        self.call(&[7, offset]);
    }

    /// A byte written; of the word only the low byte counts.
    pub fn write_byte(&mut self, offset: u16, word: u16) {
        self.call(&[8, offset, word]);
    }

    /// A frame written from the low bytes of the words into a buffer of
    /// `capacity` bytes.
    pub fn write_frame(&mut self, capacity: u16, words: &[u16]) {
        self.call(&[9, capacity]);
        self.counted(words);
    }

    /// A frame read from the low bytes of the words.
    pub fn read_frame(&mut self, capacity: u16, words: &[u16]) {
        self.call(&[10, capacity]);
        self.counted(words);
    }

    /// A section turned to columns, into an output of `out_words` words.
    pub fn columns(&mut self, out_words: u16, words: &[u16]) {
        self.call(&[11, out_words]);
        self.counted(words);
    }

    /// Columns turned back to rows.
    pub fn rows(&mut self, out_words: u16, words: &[u16]) {
        self.call(&[12, out_words]);
        self.counted(words);
    }

    fn counted(&mut self, file: &[u16]) {
        self.words.push(file.len() as u16);
        self.words.extend(file);
    }

    pub fn steps(&self) -> usize {
        self.steps
    }

    /// Ends the list with what is no whole call.
    pub fn break_off(&mut self, tail: Vec<u8>) {
        self.tail = tail;
    }

    #[cfg(test)]
    pub fn tail(&self) -> &[u8] {
        &self.tail
    }

    /// Lines of the answers: one for each call, and `bad` for a tail.
    pub fn lines(&self) -> usize {
        self.calls + usize::from(!self.tail.is_empty())
    }

    pub fn bytes(&self) -> Vec<u8> {
        let mut bytes = little_endian(&self.words);
        bytes.extend(&self.tail);
        bytes
    }
}

/// The bytes of words, low byte first.
pub fn little_endian(words: &[u16]) -> Vec<u8> {
    words.iter().flat_map(|word| word.to_le_bytes()).collect()
}

#[cfg(test)]
mod tests {
    use super::*;

    #[test]
    fn calls_in_order() {
        let mut list = CallList::default();
        list.power_up(8511);
        list.file(2, &[7, 8]);
        list.nudge(0x1234);
        list.step(&[1, 2, 3, 4, 5, 6, 7, 8, 9]);
        list.block(1, 32, &[5], &[]);
        list.read_byte(17);
        list.write_byte(16, 0x0301);
        list.write_frame(493, &[6, 7]);
        list.read_frame(0, &[8]);
        list.columns(9, &[3, 4]);
        list.rows(0, &[5]);
        let words = [
            0, 8511, 2, 2, 7, 8, 4, 0x1234, 5, 1, 2, 3, 4, 5, 6, 7, 8, 9, 6, 1, 32, 1, 5, 0, 7, 17,
            8, 16, 0x0301, 9, 493, 2, 6, 7, 10, 0, 1, 8, 11, 9, 2, 3, 4, 12, 0, 1, 5,
        ];
        assert_eq!(list.words, words);
        assert_eq!((list.lines(), list.steps()), (11, 1));
        assert_eq!(list.bytes()[..6], [0, 0, 0x3f, 0x21, 2, 0]);
        list.break_off(vec![9]);
        assert_eq!(list.bytes().len(), 2 * words.len() + 1);
        assert_eq!(list.lines(), 12);
    }
}
