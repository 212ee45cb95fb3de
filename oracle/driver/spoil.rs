//! Sound rows spoiled: at one place mostly, at two sometimes.

use crate::inputs::Inputs;
use crate::ours::Sizes;

impl Inputs {
    pub fn spoiled(&mut self, row: &[u8]) -> Vec<u8> {
        let mut row = row.to_vec();
        for _ in 0..1 + self.random.below(5) / 4 {
            match self.random.below(16) {
                0..=1 => self.spoil_byte(&mut row),
                2..=3 => self.spoil_length(&mut row),
                4..=8 => self.spoil_entries(&mut row),
                9..=14 => self.spoil_bits(&mut row),
                _ => self.spoil_all(&mut row),
            }
        }
        row
    }

    /// A bit or a byte.
    fn spoil_byte(&mut self, row: &mut [u8]) {
        if !row.is_empty() {
            let place = self.random.below(row.len());
            row[place] ^= match self.random.once_in(2) {
                true => 1 << self.random.below(8),
                false => self.random.next() as u8,
            };
        }
    }

    /// Cut, or made longer; past the longest row, too.
    fn spoil_length(&mut self, row: &mut Vec<u8>) {
        let Sizes { longest, .. } = self.sizes;
        match self.random.below(4) {
            0 => row.truncate(self.random.below(row.len() + 1)),
            1 => row.resize(row.len() + self.random.between(1, 17), 0),
            2 if row.len() > self.list_bytes() => {
                row.resize(longest + 8 * self.random.pick(&[1, 2, 1000]), 0)
            }
            _ => row.truncate(self.list_bytes()),
        }
    }

    fn spoil_entries(&mut self, row: &mut [u8]) {
        let Sizes { entry_bytes, buckets, position_bits, .. } = self.sizes;
        let entries = row.len().min(self.list_bytes()) / entry_bytes;
        if entries == 0 {
            return;
        }
        let (first, second) = (self.random.below(entries), self.random.below(entries));
        let (from, to) = (first * entry_bytes, second * entry_bytes);
        let wide = [buckets, buckets + 1, (1 << position_bits) - 1, 1 << position_bits, u32::MAX as usize];
        match self.random.below(5) {
            // swapped, or with the next
            0 => (0..entry_bytes).for_each(|byte| row.swap(from + byte, to + byte)),
            1 if first > 0 => (from..from + entry_bytes).for_each(|byte| row.swap(byte, byte - entry_bytes)),
            // repeated, behind itself or anywhere
            2 if first > 0 => row.copy_within(from - entry_bytes..from, from),
            3 => row.copy_within(from..from + entry_bytes, to),
            // too large: the first, so that the list still falls, or any
            _ => {
                let place = if self.random.once_in(2) { 0 } else { from };
                let value = self.random.pick(&wide) as u32;
                row[place..place + entry_bytes].copy_from_slice(&value.to_le_bytes()[..entry_bytes]);
            }
        }
    }

    /// The spare byte, the number of blocks, or a bit of the last block.
    fn spoil_bits(&mut self, row: &mut Vec<u8>) {
        let (list, length) = (self.list_bytes(), row.len());
        if length == list {
            let blocks = self.random.between(1, 2);
            row.push(self.random.below(65) as u8);
            row.resize(list + 1 + 8 * blocks, 0);
        }
        if length <= list {
            return;
        }
        match self.random.below(6) {
            0..=1 => row[list] = self.random.below(66) as u8,
            2 => row.resize(length + 8 * self.random.between(1, 2), 0),
            3 if length > list + 9 => row.truncate(length - 8),
            4 => row.truncate(list),
            _ => row[length - 1 - self.random.below(8)] |= 1 << self.random.below(8),
        }
    }

    /// Random bytes, of any length or of a sound one.
    fn spoil_all(&mut self, row: &mut Vec<u8>) {
        if self.random.once_in(2) {
            row.resize(self.random.below(80), 0);
        }
        row.iter_mut().for_each(|byte| *byte = self.random.next() as u8);
    }

    fn list_bytes(&self) -> usize {
        self.sizes.top * self.sizes.entry_bytes
    }
}
