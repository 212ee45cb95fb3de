//! The memory that is lent to a call: slices side by side, with noise before, between and behind them. It is made
//! as an image first, and the call is given a copy, so that afterwards one comparison tells every byte that changed.

use super::numbers::any_number;
use crate::random::Random;
use std::ops::Range;

/// The bytes of noise around a slice. A slice can be lengthened by half of them.
const GUARD: usize = 128;
/// More bytes than any call is lent.
const ROOM: usize = 1 << 20;
/// More bytes than any slice has.
const NOISE: usize = 160_000;

#[derive(Clone, Copy, PartialEq)]
pub enum Kind {
    Record,
    Top,
    Pending,
    Blocks,
    List,
    Bytes,
}

impl Kind {
    pub fn width(self) -> usize {
        match self {
            Kind::Record | Kind::Blocks => 8,
            Kind::Top | Kind::Pending | Kind::List => 4,
            Kind::Bytes => 1,
        }
    }
}

#[derive(Clone, Copy)]
pub struct Slice {
    pub kind: Kind,
    start: usize,
    pub len: usize,
    pub null: bool,
}

pub struct Lent {
    image: Vec<u8>,
    /// The copy.
    memory: Vec<u8>,
    /// Where in the memory the image begins: at a multiple of 8.
    base: usize,
    used: usize,
    noise: Vec<u8>,
    pub slices: Vec<Slice>,
}

impl Lent {
    pub fn new(random: &mut Random) -> Self {
        let memory = vec![0; ROOM + 8];
        let base = memory.as_ptr().align_offset(8);
        let noise: Vec<u64> = (0..NOISE / 4).map(|_| any_number(32, random)).collect();
        Lent { image: vec![0; ROOM], memory, base, used: 0, noise: bytes_of(&noise, 4), slices: Vec::new() }
    }

    pub fn clear(&mut self, random: &mut Random) {
        self.slices.clear();
        self.used = 0;
        self.guard(random);
    }

    fn guard(&mut self, random: &mut Random) {
        let from = random.number((NOISE - GUARD) as u64) as usize;
        self.image[self.used..self.used + GUARD].copy_from_slice(&self.noise[from..from + GUARD]);
        self.used += GUARD;
    }

    /// Makes a slice at any address that its cells allow, and answers where its bytes stand in the image.
    fn place(&mut self, kind: Kind, len: usize, random: &mut Random) -> Range<usize> {
        let width = kind.width();
        let start = self.used + random.number((8 / width) as u64) as usize * width;
        let end = start + len * width;
        self.slices.push(Slice { kind, start, len, null: false });
        self.used = end.next_multiple_of(8);
        self.guard(random);
        start..end
    }

    pub fn lend(&mut self, kind: Kind, bytes: &[u8], random: &mut Random) {
        let at = self.place(kind, bytes.len() / kind.width(), random);
        self.image[at].copy_from_slice(bytes);
    }

    pub fn lend_noise(&mut self, kind: Kind, len: usize, random: &mut Random) {
        let at = self.place(kind, len, random);
        let from = random.number((NOISE - at.len()) as u64) as usize;
        let to = from + at.len();
        self.image[at].copy_from_slice(&self.noise[from..to]);
    }

    pub fn lend_zeros(&mut self, kind: Kind, len: usize, random: &mut Random) {
        let at = self.place(kind, len, random);
        self.image[at].fill(0);
    }

    pub fn lend_record(&mut self, cells: &[u64], random: &mut Random) {
        self.lend(Kind::Record, &bytes_of(cells, 8), random);
    }

    /// An empty slice: a null pointer, or one into the memory.
    pub fn empty(&mut self, slice: usize, random: &mut Random) {
        self.slices[slice].len = 0;
        self.slices[slice].null = random.once_in(2);
    }

    /// A slice of at least one cell loses one, some, or all.
    pub fn shorten(&mut self, slice: usize, random: &mut Random) {
        let len = self.slices[slice].len as u64;
        let some = random.number(len);
        match *random.one_of(&[len - 1, some, 0]) {
            0 => self.empty(slice, random),
            len => self.slices[slice].len = len as usize,
        }
    }

    /// Lends some of what stands behind a slice with it.
    pub fn lengthen(&mut self, slice: usize, random: &mut Random) {
        let most = GUARD / 2 / self.slices[slice].kind.width();
        self.slices[slice].len += 1 + random.number(most as u64) as usize;
    }

    /// The bytes of a slice as they are before the call.
    pub fn bytes(&self, slice: usize) -> &[u8] {
        let Slice { kind, start, len, .. } = self.slices[slice];
        &self.image[start..start + len * kind.width()]
    }

    pub fn get(&self, slice: usize, i: usize) -> u64 {
        let width = self.slices[slice].kind.width();
        let mut cell = [0; 8];
        cell[..width].copy_from_slice(&self.bytes(slice)[i * width..(i + 1) * width]);
        u64::from_le_bytes(cell)
    }

    pub fn put(&mut self, slice: usize, i: usize, value: u64) {
        let Slice { kind, start, len, .. } = self.slices[slice];
        assert!(i < len);
        let width = kind.width();
        let at = start + i * width;
        self.image[at..at + width].copy_from_slice(&value.to_le_bytes()[..width]);
    }

    /// Makes the copy that the call is given.
    pub fn hand_over(&mut self) {
        self.memory[self.base..self.base + self.used].copy_from_slice(&self.image[..self.used]);
    }

    pub fn pointer<T>(&mut self, slice: usize) -> *mut T {
        let Slice { start, null, .. } = self.slices[slice];
        if null {
            return std::ptr::null_mut();
        }
        self.memory.as_mut_ptr().wrapping_add(self.base + start).cast()
    }

    /// Whether every byte is as it was handed over, but for the first cells of some slices: so many of each. The
    /// slices are named from the first to the last.
    pub fn unchanged_but(&self, written: impl Iterator<Item = (usize, usize)>) -> bool {
        let memory = &self.memory[self.base..];
        let mut from = 0;
        for (slice, cells) in written {
            let Slice { kind, start, .. } = self.slices[slice];
            if self.image[from..start] != memory[from..start] {
                return false;
            }
            from = start + cells * kind.width();
        }
        self.image[from..self.used] == memory[from..self.used]
    }
}

/// Numbers as bytes, so many of each, the lowest first.
pub fn bytes_of(numbers: &[u64], width: usize) -> Vec<u8> {
    numbers.iter().flat_map(|number| number.to_le_bytes().into_iter().take(width)).collect()
}
