//! What a call is given.

use super::lent::{Kind, Lent};
use super::sizes::sizes_of;
use crate::ffi;
use crate::random::Random;

/// What stands in a call's parameters, one or more of them together.
#[derive(Clone, Copy, PartialEq)]
pub enum Thing {
    Config,
    Split,
    /// A mask and its size.
    Mask,
    /// A number of which nothing is asked.
    Number,
    /// A record and its two areas.
    Filter,
    Builder,
    /// A record and two areas that are only written.
    FilterRoom,
    BuilderRoom,
    List,
    Row,
    /// The record of a row reader.
    Reader,
    Text,
    /// Where a row, or the answer to a text, is to be written.
    Buffer,
    /// Cells for an answer.
    Cells(usize),
}

/// A thing, with the places of its first number and its first slice among the call's.
#[derive(Clone, Copy)]
pub struct Given {
    pub thing: Thing,
    pub number: usize,
    pub slice: usize,
}

/// What a call is given: numbers and slices, each in the order of its parameters.
pub struct Arguments {
    pub given: Vec<Given>,
    pub numbers: Vec<u64>,
    pub lent: Lent,
    /// The bytes that are to be written to the buffer.
    pub needed: usize,
}

impl Arguments {
    pub fn new(random: &mut Random) -> Self {
        Arguments { given: Vec::new(), numbers: Vec::new(), lent: Lent::new(random), needed: 0 }
    }

    pub fn clear(&mut self, random: &mut Random) {
        self.given.clear();
        self.numbers.clear();
        self.lent.clear(random);
    }

    /// What is lent from here on is this thing.
    pub fn begin(&mut self, thing: Thing) -> Given {
        let given = Given { thing, number: self.numbers.len(), slice: self.lent.slices.len() };
        self.given.push(given);
        given
    }

    /// Finds out what is to be written to the buffer, if there is one: the row of the filter, or the answer to the
    /// text, whose length the call itself tells, given room.
    pub fn measure(&mut self) {
        let Given { thing, slice, .. } = self.given[0];
        self.needed = match thing {
            Thing::Filter => row_length(&self.lent, slice),
            Thing::Text => answer_length(self.lent.bytes(slice)),
            _ => 0,
        };
    }

    /// The arguments as a line of text, areas and bytes by their length.
    pub fn shown(&self) -> String {
        let slices = self.lent.slices.iter().enumerate().map(|(i, slice)| match slice.kind {
            Kind::Record => format!("{:?}", (0..slice.len).map(|k| self.lent.get(i, k)).collect::<Vec<_>>()),
            _ if slice.null => "null".into(),
            _ => format!("{} cells", slice.len),
        });
        format!("numbers {:?}, slices {}", self.numbers, slices.collect::<Vec<_>>().join(", "))
    }

    pub fn at<T>(&mut self, slice: usize) -> *mut T {
        self.lent.pointer(slice)
    }

    pub fn len(&self, slice: usize) -> usize {
        self.lent.slices[slice].len
    }

    pub fn n(&self, number: usize) -> u64 {
        self.numbers[number]
    }

    pub fn size(&self, number: usize) -> usize {
        self.numbers[number] as usize
    }
}

/// The length of the row of a filter, if it is one.
fn row_length(lent: &Lent, record: usize) -> usize {
    sizes_of(lent.get(record, 0)).map_or(0, |sizes| {
        let count = lent.get(record, 1).min(sizes.top as u64);
        let boundary = lent.get(record, 2).min(sizes.buckets);
        sizes.row_length(count as usize, boundary)
    })
}

/// A refusal counts as no length, so that nothing is too short, and the same refusal is a fault when the call is asked.
fn answer_length(text: &[u8]) -> usize {
    let mut answer = [0; ffi::TEXT];
    let mut length = 0;
    let status = unsafe {
        ffi::zamgulekt_compare_text(text.as_ptr(), text.len(), answer.as_mut_ptr(), ffi::TEXT, &mut length)
    };
    if status == 0 {
        length as usize
    } else {
        0
    }
}
