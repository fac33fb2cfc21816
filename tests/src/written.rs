//! Bits that know where their fields lie.

use crate::random::Random;
use recording::bit_writer::BitWriter;
use std::collections::BTreeMap;

/// Where a field lies.
#[derive(Clone, Copy, Debug)]
pub struct Place {
    /// Its first bit.
    pub first: u64,
    /// How many bits it has.
    pub width: u32,
}

/// A packet's bits and where its fields lie.
#[derive(Clone, Debug)]
pub struct Written<F> {
    bits: BitWriter,
    places: BTreeMap<F, Vec<Place>>,
}

impl<F: Ord> Written<F> {
    /// Nothing yet.
    pub fn new() -> Written<F> {
        Written {
            bits: BitWriter::default(),
            places: BTreeMap::new(),
        }
    }

    /// The bytes, the last one filled up with zeros.
    pub fn bytes(&self) -> &[u8] {
        self.bits.bytes()
    }

    /// How many bits it has.
    pub fn length(&self) -> u64 {
        self.bits.length()
    }

    /// The place of some field: each kind of field is as likely as any other.
    pub fn pick(&self, random: &mut Random) -> Place {
        let kind = random.index(self.places.len());
        let places = self.places.values().nth(kind);
        random.pick(places.expect("there are so many kinds"))
    }

    /// Appends a field.
    pub fn put(&mut self, field: F, value: u64, width: u32) {
        let first = self.bits.length();
        let places = self.places.entry(field).or_default();
        places.push(Place { first, width });
        self.bits.put(value, width);
    }
}
