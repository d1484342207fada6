//! Reads the fields of a body in wire order.

use crate::integer::{decode, Decoded};
use crate::refusal::{self, Refusal};
use std::ops::RangeInclusive;

/// A body and how much of it is read.
#[derive(Clone, Copy, Debug)]
pub struct Fields<'a> {
    body: &'a [u8],
    read: usize,
}

impl<'a> Fields<'a> {
    /// All fields of a body.
    pub fn new(body: &'a [u8]) -> Fields<'a> {
        Fields { body, read: 0 }
    }

    /// The part of the body that isn't read yet.
    fn rest(&self) -> &'a [u8] {
        &self.body[self.read..]
    }

    /// Whether the body ends here.
    pub fn ended(&self) -> bool {
        self.rest().is_empty()
    }

    /// A refusal of the field that starts here.
    fn refused(&self, number: u8) -> Refusal {
        Refusal::at(number, self.read)
    }

    /// The next `count` bytes, or refusal 23.
    pub fn bytes(&mut self, count: usize) -> Result<&'a [u8], Refusal> {
        let bytes = self.rest().get(..count);
        let bytes = bytes.ok_or(self.refused(refusal::CUT))?;
        self.read += count;
        Ok(bytes)
    }

    /// The next `count` bytes if they pass the test, else refusal 30; or
    /// refusal 23.
    pub fn name(
        &mut self,
        count: usize,
        test: impl Fn(&[u8]) -> bool,
    ) -> Result<&'a [u8], Refusal> {
        let start = *self;
        let name = self.bytes(count)?;
        match test(name) {
            true => Ok(name),
            false => Err(start.refused(refusal::NOT_PLAIN)),
        }
    }

    /// An encoded integer that passes the test, or refusal 23 or 24.
    pub fn integer_if(&mut self, test: impl Fn(u64) -> bool) -> Result<u64, Refusal> {
        match decode(self.rest()) {
            Decoded::Cut { .. } => Err(self.refused(refusal::CUT)),
            Decoded::Value { value, length } if test(value) => {
                self.read += length;
                Ok(value)
            }
            Decoded::Value { .. } | Decoded::Overflow { .. } => Err(self.refused(refusal::RANGE)),
        }
    }

    /// An encoded integer within `range`, or refusal 23 or 24.
    pub fn integer(&mut self, range: RangeInclusive<u64>) -> Result<u64, Refusal> {
        self.integer_if(|value| range.contains(&value))
    }

    /// Four bytes, big-endian, or refusal 23.
    pub fn four_bytes(&mut self) -> Result<u32, Refusal> {
        let bytes = self.bytes(4)?;
        Ok(bytes.iter().fold(0, |sum, &b| sum << 8 | u32::from(b)))
    }
}
