//! Packed numbers and texts.

use std::collections::BTreeSet;
use std::ops::RangeInclusive;

/// Distinct byte strings, rising: the objects of a property, or parent hashes.
pub type Set<'a> = BTreeSet<&'a [u8]>;

/// Reads fields from the front of a slice; a field that breaks its layout reads as `None`.
pub struct Reader<'a> {
    rest: &'a [u8],
}

impl<'a> Reader<'a> {
    pub fn new(bytes: &'a [u8]) -> Self {
        Reader { rest: bytes }
    }

    /// A number in its shortest form, seven bits a byte, lowest group first.
    pub fn number(&mut self) -> Option<u64> {
        let mut number = 0;
        for shift in (0..u64::BITS).step_by(7) {
            let byte = *self.bytes(1)?.first()?;
            let group = u64::from(byte & 0x7F);
            if group << shift >> shift != group {
                return None;
            }
            number |= group << shift;
            if byte & 0x80 == 0 {
                // A highest group of 0 would be a longer form of the same number.
                return (group != 0 || shift == 0).then_some(number);
            }
        }
        None
    }

    /// A number inside `range`.
    pub fn count(&mut self, range: RangeInclusive<usize>) -> Option<usize> {
        let number = usize::try_from(self.number()?).ok()?;
        range.contains(&number).then_some(number)
    }

    /// 0 for no, 1 for yes.
    pub fn flag(&mut self) -> Option<bool> {
        Some(self.count(0..=1)? == 1)
    }

    /// The places whose bits are set in a number below 2^32.
    pub fn places(&mut self) -> Option<BTreeSet<usize>> {
        let bits = u32::try_from(self.number()?).ok()?;
        Some((0..32).filter(|place| bits >> place & 1 == 1).collect())
    }

    /// A length and that many bytes.
    pub fn text(&mut self) -> Option<&'a [u8]> {
        let length = usize::try_from(self.number()?).ok()?;
        self.bytes(length)
    }

    pub fn bytes(&mut self, length: usize) -> Option<&'a [u8]> {
        let (bytes, rest) = self.rest.split_at_checked(length)?;
        self.rest = rest;
        Some(bytes)
    }

    /// `count` byte strings, each read by `item`, strictly rising.
    pub fn rising(
        &mut self,
        count: usize,
        item: impl Fn(&mut Self) -> Option<&'a [u8]>,
    ) -> Option<Set<'a>> {
        let items = (0..count).map(|_| item(self)).collect::<Option<Vec<_>>>()?;
        let is_rising = items.is_sorted_by(|earlier, later| earlier < later);
        is_rising.then(|| items.into_iter().collect())
    }

    pub fn is_at_end(&self) -> bool {
        self.rest.is_empty()
    }

    /// What is not read yet.
    pub fn rest(self) -> &'a [u8] {
        self.rest
    }

    /// Passes `whole` on where nothing follows it.
    pub fn end<T>(self, whole: T) -> Option<T> {
        self.is_at_end().then_some(whole)
    }
}

pub fn put_number(out: &mut Vec<u8>, mut number: u64) {
    while number >= 0x80 {
        out.push(number as u8 | 0x80);
        number >>= 7;
    }
    out.push(number as u8);
}

/// A count or a length.
pub fn put_count(out: &mut Vec<u8>, count: usize) {
    put_number(out, count as u64);
}

pub fn put_text(out: &mut Vec<u8>, text: &[u8]) {
    put_count(out, text.len());
    out.extend_from_slice(text);
}

/// The events as a batch.
pub fn put_batch(out: &mut Vec<u8>, events: &[Vec<u8>]) {
    put_count(out, events.len());
    for event in events {
        put_text(out, event);
    }
}

/// The number whose set bits are `places`.
pub fn put_places<'p>(out: &mut Vec<u8>, places: impl IntoIterator<Item = &'p usize>) {
    put_number(out, places.into_iter().map(|place| 1 << place).sum());
}

#[cfg(test)]
mod tests {
    use super::*;

    fn read(bytes: &[u8]) -> Option<u64> {
        let mut reader = Reader::new(bytes);
        let number = reader.number()?;
        reader.end(number)
    }

    #[test]
    fn the_shortest_form_is_taken() {
        assert_eq!(read(&[0x7F]), Some(127));
        assert_eq!(read(&[0x80, 0x01]), Some(128));
        assert_eq!(read(&[0xAC, 0x02]), Some(300));
        assert_eq!(read(&[0x80, 0x00]), None);
    }

    #[test]
    fn a_number_is_below_two_to_the_64() {
        let mut largest = Vec::new();
        put_number(&mut largest, u64::MAX);
        assert_eq!(read(&largest), Some(u64::MAX));
        *largest.last_mut().unwrap() = 2;
        assert_eq!(read(&largest), None);
    }
}
