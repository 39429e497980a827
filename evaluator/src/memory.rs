//! Target memory of document 01: "two spans, the program image and the working
//! memory, each a first address and lent bytes" ("Sizes"), which ranges of it
//! are readable ("Meanings the manual leaves open") and refusals 12, 13 and 19
//! ("Running"). Addresses are numbers of 128 bits here, so none ever wraps.
//! This module knows no other.

use std::ops::Range;

/// "first address + length exceeds 2^64".
pub const SPAN_TOO_HIGH: u8 = 12;
/// "spans share an address".
pub const SPANS_SHARE: u8 = 13;
/// "range not readable".
pub const NOT_READABLE: u8 = 19;

#[derive(Clone, Debug, PartialEq, Eq, PartialOrd, Ord)]
pub struct Span {
    pub first: u64,
    pub bytes: Vec<u8>,
}

impl Span {
    /// Its addresses, from the first to just before the end.
    fn addresses(&self) -> Range<u128> {
        let first = u128::from(self.first);
        first..first + self.bytes.len() as u128
    }

    fn byte(&self, address: u128) -> Option<u8> {
        let place = address.checked_sub(u128::from(self.first))?;
        self.bytes.get(usize::try_from(place).ok()?).copied()
    }
}

/// Two spans for which neither 12 nor 13 is given.
#[derive(Debug)]
pub struct Memory<'a> {
    spans: &'a [Span; 2],
}

/// What the search for a zero byte comes to. The number is how many bytes were
/// looked at; a zero that is found is one of them.
#[derive(Clone, Copy, Debug, PartialEq, Eq)]
pub enum Search {
    /// The last byte looked at is the first zero.
    Zero(u64),
    /// So many bytes as asked, and none is zero.
    Size(u64),
    /// No zero before the span ended, and fewer bytes than asked.
    End(u64),
}

impl<'a> Memory<'a> {
    /// The spans, or refusal 12 or 13: 12 for either comes before 13 (reading
    /// "An empty span shares no address."
    pub fn new(spans: &'a [Span; 2]) -> Result<Memory<'a>, u8> {
        if spans.iter().any(|span| span.addresses().end > 1 << 64) {
            return Err(SPAN_TOO_HIGH);
        }
        let [one, other] = spans;
        if one.addresses().any(|address| other.byte(address).is_some()) {
            return Err(SPANS_SHARE);
        }
        Ok(Memory { spans })
    }

    /// "A range of one byte or more is readable exactly if all of it lies in
    /// one span"; "for 0 bytes it lends an empty part".
    pub fn fetch(&self, address: u64, size: u64) -> Result<&'a [u8], u8> {
        if size == 0 {
            return Ok(&[]);
        }
        let start = u128::from(address);
        let end = start + u128::from(size);
        for span in self.spans {
            let held = span.addresses();
            if held.start <= start && end <= held.end {
                let place = |address| (address - held.start) as usize;
                return Ok(&span.bytes[place(start)..place(end)]);
            }
        }
        Err(NOT_READABLE)
    }

    /// The span that holds the address.
    fn holder(&self, address: u64) -> Option<&'a Span> {
        let address = u128::from(address);
        self.spans.iter().find(|span| span.byte(address).is_some())
    }

    /// How many bytes there are from the address to its span's end; 0 if no
    /// span holds it.
    pub fn left(&self, address: u64) -> u64 {
        match self.holder(address) {
            Some(span) => (span.addresses().end - u128::from(address)) as u64,
            None => 0,
        }
    }

    /// The first zero byte among the first `size` bytes from the address, "all
    /// in the span that holds ADDR" (tracenz).
    pub fn search(&self, address: u64, size: u64) -> Search {
        let span = self.holder(address);
        let mut looked = 0;
        loop {
            if looked == size {
                return Search::Size(looked);
            }
            let here = u128::from(address) + u128::from(looked);
            match span.and_then(|span| span.byte(here)) {
                None => return Search::End(looked),
                Some(0) => return Search::Zero(looked + 1),
                Some(_) => looked += 1,
            }
        }
    }
}

#[cfg(test)]
mod tests {
    use super::*;
    use crate::generate;
    use crate::leaf::Case;
    use crate::random::Random;
    use std::collections::BTreeMap;

    fn span(first: u64, bytes: &[u8]) -> Span {
        Span {
            first,
            bytes: bytes.to_vec(),
        }
    }

    /// "Working memory at 4096 holds `41 00 42`".
    #[test]
    fn the_documents_examples() {
        let spans = [span(0, &[]), span(4096, &[0x41, 0x00, 0x42])];
        let memory = Memory::new(&spans).expect("these spans are sound");
        assert_eq!(memory.fetch(4096, 2), Ok(&[0x41, 0x00][..]));
        assert_eq!(memory.fetch(4096, 4), Err(19));
        assert_eq!(memory.left(4096), 3);
        // `23 10 00 22 03 2f 27` records `41 00`.
        assert_eq!(memory.search(4096, 3), Search::Zero(2));
        assert_eq!(memory.fetch(4096, 2), Ok(&[0x41, 0x00][..]));
        assert_eq!(memory.search(4096, 1), Search::Size(1));
        assert_eq!(memory.search(4098, 1), Search::Size(1));
        assert_eq!(memory.search(4098, 2), Search::End(1));
        assert_eq!(memory.search(4099, 2), Search::End(0));
        assert_eq!(memory.search(4099, 0), Search::Size(0));
    }

    /// Reading A-11.
    #[test]
    fn refusals_of_spans() {
        let top = u64::MAX;
        for (one, other, refused) in [
            (span(top, &[1]), span(0, &[1]), None),
            (span(top, &[1, 2]), span(0, &[1]), Some(12)),
            (span(0, &[1]), span(top, &[1, 2]), Some(12)),
            (span(top, &[1, 2]), span(top, &[1]), Some(12)),
            (span(top, &[1]), span(top, &[1]), Some(13)),
            (span(9, &[1, 2, 3]), span(10, &[]), None),
            (span(9, &[1, 2, 3]), span(12, &[1]), None),
            (span(9, &[1, 2, 3]), span(11, &[1]), Some(13)),
        ] {
            assert_eq!(Memory::new(&[one, other]).err(), refused);
        }
    }

    /// For each span the bytes at its addresses.
    struct Model {
        bytes: [BTreeMap<u128, u8>; 2],
    }

    impl Model {
        fn new(spans: &[Span; 2]) -> Model {
            let mut bytes = [BTreeMap::new(), BTreeMap::new()];
            for (span, bytes) in spans.iter().zip(&mut bytes) {
                let addresses = u128::from(span.first)..;
                bytes.extend(addresses.zip(span.bytes.iter().copied()));
            }
            Model { bytes }
        }

        fn refusal(&self) -> Option<u8> {
            let [one, other] = &self.bytes;
            let mut all = one.keys().chain(other.keys());
            if all.any(|address| *address > u128::from(u64::MAX)) {
                Some(12)
            } else if one.keys().any(|address| other.contains_key(address)) {
                Some(13)
            } else {
                None
            }
        }

        fn fetch(&self, address: u64, size: u64) -> Result<Vec<u8>, u8> {
            if let Some(number) = self.refusal() {
                return Err(number);
            }
            let range = u128::from(address)..u128::from(address) + u128::from(size);
            let found = self.bytes.iter().find_map(|bytes| {
                let each = range.clone().map(|address| bytes.get(&address).copied());
                each.collect()
            });
            found.ok_or(19)
        }

        fn rest(&self, address: u64) -> Result<Vec<u8>, u8> {
            let mut rest = self.fetch(address, 0)?;
            for size in 1.. {
                match self.fetch(address, size) {
                    Ok(longer) => rest = longer,
                    Err(_) => break,
                }
            }
            Ok(rest)
        }
    }

    fn compare(spans: &[Span; 2], address: u64, size: u64) -> Result<usize, u8> {
        let model = Model::new(spans);
        let memory = Memory::new(spans);
        assert_eq!(memory.as_ref().err().copied(), model.refusal());
        let fetched = memory.as_ref().map_err(|number| *number);
        let fetched = fetched.and_then(|memory| memory.fetch(address, size));
        assert_eq!(
            fetched.map(<[u8]>::to_vec),
            model.fetch(address, size),
            "{spans:?} {address:x} {size:x}"
        );
        if let Ok(memory) = &memory {
            let left = memory.left(address);
            let rest = memory.fetch(address, left).map(<[u8]>::to_vec);
            assert_eq!(rest, model.rest(address), "{spans:?} {address:x}");
        }
        fetched.map(<[u8]>::len)
    }

    #[test]
    fn fetch_agrees_with_a_map_from_address_to_byte() {
        let mut random = Random::new(5);
        let mut outcomes = BTreeMap::new();
        for _ in 0..100_000 {
            let base = random.choose(&[0, 4096, (1 << 63) - 8, 0_u64.wrapping_sub(14)]);
            let spans = [(); 2].map(|()| {
                let first = base.wrapping_add(random.below(14) as u64);
                let count = random.below(8);
                span(first, &random.bytes(count))
            });
            let address = base.wrapping_add(random.below(20) as u64);
            let short = random.below(9) as u64;
            let size = random.choose(&[short, short, short, 1 << 63, short.wrapping_neg()]);
            let outcome = compare(&spans, address, size);
            *outcomes.entry(outcome).or_insert(0) += 1;
        }
        for outcome in [Err(12), Err(13), Err(19), Ok(0), Ok(1), Ok(2), Ok(3), Ok(4)] {
            assert!(outcomes[&outcome] > 300, "{outcomes:?}");
        }
    }

    #[test]
    fn the_map_agrees_on_the_vectors() {
        for case in generate::leaf_cases() {
            match case {
                Case::Fetch {
                    spans,
                    address,
                    size,
                } => drop(compare(&spans, address, size)),
                Case::Rest { spans, address } => drop(compare(&spans, address, 1)),
                _ => (),
            }
        }
    }

    #[test]
    fn search_agrees_with_the_place_of_the_first_zero() {
        let mut random = Random::new(6);
        for _ in 0..20_000 {
            let count = random.between(1, 12);
            let bytes = random.bytes(count);
            let bytes: Vec<u8> = bytes.iter().map(|byte| byte % 8).collect();
            let address = random.choose(&[0, 4096, 0_u64.wrapping_sub(count as u64)]);
            let size = random.below(14);
            let within = &bytes[..size.min(count)];
            let expected = match within.iter().position(|byte| *byte == 0) {
                Some(place) => Search::Zero(place as u64 + 1),
                None if size <= count => Search::Size(size as u64),
                None => Search::End(count as u64),
            };
            // The address after the last is 2^64 or the other span's.
            let after = address.wrapping_add(count as u64);
            let spans = [span(address, &bytes), span(after, &[0])];
            let memory = Memory::new(&spans).expect("touching spans are sound");
            assert_eq!(memory.search(address, size as u64), expected);
        }
    }
}
