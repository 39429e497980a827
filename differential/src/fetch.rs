//! lilivrez_fetch. A case's line is `F1 BYTES1 F2 BYTES2 ADDRESS SIZE`.

use crate::compare::{Answer, Case, Entry, UNSTORED};
use crate::fields;
use crate::shrink::{self, each};
use evaluator::generate;
use evaluator::memory::{Memory, Span};
use evaluator::random::Random;
use lilivrez::library;

#[derive(Clone, PartialEq)]
pub struct Fetch {
    spans: [Span; 2],
    address: u64,
    size: u64,
}

/// The numbers of the spans in an answer; 0 is neither.
const IMAGE: u64 = 1;
const WORK: u64 = 2;

impl Fetch {
    /// The span that holds the bytes, and their index in it.
    fn located(&self) -> Result<[u64; 2], u8> {
        let bytes = Memory::new(&self.spans)?.fetch(self.address, self.size)?;
        if bytes.is_empty() {
            return Ok([0, 0]);
        }
        let within = |span: &Span| span.bytes.as_ptr_range().contains(&bytes.as_ptr());
        let number = if within(&self.spans[0]) { IMAGE } else { WORK };
        let first = self.spans[number as usize - 1].first;
        Ok([number, self.address - first])
    }

    /// The range at another address, and the spans with it.
    fn move_to(&mut self, address: u64) {
        let down = self.address - address;
        self.address = address;
        for span in &mut self.spans {
            span.first = span.first.saturating_sub(down);
        }
    }
}

impl Case for Fetch {
    const KIND: &'static str = "fetch";
    const ENTRIES: &'static [Entry] = &[Entry {
        name: "fetch",
        places: &["span", "index"],
        refusals: &[12, 13, 19],
        sort: |out| match out[0] {
            IMAGE => "in the image",
            WORK => "in the working memory",
            _ => "no bytes",
        },
    }];
    type Maker = ();

    fn any(_: &mut (), random: &mut Random, _: usize) -> Fetch {
        let (spans, address, size) = generate::any_fetch(random);
        Fetch {
            spans,
            address,
            size,
        }
    }

    fn line(&self) -> String {
        let spans = self.spans.each_ref();
        let spans = fields::spans(spans.map(|span| (span.first, &span.bytes[..])));
        format!("{spans} {:x} {:x}", self.address, self.size)
    }

    fn read(line: &str) -> Result<Fetch, String> {
        let [first1, bytes1, first2, bytes2, address, size] = fields::divided(line)?;
        let span = |first, bytes| {
            Ok::<Span, String>(Span {
                first: fields::number(first)?,
                bytes: fields::bytes(bytes)?,
            })
        };
        Ok(Fetch {
            spans: [span(first1, bytes1)?, span(first2, bytes2)?],
            address: fields::number(address)?,
            size: fields::number(size)?,
        })
    }

    fn expected(&self) -> Vec<Answer> {
        vec![match self.located() {
            Ok(out) => Answer::numbers(0, &out),
            Err(number) => Answer::numbers(number.into(), &[0, 0]),
        }]
    }

    fn found(&self) -> Vec<Answer> {
        let mut out = [UNSTORED; 2];
        let spans = self.spans.each_ref().map(|span| lilivrez::Span {
            first: span.first,
            bytes: &span.bytes,
        });
        let number = library::fetch(spans, self.address, self.size, &mut out);
        vec![Answer::numbers(number, &out)]
    }

    fn smaller(&self) -> impl Iterator<Item = Fetch> {
        let [image, work] = self.spans.each_ref();
        let numbers = shrink::numbers;
        each(self, shrink::bytes(&image.bytes), |case, bytes| {
            case.spans[0].bytes = bytes
        })
        .chain(each(self, shrink::bytes(&work.bytes), |case, bytes| {
            case.spans[1].bytes = bytes
        }))
        .chain(each(self, numbers(self.address), Fetch::move_to))
        .chain(each(self, numbers(image.first), |case, first| {
            case.spans[0].first = first
        }))
        .chain(each(self, numbers(work.first), |case, first| {
            case.spans[1].first = first
        }))
        .chain(each(self, numbers(self.address), |case, address| {
            case.address = address
        }))
        .chain(each(self, numbers(self.size), |case, size| {
            case.size = size
        }))
    }
}
