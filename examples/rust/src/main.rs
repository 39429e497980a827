//! A unit's firmware in small: the program of examples/c, from Rust. Both print the same.
use lilivrez::{
    Completed, Frame, Record, Records, Refusal, Span, Stopped, Target, TraceBuffer, Value, Walker,
};

const TRACEPOINT: u16 = 7;

fn hex(bytes: &[u8]) -> String {
    bytes.iter().map(|b| format!(" {b:02x}")).collect()
}

/// The console's part.
fn verify(what: &str, expression: &[u8]) {
    println!("verify {what}");
    match lilivrez::verify(expression) {
        Ok(a) => println!(
            "  accepted: {} instructions, greatest height {}, longest walk {}",
            a.instructions, a.greatest_height, a.longest_walk
        ),
        Err(r) => println!("  {r}"),
    }
}

fn print_outcome(outcome: Result<Completed, Stopped>) {
    match outcome {
        Ok(c) => {
            let value = match c.value {
                Value::Nothing => String::new(),
                Value::Top(top) => format!(", top {top}"),
                Value::TopAndBeneath(top, beneath) => format!(", top {top}, beneath {beneath}"),
            };
            println!("  completed, steps {}{value}", c.steps);
        }
        Err(s) => println!(
            "  refused {} at offset {}, steps {}: {}",
            s.refusal.number(),
            s.offset,
            s.steps,
            s.refusal
        ),
    }
}

fn print_record(record: Record) {
    match record {
        Record::Memory { address, bytes } => println!("  memory at {address}:{}", hex(bytes)),
        Record::Variable { number, value } => println!("  variable {number}: {value}"),
    }
}

/// What the unit lends to its trace agent.
struct Unit<'a> {
    target: Target<'a>,
    variables: [u64; 64],
    buffer: TraceBuffer<'a>,
}

impl Unit<'_> {
    /// A run appends its frame to the trace buffer.
    fn run(&mut self, what: &str, expression: &[u8]) {
        println!("run {what}");
        let before = self.buffer.used;
        print_outcome(lilivrez::run(
            expression,
            &self.target,
            &mut self.variables,
            &mut self.buffer,
            TRACEPOINT,
            lilivrez::ALLOWANCE,
        ));
        let after = self.buffer.used;
        if after > before {
            println!("  frame:{}", hex(&self.buffer.bytes[before..after]));
        }
    }

    /// A condition leaves no frame, and is evaluated on a full trace buffer too.
    fn evaluate(&mut self, what: &str, condition: &[u8]) {
        println!("evaluate {what}");
        print_outcome(lilivrez::evaluate(
            condition,
            &self.target,
            &mut self.variables,
        ));
    }

    /// The records of a frame, each looked at once. The walk over them ends with a refusal: 25 where no record is broken.
    fn print_records(&self, frame: Frame) {
        let mut records = Records::of(self.buffer.bytes, frame);
        let mut count = 0;
        let end = loop {
            match records.step() {
                Ok(record) => print_record(record),
                Err(r) => break r,
            }
            count += 1;
        };
        if end.refusal != Refusal::NoSuchRecord {
            println!("  {end}");
        }
        println!("  records {count}");
    }

    /// One record by its number.
    fn read(&self, frame: u64, index: u64) {
        println!("read record {index} of frame {frame}");
        match lilivrez::read(self.buffer.bytes, self.buffer.used, frame, index) {
            Ok(read) => print_record(read.record),
            Err(r) => println!("  {r}"),
        }
    }

    /// From the newest frame to the oldest. The walk ends with a refusal: 24 where no frame is broken.
    fn print_frames(&self) {
        let mut walker = Walker {
            buffer: self.buffer.bytes,
            place: self.buffer.used,
        };
        let mut frame = 0;
        let end = loop {
            match walker.step() {
                Ok(f) => {
                    println!(
                        "frame {frame}: tracepoint {}, start {}, length of the records {}",
                        f.tracepoint, f.start, f.length
                    );
                    self.print_records(f);
                }
                Err(r) => break r,
            }
            frame += 1;
        };
        println!("walk on from {}", walker.place);
        println!("  {end}");
    }

    fn fetch(&self, name: &str, address: u64, size: u64) {
        println!("fetch {size} bytes at {address}");
        match lilivrez::fetch(self.target.image, self.target.work, address, size) {
            Ok(bytes) => println!("  {name}:{}", hex(bytes)),
            Err(refusal) => println!("  refused {}: {refusal}", refusal.number()),
        }
    }
}

// const16 4096, trace_quick 2, end; and the same for 4 bytes, of which the working memory has 3
const TWO_BYTES: [u8; 6] = [0x23, 0x10, 0x00, 0x0d, 0x02, 0x27];
const FOUR_BYTES: [u8; 6] = [0x23, 0x10, 0x00, 0x0d, 0x04, 0x27];
// getv 3, const8 1, add, setv 3, tracev 3, end
const COUNT: [u8; 13] = [
    0x2c, 0x00, 0x03, 0x22, 0x01, 0x02, 0x2d, 0x00, 0x03, 0x2e, 0x00, 0x03, 0x27,
];
// reg 1, ref32, end
const FROM_REGISTER: [u8; 5] = [0x26, 0x00, 0x01, 0x19, 0x27];
// const8 9, pick 1, end: one cell, and pick 1 needs two
const TOO_FEW: [u8; 5] = [0x22, 0x09, 0x32, 0x01, 0x27];

fn main() {
    verify("two bytes of working memory", &TWO_BYTES);
    verify("a pick below the stack", &TOO_FEW);

    let mut unit = Unit {
        target: Target {
            registers: &[4096, 32768],
            image: Span {
                first: 32768,
                bytes: &[0x7f, 0x45, 0x4c, 0x46, 0x02, 0x01],
            },
            work: Span {
                first: 4096,
                bytes: &[0x41, 0x00, 0x42],
            },
        },
        variables: [0; 64],
        buffer: TraceBuffer {
            bytes: &mut [0; 50],
            used: 0,
        },
    };
    unit.run("two bytes of working memory", &TWO_BYTES);
    unit.run("four bytes of working memory", &FOUR_BYTES);
    unit.run("count in variable 3", &COUNT);
    unit.run("the word that register 1 points to", &FROM_REGISTER);
    println!(
        "variable 3 is {}, {} bytes of the trace buffer are used",
        unit.variables[3], unit.buffer.used
    );
    unit.run("the same on the full buffer", &FROM_REGISTER);
    unit.evaluate("the same as a condition", &FROM_REGISTER);

    unit.print_frames();
    unit.read(1, 1);

    unit.fetch("program image", 32769, 3);
    unit.fetch("working memory", 4098, 2);
}
