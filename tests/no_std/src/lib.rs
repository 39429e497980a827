//! A unit's firmware without std: were the bindings to need it, its panic handler would clash with this one.
#![no_std]
use core::fmt::Write;
use core::panic::PanicInfo;

use lilivrez::{Span, Target, Value};

#[panic_handler]
fn panicked(_: &PanicInfo) -> ! {
    loop {}
}

/// Counts what is written to it.
struct Counter(usize);

impl Write for Counter {
    fn write_str(&mut self, text: &str) -> core::fmt::Result {
        self.0 += text.len();
        Ok(())
    }
}

/// The value of the condition `register 0 = 42`; of an error the length of its words.
#[no_mangle]
pub extern "C" fn condition(register: u64, length: usize) -> u64 {
    let empty = Span {
        first: 0,
        bytes: &[],
    };
    let registers = [register];
    let target = Target {
        registers: &registers,
        image: empty,
        work: empty,
    };
    let expression = [0x26, 0x00, 0x00, 0x22, 42, 0x13, 0x27];
    let bytes = expression.get(..length).unwrap_or(&expression);
    match lilivrez::evaluate(bytes, &target, &mut [0; 64]) {
        Ok(completed) => match completed.value {
            Value::Top(top) => top,
            _ => u64::MAX,
        },
        Err(stopped) => {
            let error: &dyn core::error::Error = &stopped;
            let mut counter = Counter(0);
            let _ = write!(counter, "{error}");
            counter.0 as u64
        }
    }
}
