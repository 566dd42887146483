//! One call on open areas, with dirty memory lent that is looked at afterwards.

use crate::area_library::{self, PRESENT};
use crate::areas::Order;
use crate::{fail, hex};

/// What the memory holds before a call; it is no number of an area, since areas lie below a last pair.
const DIRT: u8 = 255;
const BEFORE: usize = 4;
const MEMORY: usize = 1024;

/// The seed number, the order, and how many bytes of output are lent.
pub type Call = (usize, Order, usize);

/// What a call answers and leaves in the memory.
pub type Left = (i64, [u8; MEMORY]);

/// Lends so many bytes amid dirty memory.
pub fn written(room: usize, list: impl FnOnce(&mut [u8]) -> i64) -> Left {
    let mut memory = [DIRT; MEMORY];
    let answer = list(&mut memory[BEFORE..BEFORE + room]);
    (answer, memory)
}

pub fn hold_library(input: &[u8], call: Call, expected: &Left) {
    if !PRESENT {
        return;
    }
    let (number, order, room) = call;
    let found = written(room, |out| area_library::list(input, number, order, out));
    if found != *expected {
        differ("the library", input, call, expected, &found);
    }
}

pub fn differ(who: &str, input: &[u8], call: Call, expected: &Left, found: &Left) -> ! {
    let (number, order, room) = call;
    println!(
        "expected: {}, memory, hex: {}",
        expected.0,
        hex(&expected.1)
    );
    println!("found: {}, memory, hex: {}", found.0, hex(&found.1));
    let what =
        format!("a difference in the areas of seed {number}, {order:?}, {room} bytes: {who}");
    fail(&what, input)
}
