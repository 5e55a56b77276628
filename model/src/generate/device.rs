//! Lists of writes and ticks for the device: files taken byte by byte, started and ticked
//! to the end or not, with all that can come in between.

use super::repeats::fail_late;
use super::{coefficients, coins, damage, honest_file, sheet_up_to, Rng};
use crate::device::{coins_treated, BUFFER_BYTES, CLEAR, COMMAND, DATA, ENABLE, FLAG, START};
use crate::sheet::Edition;
use crate::verify::verify;

/// What is done to a device, with a buffer of its length or of another.
#[derive(Debug, Clone, Copy, PartialEq, Eq)]
pub enum Event {
    Write {
        register: u8,
        value: u8,
    },
    Tick,
    WriteWith {
        length: usize,
        register: u8,
        value: u8,
    },
    TickWith {
        length: usize,
    },
}

const OTHER_LENGTHS: [usize; 4] = [0, 512, BUFFER_BYTES - 1, BUFFER_BYTES + 1];

/// A file of edition 1: honest, damaged, or with an 8 or a 9 late.
pub fn file(rng: &mut Rng, most_n0: u32) -> Vec<u8> {
    let sheet = sheet_up_to(Edition::One, rng, most_n0);
    let coefficients = coefficients(rng, &sheet);
    let hostile = rng.one_in(2);
    let coins = coins(rng, &sheet, hostile);
    let mut file = honest_file(&sheet, &coefficients, &coins);
    match rng.below(4) {
        0 => {
            damage(Edition::One, rng, &mut file);
        }
        1 => fail_late(rng, &sheet, &mut file),
        _ => {}
    }
    file
}

/// Some runs, one after the other.
pub fn events(rng: &mut Rng, most_n0: u32) -> Vec<Event> {
    let mut events = Vec::new();
    for _ in 0..1 + rng.place(3) {
        if !rng.one_in(8) {
            events.push(command(CLEAR));
        }
        let file = file(rng, most_n0);
        take(rng, &file, &mut events);
        events.push(command(START));
        tick(rng, &file, &mut events);
        if rng.one_in(4) {
            // The same bytes again, or one more.
            if rng.one_in(2) {
                events.push(data(0));
            }
            events.push(command(START));
            tick(rng, &file, &mut events);
        }
    }
    events
}

/// The bytes of a file, now and then without the last, and with others in between.
fn take(rng: &mut Rng, file: &[u8], events: &mut Vec<Event>) {
    let count = file.len() - usize::from(!file.is_empty() && rng.one_in(16));
    let disturbed = rng.one_in(4);
    for &byte in &file[..count] {
        events.push(data(byte));
        if disturbed && rng.one_in(256) {
            events.push(any(rng));
        }
    }
}

/// As many ticks as the file has coins, or about as many, or any number up to that.
fn tick(rng: &mut Rng, file: &[u8], events: &mut Vec<Event>) {
    let due = coins_treated(file, verify(file).outcome);
    let count = match rng.below(4) {
        0 => rng.place(due + 1),
        _ => due + rng.place(3),
    };
    let disturbed = rng.one_in(2);
    for _ in 0..count {
        if disturbed && rng.one_in(3) {
            events.push(any(rng));
        }
        events.push(Event::Tick);
    }
    events.push(any(rng));
}

fn command(value: u8) -> Event {
    Event::Write {
        register: COMMAND,
        value,
    }
}

fn data(value: u8) -> Event {
    Event::Write {
        register: DATA,
        value,
    }
}

/// A write of any byte to any register, the ones that do something more often than
/// others; a tick; or one of them with a buffer of another length.
pub fn any(rng: &mut Rng) -> Event {
    let register = match rng.below(8) {
        0 | 1 => COMMAND,
        2 | 3 => ENABLE,
        4 => FLAG,
        5 => DATA,
        _ => rng.bits() as u8,
    };
    let value = match register {
        COMMAND => rng.pick(&[0, START, START, START, CLEAR, 3, 129, 255]),
        _ => rng.bits() as u8,
    };
    match rng.below(8) {
        0 => Event::WriteWith {
            length: rng.pick(&OTHER_LENGTHS),
            register,
            value,
        },
        1 => Event::TickWith {
            length: rng.pick(&OTHER_LENGTHS),
        },
        2 => Event::Tick,
        _ => Event::Write { register, value },
    }
}
