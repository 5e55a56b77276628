//! The judge behind registers (document 02, CR 10): each rule by itself, and that a done
//! outcome is the verifier's of the bytes taken up to its start, for lists of events.

mod common;

use common::*;
use std::collections::BTreeMap;
use tevrolig_model::device::{
    Device, BUFFER_BYTES, CLEAR, COMMAND, DATA, ENABLE, FLAG, NUMBER, PLACE, START, STATUS,
};
use tevrolig_model::generate::device::{events, Event};
use tevrolig_model::generate::Rng;
use tevrolig_model::verify::verify;
use tevrolig_model::{Fault, Outcome};

/// A device and its buffer.
struct Board {
    device: Device,
    buffer: Vec<u8>,
}

impl Board {
    fn new() -> Board {
        Board {
            device: Device::default(),
            buffer: vec![0; BUFFER_BYTES],
        }
    }

    fn write(&mut self, register: u8, value: u8) -> Result<(), Fault> {
        self.device.write(register, value, &mut self.buffer)
    }

    fn tick(&mut self) {
        assert_eq!(self.device.tick(&self.buffer), Ok(()));
    }

    fn take(&mut self, file: &[u8]) {
        for &byte in file {
            assert_eq!(self.write(DATA, byte), Ok(()));
        }
    }

    /// Takes a file and starts.
    fn started(file: &[u8]) -> Board {
        let mut board = Board::new();
        board.take(file);
        assert_eq!(board.write(COMMAND, START), Ok(()));
        board
    }

    fn registers(&self) -> Vec<u8> {
        (0..=255)
            .map(|register| self.device.read(register))
            .collect()
    }

    /// The first registers, up to the place.
    fn first(&self) -> [u8; 9] {
        self.registers()[..9].try_into().unwrap()
    }
}

const FULL: Result<(), Fault> = Err(Fault {
    number: 16,
    place: 1,
});
const BUSY: Result<(), Fault> = Err(Fault {
    number: 16,
    place: 0,
});
const OTHER_LENGTH: Result<(), Fault> = Err(Fault {
    number: 16,
    place: 2,
});

#[test]
fn the_file_by_hand() {
    let mut board = Board::started(&hand_file());
    // One shift coin, one final coin.
    assert_eq!(board.first(), [0, 1, 0, 0, 0, 0, 0, 0, 0]);
    board.tick();
    assert_eq!(board.first(), [0, 1, 0, 0, 0, 0, 0, 0, 0]);
    board.tick();
    assert_eq!(board.first(), [0, 2, 0, 1, 0, 0, 0, 0, 0]);
    assert!(board.registers()[9..].iter().all(|&byte| byte == 0));
    assert_eq!(board.device.outcome(), Some(Outcome::Accepted));
    assert!(!board.device.line());
    board.write(ENABLE, 255).unwrap();
    assert!(board.device.line());

    // A second start drops done and not the flag.
    board.write(COMMAND, START).unwrap();
    assert_eq!(board.first(), [0, 1, 1, 1, 0, 0, 0, 0, 0]);
    assert!(board.device.line());
    board.write(FLAG, 254).unwrap();
    assert!(board.device.line());
    board.write(FLAG, 3).unwrap();
    assert!(!board.device.line());
}

#[test]
fn refusals_show_with_their_coin() {
    let wrong = changed(&hand_file(), &[(FINAL, 15)]);
    let mut board = Board::started(&wrong);
    board.tick();
    assert_eq!(board.device.read(STATUS), 1);
    board.tick();
    assert_eq!(board.first(), [0, 2, 0, 1, 9, 0, 0, 0, 0]);

    // An out coin in its domain, at word 37: done at once.
    let inside = changed(&hand_file(), &[(OUT, 3)]);
    assert_eq!(
        Board::started(&inside).first(),
        [0, 2, 0, 1, 7, 37, 0, 0, 0]
    );
    // No bytes at all, and one byte more.
    assert_eq!(Board::started(&[]).first(), [0, 2, 0, 1, 1, 0, 0, 0, 0]);
    let mut longer = hand_file();
    longer.push(0);
    assert_eq!(Board::started(&longer).first(), [0, 2, 0, 1, 1, 0, 0, 0, 0]);
}

#[test]
fn what_is_refused_and_in_which_order() {
    let mut board = Board::started(&hand_file());
    let before = (board.device.clone(), board.buffer.clone());
    assert_eq!(board.write(DATA, 1), BUSY);
    assert_eq!(board.write(COMMAND, START), BUSY);
    let mut short = vec![0; BUFFER_BYTES - 1];
    assert_eq!(board.device.write(DATA, 1, &mut short), OTHER_LENGTH);
    assert_eq!(board.device.write(77, 1, &mut short), OTHER_LENGTH);
    assert_eq!(board.device.tick(&short), OTHER_LENGTH);
    assert_eq!((board.device.clone(), board.buffer.clone()), before);
    // Not refused while busy: other commands, enable and flag.
    assert_eq!(board.write(COMMAND, 3), Ok(()));
    assert_eq!(board.write(ENABLE, 0), Ok(()));
    assert_eq!(board.write(COMMAND, CLEAR), Ok(()));
    assert_eq!(board.device, Device::default());

    board.take(&vec![7; BUFFER_BYTES]);
    assert_eq!(board.write(DATA, 8), FULL);
    assert_eq!(board.device.write(DATA, 8, &mut short), OTHER_LENGTH);
    assert!(board.buffer.iter().all(|&byte| byte == 7));
    // Clear empties the buffer, and its old bytes stay.
    board.write(COMMAND, CLEAR).unwrap();
    board.write(DATA, 9).unwrap();
    assert_eq!(board.buffer[..2], [9, 7]);
}

#[test]
fn nothing_else_changes_anything() {
    let mut board = Board::started(&hand_file());
    board.tick();
    let before = board.device.clone();
    for register in (0..=255).filter(|&register| ![COMMAND, ENABLE, FLAG, DATA].contains(&register))
    {
        board.write(register, 255).unwrap();
    }
    for value in (0..=255).filter(|&value| ![START, CLEAR].contains(&value)) {
        board.write(COMMAND, value).unwrap();
    }
    assert_eq!(board.device, before);
    // Ticks while idle and while done.
    board.tick();
    let done = board.device.clone();
    board.tick();
    assert_eq!(board.device, done);
    let mut idle = Board::new();
    idle.tick();
    assert_eq!(idle.device, Device::default());
}

/// What has to be remembered of the events to say what is due, kept apart from the device.
#[derive(Default)]
struct Heard {
    bytes: Vec<u8>,
    started: Vec<u8>,
}

impl Heard {
    fn hear(&mut self, event: Event, answer: Result<(), Fault>) {
        let Event::Write { register, value } = event else {
            return;
        };
        match (register, value) {
            _ if answer.is_err() => {}
            (COMMAND, START) => self.started = self.bytes.clone(),
            (COMMAND, CLEAR) => self.bytes.clear(),
            (DATA, byte) => self.bytes.push(byte),
            _ => {}
        }
    }
}

#[test]
fn lists_of_events() {
    let mut met: BTreeMap<u32, usize> = BTreeMap::new();
    let mut refused: BTreeMap<u64, usize> = BTreeMap::new();
    for seed in 0..3_000 {
        let mut board = Board::new();
        let mut heard = Heard::default();
        for event in events(&mut Rng::new(seed), 32) {
            let (before, was_done) = (board.device.clone(), board.device.outcome().is_some());
            let answer = match event {
                Event::Write { register, value } => board.write(register, value),
                Event::Tick => board.device.tick(&board.buffer),
                Event::WriteWith {
                    length,
                    register,
                    value,
                } => board.device.write(register, value, &mut vec![0; length]),
                Event::TickWith { length } => board.device.tick(&vec![0; length]),
            };
            heard.hear(event, answer);
            if let Err(fault) = answer {
                assert_eq!((fault.number, &before), (16, &board.device), "seed {seed}");
                *refused.entry(fault.place).or_default() += 1;
            }
            assert_eq!(
                board.buffer[..board.device.taken()],
                heard.bytes,
                "seed {seed}"
            );
            let Some(outcome) = board.device.outcome() else {
                continue;
            };
            if was_done {
                continue;
            }
            assert_eq!(outcome, verify(&heard.started).outcome, "seed {seed}");
            assert_eq!(board.device.read(FLAG), 1);
            let number = match outcome {
                Outcome::Accepted => 0,
                Outcome::Refused { number, place } => {
                    let shown = (PLACE..=8).map(|register| board.device.read(register));
                    assert!(shown.eq((place as u32).to_le_bytes()), "seed {seed}");
                    number
                }
            };
            assert_eq!(u32::from(board.device.read(NUMBER)), number);
            *met.entry(number).or_default() += 1;
        }
    }
    assert!(OUTCOMES.iter().all(|number| met[number] > 5), "{met:?}");
    assert!(refused[&0] > 100 && refused[&2] > 100, "{refused:?}");
}
