//! The judge behind registers (document 02, CR 10), as a machine of plain fields. It folds
//! nothing: at a start it asks the verifier for the outcome, reckons from it how many
//! shift and final coins are treated, and a tick counts one of them.

use crate::sheet::{Edition, Sheet};
use crate::stream::read_word;
use crate::verify::{verify, Outcome};
use crate::Fault;

/// The length of the lent buffer.
pub const BUFFER_BYTES: usize = 65_536;

/// The registers, by number.
pub const COMMAND: u8 = 0;
pub const STATUS: u8 = 1;
pub const ENABLE: u8 = 2;
pub const FLAG: u8 = 3;
pub const NUMBER: u8 = 4;
pub const PLACE: u8 = 5;
pub const DATA: u8 = 9;

/// The commands.
pub const START: u8 = 1;
pub const CLEAR: u8 = 2;

/// What stands between two calls; the buffer is lent to each.
#[derive(Debug, Clone, PartialEq, Eq, Default)]
pub struct Device {
    enable: bool,
    flag: bool,
    /// Bytes taken since the last clear, or since fresh.
    taken: usize,
    run: Run,
    /// Coins treated in the last run.
    treated: usize,
}

#[derive(Debug, Clone, Copy, PartialEq, Eq, Default)]
enum Run {
    #[default]
    None,
    /// The outcome comes with coin number `last`.
    Busy {
        last: usize,
        outcome: Outcome,
    },
    Done(Outcome),
}

impl Device {
    /// A byte written to a register. An error leaves device and buffer as they are.
    pub fn write(&mut self, register: u8, value: u8, buffer: &mut [u8]) -> Result<(), Fault> {
        let data = register == DATA;
        let start = (register, value) == (COMMAND, START);
        if buffer.len() != BUFFER_BYTES {
            return Err(Fault::new(16, 2));
        }
        if self.is_busy() && (data || start) {
            return Err(Fault::new(16, 0));
        }
        if data && self.taken == BUFFER_BYTES {
            return Err(Fault::new(16, 1));
        }

        match (register, value) {
            (COMMAND, START) => self.start(&buffer[..self.taken]),
            (COMMAND, CLEAR) => {
                *self = Device {
                    enable: self.enable,
                    ..Device::default()
                }
            }
            (ENABLE, _) => self.enable = value & 1 == 1,
            (FLAG, _) if value & 1 == 1 => self.flag = false,
            (DATA, _) => {
                buffer[self.taken] = value;
                self.taken += 1;
            }
            _ => {}
        }
        Ok(())
    }

    /// A start drops done; a refusal before the first coin is done at once.
    fn start(&mut self, file: &[u8]) {
        let outcome = verify(file).outcome;
        self.treated = 0;
        self.run = Run::Busy {
            last: coins_treated(file, outcome),
            outcome,
        };
        self.end_with_the_last();
    }

    /// One coin more, where it runs.
    pub fn tick(&mut self, buffer: &[u8]) -> Result<(), Fault> {
        if buffer.len() != BUFFER_BYTES {
            return Err(Fault::new(16, 2));
        }
        if self.is_busy() {
            self.treated += 1;
            self.end_with_the_last();
        }
        Ok(())
    }

    /// Done comes with the last coin, and sets the flag.
    fn end_with_the_last(&mut self) {
        if let Run::Busy { last, outcome } = self.run {
            if self.treated == last {
                self.run = Run::Done(outcome);
                self.flag = true;
            }
        }
    }

    pub fn read(&self, register: u8) -> u8 {
        let fault = match self.run {
            Run::Done(Outcome::Refused { number, place }) => Fault { number, place },
            _ => Fault::new(0, 0),
        };
        match register {
            STATUS => u8::from(self.is_busy()) + 2 * u8::from(matches!(self.run, Run::Done(_))),
            ENABLE => u8::from(self.enable),
            FLAG => u8::from(self.flag),
            NUMBER => fault.number as u8,
            PLACE..=8 => fault.place.to_le_bytes()[usize::from(register - PLACE)],
            _ => 0,
        }
    }

    /// Is the interrupt line up?
    pub fn line(&self) -> bool {
        self.flag && self.enable
    }

    pub fn is_busy(&self) -> bool {
        matches!(self.run, Run::Busy { .. })
    }

    /// The done outcome.
    pub fn outcome(&self) -> Option<Outcome> {
        match self.run {
            Run::Done(outcome) => Some(outcome),
            _ => None,
        }
    }

    pub fn taken(&self) -> usize {
        self.taken
    }

    pub fn treated(&self) -> usize {
        self.treated
    }
}

/// How many shift and final coins are treated up to an outcome of a file: all of them
/// where it is accepted; up to the failing final coin; all shift coins up to the round
/// whose answers clash; none where it is refused before.
pub fn coins_treated(file: &[u8], outcome: Outcome) -> usize {
    if let Outcome::Refused {
        number: 1..=7 | 14, ..
    } = outcome
    {
        return 0;
    }
    let words: Vec<u32> = (0..Edition::One.sheet_words())
        .map(|word| read_word(file, word))
        .collect();
    let sheet = Sheet::read(&words).expect("the sheet of a file that passed reading");
    // Round i has t_(i-1) shift coins, and at last there are t_M final ones.
    let up_to_round = |i: usize| sheet.t[..i].iter().sum::<usize>();
    match outcome {
        Outcome::Refused { number: 8, place } => up_to_round(place as usize),
        Outcome::Refused { place, .. } => up_to_round(sheet.rounds) + place as usize + 1,
        Outcome::Accepted => up_to_round(sheet.rounds + 1),
    }
}
