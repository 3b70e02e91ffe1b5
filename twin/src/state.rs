//! The events and the five refusals.

use crate::answer::{Answer, ANSWER_LIMIT};
use crate::error::Error;
use crate::line::{Line, LINE_LIMIT};
use crate::setups::{Store, STORE_LENGTH};
use crate::status::{SetName, FIFTEEN_BITS};
use crate::text::{find, NEWLINE};
use crate::unit::Instrument;

/// The box's whole record.
#[derive(Clone, Debug, PartialEq, Eq)]
pub struct State {
    pub instrument: Instrument,
    pub line: Line,
}

/// Why an event was refused.
#[derive(Clone, Copy, Debug, PartialEq, Eq)]
pub enum Refusal {
    /// An answer waits and the buffer is shorter than it.
    BufferTooShort { needed: usize },
    /// No answer waits.
    NoAnswerWaits,
    /// The condition is above 32,767.
    ConditionTooLarge,
    /// The state couldn't be the box's.
    NotTheBoxs,
    /// The lent store has the wrong length (02, #108).
    WrongStore,
}

impl Refusal {
    /// The number that 01 or 02 gives it.
    pub fn number(self) -> u8 {
        match self {
            Refusal::BufferTooShort { .. } => 1,
            Refusal::NoAnswerWaits => 2,
            Refusal::ConditionTooLarge => 3,
            Refusal::NotTheBoxs => 4,
            Refusal::WrongStore => 5,
        }
    }
}

impl State {
    pub fn power_up() -> State {
        State {
            instrument: Instrument::power_up(),
            line: Line::empty(),
        }
    }

    /// Takes all bytes and gives the number of newlines among them.
    pub fn piece(&mut self, store: &mut [u8], bytes: &[u8]) -> Result<usize, Refusal> {
        let store: &mut Store = store.try_into().map_err(|_| Refusal::WrongStore)?;
        self.must_be_the_boxs()?;
        let mut newlines = 0;
        let mut rest = bytes;
        while let Some(end) = find(NEWLINE, rest) {
            self.end_line(&rest[..end], store);
            newlines += 1;
            rest = &rest[end + 1..];
        }
        self.line.store(rest);
        Ok(newlines)
    }

    /// Copies the waiting answer to the start of the buffer and gives its length.
    pub fn take(&mut self, store: &[u8], buffer: &mut [u8]) -> Result<usize, Refusal> {
        must_be_a_store(store)?;
        self.must_be_the_boxs()?;
        let Instrument { answer, status, .. } = &mut self.instrument;
        let needed = answer.length;
        if needed == 0 {
            status.raise(Error::QueryUnterminated);
            return Err(Refusal::NoAnswerWaits);
        }
        match buffer.get_mut(..needed) {
            None => Err(Refusal::BufferTooShort { needed }),
            Some(place) => {
                place.copy_from_slice(answer.waiting());
                answer.drop_bytes();
                Ok(needed)
            }
        }
    }

    /// Reports the condition register of one set.
    pub fn condition(&mut self, store: &[u8], name: SetName, value: u16) -> Result<(), Refusal> {
        must_be_a_store(store)?;
        self.must_be_the_boxs()?;
        if value > FIFTEEN_BITS {
            return Err(Refusal::ConditionTooLarge);
        }
        self.instrument.status.report_condition(name, value);
        Ok(())
    }

    /// The status byte.
    pub fn look(&self, store: &[u8]) -> Result<u8, Refusal> {
        must_be_a_store(store)?;
        self.must_be_the_boxs()?;
        let Instrument { answer, status, .. } = &self.instrument;
        Ok(status.status_byte(answer.has_bytes()) as u8)
    }

    /// 01, refusal 4, which is tested before all else but number 5.
    fn must_be_the_boxs(&self) -> Result<(), Refusal> {
        let Instrument {
            settings,
            status,
            answer: Answer { length: answer, .. },
        } = &self.instrument;
        if self.line.length <= LINE_LIMIT
            && *answer <= ANSWER_LIMIT
            && settings.keep_their_limits()
            && status.could_be_the_boxs()
        {
            Ok(())
        } else {
            Err(Refusal::NotTheBoxs)
        }
    }

    /// A newline, after these last bytes of the line.
    fn end_line(&mut self, last: &[u8], store: &mut Store) {
        self.discard_waiting_answer();
        if self.line.is_whole(last) {
            // It is read where it lies: what would stand in the record means nothing afterwards.
            return self.instrument.run_line(last, store);
        }
        self.line.store(last);
        if self.line.overlong {
            self.instrument.status.raise(Error::InputBufferOverrun);
        } else {
            self.instrument.run_line(self.line.stored(), store);
        }
        self.line.start();
    }

    fn discard_waiting_answer(&mut self) {
        let Instrument { answer, status, .. } = &mut self.instrument;
        if answer.has_bytes() {
            answer.drop_bytes();
            status.raise(Error::QueryInterrupted);
        }
    }
}

/// 02, #108: refusal 5, which is tested before all else.
fn must_be_a_store(store: &[u8]) -> Result<(), Refusal> {
    if store.len() == STORE_LENGTH {
        Ok(())
    } else {
        Err(Refusal::WrongStore)
    }
}
